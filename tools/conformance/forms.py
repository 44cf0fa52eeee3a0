"""What a row of functions.py is: its operands, its spellings, its faults."""
from collections.abc import Callable
from dataclasses import dataclass, field

# levels of the language, the loosest first
OR, AND, NOT, DISTINCT, IS, COMPARED, PREDICATE, JOINED, TILDE, SUM, PRODUCT, SIGN, ATOM, BARE = range(14)
# why a call faults
OVERFLOW, ZERO, NO_VALUE, NEGATIVE, FIELD, SHIFT = "overflow", "zero divisor", "no such value", "negative length", "field zero", "shift count"
NO_CHARACTER = "no such character"
WHOLE_IN_POSTGRESQL = ("i16", "i32", "i64")
SQL_NAMES = {"bool": ["boolean"], "i8": ["tinyint"], "i16": ["smallint", "int2"], "i32": ["int", "integer", "int4"], "i64": ["bigint", "int8"],
             "utf8": ["text", "varchar"]}


@dataclass(frozen=True)
class Spelling:
    """words: tokens, where %N is the next operand, of that level or tighter; %sign the same for a sign's; %* all that are left, with
    commas; %case conditions and values. same: whether PostgreSQL reads it alike, over the types that it has. least, most: for so many operands. is_coming:
    whether the program does not read it yet."""
    level: int
    words: str
    same: bool = False
    least: int = 0
    most: int = 99
    is_coming: bool = False


@dataclass(frozen=True)
class Form:
    """takes: the operands, by words (see Maker.operand): T any type, N an integer type, S a type to cast from, count, place, or a type's
    name; one with + comes once or more often, ? may be left out. gives: a type's name, or T or N. literals: whose type literals take (see
    spelling.literal_types). faults: the fault's name, by why. nulls: where the result is null's type (rules.is_nullable)."""
    kind: str
    takes: str
    gives: str
    spellings: tuple
    postgresql: Callable
    sqlite: Callable | None = None
    faults: dict = field(default_factory=dict)
    literals: str = "alike"
    is_strict: bool = True
    nulls: str = "any"
    weight: int = 2
    is_coming: bool = False
    # of a call that SQLite answers by null: why
    null_in_sqlite: str = ZERO

    def has_faults(self):
        return bool(self.faults)


def call(name, same=False, **more):
    return Spelling(ATOM, f"{name}( %* )", same, **more)


def calls(*names, same=False, **more):
    return tuple(call(name, same, **more) for name in names)


def applied(name):
    """A function of both engines, of that name."""
    return lambda node, *operands: f"{name}({', '.join(operands)})"


def typed(written):
    """With a cast to the node's type, which PostgreSQL has as a domain."""
    return lambda node, *operands: f"({written(node, *operands)}::{node.type})"


def infix(word):
    return lambda node, left, right: f"({left} {word} {right})"


def behind(word):
    return lambda node, operand: f"({operand} {word})"


def is_unsigned(name):
    return name[0] == "u"


def bits_of(name):
    return int(name[1:])
