"""How a tree is written: as people write expressions, as lines of a script, in PostgreSQL and in SQLite."""
import re

from functions import BARE, FORMS, POSTGRESQL_FUNCTIONS, SIGN, SQL_NAMES, WHOLE_IN_POSTGRESQL, is_form, spelling_of
from literals import is_unchanged, literal_forms
from tables import INTEGERS
from trees import ARITHMETIC, BETWEEN, COMPARISONS, FOLDED, LEVEL, LIKES, OPERANDS, TESTS

KEYWORDS = "and or not is null between like ilike escape true false cast as unknown distinct from in case when then else end".split()
ANY_CASE = {*KEYWORDS, "symmetric", "isnull", "notnull", "both", "leading", "trailing", "for", "regexp", "rlike", *(name for names in SQL_NAMES.values() for name in names)}


def quoted(text, quote):
    return quote + text.replace(quote, quote * 2) + quote


class Plain:
    """One way to write an expression: only needed brackets, one blank between two tokens."""

    def keyword(self, word):
        return word

    def is_grouped(self):
        return False

    def is_quoted(self):
        return False

    def unequal(self):
        return "<>"

    def has(self, spelling):
        """Whether another spelling is used: `gap` before a call's bracket, `==`, `isnull` and `notnull`."""
        return False

    def between(self, left, right):
        return " "


class Noisy(Plain):
    """A random way: brackets, cases, blanks, comments and quotes without meaning."""

    def __init__(self, rng, brackets):
        self.rng, self.brackets = rng, brackets

    def keyword(self, word):
        return "".join(self.rng.choice((letter, letter.upper())) for letter in word) if self.rng.random() < 0.3 else word

    def is_grouped(self):
        return self.brackets and self.rng.random() < 0.1

    def is_quoted(self):
        return self.rng.random() < 0.15

    def unequal(self):
        return self.rng.choice(("<>", "!="))

    def has(self, spelling):
        return self.rng.random() < 0.2

    def between(self, left, right):
        gaps = [" "] * 30 + ["  ", "\t", "\n", "\r\n", " -- or so\n", " --' and (\r", "\n--\n", " /* or */ ", " /* a /* 'b */ c) */ ", " /**/ "]
        gaps += ["/**/", "/*/**/*/"] if re.search(r"\w$", left) else []
        touching = [""] * 12 if may_touch(left, right) else []
        return self.rng.choice(gaps + touching)


def may_touch(left, right):
    """Whether two tokens stay two without anything between them, in PostgreSQL too."""
    word = r"[A-Za-z0-9_?]"
    if re.search(word + "$", left) and re.match(word, right):
        return False
    if left[-1] in "\"'" and right[0] in "\"'":
        return False
    if left.lower() == "for" and right == "(":
        # a call, of a function for
        return False
    # PostgreSQL takes a name before a quote for the beginning of a literal of another kind, and `!=-` for one operator
    if re.search(word + "$", left) and right[0] in "\"'":
        return len(left) > 2
    return not (right in ("-", "+", "~") and (left in ("-", "!=") or left[-1] in "%|&#~<>=+"))


def level_of(node, form):
    """The level of what is written for a node."""
    if is_form(node):
        return spelling_of(node).level
    return BARE if node.kind == "literal" and form == "bare" else LEVEL[node.kind]


class Text:
    """The tokens of a tree as people write it."""

    def __init__(self, style):
        self.style, self.tokens = style, []

    def text(self, tree):
        # PostgreSQL lower-cases a name without quotes
        self.are_names_small = is_unchanged(tree)
        self.tree(tree, literal_forms("", (tree,))[0] if tree.kind == "literal" else "", 0)
        return self.joined()

    def joined(self):
        joined = self.tokens[:1]
        for left, right in zip(self.tokens, self.tokens[1:]):
            joined += [self.style.between(left, right), right]
        return "".join(joined)

    def say(self, *tokens):
        self.tokens += [self.style.keyword(token) if token in ANY_CASE or token[:1].isalpha() and token[-1] == "(" else token for token in tokens]

    def tree(self, node, form, level):
        if node.kind in ("meet", "truth"):
            return self.tree(node.operands[0], "", level)
        grouped = level_of(node, form) < level or self.style.is_grouped()
        if grouped:
            self.say("(")
        self.spell(node, form)
        if grouped:
            self.say(")")

    def spell(self, node, form):
        if node.kind == "column":
            self.tokens.append(self.name(node.value))
        elif node.kind == "literal":
            self.literal(node, form)
        elif is_form(node):
            self.form(node)
        else:
            self.call(node)

    def form(self, node):
        """A call by a row of functions.py."""
        rest = list(zip(node.operands, self.forms(node)))
        for word in spelling_of(node).words.split():
            if word == "%*":
                self.listed(rest)
            elif word == "%case":
                self.cases(rest)
            elif word[0] == "%" and word != "%":
                operand, form = rest.pop(0)
                # a minus sign before digits is the literal's
                self.tree(operand, form, (SIGN if operand.kind != "literal" else BARE + 1) if word == "%sign" else int(word[1:]))
            elif word[0].isalpha() and word[-1] == "(" and self.style.has("gap"):
                self.say(word[:-1])
                self.tokens.append("(")
            else:
                self.say(word)

    def listed(self, rest):
        for place, (operand, form) in enumerate(rest):
            self.say(*[","] * (place > 0))
            self.tree(operand, form, 0)

    def cases(self, rest):
        for place, (operand, form) in enumerate(rest):
            is_last = place % 2 == 0 and place == len(rest) - 1
            self.say("else" if is_last else ("when", "then")[place % 2])
            self.tree(operand, form, 0)

    def name(self, name):
        is_word = re.fullmatch(r"[A-Za-z_][A-Za-z0-9_]*", name, re.ASCII) and name.lower() not in KEYWORDS
        is_bare = is_word and (name == name.lower() or not self.are_names_small) and not self.style.is_quoted()
        return name if is_bare else quoted(name, '"')

    def literal(self, node, form):
        if form == "quoted" or form == "typed" and node.type != "bool" and node.value is not None and self.style.has("type before a text"):
            self.say(*[node.type] * (form == "typed"))
            self.tokens.append(quoted(str(node.value), "'"))
            return
        if node.value is None:
            self.say("null")
        elif node.type == "bool":
            self.say("true" if node.value else "false")
        elif node.type == "utf8":
            self.tokens.append(quoted(node.value, "'"))
        elif node.value < 0:
            self.say("-", str(-node.value))
        else:
            self.say(str(node.value))
        if form != "bare":
            self.say("::", node.type + ("?" if form == "nullable" else ""))

    def operands(self, node):
        return list(zip(node.operands, self.forms(node), OPERANDS[node.kind]))

    def forms(self, node):
        """How each literal operand is written: some numbers next to expressions of numbers as texts."""
        forms = literal_forms(node.kind, node.operands)
        is_compared = node.kind in (*COMPARISONS, *BETWEEN, "in", "not in") and any(one.kind != "literal" and one.type in INTEGERS for one in node.operands)
        return ["quoted" if is_compared and form == "bare" and one.kind == "literal" and one.value is not None and self.style.has("number in quotes") else form
                for one, form in zip(node.operands, forms)]

    def call(self, node):
        first, *others = self.operands(node)
        if node.kind == "cast":
            self.say("cast", "(")
            self.tree(*first)
            return self.say("as", "bool?", ")")
        if node.kind == "not":
            self.say("not")
            return self.tree(*first)
        self.tree(*first)
        words = (self.style.unequal(),) if node.kind == "<>" else node.kind.split(" ")
        if node.kind in TESTS and self.style.has("isnull"):
            words = ("isnull" if node.kind == "is null" else "notnull",)
        elif node.kind == "=" and not self.are_names_small and self.style.has("=="):
            words = ("==",)
        self.say(*words)
        for place, other in enumerate(others):
            if place:
                self.say("and")
            self.tree(*other)
        if node.kind in LIKES and node.value is not None:
            self.say("escape")
            self.tokens.append(quoted(node.value, "'"))


# A text of a script has no quote and no end of a line. Other characters replace them, in columns
# and literals alike: no text here has \v or $, and the order of texts is the same.
STANDS_IN = str.maketrans('\n"#', "\v#$")
BACK = str.maketrans("\v#$", '\n"#')


def lines(tree, names):
    """The lines of a script that push a tree. `names` are the columns' names there."""
    said = []
    for node in tree.nodes():
        if node.kind == "column":
            said.append(f"get {names[node.value]}")
        elif node.kind == "literal":
            said.append(f"lit {node.type}{'?' if node.value is None or node.form == 'nullable' else ''} {cell(node.value)}")
        elif node.kind in BETWEEN:
            said += [f"call between {node.value or '<= <='}"] + ["call not"] * (node.kind == "not between")
        elif node.kind in LIKES:
            said.append(f"call {node.kind.replace(' ', '_')}" + ("" if node.value is None else f" escape {cell(node.value)}"))
        else:
            said.append("call " + {"<>": "!="}.get(node.kind, node.kind.replace(" ", "_")))
    return said


def cell(value):
    if value is None or isinstance(value, bool):
        return str(value).lower().replace("none", "null")
    return f'"{value.translate(STANDS_IN)}"' if isinstance(value, str) else str(value)


# PostgreSQL: our types are domains over its own, with a CHECK for their range.
POSTGRESQL_TYPES = {
    "i8": "smallint", "i16": "smallint", "i32": "integer", "i64": "bigint",
    "u8": "smallint", "u16": "integer", "u32": "bigint", "u64": "numeric(20, 0)",
}


def postgresql_domains():
    for name, base in POSTGRESQL_TYPES.items():
        low, high = INTEGERS[name]
        checked = "" if name in WHOLE_IN_POSTGRESQL else f" CHECK (VALUE BETWEEN {low} AND {high})"
        yield f"CREATE DOMAIN {name} AS {base}{checked};"
    yield 'CREATE DOMAIN utf8 AS text COLLATE "C";'
    # ILIKE past ASCII, and a pattern that ends in its escape, as in the program: see `folded` and
    # `whole`
    others = "".join(letter for letter, first in FOLDED.items() if letter != first)
    firsts = "".join(FOLDED[letter] for letter in others)
    yield f"CREATE FUNCTION folded(text) RETURNS text LANGUAGE sql IMMUTABLE AS $$ SELECT lower(translate($1, '{others}', '{firsts}')) $$;"
    yield ("CREATE FUNCTION whole(text, text) RETURNS text LANGUAGE sql IMMUTABLE AS "
           "$$ SELECT CASE WHEN (length($1) - length(rtrim($1, $2))) % 2 = 1 THEN $1 || $2 ELSE $1 END $$;")
    yield from POSTGRESQL_FUNCTIONS


def whole(pattern, escape):
    """A pattern whose last escape, if it escapes nothing, is doubled, so that it is an ordinary
    character, as here."""
    alone = pattern is not None and escape and (len(pattern) - len(pattern.rstrip(escape))) % 2
    return pattern + escape if alone else pattern


def sql_literal(value):
    if value is None or isinstance(value, bool):
        return str(value).upper().replace("NONE", "NULL")
    return quoted(value, "'") if isinstance(value, str) else f"({value})"


def sql(node, leaf, calculated, liked, cast, called):
    """A tree in SQL with all brackets, from what an engine writes for leaves, arithmetic, LIKE,
    casts and functions."""
    if node.kind in ("column", "literal"):
        return leaf(node)
    operands = [sql(operand, leaf, calculated, liked, cast, called) for operand in node.operands]
    if is_form(node):
        return called(node, *operands)
    if node.kind in ARITHMETIC:
        return calculated(node, *operands)
    if node.kind in LIKES:
        return liked(node, *operands)
    if node.kind == "cast":
        return cast(*operands)
    if node.kind == "not":
        return f"(NOT {operands[0]})"
    if node.kind in TESTS:
        return f"({operands[0]} {node.kind.upper()})"
    if node.kind in BETWEEN and node.value:
        low, high = node.value.split()
        word = "NOT " * (node.kind == "not between")
        return f"({word}({operands[1]} {low} {operands[0]} AND {operands[0]} {high} {operands[2]}))"
    if node.kind in BETWEEN:
        return f"({operands[0]} {node.kind.upper()} {operands[1]} AND {operands[2]})"
    return f"({operands[0]} {node.kind.upper()} {operands[1]})"


def postgresql(node):
    def leaf(node):
        return quoted(node.value, '"') if node.kind == "column" else f"({sql_literal(node.value)}::{node.type})"

    def calculated(node, left, right):
        if node.type in WHOLE_IN_POSTGRESQL:
            return f"({left} {node.kind} {right})"
        called = f"div({left}, {right})" if node.type == "u64" and node.kind == "/" else f"({left} {node.kind} {right})"
        return f"({called}::{node.type})"

    def liked(node, text, pattern):
        escape, word = quoted("\\" if node.value is None else node.value, "'"), node.kind.upper().replace("ILIKE", "LIKE")
        if "ilike" not in node.kind:
            return f"({text} {word} whole({pattern}, {escape}) ESCAPE {escape})"
        return f"(folded({text}) {word} folded(like_escape(whole({pattern}, {escape}), {escape})))"
    return sql(node, leaf, calculated, liked, lambda operand: f"({operand}::bool)", lambda node, *operands: FORMS[node.kind].postgresql(node, *operands))


def is_in_sqlite(tree):
    """Whether SQLite can run it: it has no integers past 63 bits, and no ILIKE whose escape is a
    letter."""
    def is_called(node):
        form = FORMS[node.kind]
        return form.sqlite is not None and form.sqlite(node, *("x" for _ in node.operands)) is not None
    return all(node.type != "u64" and not ("ilike" in node.kind and (node.value or "").isalpha()) and (not is_form(node) or is_called(node))
               for node in tree.nodes())


def sqlite(node):
    def leaf(node):
        return quoted(node.value, '"') if node.kind == "column" else sql_literal(node.value)

    def calculated(node, left, right):
        return f"({left} {node.kind} {right})"

    # LIKE is case-sensitive by a setting of the connection, and no escape is the default
    def liked(node, text, pattern):
        chosen = "\\" if node.value is None else node.value
        escape = f" ESCAPE {quoted(chosen, chr(39))}" if chosen else ""
        word = node.kind.upper().replace("ILIKE", "LIKE")
        pattern = f"whole({pattern}, {quoted(chosen, chr(39))})"
        if "ilike" in node.kind:
            text, pattern = f"folded({text})", f"folded({pattern})"
        return f"({text} {word} {pattern}{escape})"
    return sql(node, leaf, calculated, liked, lambda operand: operand, lambda node, *operands: FORMS[node.kind].sqlite(node, *operands))
