"""Trees of expressions, and random ones over random tables."""
from dataclasses import dataclass, replace

from functions import ATOM, COMPARED, FORMS, IS, JOINED, PREDICATE, PRODUCT, SUM
from tables import INTEGERS, Column, with_shape

TYPES = ["bool", *INTEGERS, "utf8"]
JOINTS = ["and", "or"]
COMPARISONS = ["=", "<>", "<", "<=", ">", ">="]
ARITHMETIC = {"+": "Add", "-": "Sub", "*": "Mul", "/": "Div"}
BETWEEN = ["between", "not between"]
# bounds of a BETWEEN that no text has: the lower one, the upper one or both are strict
OUTSIDE = ["< <", "< <=", "<= <"]
LIKES = ["like", "not like", "ilike", "not ilike"]
TESTS = ["is null", "is not null"]


@dataclass(frozen=True)
class Node:
    """kind: column, literal, cast, not, one of the words above, or that of a row of functions.py.
    value: of a column its name, of a literal its value, of a LIKE its escape (None where none is written), of a BETWEEN None or
    what is OUTSIDE.
    form: of a literal how it is written, where its place allows that: `bare`, `typed`, or `nullable` (a type with `?`); of a row of
    functions.py the number of its spelling."""
    kind: str
    type: str
    operands: tuple = ()
    value: object = None
    form: str = "bare"

    def nodes(self):
        """The nodes from the leaves upward and from left to right: the order in which faults are
        reported."""
        for operand in self.operands:
            yield from operand.nodes()
        yield self

    def has_text(self):
        """Whether the tree has a text: else only rowfn runs it."""
        return not any(node.kind in BETWEEN and node.value for node in self.nodes())

    def has_lines(self):
        """Whether a script of rowfn has it, which knows the seven functions alone."""
        return not any(node.kind in FORMS for node in self.nodes())

    def columns(self):
        return {node.value for node in self.nodes() if node.kind == "column"}


# Letters of ASCII, letters without case, signs of patterns, and what CSV and SQL quote.
LETTERS = list("aabbABxyZ")
OTHERS = list("%_\\!'\", \n\r\t-;#.0") + ["日", "€", "￥", "😀", "é"]
# Letters past ASCII that ILIKE treats as equal, a word each: of two bytes, three and four, of three
# forms, and of which one is of ASCII.
CASES = ["éÉ", "äÄ", "ñÑ", "čČ", "żŻ", "óÓ", "łŁ", "яЯ", "жЖ", "уУ", "кК", "ωΩ\u2126", "σΣς", "µμΜ", "ßẞ", "ǆǅǄ", "ⅷⅧ", "ꭰᎠ", "𐐨𐐀", "sSſ", "kK\u212a", "åÅ\u212b"]
FOLDED = {letter: word[0] for word in CASES for letter in word}
WORDS = [*"ab %_\\'\",!", "ab", "Ba", "xyz", "żółw", "ЖУК", "жук", "Straße", "日本", "😀", "\r", "\r\n", "\n", "0123456789", "Kelvin", *map("".join, CASES)]


def folded(text):
    """A text with each letter replaced by the first of those that ILIKE treats as equal."""
    return "".join(FOLDED.get(letter, letter.lower() if letter.isascii() else letter) for letter in text)


def other_case(rng, letter):
    """A letter that ILIKE treats as equal to this one, or this one."""
    if letter in FOLDED:
        return rng.choice([other for other, first in FOLDED.items() if first == FOLDED[letter]])
    return letter.swapcase() if letter.isascii() else letter


def random_text(rng):
    if rng.random() < 0.05:
        return long_text(rng)
    some = LETTERS if rng.random() < 0.9 else LETTERS + list("".join(CASES))
    text = "".join(rng.choice(some if rng.random() < 0.75 else OTHERS) for _ in range(rng.choice((0, 1, 1, 2, 2, 3, 4, 6))))
    return text if rng.random() < 0.9 else rng.choice(("", " ", "  ")) + text + rng.choice(("", " ", "   "))


def random_digits(rng):
    """A text that is a number of some type or a truth value, or nearly."""
    text = rng.choice((str(random_integer(rng, rng.choice(list(INTEGERS)), 0.3)), str(rng.randint(-9, 99)), str(rng.randint(0, 127)),
                       rng.choice(("true", "false", "T", "f", "yes", "NO", "on", "off", "of", "o", "1", "0", "y", "tru", "truth", ""))))
    sign = "+" if text[:1].isdigit() and rng.random() < 0.1 else ""
    return rng.choice(("", "", "", " ", "  ")) + sign + rng.choice(("", "", "", "", "0")) * text[:1].isdigit() + text + rng.choice(("",) * 12 + (" ",) * 4 + ("x", "x", "\t", "\n"))


def long_text(rng):
    """A text of 200 characters or more, with ends of lines and letters past ASCII in it."""
    text = ""
    least = rng.choice((200, 201, 256, 300, 700))
    while len(text) < least:
        text += rng.choice(WORDS)
    return text


def random_pattern(rng):
    parts = ["%", "%", "_", "_", "\\%", "\\_", "\\\\", "!%", "!!", "!_", "a", "b", "A", "%%", "\\a", "x", "é", "日", "É", "ω", "\r"]
    pattern = "".join(rng.choice(parts) for _ in range(rng.choice((0, 1, 2, 2, 3, 3, 4, 5))))
    # one that ends in its escape
    return pattern + rng.choice("\\!") * (rng.random() < 0.1)


def pattern_of(rng, text, escape):
    """A pattern that matches a text, or nearly: wildcards for characters, other cases, and the
    escape before wildcards."""
    pattern, often = "", min(0.15, 3 / max(1, len(text)))
    for letter in text:
        chance = rng.random() / often
        if chance < 1:
            pattern += "_"
        elif chance < 2:
            pattern += "%" * rng.choice((1, 1, 2))
        elif chance < 2.5:
            pattern += other_case(rng, letter)
        else:
            pattern += escape * (letter in ("%", "_", escape) or rng.random() < 0.1) + letter
    return pattern + "%" * (rng.random() < 0.2) + escape * (rng.random() < 0.05)


def random_integer(rng, name, edges):
    """A number, mostly a small one, and often one at the ends of its type; where `edges` is None a small one alone."""
    low, high = INTEGERS[name]
    if edges is None:
        return rng.randint(max(low, -9), 9)
    if rng.random() < edges:
        return rng.choice((low, low + 1, high - 1, high, high // 2, low // 2, high // 3, int(high ** 0.5), int(high ** 0.5) + 1))
    if rng.random() < 0.1:
        return rng.randint(low, high)
    return rng.randint(max(low, -9), 9)


def random_value(rng, name, edges):
    if name == "bool":
        return rng.random() < 0.5
    if name == "utf8":
        return random_pattern(rng) if rng.random() < 0.3 else random_text(rng)
    return random_integer(rng, name, edges)


def large_table(rng, shape):
    """A column of each type or more, over thousands of rows: small numbers, and texts of which some are long. Some columns are
    null in each row."""
    columns = [Column("pattern", "utf8", True), Column("other", "utf8", True), Column("digits", "utf8", True), Column("bool_b", "bool", True),
               Column("i64_b", "i64", True)]
    columns += [Column(f"{name}_a", name, rng.random() < 0.3) for name in TYPES]
    rng.shuffle(columns)
    empty = {column.name for column in columns if column.nullable and column.name not in ("pattern", "digits", "utf8_a") and rng.random() < 0.2}
    texts = [long_text(rng) for _ in range(15)] + [random_text(rng) for _ in range(15)] + ["ω", "aω"]
    # some that differ only in case, and some at their ends
    texts += ["".join(other_case(rng, letter) if rng.random() < 0.3 else letter for letter in text) for text in texts]
    texts += [text + rng.choice("abé") for text in texts[:15]]
    patterns = [pattern_of(rng, rng.choice(texts), "\\") for _ in range(40)] + [random_pattern(rng) for _ in range(10)]
    # patterns that end in their escape, of texts that end so too and of others
    texts += [text + "\\" for text in texts[15:25]]
    patterns += [pattern_of(rng, text, "\\") + "\\" for text in texts[15:25]]

    def cell(column):
        if column.name in empty or (column.nullable and rng.random() < 0.2):
            return None
        if column.type == "utf8":
            return str(rng.randint(0, 9)) if column.name == "digits" else rng.choice(patterns if column.name == "pattern" else texts)
        return random_value(rng, column.type, None)
    rows = [tuple(map(cell, columns)) for _ in range(rng.randint(1400, 6000))]
    return with_shape(rng, columns, rows, shape)


def random_table(rng, rows, small=False, shape="declared"):
    """Two columns of each type or more, one of which has nulls, under names in and out of quotes. Where it is small, the
    names stand in no quotes, and numbers are small. One column in ten with nulls is null in each row."""
    hard = ["two words", "and", 'a"b', "Upper", "né", "1st", "a,b", "_x1", "SELECT", "::", "--", "case", "end", "in", "unknown", "/*", "abs"]
    rng.shuffle(hard)
    quoted = rng.random() < 0.5 and not small
    columns = [Column("pattern", "utf8", True), Column("digits", "utf8", True)]
    for place, name in enumerate(TYPES):
        columns.append(Column(f"{name}_a", name, False))
        columns.append(Column(hard[place] if quoted and rng.random() < 0.5 else f"{name}_b", name, True))
        if name in ("bool", "i32", "i64", "utf8"):
            columns.append(Column(f"{name}_c", name, True))
    rng.shuffle(columns)
    edges = None if small else rng.choice((0.0, 0.05, 0.05, 0.3))
    empty = {column.name for column in columns if column.nullable and rng.random() < 0.1}

    def row():
        cells = {}
        for column in columns:
            if column.name in empty or column.nullable and rng.random() < 0.25:
                cells[column.name] = None
            else:
                cells[column.name] = random_digits(rng) if column.name == "digits" else random_value(rng, column.type, edges)
        # texts that are equal or begin alike, and patterns that match one
        texts = [column.name for column in columns if column.type == "utf8" and column.name != "digits" and cells[column.name] is not None]
        for name in texts:
            if rng.random() < 0.25:
                cells[name] = cells[rng.choice(texts)] + rng.choice(("", "", "a"))
        if cells["pattern"] is not None and rng.random() < 0.7:
            cells["pattern"] = pattern_of(rng, cells[rng.choice(texts)], "\\")
        return tuple(cells[column.name] for column in columns)
    return with_shape(rng, columns, [row() for _ in range(rows)], shape)


# The levels of the language, and the least levels of the operands of each node; functions.py has those of its rows.
LEVEL = {"or": 0, "and": 1, "not": 2, **dict.fromkeys(TESTS, IS), **dict.fromkeys(COMPARISONS, COMPARED),
         **dict.fromkeys(BETWEEN + LIKES, PREDICATE), "+": SUM, "-": SUM, "*": PRODUCT, "/": PRODUCT, **dict.fromkeys(("cast", "column", "literal"), ATOM)}
OPERANDS = {"or": (0, 1), "and": (1, 2), "not": (2,), **dict.fromkeys(TESTS, (IS,)), **dict.fromkeys(COMPARISONS, (PREDICATE, PREDICATE)),
            **dict.fromkeys(BETWEEN, (JOINED,) * 3), **dict.fromkeys(LIKES, (JOINED, JOINED)), "+": (SUM, PRODUCT), "-": (SUM, PRODUCT),
            "*": (PRODUCT, PRODUCT + 1), "/": (PRODUCT, PRODUCT + 1), "cast": (0,)}


def replaced(tree, path, node):
    """The tree with another node at a path."""
    if not path:
        return node
    operands = list(tree.operands)
    operands[path[0]] = replaced(operands[path[0]], path[1:], node)
    return replace(tree, operands=tuple(operands))
