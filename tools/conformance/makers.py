"""Random trees over a table."""
from dataclasses import replace

from functions import BARE, FORMS, JOINED, SIGN, bits_of, gives
from tables import INTEGERS
from trees import (ARITHMETIC, BETWEEN, COMPARISONS, JOINTS, LEVEL, LIKES, OPERANDS, OUTSIDE, TESTS, Node, pattern_of, random_digits, random_integer,
                   random_pattern, random_value)


class Maker:
    """Makes random trees over a table. `flat` trees need no brackets, and have only what PostgreSQL
    reads unchanged."""

    # the rows that are drawn though the program may not read them yet, by their kinds; `all` for each
    coming = frozenset()

    def __init__(self, rng, table, flat, small=False):
        self.rng, self.table, self.flat = rng, table, flat
        self.edges = None if small else 0.1
        # a flat tree calculates in one type, so no literal is between two
        self.types = [rng.choice(("i16", "i32", "i64", "i64"))] if flat else list(INTEGERS)

    def tree(self, size):
        chance = self.rng.random()
        if chance < 0.1:
            return self.text(0, size)
        return self.integer(self.rng.choice(self.types), 0, size) if chance < 0.35 else self.truth(0, size)

    def of_texts(self):
        """Only a LIKE or a comparison of texts."""
        word = self.rng.choice(LIKES * 3 + COMPARISONS)
        columns = [Node("column", "utf8", (), column.name) for column in self.table.columns if column.type == "utf8"]
        if word not in LIKES:
            return Node(word, "bool", (self.rng.choice(columns), self.rng.choice(columns)))
        if self.rng.random() < 0.5:
            pattern = next(column for column in columns if column.value == self.table.pattern)
            return Node(word, "bool", (self.rng.choice(columns), pattern), self.rng.choice((None, "\\")))
        escape = self.rng.choice((None, None, "!"))
        return Node(word, "bool", self.matched(escape), escape)

    def truth(self, level, size):
        """A truth value that needs no brackets at a level, or in trees that are not flat one that
        does."""
        rng = self.rng
        if size <= 1 or rng.random() < 0.06:
            return self.leaf("bool")
        words = [*JOINTS * (3 if size < 5 else 12), *["not"] * 3, *TESTS * 2, *COMPARISONS, *COMPARISONS, *BETWEEN * 2, *LIKES, *LIKES]
        words += [] if self.flat else ["cast"]
        if rng.random() < 0.4:
            return self.function("bool", level, size) or self.leaf("bool")
        words = [word for word in words if not self.flat or LEVEL[word] >= level]
        if not words:
            return self.leaf("bool")
        return self.call(rng.choice(words), size - 1)

    def call(self, word, size):
        rng, levels = self.rng, OPERANDS[word]
        sizes = self.shares(size, len(levels))
        value = rng.choice(OUTSIDE) if word in BETWEEN and not self.flat and rng.random() < 0.05 else None
        if word in LIKES:
            value = rng.choice((None, None, "!", "\\", "", "%", "_", "a", "'", "é", "!", None))
            operands = self.matched(value)
        elif word in (*JOINTS, "not", "cast"):
            operands = tuple(self.truth(level, one) for level, one in zip(levels, sizes))
            operands = self.with_number(operands) if word != "cast" else operands
        else:
            name = rng.choice(["bool"] + ["utf8"] * 2 + self.types + self.types * (5 if self.flat else 1))
            # what is compared is mostly small, so that more of a tree is logic
            sizes = [min(one, rng.choice((1, 1, 2, 3, 5))) for one in sizes]
            operands = tuple(self.of(name, level, one) for level, one in zip(levels, sizes))
        return self.met(Node(word, "bool", operands, value))

    def with_number(self, operands):
        """These truth values, of which one is now and then a column of numbers: whether it is not 0."""
        if self.flat or self.rng.random() > 0.1:
            return operands
        column = self.leaf(self.rng.choice(self.types), constant=0)
        place = self.rng.randrange(len(operands))
        return (*operands[:place], Node("truth", "bool", (column,), None, "0"), *operands[place + 1:])

    def matched(self, escape):
        """A text and a pattern, which often matches it in some row."""
        rng, text = self.rng, self.text(JOINED, self.rng.choice((1, 1, 2)))
        if text.operands or rng.random() < 0.3 or text.value is None:
            return text, self.leaf("utf8", pattern=True)
        one = text.value
        if text.kind == "column":
            one = self.table.cell(text.value, rng.randrange(len(self.table.rows)))
        pattern = pattern_of(rng, one or "", "\\" if escape is None else escape)
        return text, Node("literal", "utf8", (), pattern, rng.choice(("bare", "bare", "typed")))

    def of(self, name, level, size):
        if name == "bool":
            return self.truth(level, size)
        return self.text(level, size) if name == "utf8" else self.integer(name, level, size)

    def text(self, level, size):
        if size <= 1 or self.rng.random() < 0.15:
            return self.leaf("utf8")
        return self.function("utf8", level, size) or self.leaf("utf8")

    def integer(self, name, level, size):
        rng = self.rng
        words = [word for word in "+-*/" if not self.flat or LEVEL[word] >= level]
        if size <= 1 or not words or rng.random() < 0.1:
            return self.leaf(name)
        if rng.random() < 0.45:
            return self.function(name, level, size) or self.leaf(name)
        word = rng.choice(words)
        sizes = self.shares(size - 1, 2)
        return self.met(Node(word, name, tuple(self.integer(name, *one) for one in zip(OPERANDS[word], sizes))))

    def met(self, node):
        """The node, or one in which an operand is a column of a narrower type, or both operands are of types that meet in theirs."""
        if self.flat or self.rng.random() > 0.25:
            return node
        places = [place for place in alike_places(node) if node.operands[place].kind != "literal"]
        name = node.operands[places[0]].type if len(places) > 1 else None
        operands = list(node.operands)
        pairs = [(one, other) for one in INTEGERS for other in INTEGERS if meeting(one, other) == name and name not in (one, other)]
        narrower = [one for one in INTEGERS if name in INTEGERS and is_within(one, name)]
        if pairs and len(operands) == len(places) == 2 and self.rng.random() < 0.5:
            for place, one in zip(places, self.rng.choice(pairs)):
                operands[place] = self.narrow(one, name)
        elif narrower:
            place = self.rng.choice(places)
            operands[place] = self.narrow(self.rng.choice(narrower), name)
        return replace(node, operands=tuple(operands))

    def narrow(self, one, name):
        """A column of a type, as one of the type in which it meets another."""
        column = Node("column", one, (), self.rng.choice([column.name for column in self.table.columns if column.type == one]))
        return Node("meet", name, (column,), None, "0")

    def shares(self, size, count):
        """The share of a size for each of that many operands."""
        cuts = sorted(self.rng.randint(0, size) for _ in range(count - 1))
        return [max(1, high - low) for low, high in zip([0, *cuts], [*cuts, size])]

    def leaf(self, name, pattern=False, constant=0.3):
        """A column or a literal. constant: how often it is a literal."""
        rng = self.rng
        if rng.random() >= (0.65 if pattern else constant):
            named = [column for column in self.table.columns if column.type == name]
            return Node("column", name, (), rng.choice(named).name)
        form = rng.choice(("bare", "bare", "bare", "bare", "typed", "nullable"))
        if rng.random() < 0.08:
            return Node("literal", name, (), None, form)
        value = random_pattern(rng) if pattern else random_value(rng, name, self.edges)
        return Node("literal", name, (), value, form)

    # -- SQL's functions -----------------------------------------------------------------------------------------------------

    def function(self, name, level, size):
        """A call of one of SQL's functions that returns that type, or None where none fits."""
        fitting = [(form, numbers) for form in FORMS.values() if form.weight and gives(form, name) if (numbers := self.spellings(form, level))]
        if not fitting:
            return None
        form, numbers = self.rng.choices(fitting, [form.weight for form, _ in fitting])[0]
        operands = self.operands(form, name, size - 1)
        fits = [number for number in numbers if form.spellings[number].least <= len(operands) <= form.spellings[number].most]
        if not fits:
            return None
        number = self.rng.choice(fits)
        if form.kind.startswith("is ") and number == 0:
            # before the words alone a number may stand
            operands = self.with_number(operands)
        return self.met(Node(form.kind, name, operands, None, str(number)))

    def is_coming(self, kind):
        return "all" in self.coming or kind in self.coming

    def spellings(self, form, level):
        """The numbers of the spellings that may be used; in a flat tree those that need no brackets and are PostgreSQL's too."""
        is_drawn = self.is_coming(form.kind)
        if form.is_coming and not is_drawn:
            return []
        return [number for number, one in enumerate(form.spellings)
                if (is_drawn or not one.is_coming) and (not self.flat or one.same and one.level >= level)]

    def operands(self, form, name, size):
        """The operands of a call that returns that type, each of a part of the size."""
        rng, one_type = self.rng, self.any_type() if form.gives != "T" else name
        if form.takes in ("case", "case of"):
            return self.cases(form, one_type, size)
        if form.gives != "N" and " N" in f" {form.takes}":
            name = rng.choice(self.types)
        words = []
        for word in form.takes.split():
            count = rng.choice((1, 1, 1, 1, 2, 2, 3, 3, 8, 30)) if word.endswith("+") else rng.random() < 0.6 if word.endswith("?") else 1
            words += [word.rstrip("+?")] * count
        levels = self.levels(form, len(words))
        if len(words) > 4:
            # a list is mostly of constants
            types = [one_type if word == "T" else name if word == "N" else word for word in words]
            return (self.of(types[0], levels[0], max(1, size)), *(self.leaf(one, constant=0.9) for one in types[1:]))
        return tuple(self.operand(word, one_type, name, *one) for word, one in zip(words, zip(levels, self.shares(size, len(words)))))

    def levels(self, form, count):
        """The least level of each operand in a flat tree: that of the first spelling, which is written so in one."""
        if not self.flat:
            return [0] * count
        words = [word for word in form.spellings[0].words.split() if word[0] == "%" and word != "%"]
        found = [SIGN if word == "%sign" else int(word[1:]) if word[1:].isdigit() else 0 for word in words]
        return (found + [0] * count)[:count]

    def any_type(self):
        return self.rng.choice(["bool", "utf8", "utf8", *self.types, *self.types * (4 if self.flat else 1)])

    def operand(self, word, one_type, name, level, size):
        rng = self.rng
        if word == "T":
            return self.of(one_type, level, size)
        if word == "N":
            return self.integer(name, level, size)
        if word == "narrower":
            return self.leaf(rng.choice([one for one in INTEGERS if is_within(one, name)]), constant=0)
        if word == "count":
            return self.constant(name, rng.choice((0, 1, 2, 3, bits_of(name) - 1, rng.randrange(bits_of(name)), bits_of(name), -1)), size)
        if word == "place":
            edge = rng.choice((-2 ** 63, 2 ** 63 - 1, 2 ** 31, -2 ** 31)) if rng.random() < 0.03 else rng.choice((-3, -1, 0, 1, 1, 2, 2, 3, 4, 7, 12))
            return self.constant("i64", edge, size)
        if word == "times":
            return Node("literal", "i64", (), rng.choice((-1, 0, 1, 2, 3, 5)), "bare")
        if word == "begin":
            return Node("literal", "i64", (), rng.choice((1, 1, 2, 3, 5, 12, 1, 2, 3, 0, -2)), "bare")
        if word == "code":
            return self.constant("i64", rng.choice((97, 233, 26085, 128512, 8364, 1114109, 1114112, 55296, 65533, 10, 1, 0, -1, 2 ** 31, 2 ** 32 + 97)), size)
        if word == "regex":
            return Node("literal", "utf8", (), rng.choice(("a", "^a", "b$", "(?s)a.*b", "[ab]+", "a|b", "^$", "x?y", "(?s)^.$", "é", "(a)(b)?", "([ab])([^b])", "(x|y)+a", "[A-Z](y)")), "bare")
        if word == "written":
            return Node("literal", "utf8", (), rng.choice(("", "x", "[\\&]", "\\1", "\\\\", "é", "a\\b")), "bare")
        if word == "flags":
            return Node("literal", "utf8", (), rng.choice(("", "g", "g", "i", "gi", "c", "gic")), "bare")
        if word == "S":
            return self.source(name, level, size)
        return self.of(word, level, size)

    def constant(self, name, value, size):
        """Mostly that number, where the type has it."""
        low, high = INTEGERS[name]
        if self.rng.random() < 0.8:
            return Node("literal", name, (), max(low, min(high, value)), "bare" if self.flat else self.rng.choice(("bare", "bare", "typed")))
        return self.integer(name, 0 if not self.flat else BARE, size)

    def source(self, name, level, size):
        """What is cast to a type: a text is mostly one of its values."""
        rng = self.rng
        types = [one for one in ("bool", "utf8", "utf8", *self.types) if one != name or rng.random() < 0.1]
        source = rng.choice(types)
        if source != "utf8" or name == "utf8":
            return self.of(source, level, size)
        if rng.random() < 0.3:
            return Node("literal", "utf8", (), random_digits(rng), "bare")
        named = [column for column in self.table.columns if column.name == self.table.digits]
        if rng.random() < 0.5 and named:
            return Node("column", "utf8", (), named[0].name)
        inner = self.of(rng.choice(self.types), 0, size)
        return Node("cast utf8", "utf8", (inner,), None, "0")

    def cases(self, form, name, size):
        """Conditions, each with its value, and mostly a value for all others; with an operand it comes first, and values for conditions."""
        rng, count = self.rng, self.rng.choice((1, 1, 1, 2, 2, 3))
        has_operand, compared = form.takes == "case of", self.any_type()
        parts = self.shares(size, count * 2 + 1)
        first = [self.of(compared, 0, parts[0])] if has_operand else []
        when = (lambda part: self.leaf(compared)) if has_operand else (lambda part: self.with_number((self.truth(0, part),))[0])
        pairs = [one for place in range(count) for one in (when(parts[2 * place]), self.of(name, 0, min(3, parts[2 * place + 1])))]
        return (*first, *pairs, *[self.of(name, 0, min(3, parts[-1]))] * (rng.random() < 0.7))


def is_within(one, other):
    """Whether a type has fewer numbers, all of which another one has."""
    return one != other and INTEGERS[other][0] <= INTEGERS[one][0] and INTEGERS[one][1] <= INTEGERS[other][1]


def meeting(one, other):
    """The narrowest type that has every number of both, or None."""
    both = [name for name, (low, high) in INTEGERS.items()
            if all(low <= INTEGERS[each][0] and INTEGERS[each][1] <= high for each in (one, other))]
    return min(both, key=bits_of, default=None)


def alike_places(node):
    """The places of operands that are of one integer type, and meet where they are not."""
    count = len(node.operands)
    if node.kind in FORMS:
        takes = FORMS[node.kind].takes
        if takes == "case":
            return [place for place in range(count) if node.operands[place].type in INTEGERS and (place % 2 or place == count - 1)]
        if set(takes.replace("+", "").split()) - {"T", "N"}:
            return []
    elif node.kind not in (*ARITHMETIC, *COMPARISONS, *BETWEEN):
        return []
    return [place for place in range(count) if node.operands[place].type in INTEGERS]
