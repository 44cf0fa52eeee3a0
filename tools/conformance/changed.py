"""Texts that are changed at random, most of which are refused: what the program reads, PostgreSQL reads alike."""
import random
import re

from engines import NOT_ASKED, STATES, Fault, Refused
from literals import is_unchanged
from makers import Maker
from spelling import Plain, Text
from trees import FOLDED, random_table

OTHERS = ["and", "or", "not", "is", "null", "between", "like", "ilike", "escape", "true", "false", "=", "<>", "<", "<=", ">", ">=",
          "+", "-", "*", "/", "(", ")", "7", "0", "'a'", "'!'", "''", "i64_a", "i32_b", "bool_a", "utf8_a", "i16_a", "::", "i64", "bool",
          "in", "in", "case", "when", "then", "else", "end", "distinct", "from", "unknown", "isnull", "notnull", "||", "&", "|", "#", "~", "%", ",", "coalesce(", "abs(", "length(", "nullif("]
# tokens of which one stands where another does
CLASSES = [{"=", "<>", "<", "<=", ">", ">="}, {"+", "-", "*", "/", "%"}, {"and", "or"}, {"like", "ilike"},
           {"true", "false", "unknown"}, {"&", "|", "#"}, {"coalesce(", "nullif(", "greatest(", "least("}, {"lower(", "upper(", "btrim(", "length("},
           {"i64_a", "i64_b", "i64_c"}, {"i32_a", "i32_b", "i32_c"}, {"bool_a", "bool_b", "bool_c"}, {"utf8_a", "utf8_b"}]
# What PostgreSQL reads and we refuse, by how the refusal begins behind its place. Whatever else only PostgreSQL reads is told.
REFUSED_HERE = {
    "operands of two types": r"E3 (TypeMismatch\.|Scalars)",
    "a number that its type does not hold": r"\S+ is no (bool|utf8|[iu]\d+)",
    "another type": r"no type ",
    "another cast": r"no cast leads from",
}
# Where a text is refused for its order of words, PostgreSQL refuses it at the same word, or the word is one of these, by how
# the refusal goes on: here PostgreSQL reads on.
ATOM = r"expected ((digits, )?a column, (a literal, )?(not, )?case, cast or \(|an expression or (\)|when))"
READ_ON = {
    "`not` behind a sign": r'found "not", ' + ATOM,
    "`+` before a value": r'found "\+", ' + ATOM,
    "an operator before a value": r'found "([|%*/&#]+|<<|>>|!|!?~\*?)", ' + ATOM,
    "`~` behind a sign": r'found "~", ' + ATOM,
    "a minus sign before a literal that is no number": r'found "(\'[^"]*|null|true|false)", ' + ATOM,
    "a minus sign before one of a number": r'found "\d+", ' + ATOM,
    "a word of CASE, in the CASE by which PostgreSQL is asked": r'found "(when|else|end)", expected an operator, as and a name',
    "a chain, or `is null` before a comparison": r"found .*, expected brackets round the comparison, is, between, in or like before it",
    "a type behind a test": r'found "::", expected (brackets round what is before ::|an operator that binds tighter, or the and of between)',
    "a call for a type": r'found "\w+", expected the name of a type',
    "an escape that is no text in quotes": r"found .*, expected a text in single quotes",
    "a keyword as a name": rf'found "(is|like|ilike|between|escape|in|distinct|from|isnull|notnull|when|then|else|end)", ({ATOM}|expected (the name of a type|a text in single quotes))',
    "a call, or a text behind the name of a type": r"""found "[('][^"]*", expected an operator""",
    "a comparison or `is` in the first bound of BETWEEN": r'found "(=|<>|!=|<|<=|>|>=|is)", expected an operator that binds tighter, or the and of between',
    "an operator behind an escape": r'found "([-+*/%|&#]+|<<|>>|!?~\*?)", expected an operator, as and a name',
    "a row in brackets": r'found ",", expected an operator or \)',
}


def has_comma_between_answers(text):
    """Whether a comma stands outside of brackets, behind which another answer begins here."""
    depth = 0
    for word in re.findall(r"'[^']*'|[(),]", text):
        depth += (word[0] == "(") - (word[0] == ")")
        if word == "," and depth == 0:
            return True
    return False


def is_at_that_word(text, told, answers):
    """Whether PostgreSQL refuses a text for its order of words too, and at the word that the refusal names."""
    found = re.match(r'found (?:"(.*?)"|.*?), expected (.*)', told, re.DOTALL)
    theirs = next((re.search(r'syntax error at or near "(.*)"', answer.told, re.DOTALL) for answer in answers
                   if isinstance(answer, Fault) and answer.name == "42601"), None)
    if not found or not theirs:
        return False
    ours, there = (found[1] or "").lower(), theirs[1].lower()
    # the texts end with `as`, and PostgreSQL's with END; of a text in quotes we tell the first of these
    same = ours == there or (ours, there) == ("as", "end") or ours == "'" == there[:1]
    # behind a comma another answer begins here; and PostgreSQL's grammar knows how many NULLIF and COALESCE take
    is_behind_comma = there == "," and (ours == "as" or "a comma or the end" in found[2] or has_comma_between_answers(text)) or there in ",)" and re.search("nullif|coalesce|greatest|least", text.lower())
    # a `not` that none of these follows is refused there itself
    is_not = there == "not" and (found[2].startswith("between, in, like or ilike") or ours in ("between", "in", "like", "ilike"))
    return same or bool(is_behind_comma) or is_not


def changed_text(rng, table):
    """A text of which tokens were dropped, doubled, exchanged, replaced or put in."""
    while True:
        tree = Maker(rng, table, True, small=True).tree(rng.choice((3, 5, 8)))
        if is_unchanged(tree):
            break
    written = Text(Plain())
    written.text(tree)
    tokens = written.tokens
    for _ in range(rng.choice((1, 1, 2, 3))):
        tokens = rng.choice((roughly, gently, gently))(rng, tokens) or [rng.choice(OTHERS)]
    return " ".join(tokens)


def roughly(rng, tokens):
    """A token dropped, doubled, exchanged with the next, put in, or replaced by any."""
    place = rng.randrange(len(tokens))
    first, rest = tokens[place:place + 1], tokens[place + 1:]
    return tokens[:place] + rng.choice((rest, first * 2 + rest, rest[:1] + first + rest[1:], [rng.choice(OTHERS), *first, *rest],
                                        [rng.choice(OTHERS), *rest]))


def gently(rng, tokens):
    """A token replaced by one of its kind, a `not` put in, or brackets around some tokens."""
    place, end = sorted((rng.randrange(len(tokens)), rng.randint(1, len(tokens))))
    kind = next((kind for kind in CLASSES if tokens[place] in kind), None)
    if kind:
        return [*tokens[:place], rng.choice(sorted(kind)), *tokens[place + 1:]]
    if rng.random() < 0.5:
        return [*tokens[:place], "not", *tokens[place:]]
    return [*tokens[:place], "(", *tokens[place:end], ")", *tokens[end:]]


def is_refused(answers):
    """Whether PostgreSQL refuses a text, and not what it answers in some rows."""
    states = {answer.name for answer in answers if isinstance(answer, Fault)}
    return bool(states - {*STATES, "22025"})


def is_list(answers):
    """Whether PostgreSQL refuses a text at a comma, which may be one between two answers."""
    return isinstance(answers[0], Fault) and answers[0].told == 'syntax error at or near ","'


class Changed:
    """Asks changed texts of the program and of PostgreSQL."""

    def __init__(self, program, server, seed, rows, counts):
        self.program, self.server, self.seed, self.rows = program, server, seed, rows
        self.counts, self.differences, self.examples = counts, [], {}

    def run(self, begin, end):
        """Asks the texts of these numbers. Returns the number of each that differs, and what differs."""
        self.differences = []
        table = random_table(random.Random(f"changed table {self.seed} {begin}"), self.rows, small=True)
        texts = [changed_text(random.Random(f"changed {self.seed} {number}"), table) for number in range(begin, end)]
        theirs = self.server.answers(texts, table)
        for number, text, answers in zip(range(begin, end), texts, theirs):
            self.counts["changed texts"] += 1
            if is_list(answers) and self.is_read(text, table):
                self.counts["on purpose: a list of answers, where PostgreSQL is asked for one"] += 1
                continue
            try:
                ours = self.program.answers([text], table, ["utf8"])[0]
            except Refused as refused:
                self.beside_refusal(number, text, refused, answers)
            else:
                self.beside_answers(number, text, ours, answers, table)
        return self.differences

    def is_read(self, text, table):
        """Whether a text is read as two answers or more."""
        try:
            return len(self.program.explained([text, "1"], table)) < 2
        except Refused as refused:
            return "--explain says of 2 answers" in refused.told and "  tree: " in refused.told

    def differ(self, number, text, ours, theirs):
        self.differences.append((number, f"changed text {number}: {text!r}\n    rowfn_stream: {ours}\n    PostgreSQL: {theirs}"))

    def beside_refusal(self, number, text, refused, answers):
        told = re.fullmatch(r"rowfn_stream: (?:[^:]*: )?line \d+, column \d+: (.*)", refused.told, re.DOTALL)
        if refused.status != 4 or not told:
            return self.differ(number, text, refused, "whatever: that is no refusal of a text")
        if told[1].startswith("found "):
            return self.beside_order(number, text, refused, told[1], answers)
        if is_refused(answers):
            self.counts["changed texts that both refuse"] += 1
            return
        for kind, begins in REFUSED_HERE.items():
            if re.match(begins, told[1]):
                self.counts[f"on purpose: refused for {kind}, where PostgreSQL answers"] += 1
                self.examples.setdefault(kind, []).append(text)
                return
        self.differ(number, text, refused, answers[0])

    def beside_order(self, number, text, refused, told, answers):
        """Of a text that is refused for its order of words."""
        if is_at_that_word(text, told, answers):
            self.counts["changed texts that both refuse, at the same word"] += 1
            return
        kind = next((kind for kind, begins in READ_ON.items() if re.match(begins, told)), None)
        if kind is None:
            return self.differ(number, text, refused, answers[0])
        if is_refused(answers):
            self.counts[f"on purpose: refused at {kind}, and by PostgreSQL for what follows"] += 1
        else:
            self.counts[f"on purpose: refused at {kind}, where PostgreSQL answers"] += 1
            self.examples.setdefault(kind, []).append(text)

    def beside_answers(self, number, text, ours, answers, table):
        """Compares the rows of both. A call that faults may be gone from the tree that rules make (see rules.py)."""
        self.counts["changed texts that both answer"] += 1
        for row, one, other in zip(table.rows, ours, answers):
            if one is NOT_ASKED:
                break
            if re.search(r"\b(ilike|lower|upper)\b", text) and any(letter > "\x7f" for letter in FOLDED.keys() & set(text + "".join(map(str, row)))):
                self.counts["on purpose: letters past ASCII, in PostgreSQL's own ILIKE, lower and upper"] += one != other
                continue
            if isinstance(other, Fault) and re.search("must be type boolean, not type (integer|smallint|bigint|i16|i64)", other.told):
                self.counts["on purpose: a number as a truth value"] += 1
                return
            if isinstance(other, Fault) and re.search(r"operator does not exist: \w+ \|\| \w+", other.told):
                self.counts["on purpose: a value that is no text beside ||"] += 1
                return
            if isinstance(other, Fault):
                is_fault = other.name in STATES and (isinstance(one, Fault) or self.is_dropped(text, table))
                alike = is_fault or other.name == "22025" and "like" in text
            else:
                # a fault next to what decides, or next to a null, is not met by PostgreSQL
                alike = one == other or isinstance(one, Fault) and bool(re.search(r"\b(and|or|null|case|coalesce|in)\b", text))
            if not alike:
                return self.differ(number, text, one, other)

    def is_dropped(self, text, table):
        """Whether rules make another tree of a text, which may lack a call that faults."""
        is_dropped = self.program.explained([text], table)[0].is_rewritten
        self.counts["on purpose: a row of a changed text whose fault rules drop (KeepsRows)"] += is_dropped
        return is_dropped
