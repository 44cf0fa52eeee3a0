"""Whether the program, rowfn, PostgreSQL and SQLite agree on an expression, and the intended
differences."""
from collections import Counter
from dataclasses import dataclass

from engines import NOT_ASKED, STATES, Fault, Refused, value_of
from functions import FIELD, FORMS, NEGATIVE, NO_CHARACTER, NO_VALUE, OVERFLOW, SHIFT, ZERO, fault_of, is_form
from literals import is_unchanged
from patterns import folds_past_ascii, has_lone_escape
from rules import rule_that_drops
from scripts import WAYS, line_names
from spelling import STANDS_IN, Noisy, Plain, Text, is_in_sqlite, postgresql, sqlite
from tables import INTEGERS
from telling import Difference
from trees import ARITHMETIC

# the counts, in the order of their output; errors and intended differences follow by kind
COUNTED = ["expressions", "of those, asked of SQLite too", "of those, refused in some row",
           "of those, without a text, of rowfn alone", "of those, told by --explain as rowfn shows them",
           "of those, told by --explain in a text that reads back", "of those, rows picked by --where",
           "of those, texts that PostgreSQL reads as they stand", "of these, without brackets",
           "rows answered: true", "rows answered: false", "rows answered: null", "rows answered: numbers and texts",
           "rows refused", "rows compared with rowfn", "rows compared with PostgreSQL", "rows compared with SQLite"]


@dataclass
class Case:
    """An expression over a table, and its text, or None if it has none."""
    number: int
    tree: object
    text: str | None

    def __post_init__(self):
        # for each row the calls that fault in PostgreSQL, if needed
        self.faults = []
        self.calculations = [node for node in self.tree.nodes() if node.kind in ARITHMETIC or is_form(node) and FORMS[node.kind].faults]
        self.has_lines = self.tree.has_lines()
        self.is_unchanged = is_unchanged(self.tree)
        self.is_in_sqlite = is_in_sqlite(self.tree)


def text_of(tree, rng=None, brackets=True):
    style = Plain() if rng is None else Noisy(rng, brackets)
    return Text(style).text(tree) if tree.has_text() else None


def is_value(answer):
    return answer is not NOT_ASKED and not isinstance(answer, Fault)


# -- the results for each row ----------------------------------------------------------------------

def first_ones(faults):
    """The calls that fault, without those that do because one below them does."""
    nodes = [node for node, _ in faults]
    return [(node, why) for node, why in faults if not any(below in nodes for below in node.nodes() if below is not node)]


def faults_in_postgresql(case, asked, rows):
    """For each row the calls of arithmetic that fail in PostgreSQL when run separately, and why."""
    columns = [(node, asked[postgresql(node)]) for node in case.calculations]
    found = [[(node, answers[row]) for node, answers in columns if isinstance(answers[row], Fault)] for row in range(rows)]
    return [first_ones([(node, STATES.get(answer.name, answer)) for node, answer in faults]) for faults in found]


def faults_in_sqlite(case, values, row):
    """The same for SQLite, which never fails: a number that its type does not hold, or that is no
    integer, is an overflow, and a null of two numbers a zero divisor."""
    found = []
    for node in case.calculations:
        if any(values[operand][row] is None for operand in node.operands):
            continue
        value, (low, high) = values[node][row], INTEGERS.get(node.type, (0, 0))
        if value is None:
            found.append((node, FORMS[node.kind].null_in_sqlite if is_form(node) else ZERO))
        elif node.type not in INTEGERS:
            continue
        elif isinstance(value, float) or not low <= value <= high:
            found.append((node, OVERFLOW))
    return first_ones(found)


def fault_names(case, table, faults):
    """The faults that a row may have in the tree that rules make: that of the first call that no rule drops, and those of the
    calls before it. If rules may drop all of them, the rules too, else None."""
    names, rules = [], []
    for node, why in faults:
        names.append(fault_of(node, why))
        rules.append(rule_that_drops(case.tree, node, table))
        if rules[-1] is None:
            return names, None
    return names, rules


def faults_above(tree, faults):
    """The names of the faults that a call may have above one that faults: where rules drop that one, it has a value there."""
    calls = [node for node, _ in faults]
    above = [node for node in tree.nodes() if any(one is call for one in node.nodes() for call in calls) and not any(node is call for call in calls)]
    return {fault_of(node, why) for node in above for why in (OVERFLOW, ZERO, SHIFT, NO_VALUE, NEGATIVE, FIELD, NO_CHARACTER)} - {None}


# -- running everyone ------------------------------------------------------------------------------

class Asker:
    """Runs cases over one table with everyone, and compares the results."""

    def __init__(self, program, scripts, server, file, every=False):
        self.program, self.scripts, self.server, self.file = program, scripts, server, file
        # whether to run each row that fails in PostgreSQL
        self.every = every
        self.counts, self.calls = Counter(dict.fromkeys(COUNTED, 0)), Counter()

    def compare(self, cases, table):
        """The differences of each case that has any, by its number."""
        asked = self.ask_postgresql(cases, table)
        with_text = [case for case in cases if case.text is not None]
        ours = self.ask_program(with_text, table)
        theirs = self.ask_scripts(cases, table, ours)
        # for a tree without a text only rowfn is judged
        found = {case.number: list(self.judge(case, table, asked, ours.get(case.number, theirs[case.number]["lines"]), theirs[case.number]))
                 for case in cases}
        for case, difference in [*self.explained_otherwise(with_text, table), *self.picked_otherwise(with_text, table, ours)]:
            found[case.number].append(difference)
        return {number: differences for number, differences in found.items() if differences}

    def picked_otherwise(self, cases, table, ours):
        """Whether --where takes other rows than those in which a text is true, as they are or with
        the results of the next text in them. Run for one in twenty of those that fail in no row."""
        calm = [(case, ours[case.number]) for case in cases if all(map(is_value, ours[case.number]))]
        for (case, answers), (other, others) in zip(calm, calm[1:] + calm[:1]):
            if case.number % 20 or case.tree.type != "bool":
                continue
            self.counts["of those, rows picked by --where"] += 1
            true = [row for row, answer in enumerate(answers) if answer is True]
            for row, who, picked, wanted in self.program.differ_in_picked(case.text, true, other.text, others, table):
                yield case, Difference(row, who, picked, wanted)

    def explained_otherwise(self, cases, table):
        """The cases for which --explain prints another tree than rowfn shows, as written or after
        rules, or another type. Run where both have the columns' own names, and no character of a
        literal replaces another."""
        def are_as_they_are(case):
            texts = [node.value for node in case.tree.nodes() if isinstance(node.value, str)]
            return all(text == text.translate(STANDS_IN) for text in texts)
        called = [case for case in cases if not case.has_lines]
        self.counts["of those, told by --explain in a text that reads back"] += len(called)
        for begin in range(0, len(called), 25):
            yield from self.read_otherwise(called[begin:begin + 25], table)
        if all(name == own for own, name in line_names(table).items()):
            asked = [case for case in cases if case.has_lines and are_as_they_are(case)]
            self.counts["of those, told by --explain as rowfn shows them"] += len(asked)
            for begin in range(0, len(asked), 25):
                yield from self.told_otherwise(asked[begin:begin + 25], table)

    def read_otherwise(self, part, table):
        """The cases for which --explain tells another type, or a text that is read as another tree."""
        try:
            found = self.program.explained([case.text for case in part], table)
            again = self.program.explained([told.text for told in found], table)
        except Refused as refused:
            if len(part) > 1:
                for case in part:
                    yield from self.read_otherwise([case], table)
            else:
                yield part[0], Difference(0, "its text as --explain tells it", str(refused), "")
            return
        for case, told, back in zip(part, found, again):
            if {told.type.rstrip("?"), told.type_by_rules.rstrip("?")} != {case.tree.type}:
                yield case, Difference(0, "--explain, of the type", (told.type, told.type_by_rules), case.tree.type)
            if told != back:
                yield case, Difference(0, "its text as --explain tells it", told, back)

    def told_otherwise(self, part, table):
        try:
            shown = self.scripts.shown([case.tree for case in part], table)
            found = self.program.explained([case.text for case in part], table)
        except Refused as refused:
            if len(part) > 1:
                for case in part:
                    yield from self.told_otherwise([case], table)
            else:
                yield part[0], Difference(0, "rowfn, which shows the tree", f"--explain: {refused}", "")
            return
        for case, told, trees in zip(part, found, shown):
            if {told.type.rstrip("?"), told.type_by_rules.rstrip("?")} != {case.tree.type}:
                yield case, Difference(0, "--explain, of the type", (told.type, told.type_by_rules), case.tree.type)
            if told.printed is not None and (told.printed, told.printed_by_rules) != trees:
                yield case, Difference(0, "--explain, beside rowfn", (told.printed, told.printed_by_rules), trees)

    def ask_postgresql(self, cases, table):
        texts = {}
        for case in cases:
            for text in [postgresql(case.tree), *map(postgresql, case.calculations), *[case.text] * case.is_unchanged]:
                texts[text] = None
        asked = dict(zip(texts, self.server.answers(list(texts), table)))
        for case in cases:
            case.faults = faults_in_postgresql(case, asked, len(table.rows))
        return asked

    @staticmethod
    def parted(cases):
        """Those that fail in no row in PostgreSQL, 25 together; and the others, each with these
        rows."""
        faulty = [(case, [row for row, faults in enumerate(case.faults) if faults]) for case in cases]
        calm = [case for case, rows in faulty if not rows]
        return [calm[begin:begin + 25] for begin in range(0, len(calm), 25)], [(case, rows) for case, rows in faulty if rows]

    def chosen(self, case, faulty):
        """The rows to run separately, of those that fail in PostgreSQL."""
        return faulty if self.every else [faulty[case.number % len(faulty)]]

    def ask_program(self, cases, table):
        """The program's result for each case by its text."""
        together, alone = self.parted(cases)
        found = {case.number: self.ask_around(table, case, faulty) for case, faulty in alone}
        for part in together:
            try:
                got = self.program.answers([case.text for case in part], table, [case.tree.type for case in part])
            except Refused:
                got = None
            if got is None or any(isinstance(answer, Fault) for answer in got[0]):
                got = [self.ask_alone(table, case) for case in part]
            found.update(zip([case.number for case in part], got))
        return found

    def ask_alone(self, table, case):
        try:
            return self.program.answers([case.text], table, [case.tree.type])[0]
        except Refused as refused:
            return [Fault(str(refused))] * len(table.rows)

    def ask_around(self, table, case, faulty):
        """Runs the whole table, for which the program writes the rows before the first error; the
        rows without an error in PostgreSQL; and one or each of those with one, separately."""
        calm, names = [row for row in range(len(table.rows)) if row not in faulty], {column.name for column in table.columns}
        found = self.ask_alone(table, case)
        for rows in [calm] * bool(calm) + [[row] for row in self.chosen(case, faulty) if row != faulty[0]]:
            for row, one in zip(rows, self.ask_alone(table.only(names, rows), case)):
                # a row has the same result as before
                found[row] = one if found[row] in (NOT_ASKED, one) else Fault(f"{found[row]}, and then {one}")
        return found

    def ask_scripts(self, cases, table, ours):
        """The results of rowfn for each case, its tree as written and after rules: those without an
        error in PostgreSQL together; the others in these rows, in those where the program has
        dropped a fault, and in one or each of the rest."""
        found = {case.number: {way: [NOT_ASKED] * len(table.rows) for way in WAYS} for case in cases}
        together, alone = self.parted([case for case in cases if case.has_lines])
        for part in together:
            got = self.ask_lines([case.tree for case in part], table, WAYS)
            for place, case in enumerate(part):
                found[case.number] = dict(zip(WAYS, got[place * len(WAYS):]))
        for case, faulty in alone:
            calm = [row for row in range(len(table.rows)) if row not in faulty]
            dropped = [row for row in faulty if case.number in ours and is_value(ours[case.number][row])]
            chosen = self.chosen(case, faulty)
            asks = [(calm, tuple(WAYS)), (dropped, ("optimized",)), *[([row], ("lines",)) for row in chosen]]
            asks += [([row], ("optimized",)) for row in chosen if row not in dropped]
            for rows, ways in asks:
                part = table.only(case.tree.columns(), rows)
                for way, answers in zip(ways, self.ask_lines([case.tree], part, ways) if rows else []):
                    for row, answer in zip(rows, answers):
                        found[case.number][way][row] = answer
        return found

    def ask_lines(self, trees, table, ways):
        try:
            return self.scripts.answers(trees, table, ways)
        except Refused as refused:
            return [[Fault(str(refused))] * len(table.rows)] * (len(trees) * len(ways))

    # -- judging -----------------------------------------------------------------------------------------------------------

    def judge(self, case, table, asked, ours, theirs):
        self.count(case, ours)
        yield from self.beside_lines(case, ours, theirs["lines"])
        yield from self.beside_rules(ours, theirs["optimized"])
        yield from self.beside_postgresql(case, table, asked, ours)
        if case.is_in_sqlite:
            yield from self.beside_sqlite(case, table, ours)

    def count(self, case, ours):
        self.calls.update(node.kind for node in case.tree.nodes())
        self.counts["expressions"] += 1
        self.counts["of those, without a text, of rowfn alone"] += case.text is None
        self.counts["of those, asked of SQLite too"] += case.is_in_sqlite
        self.counts["of those, refused in some row"] += any(isinstance(answer, Fault) for answer in ours)
        self.counts["of those, texts that PostgreSQL reads as they stand"] += case.is_unchanged
        self.counts["of these, without brackets"] += case.is_unchanged and "(" not in case.text
        for answer in ours:
            if isinstance(answer, Fault):
                self.counts["rows refused"] += 1
            elif answer is not NOT_ASKED:
                is_word = answer is None or isinstance(answer, bool)
                name = str(answer).lower().replace("none", "null") if is_word else "numbers and texts"
                self.counts[f"rows answered: {name}"] += 1

    def beside_lines(self, case, ours, theirs):
        """rowfn runs the tree as written: where a call fails in PostgreSQL, it has the fault of the
        first one, and elsewhere the program's value."""
        for row, (faults, one, other) in enumerate(zip(case.faults, ours, theirs)):
            wanted = Fault(fault_of(*faults[0])) if faults else one
            if NOT_ASKED not in (wanted, other):
                self.counts["rows compared with rowfn"] += 1
                if other != wanted:
                    yield Difference(row, "rowfn, by lines", wanted, other)

    def beside_rules(self, ours, theirs):
        """The program runs the tree after rules, as rowfn does after `optimize`."""
        for row, (one, other) in enumerate(zip(ours, theirs)):
            if NOT_ASKED not in (one, other) and one != other:
                yield Difference(row, "rowfn, by lines and rules", one, other)

    def beside_postgresql(self, case, table, asked, ours):
        ways = [("PostgreSQL", postgresql(case.tree))] + [("PostgreSQL, of the same text", case.text)] * case.is_unchanged
        for row, answer in enumerate(ours):
            if answer is NOT_ASKED:
                continue
            faults = case.faults[row]
            self.counts["rows compared with PostgreSQL"] += 1
            if faults and not self.is_allowed(case, table, answer, faults, "PostgreSQL"):
                yield Difference(row, "PostgreSQL, and no rule drops that call", answer, "; ".join(f"{why} in {node.kind}" for node, why in faults))
                continue
            if faults and is_value(answer):
                continue
            for who, text in ways:
                theirs = asked[text][row]
                if not self.is_same(case, table, row, answer, theirs, faults, text == case.text):
                    yield Difference(row, who, answer, theirs)

    def is_allowed(self, case, table, answer, faults, whom):
        """Whether a row in which calls fault may have this result: the fault of one, or, where rules drop each, any value, which
        `beside_rules` compares."""
        names, rules = fault_names(case, table, faults)
        if None in names:
            return False
        if rules is not None and isinstance(answer, Fault) and answer.name not in names and answer.name in faults_above(case.tree, faults):
            self.counts[f"on purpose: a fault of a call above one that rules drop, beside {whom}"] += 1
            return True
        if is_value(answer):
            for rule in set(rules or []):
                self.counts[f"on purpose: a fault, as {whom} has, that goes where {rule}"] += 1
            return rules is not None
        if answer.name in names[1:] and answer.name != names[0]:
            self.counts[f"on purpose: another fault than the first, which rules drop, beside {whom}"] += 1
        elif answer.name == names[0]:
            self.counts[self.kind_of_fault(*faults[0])] += whom == "PostgreSQL"
        return answer.name in names

    @staticmethod
    def kind_of_fault(node, why):
        """What is counted of a call that faults as PostgreSQL's does, or where PostgreSQL has a value, by a rule of functions.py."""
        if why == SHIFT:
            return f"on purpose: refused for {why} in {node.kind}"
        return f"refused for {why} in {node.kind}, as PostgreSQL does"

    def is_same(self, case, table, row, answer, theirs, faults, as_it_stands):
        """Whether PostgreSQL has the same result in a row: for the unchanged text with its own LIKE
        and ILIKE, else with those that `whole` and `folded` make like ours."""
        if faults:
            # PostgreSQL does not evaluate a fault next to what decides, or next to a null
            if not isinstance(theirs, Fault):
                self.counts["on purpose: a fault that PostgreSQL passes over"] += 1
            return not isinstance(theirs, Fault) or theirs.name in STATES or theirs.name == "22025"
        if isinstance(theirs, Fault):
            if theirs.name == "22025" and as_it_stands and not isinstance(answer, Fault) and has_lone_escape(case, table, row):
                self.counts["on purpose: a pattern that ends with its escape, in PostgreSQL's own LIKE"] += 1
                return True
            return False
        if isinstance(answer, Fault):
            return False
        if answer == value_of(case.tree.type, theirs):
            return True
        if as_it_stands and folds_past_ascii(case, table, row):
            self.counts["on purpose: letters past ASCII, in PostgreSQL's own ILIKE"] += 1
            return True
        return False

    def beside_sqlite(self, case, table, ours):
        nodes = dict.fromkeys([case.tree] + [one for node in case.calculations for one in (node, *node.operands)])
        found = self.file.answers([sqlite(node) for node in nodes], table)
        if found is None:
            self.counts["on purpose: nested deeper than SQLite's parser goes"] += 1
            return
        values = dict(zip(nodes, found))
        for row, answer in enumerate(ours):
            if answer is NOT_ASKED:
                continue
            faults = faults_in_sqlite(case, values, row)
            self.counts["rows compared with SQLite"] += 1
            if faults:
                if not self.is_allowed(case, table, answer, faults, "SQLite"):
                    yield Difference(row, "SQLite, and no rule drops that call", answer, f"{faults[0][1]} in {faults[0][0].kind}")
                elif isinstance(answer, Fault):
                    self.counts[f"on purpose: {faults[0][1]} is no refusal in SQLite"] += 1
                continue
            theirs = values[case.tree][row]
            theirs = bool(theirs) if case.tree.type == "bool" and theirs in (0, 1) else theirs
            if type(answer) is type(theirs) and answer == theirs:
                continue
            yield Difference(row, "SQLite", answer, theirs)
