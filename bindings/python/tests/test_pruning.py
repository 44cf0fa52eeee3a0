"""Groups pruned by statistics, compared with runs over rows that these describe."""
import random
import unittest

import numpy as np
from yurkije import ArithmeticRefusal, ColumnError, Error, Expression

TYPES = {"a": "i64?", "b": "i32", "t": "utf8?", "p": "bool?"}
GROUPS, CONDITIONS = 6, 2000


def rows_of(rng):
    """The rows of a group: numbers close together or far apart, some null, and texts with one beginning."""
    size, step = rng.choice((0, 1, 2, 5, 40)), rng.choice((1, 3, 50, 2**31))
    first, share = rng.choice((-60, -3, 0, 2, 100)), rng.choice((0, 0, 0.3, 1))

    def column(make, nullable):
        return [None if nullable and rng.random() < share else make() for _ in range(size)]

    def number(most):
        return lambda: max(-most - 1, min(most, first + rng.randrange(step)))

    begin = rng.choice(("", "k", "kn", "n"))
    texts, truths = column(lambda: begin + rng.choice(("", "a", "nut", "ż")), True), column(lambda: rng.random() < first % 2, True)
    return {"a": column(number(2**63 - 1), True), "b": column(number(2**31 - 1), False), "t": texts, "p": truths}


def end_of(rng, values, is_high):
    """An end of values, or one beyond it, or none."""
    if not values or rng.random() < 0.1:
        return None
    end = max(values) if is_high else min(values)
    if isinstance(end, bool) or rng.random() < 0.6:
        return end
    if isinstance(end, str):
        return end + "z" if is_high else end[:1]
    return end + 1 if is_high and end < 2**31 - 1 else end - 1 if not is_high and end > -(2**31) else end


def statistics_of(rng, groups):
    """Statistics of groups of rows: of a field that is left out, nothing is known."""
    low, high, nulls = {}, {}, {}
    for name in TYPES:
        held = [[value for value in group[name] if value is not None] for group in groups]
        # texts are in the order of their bytes, and so are Python's
        for ends, is_high in ((low, False), (high, True)):
            if rng.random() < 0.9:
                ends[name] = [end_of(rng, values, is_high) for values in held]
        if rng.random() < 0.9:
            nulls[name] = [None if rng.random() < 0.1 else len(group[name]) - len(values) for group, values in zip(groups, held)]
    return {"low": low, "high": high, "nulls": nulls, "rows": [len(group["b"]) for group in groups]}


def number_of(rng, depth):
    if depth == 0 or rng.random() < 0.5:
        return rng.choice(("a", "a", "cast(b as i64)", str(rng.choice((-61, -2, 0, 1, 2, 3, 99, 101, 150)))))
    return f"({number_of(rng, depth - 1)} {rng.choice('+-*/')} {number_of(rng, depth - 1)})"


def condition_of(rng, depth):
    """A condition over the fields, of SQL's three-valued logic and with faults."""
    form = rng.randrange(14) if depth else rng.randrange(4, 14)
    if form < 3:
        return f"({condition_of(rng, depth - 1)} {rng.choice(('and', 'or'))} {condition_of(rng, depth - 1)})"
    if form == 3:
        return rng.choice(("not ({})", "({}) is true", "({}) is not false", "({}) is null")).format(condition_of(rng, depth - 1))
    compared = rng.choice(("<", "<=", ">", ">=", "=", "<>"))
    if form < 8:
        return f"{number_of(rng, 2)} {compared} {number_of(rng, 1)}"
    if form == 8:
        return f"t {compared} '{rng.choice(('', 'k', 'kn', 'knut', 'n', 'z'))}'"
    if form == 9:
        return f"t {rng.choice(('like', 'not like'))} '{rng.choice(('k%', 'kn%', '%t', 'n_t', 'nut', '%'))}'"
    if form == 10:
        return f"{rng.choice('abtp')} is {rng.choice(('', 'not '))}null"
    if form == 11:
        return rng.choice(("p", "not p", "p = (a > 0)"))
    if form == 12:
        return f"a {rng.choice(('in', 'not in'))} ({rng.choice((0, 2, 100))}, {rng.choice((1, 3, 101))})"
    return f"{number_of(rng, 1)} between {number_of(rng, 1)} and {number_of(rng, 0)}"


class Described(unittest.TestCase):
    def test_no_verdict_is_wrong(self):
        rng, skipped, whole, told, faulty = random.Random(7), 0, 0, 0, 0
        for number in range(CONDITIONS):
            if number % 20 == 0:
                groups = [rows_of(rng) for _ in range(GROUPS)]
            text = condition_of(rng, 3)
            wanted = Expression(text, TYPES)
            verdicts = wanted.prune(**statistics_of(rng, groups))
            skipped, whole, told = skipped + verdicts.skip.sum(), whole + verdicts.whole.sum(), told + len(verdicts)
            for group, rows in enumerate(groups):
                faulty += self.compare(text, wanted, verdicts, group, rows)
        # both are seen, and so is that a row may fault
        self.assertGreater(skipped, told // 20)
        self.assertGreater(whole, told // 50)
        self.assertGreater(faulty, told // 100)

    def compare(self, text, wanted, verdicts, group, rows):
        """Runs the condition over the rows of a group, and returns whether it faults."""
        words = (text, rows, verdicts.verdicts[group], verdicts.may_fault[group])
        try:
            mask = wanted.mask(rows, rows=len(rows["b"]))
        except ArithmeticRefusal:
            self.assertTrue(verdicts.may_fault[group], words)
            self.assertFalse(verdicts.whole[group], words)
            return True
        self.assertTrue(not verdicts.skip[group] or not mask.any(), words)
        self.assertTrue(verdicts.verdicts[group] != 1 or not mask.any(), words)
        self.assertTrue(not verdicts.whole[group] or mask.all(), words)
        self.assertTrue(verdicts.least[group] <= mask.sum() <= verdicts.most[group], words)
        return False


class Groups(unittest.TestCase):
    wanted = Expression("price > 100 and name >= 'b', price > 999 and 100 / price > 1, price", {"price": "i64", "name": "utf8?"})
    given = {"low": {"price": np.array([0, 101, 101]), "name": ["nut", "bat", None]}, "high": {"price": np.array([9, 300, 110]), "name": ["z", "bolt", "c"]}}

    def test_masks(self):
        told = self.wanted.prune(**self.given, nulls={"name": np.array([0, 0, 1])}, rows=[8, 9, 10])
        self.assertEqual(told.skip.tolist(), [True, False, False])
        self.assertEqual(told.whole.tolist(), [False, True, False])
        self.assertEqual(told.verdicts.tolist(), [1, 2, 0])
        self.assertEqual((told.least.tolist(), told.most.tolist()), ([0, 9, 0], [0, 9, 10]))
        self.assertEqual(told.may_fault.tolist(), [False] * 3)
        self.assertEqual(repr(told), "<3 groups: 1 to skip, 1 whole>")
        faults = self.wanted.prune(**self.given, rows=np.array([8, 9, 10], np.int32), answer=1)
        self.assertEqual(faults.may_fault.tolist(), [True, False, False])
        self.assertEqual((faults.verdicts.tolist(), faults.skip.tolist()), ([1, 1, 1], [False, True, True]))

    def test_nothing_is_known(self):
        self.assertEqual(self.wanted.prune(rows=[1, 2]).verdicts.tolist(), [0, 0])
        self.assertEqual(len(self.wanted.prune()), 0)
        self.assertEqual(self.wanted.prune(low={"other": [1.5]}, rows=[3]).verdicts.tolist(), [0])

    def test_a_group_that_is_skipped_is_of_the_tree_that_runs(self):
        # rules drop the fault, and the row is true
        both = Expression("1 / a = 1 or true", {"a": "i64"})
        told = both.prune(low={"a": [0]}, high={"a": [0]}, rows=[1])
        self.assertEqual((told.whole.tolist(), both.mask({"a": [0]}).tolist()), ([True], [True]))

    def test_ends_that_leave_nan_out(self):
        # the second group has a NaN, which is above its high end
        above = Expression("x > 2.0, x < 1.0, x <= 5.0", {"x": "f64"})
        given = {"low": {"x": [3.0, 1.0, float("nan")]}, "high": {"x": [4.0, 2.0, float("nan")]}, "rows": [9, 9, 9]}
        rows = [3.0, 4.0], [1.0, 2.0, float("nan")], [float("nan")]
        for answer, (tight, left_out) in enumerate((([2, 1, 2], [2, 0, 0]), ([1, 1, 1], [1, 1, 0]), ([2, 2, 1], [0, 0, 0]))):
            self.assertEqual(above.prune(**given, answer=answer).verdicts.tolist(), tight)
            told = above.prune(**given, answer=answer, nan_is_left_out=True)
            self.assertEqual(told.verdicts.tolist(), left_out)
            for verdict, values in zip(told.verdicts, rows):
                mask = above.mask({"x": values}, answer)
                self.assertTrue((verdict != 1 or not mask.any()) and (verdict != 2 or mask.all()))

    def test_refusals(self):
        def refused(kind, number, column, row, *, answer=0, rows=(8, 9, 10), **changed):
            with self.assertRaises(kind) as caught:
                self.wanted.prune(**{**self.given, **changed}, rows=rows, answer=answer)
            error = caught.exception
            self.assertEqual((error.number, error.column, error.row), (number, column, row), error.message)
            return error.message

        words = refused(ColumnError, 132, "price", 1, low={"price": [0, 301, 0]})
        self.assertEqual(words, "field 0 (price), group 1: statistics contradict themselves")
        refused(ColumnError, 132, "price", 0, nulls={"price": [1, 0, 0]})
        refused(ColumnError, 132, "name", 2, nulls={"name": [0, 0, 11]})
        words = refused(ColumnError, 2, "price", None, rows=(8, 9))
        self.assertEqual(words, "field 0 (price), low: 3 items for 2 groups")
        refused(ColumnError, 11, "price", None, low={"price": np.array([0, 1, 2], np.int32)})
        refused(Error, 101, None, None, answer=3)
        refused(Error, 103, None, None, answer=2)
        refused(ColumnError, 140, "rows", 0, rows=(-1, 9, 10))
        refused(ColumnError, 124, "rows", None, rows=(None, 9, 10))
        refused(ColumnError, 140, "name", 1, nulls={"name": [0, 2**64, 0]})


if __name__ == "__main__":
    unittest.main()
