"""Errors: exceptions with number, name, column and row."""
import os
import re
import unittest

import numpy as np
from yurkije import ArithmeticRefusal, ColumnError, Error, Expression, ExpressionError, evaluate, mask, select
from yurkije._library import STATUSES

# The installed headers, or those next to this package.
HEADERS = f"{os.environ['YURKIJE_PREFIX']}/include" if "YURKIJE_PREFIX" in os.environ else f"{os.path.dirname(__file__)}/../../c"


class Refusals(unittest.TestCase):
    def refused(self, kind, call, **told):
        """Expects an error of that class, whose message contains these words."""
        with self.assertRaises(kind) as caught:
            call()
        for name, value in told.items():
            self.assertEqual(getattr(caught.exception, name), value, (name, caught.exception.message))
        self.assertIsInstance(caught.exception, Error)
        return caught.exception

    def test_texts(self):
        columns = {"price": [1], "stock": [2]}
        error = self.refused(ExpressionError, lambda: evaluate("price > 1 and\nprcie < 2", columns), number=11, name="ScopeMismatch", line=2, character=1)
        self.assertIn("price", error.message)
        self.refused(ExpressionError, lambda: evaluate("price +", columns), number=112, name="NoExpression", byte=7)
        self.refused(ExpressionError, lambda: evaluate("price = 'a'", columns), number=114, name="NotHeld")
        self.refused(ExpressionError, lambda: evaluate("price and 'a'", columns), number=3, name="TypeMismatch")
        self.refused(ExpressionError, lambda: Expression("a", {"a": "int"}), number=113, name="UnknownType", column="a")

    def test_a_text_that_is_wrong_is_told_before_any_column(self):
        floats, twice = np.array([1.5], np.float16), np.zeros((1, 2))
        for columns in ({"a": [1], "f": floats}, {"a": floats, "f": floats}, {"f": twice, "a": [object()]}, {"f": [], "a": [1]}):
            for ask in (evaluate, select, mask):
                self.refused(ExpressionError, lambda: ask("a => 1", columns), number=112, byte=3)
                self.refused(ExpressionError, lambda: ask("f > 1 and a => 1", columns), number=112, byte=13)
                self.refused(ExpressionError, lambda: ask("a + 1 > 2 and b = 1", columns), number=11, byte=14)
                self.refused(ExpressionError, lambda: ask("a is null or null + null = 1", columns), number=3)
                self.refused(ExpressionError, lambda: ask("a is null or 300::u8 = 1", columns), number=114)
                self.refused(ExpressionError, lambda: ask("a is null or 3::number = 1", columns), number=113)
        # if the text may be right, the column is reported
        self.refused(ColumnError, lambda: select("a + 1 > 2 and f = 'x'", {"f": floats, "a": floats}), number=140, column="f")
        self.refused(ColumnError, lambda: select("a = 1", {"f": floats, "a": [1.5j]}), number=140, column="a")
        self.refused(ExpressionError, lambda: Expression("a => 1", {"a": "int", "f": "float"}), number=112)
        self.refused(ExpressionError, lambda: Expression("a = 1", {"a": "int", "f": "float"}), number=113, column="a")
        # a near name may be that of any column, whatever its type
        error = self.refused(ExpressionError, lambda: select("prcie > 1", {"price": floats}), number=11)
        self.assertIn('is "price" meant?', error.message)
        self.refused(ExpressionError, lambda: select("a + 1 > 'x'", {"a": [1], "f": floats}), number=114)

    def test_answers_that_are_no_truth_values_take_no_rows(self):
        made = Expression("a + 1, a > 1", {"a": "i64?"})
        batch = evaluate("a", {"a": [1, None]})
        for call in (lambda: select("a + 1", {"a": [1]}), lambda: mask("a + 1", {"a": np.arange(5)}), lambda: made.mask({"a": [1]}), lambda: made.select(batch)):
            error = self.refused(Error, call, number=103, name="OtherKind")
            self.assertRegex(error.message, r'^answer 0, "a \+ 1", is i64\??, and rows are taken where a bool is true$')
        for number in (2, -1):
            error = self.refused(Error, lambda: made.select({"a": [1]}, number), number=101, name="NoSuchNumber")
            self.assertIn(f"no answer {number}", error.message)

    def test_a_mismatch_names_both_types(self):
        wide = Expression("a > 1", {"a": "i64", "f": "i8"})
        cases = {
            "i32": np.array([1], np.int32), "bool": [True], "utf8": ["x"], "u8": np.array([1], np.uint8), "f64": np.array([1.5]), "f32": [np.float32(1.5)],
            "object": [object()], "binary": np.array([b"x"]), "ndarray": [np.zeros(1)],
        }  # fmt: skip
        for found, values in cases.items():
            error = self.refused(ColumnError, lambda: wide.mask({"a": values}), column="a")
            self.assertRegex(error.message, rf'^column "a".*\b{found}\b' if found != "ndarray" else "ndarray")
            self.assertIn("i64", error.message)
        self.refused(ColumnError, lambda: wide.mask({"a": np.array([1], np.int32)}), number=11, name="ScopeMismatch")
        self.refused(ColumnError, lambda: wide.mask({"a": [1, 2, "x"]}), number=140, row=2)

    def test_numbers_that_a_type_does_not_hold(self):
        for kind, wrong in (("u8", 256), ("u8", -1), ("i8", -129), ("u32", 2**32), ("u64", -1), ("u64", 2**64), ("i64", 2**63), ("i32", np.int64(2**40)), ("i64", np.uint64(2**63))):
            made = Expression("x", {"x": kind + "?"})
            error = self.refused(ColumnError, lambda: made.run({"x": [1, None, wrong]}), number=140, column="x", row=2)
            self.assertIn(f"{wrong} is no {kind}", error.message)

    def test_columns_that_are_no_mapping(self):
        for columns in (np.arange(3), [1, 2], 5):
            self.assertRaisesRegex(TypeError, "columns are a mapping", lambda: select("a > 1", columns))

    def test_the_first_row_that_faults(self):
        a = np.arange(30000)
        self.refused(ArithmeticRefusal, lambda: evaluate("a + 1, 7 / (a - 20000) as share", {"a": a}), number=7, name="Arithmetic", row=20000, answer=1)
        self.refused(ArithmeticError, lambda: evaluate("a * 9223372036854775807", {"a": a}), row=2)

    def test_columns(self):
        both = Expression("a + b", {"a": "i64", "b": "i64?"})
        self.refused(ColumnError, lambda: both.run({"a": [1, 2], "b": [3]}), number=2, name="LengthMismatch", column="b")
        self.refused(ColumnError, lambda: both.run({"a": np.array([1, 2], np.int32), "b": [3, 4]}), number=11, column="a")
        nulls = np.ma.MaskedArray(np.zeros(20000, np.int64), [row == 12345 for row in range(20000)])
        self.refused(ColumnError, lambda: both.run({"a": nulls, "b": nulls}), number=124, name="UnexpectedNull", column="a", row=12345)
        with self.assertRaises(KeyError):
            both.run({"a": [1]})

    def test_types_that_are_not_taken_are_named(self):
        cases = {
            "float16": np.array([1.5], np.float16), "datetime64 without a unit": np.array(["NaT"], "datetime64"), "complex128": np.array([1j]),
            "2 dimensions": np.zeros((1, 1), np.int64), "every row is null, and no type is said": [None], "str": "text", "'x' is no i64, but utf8": [1, "x"],
            "True is no i64, but bool": [1, True], "9223372036854775808 is no i64": [2**63], "there is no row, and no type is said": [], "1.5 is no i64, but f64": [1, 1.5],
            "timedelta64 is not taken": [np.timedelta64(5)], "no i64, but timedelta64": [1, np.timedelta64(5)], "Int64DType is not taken|dtype": np.dtype("i8"),
        }  # fmt: skip
        for words, values in cases.items():
            error = self.refused(ColumnError, lambda: evaluate("x", {"x": values}), number=140, name="UntakenFormat", column="x")
            self.assertRegex(error.message, words)

    def test_a_text_with_a_lone_surrogate_is_no_utf8(self):
        with self.assertRaises(UnicodeEncodeError):
            evaluate("x", {"x": ["\udcff"]})

    def test_statuses_are_those_of_the_headers(self):
        found = {}
        for name in ("yurkije.h", "yurkije_arrow.h"):
            with open(f"{HEADERS}/{name}", encoding="utf-8") as file:
                for block in re.findall(r"enum yk_(?:arrow_)?status \{(.*?)\};", file.read(), re.S):
                    found.update((int(number), word.replace("_", "").lower()) for word, number in re.findall(r"YK_(\w+) = (\d+)", block))
        del found[0]
        self.assertEqual(found, {number: name.lower() for number, name in STATUSES.items()})


if __name__ == "__main__":
    unittest.main()
