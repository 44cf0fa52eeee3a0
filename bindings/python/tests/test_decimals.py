"""Decimals, in and out."""
import unittest
from decimal import Decimal, localcontext

import numpy as np
from yurkije import ArithmeticRefusal, ColumnError, Expression, ExpressionError, evaluate, mask, select
from yurkije import _capsules as capsules

try:
    import pandas
except ImportError:
    pandas = None


class Decimals(unittest.TestCase):
    def test_values_come_out_as_they_go_in(self):
        prices = [Decimal("12.50"), None, Decimal("-0.05"), Decimal("1E+3"), Decimal("0"), 7]
        for column in (prices, np.array(prices, object)):
            answers = evaluate("p, p * 2 as twice, p > 10 as dear", {"p": column})
            self.assertEqual([answer.type for answer in answers.answers], ["decimal?(6,2)", "decimal?(18,2)", "bool?"])
            self.assertEqual(answers["p"].tolist(), prices)
            self.assertEqual([str(value) for value in answers["p"]], ["12.50", "None", "-0.05", "1000.00", "0.00", "7.00"])
            self.assertEqual(answers["twice"].tolist(), [None if price is None else 2 * price for price in prices])
            self.assertEqual(answers["dear"].tolist(), [True, None, False, True, False, False])
        self.assertEqual(select("p > 12.495", {"p": prices}).tolist(), [0, 3])
        self.assertEqual(evaluate("p", {"p": [Decimal("1.5")]}).answers[0].type, "decimal(2,1)")

    def test_as_pythons(self):
        rng = np.random.default_rng(3)
        for size in (0, 1, 8, 8192, 8193, 20000):
            a, b = ([Decimal(int(n)).scaleb(-places) for n in rng.integers(-(10**9), 10**9, size)] for places in (2, 5))
            wanted = Expression("a + b as sum, a * b as product, a < b as less, -a as minus", {"a": "decimal(12,2)", "b": "decimal(12,5)"})
            answers = wanted.run({"a": a, "b": b})
            with localcontext() as context:
                # what is exact needs no digits of the context
                context.prec = 1
                found = [answers[name].tolist() for name in ("sum", "product", "less", "minus")]
            self.assertEqual(found[0], [x + y for x, y in zip(a, b)])
            self.assertEqual(found[1], [x * y for x, y in zip(a, b)])
            self.assertEqual(found[2], [x < y for x, y in zip(a, b)])
            self.assertEqual(found[3], [-x for x in a])

    def test_the_greatest_and_the_least(self):
        most = Decimal("999999999999999999")
        for places in (0, 9, 18):
            values = [most.scaleb(-places), -most.scaleb(-places), Decimal(1).scaleb(-places), Decimal("0")]
            answers = evaluate("p", {"p": values})
            self.assertEqual(answers.answers[0].type, f"decimal(18,{places})")
            self.assertEqual(answers["p"].tolist(), values)

    def test_too_many_digits_tell_their_row(self):
        for values, row, words in (
            ([Decimal("1"), Decimal("1" * 19)], 1, "at most 18"),
            ([Decimal("1" * 10), None, Decimal("0.123456789")], 2, "10 digits before the point and 9 after it"),
            ([Decimal("0.1"), Decimal(0.1)], 1, "at most 18"),
            ([Decimal("1"), Decimal("1E+999999")], 1, "at most 18"),
            ([Decimal("1"), Decimal("1E-999999")], 1, "at most 18"),
            ([Decimal("1"), Decimal("Infinity")], 1, "Infinity is no decimal"),
            ([Decimal("1"), 1.5], 1, "1.5 is no decimal, but f64"),
            ([Decimal("1"), "2"], 1, "is no decimal, but utf8"),
            ([Decimal("1"), True], 1, "is no decimal, but bool"),
        ):
            with self.assertRaises(ColumnError) as caught:
                evaluate("p", {"p": values})
            self.assertEqual((caught.exception.column, caught.exception.row), ("p", row))
            self.assertIn(words, caught.exception.message)
            self.assertIsInstance(caught.exception, ValueError)
            self.assertLess(len(caught.exception.message), 300)

    def test_zeros_that_are_too_many_are_none(self):
        self.assertEqual(evaluate("p", {"p": [Decimal("1.5" + "0" * 30), Decimal("0E-40")]})["p"].tolist(), [Decimal("1.5"), Decimal("0")])

    def test_a_declared_type_is_kept(self):
        wanted = Expression("p + 1 as more", {"p": "decimal?(6, 2)"})
        self.assertEqual(wanted.columns, {"p": "decimal?(6,2)"})
        self.assertEqual(wanted.run({"p": [1, Decimal("1.500"), None]})["more"].tolist(), [Decimal("2.00"), Decimal("2.50"), None])
        for value in (Decimal("1.005"), Decimal("10000"), 10000, Decimal("1E+40"), Decimal("-Infinity"), Decimal("1E-40")):
            with self.assertRaises(ColumnError) as caught:
                wanted.run({"p": [None, value]})
            self.assertEqual((caught.exception.row, caught.exception.number), (1, 140))
            self.assertIn("is no decimal(6,2)", caught.exception.message)
        self.assertEqual(Expression("p", {"p": "decimal(6,2)?"}).columns, {"p": "decimal?(6,2)"})
        with self.assertRaises(ColumnError):
            wanted.run({"p": np.array([1.5])})

    def test_types_that_are_none(self):
        for said in ("decimal", "decimal(19,2)", "decimal(0,0)", "decimal(2,3)", "decimal?(2,1)?", "decimal(2)", Decimal):
            with self.assertRaises(ExpressionError) as caught:
                Expression("p", {"p": said})
            self.assertEqual(caught.exception.number, 113)

    def test_nans_are_null(self):
        values = [Decimal("1.5"), Decimal("NaN"), float("nan"), Decimal("sNaN")]
        self.assertEqual(evaluate("p", {"p": values})["p"].tolist(), [Decimal("1.5"), None, None, None])

    def test_faults(self):
        with self.assertRaises(ArithmeticRefusal) as caught:
            evaluate("p * 1000000000", {"p": [Decimal("1"), Decimal("9999999999.99")]})
        self.assertEqual(caught.exception.row, 1)

    def test_quotients_are_floats(self):
        self.assertEqual(evaluate("p / 8 as q", {"p": [Decimal("1"), None, Decimal("-0.5")]})["q"].tolist(), [0.125, None, -0.0625])

    def test_groups(self):
        wanted = Expression("p > 100", {"p": "decimal(12,2)"})
        found = wanted.prune(low={"p": [Decimal("0.5"), Decimal("100.01")]}, high={"p": [Decimal("99.99"), Decimal("300")]}, rows=[8, 9])
        self.assertEqual((found.skip.tolist(), found.whole.tolist()), ([True, False], [False, True]))


def _child(answers, number):
    """One column of answers, as an array of Arrow."""
    from test_arrow import Child

    return Child(answers, number)


class Arrow(unittest.TestCase):
    def test_answers_are_a_batch(self):
        prices = [Decimal("12.50"), None, Decimal("-0.05")]
        first = evaluate("p * 1 as p", {"p": prices})
        second = evaluate("p + 0.125 as more, p", first)
        self.assertEqual([answer.type for answer in second.answers], ["decimal?(18,3)", "decimal?(18,2)"])
        self.assertEqual(second["more"].tolist(), [Decimal("12.625"), None, Decimal("0.075")])
        self.assertEqual(second["p"].tolist(), prices)
        schema = capsules.struct_in(first.__arrow_c_array__()[0], b"arrow_schema")
        self.assertEqual(schema.children[0].contents.format, b"d:18,2")

    def test_columns_are_arrays(self):
        answers = evaluate("p", {"p": [Decimal("12.50"), Decimal("3")]})
        self.assertEqual(evaluate("p > 5 as dear", {"p": _child(answers, 0)})["dear"].tolist(), [True, False])
        # of fewer digits than the field, and as many places
        wanted = Expression("p > 5", {"p": "decimal(12,2)"})
        self.assertEqual(wanted.mask({"p": _child(answers, 0)}).tolist(), [True, False])
        for other in ("decimal(12,3)", "decimal(3,2)"):
            with self.assertRaises(ColumnError):
                Expression("p > 5", {"p": other}).mask({"p": _child(answers, 0)})

    def test_a_value_that_is_not_taken_tells_its_row(self):
        # the product has more digits than its type tells
        answers = evaluate("p * 9 as p", {"p": [Decimal("1"), Decimal("1" + "0" * 17), Decimal("2" + "0" * 17)]})
        self.assertEqual(answers["p"].tolist()[2], Decimal("18" + "0" * 17))
        with self.assertRaises(ColumnError) as caught:
            evaluate("p", answers)
        self.assertEqual((caught.exception.number, caught.exception.name, caught.exception.row), (143, "UntakenValue", 2))
        with self.assertRaises(ColumnError) as caught:
            evaluate("p", {"p": _child(answers, 0)})
        self.assertEqual((caught.exception.column, caught.exception.row), ("p", 2))


@unittest.skipUnless(pandas, "pandas is not there")
class Pandas(unittest.TestCase):
    def test_series(self):
        frame = pandas.DataFrame({"p": [Decimal("12.50"), None, Decimal("NaN")], "n": [1, 2, 3]})
        answers = evaluate("p * n as worth, n", frame)
        self.assertEqual(answers["worth"].tolist(), [Decimal("12.50"), None, None])
        found = answers.to_pandas()
        self.assertEqual(found["worth"].tolist(), [Decimal("12.50"), None, None])
        self.assertEqual(frame[mask("p > 1", frame)]["n"].tolist(), [1])


if __name__ == "__main__":
    unittest.main()
