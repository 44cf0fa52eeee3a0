"""Floats, dates and timestamps, in and out."""
import datetime
import unittest

import numpy as np
from yurkije import ColumnError, Expression, ExpressionError, evaluate, mask, select

try:
    import pandas
except ImportError:
    pandas = None

SIZES = (0, 1, 7, 8, 9, 8191, 8192, 8193, 30000)


class Floats(unittest.TestCase):
    def test_floats_are_as_numpys(self):
        rng = np.random.default_rng(1)
        for dtype, name in ((np.float64, "f64"), (np.float32, "f32")):
            for size in SIZES:
                x, y = rng.normal(size=size).astype(dtype), rng.normal(size=size).astype(dtype)
                answers = evaluate("x, x < y as less", {"x": x, "y": y})
                self.assertEqual([tuple(answer) for answer in answers.answers], [("x", name), ("less", "bool")])
                self.assertEqual(answers["x"].dtype, dtype)
                np.testing.assert_array_equal(answers["x"], x)
                np.testing.assert_array_equal(answers["less"], x < y)
                np.testing.assert_array_equal(select("x < y", {"x": x, "y": y}), np.flatnonzero(x < y))

    def test_sums_are_as_numpys(self):
        rng = np.random.default_rng(2)
        for size in SIZES:
            x, y = rng.normal(size=size), rng.normal(size=size)
            answers = evaluate("x + y as a, x - y as b, x * y as c", {"x": x, "y": y})
            for name, values in (("a", x + y), ("b", x - y), ("c", x * y)):
                np.testing.assert_array_equal(answers[name], values)

    def test_the_order_is_postgresqls(self):
        x = np.array([1.5, np.nan, -0.0, np.inf, -np.inf])
        self.assertEqual(mask("x > 1.0", {"x": x}).tolist(), [True, True, False, True, False])
        self.assertEqual(mask("x = x", {"x": x}).tolist(), [True] * 5)
        self.assertEqual(mask("x = 0.0", {"x": x}).tolist(), [False, False, True, False, False])
        self.assertFalse(np.signbit(evaluate("x", {"x": x})["x"][2]))

    def test_nans_are_values_or_null(self):
        for x in (np.array([1.5, np.nan]), [1.5, float("nan")]):
            self.assertEqual(mask("x > 1.0", {"x": x}).tolist(), [True, True])
            self.assertEqual(mask("x > 1.0", {"x": x}, nan_is_null=True).tolist(), [True, False])
            self.assertEqual(evaluate("x is null", {"x": x}, nan_is_null=True)["x is null"].tolist(), [False, True])
        answers = evaluate("x", {"x": [1.5, None, float("nan")]})["x"]
        self.assertEqual(answers.mask.tolist(), [False, True, False])
        self.assertTrue(np.isnan(answers.data[2]))

    def test_a_float_is_no_integer(self):
        with self.assertRaises(ColumnError) as caught:
            Expression("x", {"x": "f64"}).run({"x": np.array([1])})
        self.assertEqual(caught.exception.number, 11)

    def test_groups_are_left_out(self):
        wanted = Expression("x > 1.0", {"x": "f64"})
        self.assertEqual(wanted.prune(low={"x": [0.0, 2.0]}, high={"x": [0.5, 3.0]}, rows=[8, 9]).skip.tolist(), [True, False])


class Times(unittest.TestCase):
    def test_dates(self):
        for size in SIZES:
            days = np.arange(size).astype("datetime64[D]")
            answers = evaluate("d, d + 1 as next, d > '1980-01-01' as late", {"d": days})
            self.assertEqual([answer.type for answer in answers.answers], ["date", "date", "bool"])
            np.testing.assert_array_equal(answers["d"], days)
            np.testing.assert_array_equal(answers["next"], days + 1)
            np.testing.assert_array_equal(answers["late"], days > np.datetime64("1980-01-01"))

    def test_timestamps_of_each_unit(self):
        for unit in ("h", "m", "s", "ms", "us", "ns"):
            times = np.array(["2024-02-29T12", "NaT", "1969-12-31T23"], f"datetime64[{unit}]")
            found = evaluate("t", {"t": times})["t"]
            self.assertEqual((found.dtype, found.mask.tolist()), (np.dtype("datetime64[us]"), [False, True, False]))
            self.assertEqual(found.data[[0, 2]].tolist(), times.astype("datetime64[us]")[[0, 2]].tolist())

    def test_what_is_no_whole_microsecond(self):
        times = np.array(["2024-02-29T12:00:00", "2024-02-29T12:00:00.000000001"], "datetime64[ns]")
        with self.assertRaises(ColumnError) as caught:
            evaluate("t", {"t": times})
        self.assertEqual((caught.exception.number, caught.exception.row), (140, 1))
        with self.assertRaises(ColumnError) as caught:
            Expression("t", {"t": "date"}).run({"t": times[:1]})
        self.assertEqual(caught.exception.row, 0)

    def test_dates_of_python(self):
        day, time = datetime.date(2024, 2, 29), datetime.datetime(2024, 2, 29, 1, 2, 3)
        self.assertEqual(evaluate("d", {"d": [day, None]})["d"].tolist(), [day, None])
        self.assertEqual(evaluate("d", {"d": [time, None]})["d"].tolist(), [time, None])

    def test_times_in_zones_are_instants(self):
        zone = datetime.timezone(datetime.timedelta(hours=2))
        time = datetime.datetime(2024, 2, 29, 1, 2, 3, 4, zone)
        self.assertEqual(evaluate("t", {"t": [time, None]})["t"].tolist(), [datetime.datetime(2024, 2, 28, 23, 2, 3, 4), None])
        with self.assertRaises(ColumnError) as caught:
            evaluate("t", {"t": [time, None, time.replace(tzinfo=None)]})
        self.assertEqual(caught.exception.row, 2)

    def test_durations_are_refused_by_name(self):
        for values in (np.array([1, 2], "timedelta64[ns]"), [datetime.timedelta(1)], [None, np.timedelta64(1, "D")]):
            with self.assertRaises(ColumnError) as caught:
                evaluate("t", {"t": values})
            self.assertIn("timedelta", caught.exception.message)
            self.assertIn("no type of durations", caught.exception.message)

    def test_a_literal_that_is_no_date(self):
        with self.assertRaises(ExpressionError) as caught:
            evaluate("d > 'soon'", {"d": np.zeros(1, "datetime64[D]")})
        self.assertEqual((caught.exception.number, caught.exception.name), (119, "NotOfKind"))


@unittest.skipUnless(pandas, "pandas is not there")
class Pandas(unittest.TestCase):
    def test_series(self):
        frame = pandas.DataFrame({"x": [1.5, None], "y": pandas.array([1.5, None], "Float64"), "t": pandas.to_datetime(["2024-01-01", None])})
        answers = evaluate("x, y, t", frame)
        self.assertEqual([answer.type for answer in answers.answers], ["f64", "f64?", "timestamp?"])
        found = answers.to_pandas()
        self.assertEqual([str(dtype) for dtype in found.dtypes][:2], ["float64", "Float64"])
        self.assertEqual(found["y"].isna().tolist(), [False, True])
        self.assertEqual(found["t"].tolist()[0], pandas.Timestamp("2024-01-01"))
        self.assertTrue(pandas.isna(found["t"][1]))

    def test_extended_floats(self):
        for name, kind in (("Float64", "f64?"), ("Float32", "f32?")):
            frame = pandas.DataFrame({"x": pandas.array([1.5, None, 2.5], name)})
            answers = evaluate("x, x > 2.0 as more", frame)
            self.assertEqual([answer.type for answer in answers.answers], [kind, "bool?"])
            self.assertEqual(answers["more"].tolist(), [False, None, True])
            self.assertEqual(str(answers.to_pandas()["x"].dtype), name)

    def test_times_of_each_unit(self):
        for unit in ("s", "ms", "us", "ns"):
            frame = pandas.DataFrame({"t": pandas.Series(np.array(["2024-02-29T12:34:56", "NaT"], f"datetime64[{unit}]"))})
            found = evaluate("t, t > '2024-01-01 00:00:00' as late", frame)
            self.assertEqual(found["t"].tolist(), [datetime.datetime(2024, 2, 29, 12, 34, 56), None])
            self.assertEqual(found["late"].tolist(), [True, None])

    def test_times_in_zones_are_instants(self):
        times = pandas.Series(pandas.to_datetime(["2024-02-29 12:00", None, "2024-07-01 12:00"])).dt.tz_localize("Europe/Warsaw")
        frame = pandas.DataFrame({"t": times})
        wanted = [datetime.datetime(2024, 2, 29, 11), None, datetime.datetime(2024, 7, 1, 10)]
        self.assertEqual(evaluate("t", frame)["t"].tolist(), wanted)
        self.assertEqual(Expression("t", {"t": "timestamp?"}).run(frame)["t"].tolist(), wanted)
        self.assertEqual(Expression("t is null", frame.dtypes).columns, {"t": "timestamp"})
        self.assertEqual(evaluate("t", {"t": pandas.DatetimeIndex(times)})["t"].tolist(), wanted)
        self.assertEqual(evaluate("t", {"t": times.astype(object)})["t"].tolist(), wanted)

    def test_lists_of_pandas_times(self):
        time = pandas.Timestamp("2024-02-29 12:34:56.789012")
        self.assertEqual(evaluate("t", {"t": [time, pandas.NaT, None]})["t"].tolist(), [time.to_pydatetime(), None, None])
        with self.assertRaises(ColumnError) as caught:
            evaluate("t", {"t": [time, time + pandas.Timedelta(1, "ns")]})
        self.assertEqual(caught.exception.row, 1)

    def test_durations_are_refused_by_name(self):
        with self.assertRaises(ColumnError) as caught:
            evaluate("t", pandas.DataFrame({"t": pandas.to_timedelta([1, 2], "D")}))
        self.assertIn("no type of durations", caught.exception.message)


if __name__ == "__main__":
    unittest.main()
