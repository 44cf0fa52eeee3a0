"""Columns in and answers out, compared with numpy, pandas, and values by hand."""
import pickle
import unittest

import numpy as np
import yurkije
from yurkije import Expression, evaluate, mask, select

try:
    import pandas
except ImportError:
    pandas = None

SIZES = (0, 1, 7, 8, 9, 8191, 8192, 8193, 30000)


def rows_of(array):
    """Returns an answer as a list, with None for null."""
    return array.tolist()


class Numpy(unittest.TestCase):
    def test_a_filter_is_as_numpys(self):
        rng = np.random.default_rng(1)
        for size in SIZES:
            a, b, c = rng.integers(-100, 100, size), rng.integers(-100, 100, size), rng.integers(0, 9, size)
            got = evaluate("a < b and c > 5 as taken", {"a": a, "b": b, "c": c})["taken"]
            np.testing.assert_array_equal(got, (a < b) & (c > 5))
            np.testing.assert_array_equal(select("a < b and c > 5", {"a": a, "b": b, "c": c}), np.flatnonzero((a < b) & (c > 5)))
            wanted = Expression("a < b and c > 5", {"a": "i64", "b": "i64", "c": "i64"}).mask({"a": a, "b": b, "c": c}, rows=size)
            self.assertEqual(wanted.dtype, np.bool_)
            np.testing.assert_array_equal(wanted, (a < b) & (c > 5))

    def test_masks_are_nulls(self):
        rng = np.random.default_rng(2)
        for size in SIZES:
            a, nulls = rng.integers(-100, 100, size), rng.random(size) < 0.2
            answers = evaluate("a + 1 as more, a is null as missing, a > 0 or a is null as taken", {"a": np.ma.MaskedArray(a, nulls)})
            self.assertEqual(rows_of(answers["more"]), [None if null else value + 1 for value, null in zip(a.tolist(), nulls)])
            np.testing.assert_array_equal(answers["missing"], nulls)
            np.testing.assert_array_equal(np.ma.filled(answers["taken"], False), (a > 0) | nulls)
            # null is not true
            masked = np.ma.MaskedArray(a, nulls)
            wanted = Expression("a > 0, a", {"a": "i64?"})
            np.testing.assert_array_equal(wanted.mask({"a": masked}), (a > 0) & ~nulls)
            np.testing.assert_array_equal(wanted.mask(evaluate("a", {"a": masked})), (a > 0) & ~nulls)
            for given in ({"a": masked}, evaluate("a", {"a": masked})):
                with self.assertRaises(yurkije.Error) as refused:
                    wanted.mask(given, 1)
                self.assertEqual(refused.exception.number, 103)

    def test_each_integer_type_comes_back_as_it_was(self):
        for kind in ("i1", "i2", "i4", "i8", "u1", "u2", "u4", "u8"):
            ends = np.iinfo(kind)
            values = np.array([ends.min, 0, ends.max], kind)
            for given in (values, values.astype(values.dtype.newbyteorder(">")), np.repeat(values, 2)[::2]):
                answer = evaluate("x", {"x": given})["x"]
                self.assertEqual(answer.dtype, np.dtype(kind))
                np.testing.assert_array_equal(answer, values)

    def test_truth_values(self):
        x, y = np.array([True, False, True]), np.ma.MaskedArray([True, True, False], [False, True, False])
        answers = evaluate("x and y as joint, not x as other", {"x": x, "y": y})
        self.assertEqual(rows_of(answers["joint"]), [True, False, False])
        self.assertEqual(answers["other"].dtype, np.bool_)

    def test_arrays_of_texts(self):
        for given in (np.array(["nut", "żółw", ""]), np.array(["nut", "żółw", ""], object), ["nut", "żółw", ""], ("nut", "żółw", "")):
            answers = evaluate("t, t like 'n%' as found, t = '' as none", {"t": given})
            self.assertEqual(answers["t"].tolist(), ["nut", "żółw", ""])
            self.assertEqual(answers["found"].tolist(), [True, False, False])
            self.assertEqual(answers["none"].tolist(), [False, False, True])
        zeros = ["a\0b", "", None, "\0"]
        self.assertEqual(evaluate("t", {"t": zeros})["t"].tolist(), zeros)
        long = [None if row % 5 == 3 else f"a text of row {row}, ł" * (row % 3) for row in range(20000)]
        self.assertEqual(evaluate("t", {"t": long})["t"].tolist(), long)

    def test_byte_strings(self):
        given = [b"\xff\x00", None, b""]
        self.assertEqual(evaluate("x", {"x": given})["x"].tolist(), given)

    def test_a_mask_is_where_a_text_is_true(self):
        a = np.ma.MaskedArray([1, 2, 3, 4], [False, True, False, False])
        for given in ({"a": a}, {"a": [1, None, 3, 4]}, evaluate("a", {"a": a})):
            wanted = mask("a > 1 and a < 4", given)
            self.assertEqual((wanted.dtype, wanted.tolist()), (np.dtype(bool), [False, False, True, False]))
            np.testing.assert_array_equal(select("a > 1 and a < 4", given), np.flatnonzero(wanted))
            # null is not true, and neither is its negation
            self.assertEqual(mask("not a > 1", given).tolist(), [True, False, False, False])
        self.assertEqual(mask("true", {"a": [5, 6]}).tolist(), [True, True])
        rng = np.random.default_rng(4)
        for size in SIZES:
            b = rng.integers(-100, 100, size)
            np.testing.assert_array_equal(mask("b < 0 or b = 7", {"b": b}), (b < 0) | (b == 7))

    def test_numbers_of_numpy_in_lists_have_their_type(self):
        for kind in ("i1", "i2", "i4", "i8", "u1", "u2", "u4", "u8"):
            cls, ends = np.dtype(kind).type, np.iinfo(kind)
            answer = evaluate("x", {"x": [cls(ends.max), None, cls(ends.min)]})["x"]
            self.assertEqual((answer.dtype, rows_of(answer)), (np.dtype(kind), [ends.max, None, ends.min]))
        self.assertEqual(evaluate("x", {"x": [np.int32(5)]})["x"].dtype, np.int32)
        self.assertEqual(evaluate("x", {"x": [5, np.int8(6)]})["x"].dtype, np.int64)
        self.assertEqual(rows_of(evaluate("x", {"x": [np.bool_(True), None, False]})["x"]), [True, None, False])
        self.assertEqual(rows_of(evaluate("x", {"x": [np.str_("a"), "b", None]})["x"]), ["a", "b", None])
        self.assertEqual(rows_of(evaluate("x", {"x": [np.bytes_(b"a"), b"b"]})["x"]), [b"a", b"b"])

    def test_nan_is_null_in_a_list(self):
        for null in (float("nan"), np.float64("nan"), np.float32("nan")):
            self.assertEqual(rows_of(evaluate("x + 1 as more", {"x": [1, null, 3]})["more"]), [2, None, 4])
            self.assertEqual(rows_of(evaluate("t", {"t": [null, "a"]})["t"]), [None, "a"])
            self.assertEqual(rows_of(evaluate("t", {"t": np.array([null, "a", None], object)})["t"]), [None, "a", None])

    def test_columns_without_a_value_have_the_type_that_is_said(self):
        for kind in ("bool?", "i64?", "u8?", "utf8?", "binary?"):
            made = Expression("x is null as missing, x", {"x": kind})
            for values in ([], [None], [None] * 9, [float("nan"), None]):
                answers = made.run({"x": values})
                self.assertEqual(rows_of(answers["missing"]), [True] * len(values))
                self.assertEqual(rows_of(answers["x"]), [None] * len(values))
        self.assertEqual(rows_of(evaluate("x + 1 as more", {"x": np.zeros(0, np.int16)}, 0)["more"]), [])

    def test_labels_may_be_numbers(self):
        self.assertEqual(rows_of(evaluate('"0" + "1" as sum', {0: [1, 2], 1: [3, 4], "f": [1.5, 2]})["sum"]), [4, 6])
        made = Expression('"7" > 1', {7: "i64"})
        self.assertEqual(made.columns, {"7": "i64"})
        self.assertEqual(made.select({7: [1, 2]}).tolist(), [1])
        # the label that equals the text comes first
        self.assertEqual(select('"7" > 1', {7: [1, 2], "7": [2, 1]}).tolist(), [0])

    def test_types_may_be_numpys(self):
        cases = {"i8": np.dtype("i1"), "i64": np.dtype("i8"), "u16": np.uint16, "bool": np.dtype(bool), "utf8": np.dtype("U3"), "i32": np.dtype(">i4")}
        for name, said in cases.items():
            self.assertEqual(Expression("a", {"a": said}).columns, {"a": name})
        self.assertEqual(rows_of(Expression("a + 1", {"a": np.dtype("i8")}).run({"a": [4]})["a + 1"]), [5])

    def test_lists_have_the_type_of_their_first_value_or_the_one_that_is_said(self):
        self.assertEqual(rows_of(evaluate("x + 1", {"x": [None, 2]})["x + 1"]), [None, 3])
        small = Expression("x", {"x": "u8?"})
        self.assertEqual(small.run({"x": [1, None, 255]})["x"].dtype, np.uint8)
        self.assertEqual(rows_of(small.run({"x": [None, None]})["x"]), [None, None])

    def test_a_literal_has_as_many_rows_as_are_said(self):
        self.assertEqual(evaluate("1 + 2 as three", {}, rows=3)["three"].tolist(), [3, 3, 3])
        self.assertEqual(len(evaluate("'a' as a", {"x": np.arange(5)})["a"]), 5)


class Expressions(unittest.TestCase):
    def test_an_expression_tells_its_answers_and_columns(self):
        made = Expression("price * stock as worth, price > 100, \"a name\"", {"price": "i64", "stock": "i64?", "a name": "utf8", "other": "bool"})
        self.assertEqual(made.answers, (("worth", "i64?"), ("price > 100", "bool"), ("a name", "utf8")))
        self.assertEqual(made.columns, {"price": "i64", "stock": "i64?", "a name": "utf8"})
        self.assertEqual(made.text_of_answer(1), "price > 100")
        self.assertEqual(Expression("x and true", {"x": "bool"}).text_of_answer(0, optimized=True), "x")

    def test_columns_that_are_not_read_may_be_of_any_type(self):
        others = {name: [1.5] for name in ("and", "i64", "7", "bool", "e", "end", "in", "length")} | {"f": np.array([1.5]), "o": [object()]}
        columns = {"a": [1], **others}
        self.assertEqual(evaluate("a", columns)["a"].tolist(), [1])
        self.assertEqual(evaluate("a + 7::i64 as f -- o", columns)["f"].tolist(), [8])
        self.assertEqual(evaluate("cast(a = 1 as bool?) AND a > 0 as -- f\n \"o\", 'o \"f\"' as e", columns)["o"].tolist(), [True])
        self.assertEqual(evaluate("case when a in (1, 2) then length('ab') /* 'o /* f */ */ end as g", columns)["g"].tolist(), [2])
        self.assertEqual(select("a = 1 and true", columns).tolist(), [0])
        self.assertEqual(Expression("a", {"a": "i64", "f": "float64"}).columns, {"a": "i64"})

    def test_columns_that_are_named_are_read(self):
        columns = {"a b": [1], 'a"b': [2], "and": [3], "as": [4], "i64": [5], "f": [6], "--": [7], "'": [8]}
        text = """"a b"+"a""b" as f,"and"*"as" as g,-- no "x"\n"i64"/f as "as",'--'as e,"--" + "'" as h"""
        answers = evaluate(text, columns)
        self.assertEqual([rows_of(answers[name])[0] for name in ("f", "g", "as", "e", "h")], [3, 12, 0, "--", 15])
        for end in ("\r", "\n", "\r\n"):
            self.assertEqual(rows_of(evaluate(f"f /* 'a /* {end} \" */ 'b*/+ i64 + length('f') as f", columns)["f"]), [12])
            self.assertEqual(rows_of(evaluate(f"f -- 'and (\"{end}+ i64 -- - f{end} as --{end} f", columns)["f"]), [11])

    def test_an_expression_runs_over_many_batches_and_is_pickled(self):
        made = pickle.loads(pickle.dumps(Expression("a + b", {"a": "i16", "b": "i16"})))
        for size in SIZES:
            a = np.arange(size, dtype=np.int16)
            np.testing.assert_array_equal(made.run({"a": a, "b": -a})["a + b"], np.zeros(size, np.int16))

    def test_answers_outlive_what_they_came_of(self):
        values = evaluate("a + 1 as more", {"a": np.arange(100000)})["more"]
        np.testing.assert_array_equal(values, np.arange(1, 100001))

    def test_versions(self):
        self.assertEqual(yurkije.version(), f"yurkije {yurkije.__version__}")


@unittest.skipUnless(pandas, "python3-pandas is not there")
class Pandas(unittest.TestCase):
    def test_a_frame(self):
        frame = pandas.DataFrame({"a": [1, 2, 3], "t": ["x", None, "nut"], "f": [0.5, 1, 2], "b": [True, False, True]})
        answers = evaluate("a * 2 as twice, t like '%u%' as found, b", frame)
        self.assertEqual(answers["twice"].tolist(), (frame.a * 2).tolist())
        self.assertEqual(rows_of(answers["found"]), [False, None, True])
        self.assertEqual(answers["b"].tolist(), [True, False, True])

    def test_nullable_types(self):
        frame = pandas.DataFrame({
            "i": pandas.array([1, None, 3], dtype="Int32"),
            "b": pandas.array([True, None, False], dtype="boolean"),
            "s": pandas.array(["x", None, "y"], dtype="string"),
            "c": pandas.Categorical(["x", "y", None]),
        })  # fmt: skip
        answers = evaluate("i + 1::i32 as more, not b as other, s, c", frame)
        self.assertEqual(rows_of(answers["more"]), [2, None, 4])
        self.assertEqual(rows_of(answers["other"]), [False, None, True])
        self.assertEqual(answers["s"].tolist(), ["x", None, "y"])
        self.assertEqual(answers["c"].tolist(), ["x", "y", None])

    def test_answers_are_a_frame(self):
        frame = pandas.DataFrame({"a": [1, 2, 3], "t": ["x", None, "nut"], "i": pandas.array([2**62 + 1, None, 3], "Int64")})
        answers = evaluate("a * 2 as twice, t, t like '%u%' as found, a > 1 as big, i", frame)
        made = pandas.DataFrame(answers)
        self.assertEqual(list(made.columns), ["twice", "t", "found", "big", "i"])
        self.assertEqual(made["twice"].tolist(), [2, 4, 6])
        self.assertEqual(made["t"].tolist(), ["x", None, "nut"])
        self.assertEqual(made["found"].tolist()[::2], [False, True])
        self.assertEqual(made.isna().values.tolist(), [[False] * 5, [False, True, True, False, True], [False] * 5])
        self.assertEqual(made["big"].tolist(), [False, True, True])
        exact = answers.to_pandas()
        self.assertEqual(list(map(str, exact.dtypes)), ["int64", "object", "boolean", "bool", "Int64"])
        self.assertEqual(exact["i"].tolist(), [2**62 + 1, pandas.NA, 3])
        self.assertEqual(exact["found"].tolist(), [False, pandas.NA, True])
        self.assertEqual(evaluate("i - 1 as less, twice", exact).to_pandas()["less"].tolist(), [2**62, pandas.NA, 2])
        self.assertEqual(evaluate("a, a", {"a": [1]}).to_pandas().values.tolist(), [[1, 1]])
        self.assertEqual(pandas.DataFrame(evaluate("a", {"a": np.zeros(0, np.int64)})).shape, (0, 1))

    def test_answers_pass_for_a_dict_that_is_read_alone(self):
        answers = evaluate("a, a + 1 as b", {"a": [1]})
        self.assertIsInstance(answers, dict)
        for made in (dict(answers), {**answers}, answers.copy(), answers | {}, {} | answers):
            self.assertEqual({name: values.tolist() for name, values in made.items()}, {"a": [1], "b": [2]})
        self.assertEqual((len(answers), bool(answers), "a" in answers, answers.get("c")), (2, True, True, None))
        for change in (lambda: answers.update(c=1), lambda: answers.pop("a"), answers.clear, lambda: answers.setdefault("c")):
            self.assertRaises(TypeError, change)
        with self.assertRaises(TypeError):
            answers["a"] = 1

    def test_pandas_null_in_a_list(self):
        self.assertEqual(rows_of(evaluate("x + 1 as more", {"x": [pandas.NA, 2, None]})["more"]), [None, 3, None])
        self.assertEqual(rows_of(evaluate("t", {"t": ["a", pandas.NA]})["t"]), ["a", None])

    def test_labels_of_frames(self):
        frame = pandas.DataFrame([[1, 2.5], [3, 4.5]])
        self.assertEqual(select('"0" > 1', frame).tolist(), [1])
        twice = pandas.DataFrame([[1, 2, 3]], columns=["a", "a", "b"])
        self.assertEqual(rows_of(evaluate("b + 1 as more", twice)["more"]), [4])
        for call in (lambda: select("a > 1", twice), lambda: Expression("a > 1", {"a": "i64"}).mask(twice)):
            with self.assertRaises(yurkije.ExpressionError) as caught:
                call()
            self.assertEqual((caught.exception.number, caught.exception.column), (111, "a"))

    def test_types_may_be_a_frames(self):
        frame = pandas.DataFrame({"a": [1], "f": [1.5], "i": pandas.array([None], "Int8"), "t": pandas.array(["x"], "string")})
        made = Expression("a > 1 or i > 2", frame.dtypes)
        self.assertEqual(made.columns, {"a": "i64", "i": "i8?"})
        self.assertEqual(made.mask(frame).tolist(), [False])

    def test_a_mask_takes_rows_of_a_frame(self):
        frame = pandas.DataFrame({"a": [1, 2, 3], "f": [0.5, 1, 2]})
        self.assertEqual(frame[mask("a >= 2", frame)]["f"].tolist(), [1, 2])

    def test_a_filter_is_as_pandas(self):
        rng = np.random.default_rng(3)
        frame = pandas.DataFrame({"a": rng.integers(0, 99, 20000), "b": rng.integers(0, 99, 20000)})
        np.testing.assert_array_equal(frame.iloc[select("a < b and b > 50", frame)].index, frame[(frame.a < frame.b) & (frame.b > 50)].index)


if __name__ == "__main__":
    unittest.main()
