"""Arrow's capsules: what Yurkije exports it can import again, and so are GDAL's, an independent
producer."""
import ctypes
import datetime
import gc
import os
import tempfile
import unittest

import numpy as np
from yurkije import ColumnError, Error, Expression, ExpressionError, Stream, evaluate, select
from yurkije import _capsules as capsules

try:
    from osgeo import ogr

    ogr.UseExceptions()
except ImportError:
    ogr = None


class Child:
    """One column of a batch from `evaluate`, as a separate array."""

    def __init__(self, answers, number):
        self.answers, self.number = answers, number

    def __arrow_c_array__(self, requested_schema=None):
        schema_capsule, schema = capsules.new(b"arrow_schema")
        array_capsule, array = capsules.new(b"arrow_array")
        whole_schema, whole_array = self.answers.__arrow_c_array__()
        for target, source, name in ((schema, whole_schema, b"arrow_schema"), (array, whole_array, b"arrow_array")):
            # moved out of the whole, which is released without it
            child = capsules.struct_in(source, name).children[self.number].contents
            ctypes.memmove(ctypes.byref(target), ctypes.byref(child), ctypes.sizeof(child))
            child.release = type(child.release)()
        return schema_capsule, array_capsule


class Capsules(unittest.TestCase):
    def test_answers_are_a_batch(self):
        first = evaluate("a + 1 as more, t, a > 1 as big, null::u8? as none", {"a": [1, 2, None], "t": ["x", None, "a text of more than twelve bytes"]})
        for _ in range(2):
            second = evaluate("more * 2 as twice, t, big, none", first)
            self.assertEqual(second["twice"].tolist(), [4, 6, None])
            self.assertEqual(Expression.of("more + 1", first).columns, {"more": "i64?"})
            self.assertEqual(second["t"].tolist(), ["x", None, "a text of more than twelve bytes"])
            self.assertEqual(second["big"].tolist(), [False, True, None])
            self.assertEqual(second["none"].tolist(), [None] * 3)
            self.assertEqual(select("twice > 4 and t is not null or big is null", second).tolist(), [2])
        del first
        gc.collect()
        self.assertEqual(second["twice"].tolist(), [4, 6, None])

    def test_columns_are_arrays(self):
        answers = evaluate("a, t", {"a": [1, None], "t": ["x", "y"]})
        for _ in range(2):
            got = evaluate("a is null as missing, t", {"a": Child(answers, 0), "t": Child(answers, 1)})
            self.assertEqual(got["missing"].tolist(), [False, True])
            self.assertEqual(got["t"].tolist(), ["x", "y"])

    def test_capsules_that_nobody_takes_are_released(self):
        answers = evaluate("a", {"a": np.arange(1000)})
        for _ in range(100):
            answers.__arrow_c_array__()
        gc.collect()
        self.assertEqual(answers["a"].tolist(), list(range(1000)))

    def test_other_capsules_are_refused(self):
        class Other:
            def __arrow_c_array__(self, requested_schema=None):
                return capsules.new(b"arrow_array")[0], capsules.new(b"arrow_schema")[0]

        with self.assertRaises(TypeError):
            evaluate("a", Other())


class Layer:
    """A layer of GDAL as an object of Arrow's protocol: GDAL 3.6 has the stream and no capsules."""

    # The caller that took a stream calls its functions after this object is gone.
    kept = []

    def __init__(self, layer):
        self.layer = layer
        held = [layer.GetArrowStream(["MAX_FEATURES_IN_BATCH=1000"])]
        self.capsule, self.raw = capsules.new(b"arrow_array_stream")
        kinds = dict(capsules.ArrowArrayStream._fields_)

        def give(made, to):
            # what GDAL made is moved out of its owner
            source = type(to.contents).from_address(int(made._getPtr()))
            ctypes.memmove(to, ctypes.byref(source), ctypes.sizeof(source))
            source.release = type(source.release)()
            return 0

        def next_batch(_, to):
            made = held[0].GetNextRecordBatch()
            if made is None:
                to.contents.release = type(to.contents.release)()
                return 0
            return give(made, to)

        def release(at):
            # a layer has one stream at a time
            held.clear()
            at.contents.release = type(at.contents.release)()

        self.calls = [kinds["get_schema"](lambda _, to: give(held[0].GetSchema(), to)), kinds["get_next"](next_batch)]
        self.calls += [kinds["get_last_error"](lambda _: None), kinds["release"](release)]
        Layer.kept.append(self.calls)
        self.raw.get_schema, self.raw.get_next, self.raw.get_last_error, self.raw.release = self.calls

    def __arrow_c_stream__(self, requested_schema=None):
        return self.capsule


@unittest.skipUnless(ogr, "python3-gdal is not there")
class Gdal(unittest.TestCase):
    def layer(self, count=2500):
        self.set = ogr.GetDriverByName("Memory").CreateDataSource("rows")
        layer = self.set.CreateLayer("rows", geom_type=ogr.wkbNone)
        for name, kind in (("n", ogr.OFTInteger64), ("t", ogr.OFTString), ("f", ogr.OFTReal), ("d", ogr.OFTDate), ("c", ogr.OFTTime)):
            layer.CreateField(ogr.FieldDefn(name, kind))
        for row in range(count):
            feature = ogr.Feature(layer.GetLayerDefn())
            if row % 7 != 2:
                feature["n"] = row
            feature["t"] = f"t{row}"
            feature["f"] = row / 2
            feature.SetField("d", 1970 + row // 365, 1, 1 + row % 28, 0, 0, 0, 0)
            layer.CreateFeature(feature)
        return layer

    def test_a_layer_is_evaluated_batch_by_batch(self):
        layer = self.layer()
        stream = evaluate("n * 2 as twice, t like '%7' as found", Layer(layer))
        self.assertIsInstance(stream, Stream)
        self.assertEqual([tuple(answer) for answer in stream.answers], [("twice", "i64?"), ("found", "bool?")])
        batches = list(stream)
        self.assertEqual([batch.rows for batch in batches], [1000, 1000, 500])
        twice = [value for batch in batches for value in batch["twice"].tolist()]
        self.assertEqual(twice, [None if row % 7 == 2 else 2 * row for row in range(2500)])
        found = [value for batch in batches for value in batch["found"].tolist()]
        self.assertEqual(found, [row % 10 == 7 for row in range(2500)])
        self.assertEqual(list(stream), [])

    def test_a_stream_is_handed_on(self):
        layer = self.layer()
        stream = evaluate("twice / 2 as n", evaluate("n * 2 as twice", Layer(layer)))
        rows = [value for batch in stream for value in batch["n"].tolist()]
        self.assertEqual(rows, [None if row % 7 == 2 else row for row in range(2500)])

    def test_a_row_that_faults_is_told_by_its_number_in_the_stream(self):
        layer = self.layer()
        taken = []
        with self.assertRaises(Error) as caught:
            for batch in evaluate("7 / (n - 1700) as share", Layer(layer)):
                taken.append(batch.rows)
        self.assertEqual((caught.exception.number, caught.exception.row, taken), (7, 1700, [1000]))

    def test_what_is_not_taken_is_named(self):
        layer = self.layer(3)
        with self.assertRaises(ColumnError) as caught:
            evaluate("c > 1", Layer(layer))
        self.assertEqual(caught.exception.number, 140)
        self.assertIn("time", caught.exception.message)
        with self.assertRaises(ExpressionError):
            evaluate("g > 1", Layer(layer))

    def test_floats_and_dates_of_a_layer(self):
        batches = list(evaluate("f, f > 10.25 as more, d, d >= '1971-01-01' as late", Layer(self.layer(400))))
        self.assertEqual([value for batch in batches for value in batch["f"].tolist()], [row / 2 for row in range(400)])
        self.assertEqual([value for batch in batches for value in batch["more"].tolist()], [row > 20 for row in range(400)])
        days = [datetime.date(1970 + row // 365, 1, 1 + row % 28) for row in range(400)]
        self.assertEqual([value for batch in batches for value in batch["d"].tolist()], days)
        self.assertEqual([value for batch in batches for value in batch["late"].tolist()], [day.year > 1970 for day in days])

    def test_times_of_a_layer(self):
        # GDAL's times are milliseconds
        self.set = ogr.GetDriverByName("Memory").CreateDataSource("rows")
        layer = self.set.CreateLayer("rows", geom_type=ogr.wkbNone)
        layer.CreateField(ogr.FieldDefn("at", ogr.OFTDateTime))
        times = [datetime.datetime(1960 + row, 2, 28, row % 24, 34, 56, 789000) for row in range(100)]
        for time in times:
            feature = ogr.Feature(layer.GetLayerDefn())
            feature.SetField("at", time.year, time.month, time.day, time.hour, time.minute, time.second + 0.789, 0)
            layer.CreateFeature(feature)
        stream = evaluate("at, at >= '2000-01-01 00:00:00' as late", Layer(layer))
        self.assertEqual(stream.answers[0].type, "timestamp?")
        batches = list(stream)
        self.assertEqual([value for batch in batches for value in batch["at"].tolist()], times)
        self.assertEqual([value for batch in batches for value in batch["late"].tolist()], [time.year >= 2000 for time in times])

    def test_a_csv_that_gdal_reads(self):
        with tempfile.TemporaryDirectory() as folder:
            path = os.path.join(folder, "goods.csv")
            with open(path, "w", encoding="utf-8") as file:
                file.write("name,price\nnut,3\nbolt,12\nżółw,\n")
            opened = ogr.Open(path)
            batches = list(evaluate("name, price", Layer(opened.GetLayer(0))))
        self.assertEqual([batch["name"].tolist() for batch in batches], [["nut", "bolt", "żółw"]])
        self.assertEqual(batches[0]["price"].tolist()[:2], ["3", "12"])


if __name__ == "__main__":
    unittest.main()
