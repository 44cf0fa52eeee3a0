"""Columns of Python as borrowed columns: numpy arrays with masks, pandas series, lists, and arrays
of Arrow."""
from __future__ import annotations

import ctypes as c
import datetime
import decimal
from collections.abc import Sequence
from contextlib import suppress
from itertools import repeat
from operator import is_
from typing import Any, Optional

import numpy as np

from . import _capsules as capsules
from . import _decimals as decimals
from ._errors import ColumnError, ExpressionError, Told
from ._library import LARGE, Column, Field, Slice, lib
from ._types import (
    DURATION, FLOAT_TYPES, FLOATS, INTEGER_TYPES, INTEGERS, SLOTS, TIMES, digits_of, is_decimal, is_duration, is_nullable, is_of,
    is_pandas_null, name_of_number, number_of, type_of_class, with_null, words_of_class, zone_of,
)  # fmt: skip

SCOPE_MISMATCH, NAME_TWICE, UNTAKEN = 11, 111, 140


class Borrowed:
    """A column of the library, and the objects that its addresses point into."""

    __slots__ = ("raw", "type", "nullable", "keeps")

    def __init__(self, type_name: str, rows: int) -> None:
        self.raw = Column(number_of(type_name), False, rows)
        self.type = type_name
        self.nullable = False
        self.keeps: list[Any] = []

    def lend(self, slot: str, array: Any) -> None:
        """Borrows the items of a contiguous array."""
        place = getattr(self.raw, slot)
        place.at, place.length = array.ctypes.data, len(array)
        self.keeps.append(array)

    def mask(self, nulls: Optional[Any]) -> None:
        """Sets which rows are null: an array of truth values, or None if the column has no mask."""
        if nulls is None:
            return
        self.nullable = True
        if nulls.any():
            self.lend("validity", np.packbits(~nulls, bitorder="little"))


def refuse(name: str, words: str, row: Optional[int] = None) -> ColumnError:
    """Returns the error for a column, or a row in it, of an unsupported type."""
    return ColumnError(UNTAKEN, f'column "{name}": {words}', name, row)


def untaken(name: str, words: str, wanted: Optional[str]) -> ColumnError:
    """Returns the error for a column of an unsupported type, naming the type that the expression
    has for it."""
    return refuse(name, f"{words} is not taken" + (f", and the expression has {wanted}" if wanted else ""))


def _of_bools(values: Any, nulls: Optional[Any]) -> Borrowed:
    column = Borrowed("bool", len(values))
    column.lend("bool", np.packbits(values, bitorder="little"))
    column.mask(nulls)
    return column


def _of_integers(values: Any, nulls: Optional[Any], type_name: str) -> Borrowed:
    column = Borrowed(type_name, len(values))
    column.lend(type_name, np.ascontiguousarray(values, dtype=INTEGER_TYPES[type_name]))
    column.mask(nulls)
    return column


def _of_floats(values: Any, nulls: Optional[Any], type_name: str, nan_is_null: bool) -> Borrowed:
    """Floats. A NaN is a value, the greatest, or null if so said."""
    column = Borrowed(type_name, len(values))
    held = np.ascontiguousarray(values, dtype=FLOAT_TYPES[type_name])
    if nan_is_null:
        nans = np.isnan(held)
        nulls = nans if nulls is None else nulls | nans
    column.lend(SLOTS[type_name], held)
    column.mask(nulls)
    return column


def _of_times(name: str, values: Any, nulls: Optional[Any], wanted: Optional[str]) -> Borrowed:
    """Dates, of days, or timestamps, of microseconds: each value must be one exactly. NaT is null."""
    unit, count = np.datetime_data(values.dtype)
    if unit == "generic":
        raise untaken(name, "numpy's datetime64 without a unit", wanted)
    kind = wanted if wanted in TIMES else "date" if (unit, count) == ("D", 1) else "timestamp"
    nats = np.isnat(values)
    if nats.any():
        nulls = nats if nulls is None else nulls | nats
    made = values.astype("datetime64[D]" if kind == "date" else "datetime64[us]")
    numbers = made.astype(np.int64)
    wrong = made.astype(values.dtype) != values
    if kind == "date":
        wrong |= (numbers < -(2**31)) | (numbers >= 2**31)
        numbers = numbers.astype(np.int32)
    wrong = wrong & ~(nats if nulls is None else nulls)
    if wrong.any():
        row = int(wrong.argmax())
        raise refuse(name, f"{values[row]} is no {kind}", row)
    column = Borrowed(kind, len(values))
    column.lend(SLOTS[kind], np.ascontiguousarray(numbers))
    column.mask(nulls)
    return column


def _nulls_of(values: list[Any]) -> Any:
    """Returns which values are None."""
    return np.fromiter(map(is_, values, repeat(None)), np.bool_, len(values))


def _of_bytes(values: list[Optional[bytes]], has_null: bool, type_name: str) -> Borrowed:
    """Byte strings by offsets: of 64 bits if 32 are too few."""
    held: list[Any] = [value or b"" for value in values] if has_null else values
    ends = np.cumsum(np.fromiter(map(len, held), np.int64, len(held)))
    return _by_ends(ends, b"".join(held), _nulls_of(values) if has_null else None, type_name)


def _by_ends(ends: Any, data: bytes, nulls: Optional[Any], type_name: str) -> Borrowed:
    """Concatenated byte strings, by the end of each."""
    column = Borrowed(type_name, len(ends))
    is_large = len(data) > 0x7FFFFFFF
    offsets = np.zeros(len(ends) + 1, np.int64 if is_large else np.int32)
    offsets[1:] = ends
    if is_large:
        column.raw.kind = LARGE[type_name]
    column.lend("offsets64" if is_large else "offsets32", offsets)
    if data:
        column.lend("data", np.frombuffer(data, np.uint8))
    column.mask(nulls)
    return column


def _of_texts(values: list[Optional[str]], has_null: bool) -> Borrowed:
    """Texts by offsets. They are encoded in one call, with a zero byte after each, which marks its
    end."""
    held: list[Any] = [value or "" for value in values] if has_null else values
    nulls = _nulls_of(values) if has_null else None
    data = "\0".join([*held, ""]).encode()
    ends = np.flatnonzero(np.frombuffer(data, np.uint8) == 0)
    if len(ends) == len(held):
        ends -= np.arange(len(held))
        return _by_ends(ends, data.translate(None, b"\0"), nulls, "utf8")
    # some text contains a zero byte
    return _of_bytes([None if value is None else value.encode() for value in values], has_null, "utf8")


def _with_none(values: list[Any]) -> tuple[list[Any], set[type]]:
    """Returns values with None for NaN, of floats and of decimals, and `pandas.NA` and `NaT`, and their classes."""
    classes = set(map(type, values))
    floats = {cls for cls in classes if issubclass(cls, (float, np.floating))}
    exact = {cls for cls in classes if issubclass(cls, decimal.Decimal)}
    nulls = {cls for cls in classes if is_pandas_null(cls)}
    if floats or nulls or exact:
        values = [
            None if type(it) in nulls or (type(it) in floats and it != it) or (type(it) in exact and it.is_nan()) else it
            for it in values
        ]
        classes = set(map(type, values))
    return values, classes


def _of_objects(name: str, values: list[Any], wanted: Optional[str], nan_is_null: bool) -> Borrowed:
    """A list of one type and of nulls: None, NaN but among floats, `pandas.NA` and `NaT`. Without an expected
    type, the first value that is not null determines it."""
    if wanted in (None, "utf8") and values and type(values[0]) is str:
        # joining is a faster test of whether all are texts
        with suppress(TypeError):
            return _of_texts(values, False)
    held, classes = _with_none(values)
    has_null = type(None) in classes
    classes.discard(type(None))
    kind = wanted or _first_type(name, held)
    if not all(is_of(cls, kind) for cls in classes):
        row = next(row for row, value in enumerate(held) if value is not None and not is_of(type(value), kind))
        raise refuse(name, f"{held[row]!r} is no {kind}, but {words_of_class(type(held[row]))}", row)
    if kind == "utf8":
        return _of_texts(held, has_null)
    if kind == "binary":
        return _of_bytes(held, has_null, "binary")
    nulls = _nulls_of(held) if has_null else None
    if is_decimal(kind):
        return _of_decimals(name, held, nulls, wanted)
    if kind in FLOAT_TYPES:
        floats = np.array([np.nan if value is None else value for value in held], FLOAT_TYPES[kind])
        if has_null and not nan_is_null:
            nulls = np.fromiter((value is None or is_pandas_null(type(value)) for value in values), np.bool_, len(values))
            return _of_floats(floats, nulls if nulls.any() else None, kind, False)
        return _of_floats(floats, nulls, kind, nan_is_null)
    if kind in TIMES:
        return _of_times(name, _times_of(name, held, kind), nulls, kind)
    if kind == "bool":
        return _of_bools(np.array([value or 0 for value in held] if has_null else held, np.bool_), nulls)
    if any(issubclass(cls, np.integer) for cls in classes):
        # numpy converts its own numbers without checking that they fit
        held = [value if value is None else int(value) for value in held]
    return _of_numbers(name, held, nulls, kind)


def _of_decimals(name: str, values: list[Any], nulls: Optional[Any], wanted: Optional[str]) -> Borrowed:
    """Decimals, and whole numbers among them, each of which must fit the type: without an expected one, that of as
    many digits as are needed."""
    kind, wrong = (wanted, None) if wanted else decimals.inferred(values)
    digits = digits_of(kind or "")
    numbers = None
    if digits:
        numbers, wrong = decimals.numbers_of(values, *digits)
    if wrong:
        raise refuse(name, wrong[1], wrong[0])
    column = Borrowed(kind or "", len(values))
    column.lend("i64", numbers)
    column.mask(nulls)
    return column


def _times_of(name: str, values: list[Any], kind: str) -> Any:
    """Returns dates or times of Python as an array. Times in a zone are instants, in UTC; with times that have none
    they are an error, and so are the nanoseconds of pandas' times."""
    for row, value in enumerate(values):
        if getattr(value, "nanosecond", 0):
            raise refuse(name, f"{value} is no {kind}", row)
    zoned = [getattr(value, "tzinfo", None) is not None for value in values]
    if any(zoned):
        wrong = next((row for row, value in enumerate(values) if value is not None and not zoned[row]), None)
        if wrong is not None:
            raise refuse(name, f"{values[wrong]} has no time zone, and others have one", wrong)
        values = [value and value.astimezone(datetime.timezone.utc).replace(tzinfo=None) for value in values]
    return np.array(["NaT" if value is None else value for value in values], "datetime64[D]" if kind == "date" else "datetime64[us]")


def _first_type(name: str, values: list[Any]) -> str:
    """Returns the type of the first value that is not null."""
    first = next((value for value in values if value is not None), None)
    if first is None:
        words = "every row is null" if values else "there is no row"
        raise refuse(name, f'{words}, and no type is said; say it, as Expression(text, {{"{name}": "i64?"}}), or hand over a numpy array')
    found = type_of_class(type(first))
    if found is None:
        raise refuse(name, f"{type(first).__name__} is not taken" + (f": {DURATION}" if is_duration(type(first)) else ""))
    return found


def _of_numbers(name: str, values: list[Any], nulls: Optional[Any], kind: str) -> Borrowed:
    """Whole numbers, each of which must fit its type."""
    held = values if nulls is None else [value or 0 for value in values]
    ends = np.iinfo(INTEGER_TYPES[kind])
    if held and not ends.min <= min(held) <= max(held) <= ends.max:
        row = next(row for row, value in enumerate(held) if not ends.min <= value <= ends.max)
        raise refuse(name, f"{held[row]} is no {kind}", row)
    return _of_integers(np.array(held, INTEGER_TYPES[kind]), nulls, kind)


def _of_array(name: str, array: Any, wanted: Optional[str], nan_is_null: bool) -> Borrowed:
    """A numpy array, with or without a mask."""
    if array.ndim != 1:
        raise untaken(name, f"an array of {array.ndim} dimensions", wanted)
    nulls = np.ma.getmaskarray(array) if isinstance(array, np.ma.MaskedArray) else None
    values = np.ma.getdata(array) if nulls is not None else array
    if values.dtype == np.bool_:
        return _of_bools(values, nulls)
    native = values.dtype.newbyteorder("=")
    if native in INTEGERS:
        return _of_integers(values, nulls, INTEGERS[native])
    if native in FLOATS:
        return _of_floats(values, nulls, FLOATS[native], nan_is_null)
    if values.dtype.kind == "M":
        return _of_times(name, values, nulls, wanted)
    if values.dtype.kind == "m":
        raise refuse(name, f"numpy's {values.dtype} is not taken: {DURATION}")
    if values.dtype.kind in "OUS":
        held = values.tolist()
        if nulls is not None:
            held = [None if null else value for value, null in zip(held, nulls.tolist())]
        column = _of_objects(name, held, wanted, nan_is_null)
        column.nullable = column.nullable or nulls is not None
        return column
    raise untaken(name, f"numpy's {values.dtype}", wanted)


def _of_series(name: str, series: Any, wanted: Optional[str], nan_is_null: bool) -> Borrowed:
    """A pandas series or index: the mask of its nullable types is used; in objects, None and NaN
    are null."""
    if isinstance(series.dtype, np.dtype) and series.dtype != object:
        return _of_array(name, series.to_numpy(), wanted, nan_is_null)
    if zone_of(series.dtype):
        # as instants, in UTC
        return _of_array(name, series.to_numpy(dtype=f"datetime64[{getattr(series.dtype, 'unit', 'ns')}]"), wanted, nan_is_null)
    nulls = np.asarray(series.isna(), dtype=np.bool_)
    numbers = getattr(series.dtype, "numpy_dtype", None)
    if numbers in INTEGERS or numbers in FLOATS or numbers == np.bool_:
        values = series.to_numpy(dtype=numbers, na_value=0) if nulls.any() else series.to_numpy(dtype=numbers)
        return _of_array(name, np.ma.MaskedArray(values, nulls), wanted, nan_is_null)
    if series.dtype != object and str(series.dtype) not in ("string", "str", "category"):
        raise untaken(name, f"pandas' {series.dtype}", wanted)
    held = series.to_numpy(dtype=object).tolist()
    if nulls.any():
        held = [None if null else value for value, null in zip(held, nulls.tolist())]
    column = _of_objects(name, held, wanted, nan_is_null)
    column.nullable = True
    return column


def _of_arrow(name: str, array: Any) -> Borrowed:
    """An array of Arrow, borrowed."""
    schema_capsule, array_capsule = array.__arrow_c_array__()
    schema = capsules.struct_in(schema_capsule, b"arrow_schema")
    raw = capsules.struct_in(array_capsule, b"arrow_array")
    told, buffers = Told(), (Slice * (lib.yk_arrow_buffer_count(schema, raw) + 1))()
    column = Borrowed("bool", 0)
    try:
        told.check(lib.yk_arrow_column(schema, raw, buffers, column.raw, told.raw))
    except ColumnError as error:
        error.column = name
        raise
    column.keeps += [schema_capsule, array_capsule, buffers]
    column.type = name_of_number(column.raw.kind)
    column.nullable = bool(column.raw.nullable)
    return column


def borrow(name: str, values: Any, wanted: Optional[str] = None, nan_is_null: bool = False) -> Borrowed:
    """Returns the column of values: a numpy array, a pandas series, an array of Arrow, or a
    sequence.

    `wanted` is the type that the expression has for the column, if any: a sequence or an array of
    objects is read as that type, and columns of another type are an error. A NaN of a column of floats
    is a value, or null with `nan_is_null`.
    """
    column = _borrowed(name, values, wanted, nan_is_null)
    if wanted and _is_narrower(column.type, wanted):
        column.type, column.raw.kind = wanted, number_of(wanted)
    if wanted not in (None, column.type):
        raise ColumnError(SCOPE_MISMATCH, f'column "{name}" is {column.type}, and the expression has {wanted}', name)
    return column


def _is_narrower(kind: str, wanted: str) -> bool:
    """Whether a type is that of decimals of fewer digits and the same places, whose values are stored alike."""
    found, other = digits_of(kind), digits_of(wanted)
    return found is not None and other is not None and found[0] < other[0] and found[1] == other[1]


def _borrowed(name: str, values: Any, wanted: Optional[str], nan_is_null: bool) -> Borrowed:
    if isinstance(values, np.ndarray):
        return _of_array(name, values, wanted, nan_is_null)
    if hasattr(values, "isna") and hasattr(values, "to_numpy") and getattr(values, "ndim", 1) == 1:
        return _of_series(name, values, wanted, nan_is_null)
    if hasattr(values, "__arrow_c_array__"):
        return _of_arrow(name, values)
    if isinstance(values, Sequence) and not isinstance(values, (str, bytes)):
        return _of_objects(name, list(values), wanted, nan_is_null)
    raise untaken(name, type(values).__name__, wanted)


def name_of(label: Any) -> str:
    """Returns the name by which a text refers to the column of a label: its printed form if it is
    no text, as for the 0 of a frame."""
    return label if isinstance(label, str) else str(label)


def column_of(columns: Any, name: str) -> Any:
    """Returns the column of a name. A label that equals the text comes before others that print
    like it."""
    labels = [name] if name in columns.keys() else [label for label in columns.keys() if name_of(label) == name]
    if not labels:
        raise KeyError(name)
    column = columns[labels[0]]
    # in a frame with two columns of one label, that label gives a frame
    if len(labels) > 1 or (getattr(columns, "ndim", 1) == 2 and getattr(column, "ndim", 1) == 2):
        raise ExpressionError(NAME_TWICE, f'more than one column is named "{name}"', name)
    return column


def type_of(column: Borrowed) -> str:
    """Returns the type of a column, with a question mark if it may have nulls."""
    return with_null(column.type, column.nullable)


def fields_of(types: Sequence[tuple[str, str]]) -> tuple[Any, list[Any]]:
    """Returns the fields of names and types, as `i64?`, and the objects that their addresses point
    into."""
    fields, keeps = (Field * max(len(types), 1))(), []
    for field, (name, type_name) in zip(fields, types):
        encoded = name.encode()
        room = c.create_string_buffer(encoded, len(encoded) + 1)
        keeps.append(room)
        field.name.at, field.name.length = c.addressof(room), len(encoded)
        field.kind, field.nullable = number_of(type_name), is_nullable(type_name)
    return fields, keeps
