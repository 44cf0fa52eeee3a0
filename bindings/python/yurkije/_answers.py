"""Answers: columns that the library computed, as numpy arrays and as Arrow's capsules."""
from __future__ import annotations

import ctypes as c
import importlib
from collections.abc import Iterator, Mapping
from typing import TYPE_CHECKING, Any, NamedTuple, NoReturn, Union

import numpy as np

from . import _capsules as capsules
from ._decimals import decimals_of
from ._library import lib
from ._types import FLOAT_TYPES, INTEGER_TYPES, bare, decimal_named, digits_of, is_nullable, with_null


class Answer(NamedTuple):
    """The name of an answer, and its type, with a question mark if a row may be null."""

    name: str
    type: str


FORMATS: dict[bytes, str] = {
    b"b": "bool", b"c": "i8", b"s": "i16", b"i": "i32", b"l": "i64",
    b"C": "u8", b"S": "u16", b"I": "u32", b"L": "u64", b"u": "utf8", b"z": "binary",
    b"g": "f64", b"f": "f32", b"tdD": "date", b"tsu:": "timestamp",
}  # fmt: skip


def type_of_format(format: bytes, nullable: bool) -> str:
    """Returns the type of an answer of a format of Arrow."""
    if format[:2] == b"d:":
        precision, scale = map(int, format[2:].split(b","))
        return with_null(decimal_named(precision, scale), nullable)
    return with_null(FORMATS[format], nullable)


# The types of numbers in buffers, by numpy's.
NUMBERS: dict[str, Any] = {**INTEGER_TYPES, **FLOAT_TYPES, "date": np.dtype("i4"), "timestamp": np.dtype("datetime64[us]")}


class Held:
    """An Arrow array of the library, released when nothing points to it any more."""

    def __init__(self) -> None:
        self.raw = capsules.ArrowArray()

    def __del__(self) -> None:
        if self.raw.release:
            self.raw.release(c.byref(self.raw))

    def bytes_at(self, at: Any, size: int) -> Any:
        """Returns bytes of a buffer as an array that keeps this alive."""
        if not size:
            return np.zeros(0, np.uint8)
        memory = (c.c_uint8 * size).from_address(at)
        setattr(memory, "held", self)
        return np.frombuffer(memoryview(memory), np.uint8)


def _texts(offsets: Any, data: bytes, is_text: bool, nulls: Any) -> Any:
    """Returns texts, or byte strings, as an array of objects, with None for null."""
    ends = offsets.tolist()
    whole: Union[str, bytes] = data
    if is_text and data.isascii():
        whole = data.decode("ascii")
    rows: list[Any] = [whole[a:b] for a, b in zip(ends, ends[1:])]
    if is_text and isinstance(whole, bytes):
        rows = [row.decode() for row in rows]
    made = np.empty(len(rows), object)
    made[:] = rows
    if nulls is not None:
        made[nulls] = None
    return made


def _no_change(*_: Any, **__: Any) -> NoReturn:
    raise TypeError("answers are not changed: dict(answers) is yours to change")


if TYPE_CHECKING:
    _Columns = Mapping[str, Any]
else:

    class _Columns(Mapping, dict):
        """A read-only mapping that is a dict: pandas makes frames only from dicts, by their names.
        The inner dict stays empty: all reads and changes use the names and columns."""

        __setitem__ = __delitem__ = __ior__ = clear = pop = popitem = setdefault = update = _no_change

        def copy(self):
            return dict(self.items())

        def __or__(self, other):
            return self.copy() | other

        def __ror__(self, other):
            return other | self.copy()


class Answers(_Columns):
    """The answers of an expression over a batch: columns by name, in the order of the text.

    `answers["worth"]` is a numpy array: of bool, a whole-number type, a type of floats,
    datetime64[D] or datetime64[us], a masked one if the answer may be null; of objects for texts,
    byte strings and decimals (decimal.Decimal), with None for null. If two answers have one name it
    gives the first; `column(1)` takes them by number. An object with `__arrow_c_array__`: other
    libraries can take the answers as one struct array, over the same memory.

    `pandas.DataFrame(answers)` has the answers, as pandas reads masked arrays: whole numbers with
    nulls become floats there, and past 2**53 are rounded. `to_pandas()` keeps the types.
    """

    def __init__(self, answers: tuple[Answer, ...], held: Held, schema: Any) -> None:
        self.answers = answers
        self._held, self._schema = held, schema

    @property
    def rows(self) -> int:
        """How many rows each answer has."""
        return int(self._held.raw.length)

    def __len__(self) -> int:
        return len({answer.name for answer in self.answers})

    def __iter__(self) -> Iterator[str]:
        return iter(dict.fromkeys(answer.name for answer in self.answers))

    def __getitem__(self, name: str) -> Any:
        for number, answer in enumerate(self.answers):
            if answer.name == name:
                return self.column(number)
        raise KeyError(name)

    def column(self, number: int) -> Any:
        """Returns the answer of that number, from 0 on, as a numpy array."""
        if not 0 <= number < len(self.answers):
            raise IndexError(f"no answer {number} of {len(self.answers)}")
        array = self._held.raw.children[number].contents
        kind, rows = bare(self.answers[number].type), self.rows
        nulls = None
        if array.buffers[0]:
            bits = self._held.bytes_at(array.buffers[0], (rows + 7) // 8)
            nulls = ~np.unpackbits(bits, count=rows, bitorder="little").view(np.bool_)
        if kind in ("utf8", "binary"):
            offsets = self._held.bytes_at(array.buffers[1], 4 * (rows + 1)).view(np.int32)
            data = c.string_at(array.buffers[2], int(offsets[-1])) if offsets[-1] else b""
            return _texts(offsets, data, kind == "utf8", nulls)
        digits = digits_of(kind)
        if digits:
            # of 128 bits, of which the lower ones are the number
            words = self._held.bytes_at(array.buffers[1], 16 * rows).view(np.int64)
            return decimals_of(words[::2], digits[1], nulls)
        if kind == "bool":
            bits = self._held.bytes_at(array.buffers[1], (rows + 7) // 8)
            values = np.unpackbits(bits, count=rows, bitorder="little").view(np.bool_)
        else:
            dtype = NUMBERS[kind]
            values = self._held.bytes_at(array.buffers[1], rows * dtype.itemsize).view(dtype)
            if kind == "date":
                values = values.astype(np.int64).view("datetime64[D]")
        if is_nullable(self.answers[number].type):
            return np.ma.MaskedArray(values, np.ma.nomask if nulls is None else nulls)
        return values

    def to_pandas(self) -> Any:
        """Returns the answers as a frame of pandas, by name: whole numbers and truth values that
        may be null have pandas' nullable types, as Int64, Float64 and boolean, texts and decimals are
        objects with None, and times have NaT."""
        pandas = importlib.import_module("pandas")
        columns = {number: self._for_pandas(pandas, self.column(number)) for number in range(len(self.answers))}
        frame = pandas.DataFrame(columns, index=range(self.rows))
        frame.columns = [answer.name for answer in self.answers]
        return frame

    @staticmethod
    def _for_pandas(pandas: Any, values: Any) -> Any:
        """Returns a column as an array that pandas takes unchanged."""
        if not isinstance(values, np.ma.MaskedArray):
            return values
        if values.dtype.kind == "M":
            return values.filled(np.array("NaT", values.dtype))
        made = {"b": pandas.arrays.BooleanArray, "f": pandas.arrays.FloatingArray}.get(values.dtype.kind, pandas.arrays.IntegerArray)
        return made(values.data.copy(), np.ma.getmaskarray(values).copy())

    def __arrow_c_array__(self, requested_schema: object = None) -> tuple[object, object]:
        """Returns the answers as the capsules of a struct array; `requested_schema` is ignored, as
        Arrow allows."""
        capsule, shared = capsules.new(b"arrow_array")
        if lib.yk_arrow_share(self._held.raw, shared):
            raise MemoryError
        return self._schema(), capsule

    def __repr__(self) -> str:
        told = ", ".join(f"{answer.name} {answer.type}" for answer in self.answers)
        return f"<yurkije.Answers of {self.rows} rows: {told}>"
