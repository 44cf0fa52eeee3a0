"""The names of types: `i64`, `utf8?`, `decimal(12,2)`, and with null `decimal?(12,2)`; by the library's numbers, by the
types of numpy and pandas, and by the classes of single values."""
from __future__ import annotations

import datetime
import decimal
import re
from typing import Any, Optional

import numpy as np

from ._errors import ExpressionError
from ._library import DECIMAL, KINDS, NAMES

UNKNOWN_TYPE = 113
# The types of whole numbers, by numpy's.
INTEGERS: dict[Any, str] = {np.dtype(f"{kind}{size}"): f"{kind}{8 * size}" for kind in "iu" for size in (1, 2, 4, 8)}
INTEGER_TYPES: dict[str, Any] = {name: dtype for dtype, name in INTEGERS.items()}
# The types of floats, by numpy's, and the slots of a column in which they and times are lent.
FLOATS: dict[Any, str] = {np.dtype("f8"): "f64", np.dtype("f4"): "f32"}
FLOAT_TYPES: dict[str, Any] = {name: dtype for dtype, name in FLOATS.items()}
TIMES = ("date", "timestamp")
SLOTS: dict[str, str] = {"f64": "i64", "f32": "i32", "date": "i32", "timestamp": "i64"}
# The Arrow kinds of each type.
LAYOUTS: dict[int, int] = {11: 10, 12: 10, 14: 13, 15: 13}
MOST_DIGITS = 18
WRITTEN = re.compile(r"decimal(\?)?\( *(\d{1,2}) *, *(\d{1,2}) *\)(\?)?", re.A)


def is_nullable(kind: str) -> bool:
    """Whether a type has null."""
    return "?" in kind


def bare(kind: str) -> str:
    """Returns a type without null."""
    return kind.replace("?", "")


def with_null(kind: str, nullable: bool) -> str:
    """Returns a type that is bare as one that has null, if so said: its question mark is behind its word."""
    word, bracket, rest = kind.partition("(")
    return f"{word}?{bracket}{rest}" if nullable else kind


def decimal_named(precision: int, scale: int) -> str:
    return f"decimal({precision},{scale})"


def digits_of(kind: str) -> Optional[tuple[int, int]]:
    """Returns the digits of a type of decimals, all and those after the point; None for any other type."""
    found = WRITTEN.fullmatch(kind)
    return (int(found[2]), int(found[3])) if found else None


def is_decimal(kind: Optional[str]) -> bool:
    return kind is not None and kind.startswith("decimal")


def _normal(said: str) -> Optional[str]:
    """Returns a type as it is written here, or None if it is none."""
    found = WRITTEN.fullmatch(said)
    if not found:
        return said if said.removesuffix("?") in KINDS else None
    precision, scale = int(found[2]), int(found[3])
    if not 1 <= precision <= MOST_DIGITS or scale > precision or (found[1] and found[4]):
        return None
    return with_null(decimal_named(precision, scale), bool(found[1] or found[4]))


def number_of(kind: str) -> int:
    """Returns the number of yurkije.h for a type."""
    digits = digits_of(kind)
    return DECIMAL + 256 * digits[0] + 65536 * digits[1] if digits else KINDS[bare(kind)]


def name_of_number(number: int) -> str:
    """Returns the type of a number of yurkije.h, whatever its layout."""
    if number % 256 == DECIMAL:
        return decimal_named(number // 256 % 256, number // 65536)
    return NAMES.get(LAYOUTS.get(number, number), "none")


# The types of single values by their classes, in the order of the tests; INTEGERS has those of
# numpy's whole numbers. How many digits a decimal has is not known by its class.
CLASSES: tuple[tuple[Any, str], ...] = (
    (bool, "bool"), (np.bool_, "bool"), (int, "i64"), (str, "utf8"), (bytes, "binary"), (float, "f64"), (np.float32, "f32"),
    (decimal.Decimal, "decimal"), (datetime.datetime, "timestamp"), (datetime.date, "date"),
)  # fmt: skip


def type_of_class(cls: type) -> Optional[str]:
    """Returns the type of the values of a class, or None if it is not supported."""
    if issubclass(cls, np.integer):
        return INTEGERS.get(np.dtype(cls))
    return next((name for base, name in CLASSES if issubclass(cls, base)), None)


def is_of(cls: type, kind: str) -> bool:
    """Whether values of a class may have a type: whole numbers of each class may have each integer
    type, floats of each class each type of floats, and decimals and whole numbers each of decimals."""
    found = type_of_class(cls)
    if is_decimal(kind):
        return found == "decimal" or found in INTEGER_TYPES
    return found == kind or any(kind in types and found in types for types in (INTEGER_TYPES, FLOAT_TYPES))


def is_pandas_null(cls: type) -> bool:
    """Whether a class is that of `pandas.NA` or `pandas.NaT`."""
    return cls.__name__ in ("NAType", "NaTType") and cls.__module__.startswith("pandas.")


def words_of_class(cls: type) -> str:
    """Returns the type of a class, or its name if it is not supported."""
    return type_of_class(cls) or cls.__name__


DURATION = (
    "there is no type of durations; pass whole numbers of a unit, as `values // np.timedelta64(1, 'us')`, "
    "or times, as an end and a start"
)  # fmt: skip


def is_duration(cls: type) -> bool:
    return issubclass(cls, (datetime.timedelta, np.timedelta64))


def zone_of(dtype: Any) -> bool:
    """Whether a dtype is pandas' of times in a time zone."""
    return getattr(dtype, "tz", None) is not None and getattr(dtype, "kind", "") == "M"


def type_said(name: str, said: Any) -> str:
    """Returns the declared type of a column: by its name, as `i64?`, or by a type of numpy or
    pandas, as `np.dtype("i8")`."""
    found = _normal(said) if isinstance(said, str) else _type_of_dtype(said)
    if found is None:
        told = f'"{said}"' if isinstance(said, str) else repr(said)
        listed = f"{', '.join(KINDS)}, and decimal(p,s) of 1 to {MOST_DIGITS} digits, s of them after the point"
        words = f'column "{name}": no type {told}; types are {listed}, each with ? behind its word where a row may be null'
        raise ExpressionError(UNKNOWN_TYPE, words, name)
    return found


def _type_of_dtype(said: Any) -> Optional[str]:
    """Returns the type for a dtype of numpy or pandas, or for a class of single values."""
    if hasattr(said, "numpy_dtype"):
        # of pandas, which has null
        found = _type_of_dtype(said.numpy_dtype)
        return found and with_null(found, True)
    if zone_of(said):
        return "timestamp"
    if isinstance(said, np.dtype) and said.kind == "M":
        return "date" if np.datetime_data(said) == ("D", 1) else "timestamp"
    cls = said.type if isinstance(said, np.dtype) else said
    found = type_of_class(cls) if isinstance(cls, type) else None
    return found if found in KINDS else None
