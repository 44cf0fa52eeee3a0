"""The shared object, its structs and its calls. Only this file deals with addresses."""
from __future__ import annotations

import ctypes as c
import os
from typing import Any

from ._capsules import ArrowArray, ArrowArrayStream, ArrowSchema

ABI_VERSION = 1
SONAME = f"libyurkije.so.{ABI_VERSION}"
NONE = c.c_size_t(-1).value

# The statuses of yurkije.h and yurkije_arrow.h, by number.
STATUSES: dict[int, str] = {
    1: "IndexOutOfBounds",
    2: "LengthMismatch",
    3: "TypeMismatch",
    4: "NotBooleanOperator",
    5: "NotCompareOperator",
    6: "ArityMismatch",
    7: "Arithmetic",
    8: "BadOptions",
    9: "OutOfMemory",
    10: "Custom",
    11: "ScopeMismatch",
    12: "InvalidColumn",
    13: "NoSuchPlace",
    100: "EmptyHandle",
    101: "NoSuchNumber",
    102: "UnknownKind",
    103: "OtherKind",
    104: "RoomTooSmall",
    110: "NotAText",
    111: "NameTwice",
    112: "NoExpression",
    113: "UnknownType",
    114: "NotHeld",
    115: "UntypedNull",
    116: "NoEscape",
    117: "NoCast",
    118: "NoFunction",
    119: "NotOfKind",
    120: "ValidityTooShort",
    121: "ValuesTooShort",
    122: "OffsetsTooShort",
    123: "DataTooShort",
    124: "UnexpectedNull",
    125: "OffsetsFall",
    126: "PastData",
    127: "ViewOutOfRange",
    128: "PrefixDiffers",
    129: "NotPadded",
    130: "NotUtf8",
    131: "TooLong",
    132: "Contradiction",
    140: "UntakenFormat",
    141: "MalformedArray",
    142: "StreamFailed",
    143: "UntakenValue",
}

# The types of fields and answers by name, and the kinds of yurkije.h.
KINDS: dict[str, int] = {
    "bool": 1,
    "i8": 2,
    "i16": 3,
    "i32": 4,
    "i64": 5,
    "u8": 6,
    "u16": 7,
    "u32": 8,
    "u64": 9,
    "utf8": 10,
    "binary": 13,
    "f64": 16,
    "f32": 17,
    "date": 18,
    "timestamp": 19,
}
# The last byte of a kind of decimals: see YK_DECIMAL.
DECIMAL = 20
NAMES: dict[int, str] = {kind: name for name, kind in KINDS.items()}
LARGE: dict[str, int] = {"utf8": 11, "binary": 14}


class Slice(c.Structure):
    """`length` items from `at` on."""

    _fields_ = [("at", c.c_void_p), ("length", c.c_size_t)]


class Handle(c.Structure):
    """A handle of the library: it may be moved, never copied. Zeroed, it is empty."""

    _fields_ = [("at", c.c_void_p), ("live", c.c_bool)]


class RawError(c.Structure):
    """yk_error."""

    _fields_ = [
        ("status", c.c_uint32),
        ("answer", c.c_size_t),
        ("column", c.c_size_t),
        ("row", c.c_size_t),
        ("byte", c.c_size_t),
        ("line", c.c_size_t),
        ("character", c.c_size_t),
        ("message", Slice),
        ("message_length", c.c_size_t),
    ]


class Field(c.Structure):
    """yk_field."""

    _fields_ = [("name", Slice), ("kind", c.c_uint32), ("nullable", c.c_bool)]


class Type(c.Structure):
    """yk_type."""

    _fields_ = [("kind", c.c_uint32), ("nullable", c.c_bool)]


class Column(c.Structure):
    """yk_column."""

    _fields_ = [
        ("kind", c.c_uint32),
        ("nullable", c.c_bool),
        ("rows", c.c_size_t),
        ("offset", c.c_size_t),
        ("validity", Slice),
        ("bool", Slice),
        ("i8", Slice),
        ("i16", Slice),
        ("i32", Slice),
        ("i64", Slice),
        ("u8", Slice),
        ("u16", Slice),
        ("u32", Slice),
        ("u64", Slice),
        ("offsets32", Slice),
        ("offsets64", Slice),
        ("data", Slice),
        ("views", Slice),
        ("buffers", Slice),
    ]


class Statistics(c.Structure):
    """yk_statistics."""

    _fields_ = [("low", Column), ("high", Column), ("nulls", Column)]


class Rooms(c.Structure):
    """yk_verdicts."""

    _fields_ = [("verdicts", Slice), ("may_fault", Slice), ("least", Slice), ("most", Slice)]


_HANDLE, _ERROR, _SIZE = c.POINTER(Handle), c.POINTER(RawError), c.POINTER(c.c_size_t)
_SCHEMA, _ARRAY, _STREAM = c.POINTER(ArrowSchema), c.POINTER(ArrowArray), c.POINTER(ArrowArrayStream)
_CALLS: dict[str, list[Any]] = {
    "yk_abi_version": [],
    "yk_version": [c.c_void_p, c.c_size_t, _SIZE],
    "yk_expression_new": [c.c_char_p, c.c_size_t, c.POINTER(Field), c.c_size_t, _HANDLE, _ERROR],
    "yk_expression_free": [_HANDLE],
    "yk_field_count": [_HANDLE, _SIZE],
    "yk_field_name": [_HANDLE, c.c_size_t, c.c_void_p, c.c_size_t, _SIZE],
    "yk_field_type": [_HANDLE, c.c_size_t, c.POINTER(Type)],
    "yk_fields_read": [_HANDLE, _SIZE, c.c_size_t, _SIZE],
    "yk_answer_count": [_HANDLE, _SIZE],
    "yk_answer_name": [_HANDLE, c.c_size_t, c.c_void_p, c.c_size_t, _SIZE],
    "yk_answer_type": [_HANDLE, c.c_size_t, c.POINTER(Type)],
    "yk_answer_text": [_HANDLE, c.c_size_t, c.c_bool, c.c_void_p, c.c_size_t, _SIZE],
    "yk_prune": [_HANDLE, c.c_size_t, c.POINTER(Statistics), c.c_size_t, c.c_void_p, c.c_size_t, c.POINTER(Rooms), _ERROR],
    "yk_arrow_buffer_count": [_SCHEMA, _ARRAY],
    "yk_arrow_field": [_SCHEMA, c.POINTER(Field), _ERROR],
    "yk_arrow_column": [_SCHEMA, _ARRAY, c.POINTER(Slice), c.POINTER(Column), _ERROR],
    "yk_arrow_expression_new": [c.c_char_p, c.c_size_t, _SCHEMA, _HANDLE, _ERROR],
    "yk_arrow_schema": [_HANDLE, _SCHEMA, _ERROR],
    "yk_arrow_run": [_HANDLE, _SCHEMA, _ARRAY, _ARRAY, _ERROR],
    "yk_arrow_answer": [_HANDLE, c.POINTER(Column), c.c_size_t, c.c_size_t, _ARRAY, _ERROR],
    "yk_arrow_select": [_HANDLE, c.c_size_t, c.POINTER(Column), c.c_size_t, c.c_size_t, c.c_void_p, _SIZE, _ERROR],
    "yk_arrow_mask": [_HANDLE, c.c_size_t, c.POINTER(Column), c.c_size_t, c.c_size_t, c.c_void_p, _ERROR],
    "yk_arrow_share": [_ARRAY, _ARRAY],
    "yk_arrow_stream": [c.c_char_p, c.c_size_t, _STREAM, _STREAM, _ERROR],
    "yk_arrow_stream_error": [_STREAM],
}
_RESULTS: dict[str, Any] = {"yk_expression_free": None, "yk_arrow_buffer_count": c.c_size_t, "yk_arrow_stream_error": _ERROR}

_V3 = {"avx", "avx2", "bmi1", "bmi2", "f16c", "fma", "abm", "movbe"}


def _has_v3() -> bool:
    """Whether the processor is an x86-64-v3."""
    try:
        with open("/proc/cpuinfo", encoding="utf-8") as file:
            for line in file:
                if line.startswith("flags"):
                    return _V3 <= set(line.split())
    except OSError:
        pass
    return False


def _candidates() -> list[str]:
    """Where the shared object may be, the likeliest first."""
    if "YURKIJE_LIBRARY" in os.environ:
        return [os.environ["YURKIJE_LIBRARY"]]
    prefixes = [os.environ[name] for name in ("YURKIJE_PREFIX",) if name in os.environ]
    if not prefixes:
        try:
            from ._prefix import PREFIX  # type: ignore[import]

            prefixes = [PREFIX]
        except ImportError:
            pass
    found = []
    for prefix in prefixes:
        if _has_v3():
            found.append(f"{prefix}/lib/glibc-hwcaps/x86-64-v3/{SONAME}")
        found.append(f"{prefix}/lib/{SONAME}")
    return [*[path for path in found if os.path.exists(path)], SONAME]


def _load() -> c.CDLL:
    tried = []
    for path in _candidates():
        try:
            library = c.CDLL(path)
        except OSError as error:
            tried.append(str(error))
            continue
        for name, arguments in _CALLS.items():
            call = getattr(library, name)
            call.argtypes, call.restype = arguments, _RESULTS.get(name, c.c_uint32)
        if library.yk_abi_version() != ABI_VERSION:
            raise ImportError(f"{path} has interface {library.yk_abi_version()}, and this package is for {ABI_VERSION}")
        return library
    raise ImportError(f"yurkije is not installed, or not where YURKIJE_PREFIX says: {'; '.join(tried)}")


lib = _load()


def text_of(call: Any, *arguments: Any) -> str:
    """Returns the text that a call writes into a buffer, whose size it returns."""
    length = c.c_size_t()
    call(*arguments, None, 0, c.byref(length))
    room = c.create_string_buffer(max(length.value, 1))
    call(*arguments, room, length.value, c.byref(length))
    return room.raw[: length.value].decode()


def version() -> str:
    """Returns the library's name and version, as `yurkije 0.1.0`."""
    return text_of(lib.yk_version)
