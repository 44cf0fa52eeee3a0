"""Arrow's C data interface in Python: its structs, and the capsules in which they are passed (the
PyCapsule protocol)."""
from __future__ import annotations

import ctypes as c
from typing import Any


class ArrowSchema(c.Structure):
    """One type of Arrow, with its children; `release` is called once by whoever owns it."""


class ArrowArray(c.Structure):
    """One array of Arrow, with its children."""


class ArrowArrayStream(c.Structure):
    """Arrays of one schema, one after the other."""


RELEASE_SCHEMA = c.CFUNCTYPE(None, c.POINTER(ArrowSchema))
RELEASE_ARRAY = c.CFUNCTYPE(None, c.POINTER(ArrowArray))
RELEASE_STREAM = c.CFUNCTYPE(None, c.POINTER(ArrowArrayStream))

ArrowSchema._fields_ = [
    ("format", c.c_char_p),
    ("name", c.c_char_p),
    ("metadata", c.c_void_p),
    ("flags", c.c_int64),
    ("n_children", c.c_int64),
    ("children", c.POINTER(c.POINTER(ArrowSchema))),
    ("dictionary", c.POINTER(ArrowSchema)),
    ("release", RELEASE_SCHEMA),
    ("private_data", c.c_void_p),
]
ArrowArray._fields_ = [
    ("length", c.c_int64),
    ("null_count", c.c_int64),
    ("offset", c.c_int64),
    ("n_buffers", c.c_int64),
    ("n_children", c.c_int64),
    ("buffers", c.POINTER(c.c_void_p)),
    ("children", c.POINTER(c.POINTER(ArrowArray))),
    ("dictionary", c.POINTER(ArrowArray)),
    ("release", RELEASE_ARRAY),
    ("private_data", c.c_void_p),
]
ArrowArrayStream._fields_ = [
    ("get_schema", c.CFUNCTYPE(c.c_int, c.POINTER(ArrowArrayStream), c.POINTER(ArrowSchema))),
    ("get_next", c.CFUNCTYPE(c.c_int, c.POINTER(ArrowArrayStream), c.POINTER(ArrowArray))),
    ("get_last_error", c.CFUNCTYPE(c.c_char_p, c.POINTER(ArrowArrayStream))),
    ("release", RELEASE_STREAM),
    ("private_data", c.c_void_p),
]

# The names of capsules in the protocol.
KINDS: dict[bytes, Any] = {b"arrow_schema": ArrowSchema, b"arrow_array": ArrowArray, b"arrow_array_stream": ArrowArrayStream}

_python = c.pythonapi
_python.PyMem_RawCalloc.restype = c.c_void_p
_python.PyMem_RawCalloc.argtypes = [c.c_size_t, c.c_size_t]
_python.PyMem_RawFree.restype = None
_python.PyMem_RawFree.argtypes = [c.c_void_p]
_python.PyCapsule_New.restype = c.py_object
_python.PyCapsule_New.argtypes = [c.c_void_p, c.c_char_p, c.c_void_p]
_python.PyCapsule_IsValid.restype = c.c_int
_python.PyCapsule_IsValid.argtypes = [c.py_object, c.c_char_p]
_python.PyCapsule_GetPointer.restype = c.c_void_p
_python.PyCapsule_GetPointer.argtypes = [c.py_object, c.c_char_p]
# In a destructor the capsule has no references left, so it is named by its address.
_pointer_of_dying = c.PYFUNCTYPE(c.c_void_p, c.c_void_p, c.c_char_p)(("PyCapsule_GetPointer", _python))


def _destructor(name: bytes) -> Any:
    kind = KINDS[name]

    def drop(capsule: int) -> None:
        at = _pointer_of_dying(capsule, name)
        held = kind.from_address(at)
        if held.release:
            held.release(c.byref(held))
        _python.PyMem_RawFree(at)

    made = c.PYFUNCTYPE(None, c.c_void_p)(drop)
    # A capsule may live longer than this module when Python ends.
    _python.Py_IncRef(c.py_object(made))
    return made


_DESTRUCTORS = {name: _destructor(name) for name in KINDS}


def new(name: bytes) -> tuple[Any, Any]:
    """Returns a capsule of that name and the zeroed struct in it, which the capsule releases if
    nobody has taken it."""
    kind = KINDS[name]
    at = _python.PyMem_RawCalloc(1, c.sizeof(kind))
    if not at:
        raise MemoryError
    capsule = _python.PyCapsule_New(at, name, c.cast(_DESTRUCTORS[name], c.c_void_p))
    return capsule, kind.from_address(at)


def struct_in(capsule: object, name: bytes) -> Any:
    """Returns the struct in a capsule of that name. It keeps the capsule alive."""
    if not _python.PyCapsule_IsValid(capsule, name):
        raise TypeError(f"expected a capsule named {name.decode()}, not {capsule!r}")
    struct = KINDS[name].from_address(_python.PyCapsule_GetPointer(capsule, name))
    struct.capsule = capsule
    return struct
