"""Errors as exceptions."""
from __future__ import annotations

import ctypes as c
from collections.abc import Sequence
from typing import Optional

from ._library import NONE, STATUSES, RawError


class Error(Exception):
    """An error of the library.

    number     the number of yurkije.h: 1 to 13 for E1 to E13 of docs/REFUSALS.md,
               from 100 on errors of the interface
    name       its name, as `Arithmetic`
    message    the error in words
    column     the name of the column that is wrong, or None
    row        the row that is wrong or faults, from 0 on, or None
    answer     the number of the answer that faults, or None
    byte       the byte of the text at which it is wrong, or None
    line, character     the same, from 1 on, or None
    """

    def __init__(self, number: int, message: str, column: Optional[str] = None, row: Optional[int] = None) -> None:
        super().__init__(message)
        self.number = number
        self.name = STATUSES.get(number, str(number))
        self.message = message
        self.column = column
        self.row = row
        self.answer: Optional[int] = None
        self.byte: Optional[int] = None
        self.line: Optional[int] = None
        self.character: Optional[int] = None


class ExpressionError(Error, ValueError):
    """A text is no expression over these columns."""


class ColumnError(Error, ValueError):
    """A column is not of the field's type, too short, or malformed; or has an unsupported type, as
    floats."""


class ArithmeticRefusal(Error, ArithmeticError):
    """In that row a result does not fit its type, or is divided by 0 (E7)."""


class OutOfMemory(Error, MemoryError):
    """An allocation failed (E9)."""


def _class_of(raw: RawError) -> type[Error]:
    if raw.status == 9:
        return OutOfMemory
    if raw.status == 7:
        return ArithmeticRefusal
    if raw.status >= 120:
        return ColumnError
    if raw.byte != NONE or raw.line or raw.status >= 110:
        return ExpressionError
    return ColumnError if raw.status in (2, 11, 12, 102) else Error


def _known(number: int) -> Optional[int]:
    return None if number == NONE else number


class Told:
    """A buffer for the library's error message."""

    def __init__(self) -> None:
        self.room = c.create_string_buffer(500)
        self.raw = RawError()
        self.raw.message.at = c.addressof(self.room)
        self.raw.message.length = len(self.room)

    def check(self, status: int, columns: Sequence[str] = ()) -> None:
        """Raises the reported error, unless the status is 0."""
        if status:
            raise error_of(self.raw, columns)


def error_of(raw: RawError, columns: Sequence[str] = ()) -> Error:
    """Returns the exception for the reported error, over columns of these names."""
    message = c.string_at(raw.message.at, raw.message_length).decode(errors="replace") if raw.message_length else ""
    column = columns[raw.column] if raw.column < len(columns) else None
    error = _class_of(raw)(raw.status, message or STATUSES.get(raw.status, ""), column, _known(raw.row))
    error.answer, error.byte = _known(raw.answer), _known(raw.byte)
    error.line, error.character = raw.line or None, raw.character or None
    return error
