"""What is known of a condition in groups of rows, by statistics."""
from __future__ import annotations

import ctypes as c
from collections.abc import Sequence
from typing import Any

import numpy as np

from ._columns import Borrowed, borrow, column_of, name_of
from ._errors import ColumnError, Told
from ._library import Handle, Rooms, Statistics, lib
from ._types import FLOAT_TYPES, bare

UNEXPECTED_NULL = 124
UNKNOWN, NONE_TRUE, ALL_TRUE = range(3)


class Verdicts:
    """What is known of an answer, as it is run, in each group of rows: numpy arrays with an item a group.

    verdicts     0: nothing; 1: no row is true; 2: every row is true, and none faults
    may_fault    whether a row may fault
    least, most  ends of the number of true rows
    """

    def __init__(self, groups: int) -> None:
        self.verdicts = np.zeros(groups, np.uint8)
        self.may_fault = np.zeros(groups, np.bool_)
        self.least = np.zeros(groups, np.uint64)
        self.most = np.zeros(groups, np.uint64)

    @property
    def skip(self) -> Any:
        """Which groups can be left out: no row is true, and a run over them does not fail for the answer."""
        return (self.verdicts == NONE_TRUE) & ~self.may_fault

    @property
    def whole(self) -> Any:
        """Which groups can be taken whole: every row is true."""
        return self.verdicts == ALL_TRUE

    def __len__(self) -> int:
        return len(self.verdicts)

    def __repr__(self) -> str:
        return f"<{len(self)} groups: {self.skip.sum()} to skip, {self.whole.sum()} whole>"


def _counts_of(name: str, values: Any) -> Borrowed:
    """Returns counts as a column of u64, whatever whole numbers they are."""
    return borrow(name, values.tolist() if hasattr(values, "tolist") else list(values), "u64")


def _rows_of(rows: Any) -> Any:
    """Returns the counts of rows, none of which is null."""
    counts = _counts_of("rows", rows)
    if counts.nullable:
        raise ColumnError(UNEXPECTED_NULL, "the number of rows of a group is null", "rows")
    return counts.keeps[0]


def _has(columns: Any, name: str) -> bool:
    return hasattr(columns, "keys") and any(name_of(label) == name for label in columns.keys())


def _ends_of(name: str, kind: str, low: Any, high: Any, nan_is_left_out: bool) -> list[tuple[str, Borrowed]]:
    """Returns the ends of a field. Where ends leave NaN out, those of floats say nothing of NaN, the greatest float: a low
    end is one of all rows, a high end is none, and an end that is NaN was made of no row."""
    leaves = nan_is_left_out and kind in FLOAT_TYPES
    parts = [("low", low)] if leaves else [("low", low), ("high", high)]
    return [(part, borrow(name, column_of(ends, name), kind, leaves)) for part, ends in parts if _has(ends, name)]


def _statistics_of(fields: Sequence[tuple[str, str]], parts: tuple[Any, Any, Any], nan_is_left_out: bool) -> tuple[Any, list[Any]]:
    """Returns the statistics of fields, and the objects that their addresses point into."""
    low, high, nulls = parts
    made, keeps = (Statistics * max(len(fields), 1))(), []
    for statistics, (name, kind) in zip(made, fields):
        given = _ends_of(name, bare(kind), low, high, nan_is_left_out)
        if _has(nulls, name):
            given.append(("nulls", _counts_of(name, column_of(nulls, name))))
        for part, column in given:
            column.raw.nullable = True
            setattr(statistics, part, column.raw)
            keeps.append(column)
    return made, keeps


def verdicts_of(
    handle: Handle, answer: int, fields: Sequence[tuple[str, str]], parts: tuple[Any, Any, Any], rows: Any, nan_is_left_out: bool
) -> Verdicts:
    """Returns what is known of an answer of an expression over fields."""
    counts = _rows_of(rows)
    statistics, _keeps = _statistics_of(fields, parts, nan_is_left_out)
    told, made, rooms = Told(), Verdicts(len(counts)), Rooms()
    for slot in ("verdicts", "may_fault", "least", "most"):
        place, array = getattr(rooms, slot), getattr(made, slot)
        place.at, place.length = array.ctypes.data, len(array)
    status = lib.yk_prune(handle, answer, statistics, len(fields), counts.ctypes.data, len(counts), c.byref(rooms), told.raw)
    told.check(status, [name for name, _ in fields])
    return made
