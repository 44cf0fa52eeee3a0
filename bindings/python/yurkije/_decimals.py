"""Decimals of Python, as whole numbers of their last place."""
from __future__ import annotations

import decimal
from typing import Any, Optional

import numpy as np

from ._types import MOST_DIGITS, decimal_named

# Moves a point, and never rounds.
EXACT = decimal.Context(prec=decimal.MAX_PREC, Emax=decimal.MAX_EMAX, Emin=decimal.MIN_EMIN)


def _places_of(value: decimal.Decimal) -> int:
    """Returns how many digits a finite decimal has after its point."""
    return max(-int(value.as_tuple().exponent), 0)


def _digits_of(value: Any) -> Optional[tuple[int, int]]:
    """Returns how many digits a number has before its point, and after it; None if it is not finite."""
    if isinstance(value, decimal.Decimal):
        if not value.is_finite():
            return None
        places = _places_of(value)
        # zeros at the end count, unless they are too many
        places = places if places <= MOST_DIGITS else _places_of(value.normalize(EXACT))
        return (max(value.adjusted() + 1, 0) if value else 0), places
    return len(str(abs(int(value)))), 0


def inferred(values: list[Any]) -> tuple[str, Optional[tuple[int, str]]]:
    """Returns the type of decimals that has every value, and none more digits than are needed; and the row in which
    more are needed than any type has, with what is wrong there in words."""
    before = after = 0
    for row, value in enumerate(values):
        digits = None if value is None else _digits_of(value)
        if value is not None and digits is None:
            return "", (row, f"{value} is no decimal")
        if digits is None:
            continue
        before, after = max(before, digits[0]), max(after, digits[1])
        if before + after > MOST_DIGITS:
            words = f"{_short(value)} and the rows before it need {before} digits before the point and {after} after it"
            return "", (row, f"{words}, and a decimal has at most {MOST_DIGITS} in all")
    return decimal_named(max(before + after, 1), after), None


def _short(value: Any) -> str:
    text = str(value)
    return text if len(text) <= 60 else f"{text[:57]}.."


def _number_of(value: Any, scale: int, most: int) -> Optional[int]:
    """Returns a number in units of its last place; None if it has more places than that, or more digits."""
    if isinstance(value, decimal.Decimal):
        if not value:
            return 0
        if not value.is_finite() or value.adjusted() > MOST_DIGITS:
            return None
        moved = value.scaleb(scale, EXACT)
        number = int(moved)
        if number != moved:
            return None
    else:
        number = int(value) * 10**scale
    return number if abs(number) < most else None


def numbers_of(values: list[Any], precision: int, scale: int) -> tuple[Any, Optional[tuple[int, str]]]:
    """Returns decimals as whole numbers of their last place, 0 for None; and the first row that is no decimal of so
    many digits, with what is wrong there in words."""
    most = 10**precision
    numbers = [0 if value is None else _number_of(value, scale, most) for value in values]
    if None in numbers:
        row = numbers.index(None)
        return None, (row, f"{_short(values[row])} is no {decimal_named(precision, scale)}")
    return np.array(numbers, np.int64), None


def decimals_of(numbers: Any, scale: int, nulls: Optional[Any]) -> Any:
    """Returns whole numbers of their last place as an array of decimals, with None for null."""
    made = np.empty(len(numbers), object)
    made[:] = [decimal.Decimal(number).scaleb(-scale, EXACT) for number in numbers.tolist()]
    if nulls is not None:
        made[nulls] = None
    return made
