"""Expressions: a text, read once, and run over batches of columns."""
from __future__ import annotations

import ctypes as c
import re
from collections.abc import Iterable, Iterator, Mapping
from functools import cached_property
from typing import Any, Callable, Optional, TypeVar, Union

import numpy as np

from . import _capsules as capsules
from ._answers import Answer, Answers, Held, type_of_format
from ._columns import Borrowed, borrow, column_of, fields_of, name_of, type_of
from ._errors import Error, ExpressionError, Told, error_of
from ._library import Column, Handle, Type, lib, text_of
from ._pruning import Verdicts, verdicts_of
from ._types import bare, is_nullable, name_of_number, type_said, with_null

# A token of an expression that can name a column, or hide one: a text, a comment, `::`, a word, with a bracket if it is a function's, a
# name in quotes. A comment ends at a line feed or a carriage return, or where its brackets close, which nest.
TOKEN = re.compile(r"""'[^']*'|(--[^\r\n]*|/\*)|(::)|(\w+\(?)|"((?:[^"]|"")*)\"""", re.A)
BRACKET = re.compile(r"/\*|\*/")
KEYWORDS = frozenset(
    "and or not is null between like ilike escape true false cast as unknown distinct from in case when then else end".split())

# Types for unknown columns, to see whether a text is wrong whatever their types are.
STAND_INS = ("i64", "utf8", "bool")
# Errors that do not depend on column types: the text names no column, is not UTF-8, has a syntax
# error, names no type, has a null next to nothing, or an escape of two characters.
OF_TEXT_ALONE = (11, 110, 112, 113, 115, 116)


class _Program:
    """A handle, freed with this object by whichever thread drops it. Calls over it only read it, so
    threads share it."""

    def __init__(self) -> None:
        self.raw = Handle()

    def __del__(self) -> None:
        lib.yk_expression_free(self.raw)


_Made = TypeVar("_Made")


def _each(text: str, columns: Any, make: Callable[[str], _Made]) -> tuple[dict[str, Optional[_Made]], Optional[Error]]:
    """Returns the result for each column that a text names, or None if it is an error, and the
    first such error."""
    named = names_in(text)
    made: dict[str, Optional[_Made]] = {}
    refused: Optional[Error] = None
    for name in _names_of(columns):
        if name in named:
            try:
                made[name] = make(name)
            except Error as error:
                made[name], refused = None, refused or error
    return made, refused


def names_in(text: str) -> set[str]:
    """Returns each name that a text may read as a column: no keyword, no number, no type after
    `::`, no name after `as`."""
    names, is_other, place = set(), False, 0
    while token := TOKEN.search(text, place):
        comment, colons, word, quoted = token.groups()
        place = token.end() if comment != "/*" else _comment_end(text, token.start())
        if comment is not None:
            continue
        keyword = word.lower() if word else ""
        if not is_other and quoted is not None:
            names.add(quoted.replace('""', '"'))
        elif not is_other and word and keyword not in KEYWORDS and word[-1] != "(" and not word[0].isdigit():
            names.add(word)
        is_other = colons is not None or keyword == "as"
    return names


def _comment_end(text: str, begin: int) -> int:
    """Returns where a comment in brackets ends: behind the one that closes its first."""
    depth = 0
    for bracket in BRACKET.finditer(text, begin):
        depth += 1 if bracket[0] == "/*" else -1
        if depth == 0:
            return bracket.end()
    return len(text)


def _names_of(columns: Any) -> list[str]:
    """Returns the names of columns, each once."""
    if not hasattr(columns, "keys"):
        raise TypeError(f"columns are a mapping of columns by their names, a frame, or a batch of Arrow, and no {type(columns).__name__}")
    return list(dict.fromkeys(map(name_of, columns.keys())))


def _is_batch(source: Any) -> bool:
    """Whether columns are passed as a batch of Arrow."""
    return hasattr(source, "__arrow_c_array__")


def _rows_of(columns: list[Borrowed], rows: Optional[int], source: Any) -> int:
    if rows is not None:
        return rows
    if columns:
        return int(columns[0].raw.rows)
    for label in source.keys():
        return len(source[label])
    raise ValueError("there is no column to tell how many rows there are: say rows")


def _raws(borrowed: list[Borrowed]) -> Any:
    """Returns the columns as an array, as the library reads them."""
    return (Column * max(len(borrowed), 1))(*[column.raw for column in borrowed])


class Expression:
    """An expression over columns of given types, read once and run over many batches.

    >>> worth = Expression("price * stock as worth, price > 100", {"price": "i64", "stock": "i64?"})
    >>> worth.answers
    (Answer(name='worth', type='i64?'), Answer(name='price > 100', type='bool'))

    `columns` has the type of each column: bool, i8 to i64, u8 to u64, utf8, binary, f64, f32, date,
    timestamp or decimal(p,s), with a question mark behind the word if a row may be null, as i64? or
    decimal?(12,2); or a type of numpy or pandas, as `np.dtype("i8")`. Columns
    that the text does not name may have any type. docs/EXPRESSIONS.md has the language.

    Threads may share an Expression. Calls of the library release Python's lock.
    """

    def __init__(self, text: str, columns: Mapping[str, Any]) -> None:
        types, refused = _each(text, columns, lambda name: type_said(name, column_of(columns, name)))
        self._read_text(text, types, _names_of(columns), refused)

    def _read_text(self, text: str, types: Mapping[str, Optional[str]], names: Iterable[str], refused: Optional[Error]) -> None:
        """Reads a text over the columns that it names, of their types, or None if a column is an
        error. Raises what is wrong with the text, else that error."""
        self.text = text
        self._encoded = text.encode()
        if refused is None:
            self._read = [(name, kind) for name, kind in types.items() if kind]
            try:
                self._program = self._begin()
                return
            except ExpressionError as error:
                refused = error
        raise self._wrong_text(types, names) or refused

    def _wrong_text(self, types: Mapping[str, Optional[str]], names: Iterable[str]) -> Optional[Error]:
        """Returns why the text is no expression, whatever the types of columns without one here, or
        None. The message knows the names of all columns; those that the text does not name may have
        any type."""
        told: list[Error] = []
        for stand_in in STAND_INS:
            self._read = [(name, types.get(name) or stand_in) for name in names]
            try:
                self._begin()
                return None
            except ExpressionError as error:
                if error.number in OF_TEXT_ALONE:
                    return error
                told.append(error)
        return told[0] if len({(error.number, error.byte, error.message) for error in told}) == 1 else None

    @classmethod
    def of(cls, text: str, columns: Any, nan_is_null: bool = False) -> Expression:
        """Returns the expression over the types that columns have: a mapping of columns, a frame of pandas, or anything with
        `keys()` and the columns by name; or a batch with `__arrow_c_array__`."""
        if _is_batch(columns):
            return cls._of_schema(text, capsules.struct_in(columns.__arrow_c_array__()[0], b"arrow_schema"))
        return cls._over(text, columns, nan_is_null)[0]

    @classmethod
    def _over(cls, text: str, columns: Any, nan_is_null: bool = False) -> tuple[Expression, list[Borrowed]]:
        """Returns the expression over the types that columns have, and the columns that it reads,
        borrowed. No other column is read."""
        borrowed, refused = _each(text, columns, lambda name: borrow(name, column_of(columns, name), None, nan_is_null))
        made = cls.__new__(cls)
        types = {name: type_of(column) if column else None for name, column in borrowed.items()}
        made._read_text(text, types, _names_of(columns), refused)
        return made, [made._lent(column, type_of(column)) for column in borrowed.values() if column]

    @classmethod
    def _of_schema(cls, text: str, schema: Any) -> Expression:
        made = cls.__new__(cls)
        made.text, made._encoded, made._program, told = text, text.encode(), _Program(), Told()
        told.check(lib.yk_arrow_expression_new(made._encoded, len(made._encoded), schema, made._program.raw, told.raw))
        made._read = made._fields()
        return made

    def _begin(self) -> _Program:
        """Reads the text over the columns that are noted."""
        program, told = _Program(), Told()
        fields, _keeps = fields_of(self._read)
        status = lib.yk_expression_new(self._encoded, len(self._encoded), fields, len(self._read), program.raw, told.raw)
        told.check(status, [name for name, _ in self._read])
        return program

    @cached_property
    def answers(self) -> tuple[Answer, ...]:
        """The names and types of the answers."""
        return tuple(Answer(*told) for told in self._typed(lib.yk_answer_count, lib.yk_answer_name, lib.yk_answer_type))

    def _handle(self) -> Handle:
        return self._program.raw

    def _typed(self, count_of: Any, name_of: Any, type_of_it: Any) -> Iterator[tuple[str, str]]:
        handle, count = self._handle(), c.c_size_t()
        count_of(handle, c.byref(count))
        for number in range(count.value):
            kind = Type()
            type_of_it(handle, number, c.byref(kind))
            yield text_of(name_of, handle, number), with_null(name_of_number(kind.kind), kind.nullable)

    def _fields(self) -> list[tuple[str, str]]:
        return list(self._typed(lib.yk_field_count, lib.yk_field_name, lib.yk_field_type))

    @property
    def columns(self) -> dict[str, str]:
        """The columns that an answer reads, with their types."""
        handle, count = self._handle(), c.c_size_t()
        numbers = (c.c_size_t * max(len(self._read), 1))()
        lib.yk_fields_read(handle, numbers, len(self._read), c.byref(count))
        return dict(self._read[number] for number in numbers[: count.value])

    def text_of_answer(self, answer: int, optimized: bool = False) -> str:
        """Returns the text of an answer, as it was read or as it is run."""
        return text_of(lib.yk_answer_text, self._handle(), answer, optimized)

    @staticmethod
    def _lent(column: Borrowed, kind: str) -> Borrowed:
        column.raw.nullable = is_nullable(kind)
        return column

    def _borrowed(self, source: Any, nan_is_null: bool) -> list[Borrowed]:
        return [self._lent(borrow(name, column_of(source, name), bare(kind), nan_is_null), kind) for name, kind in self._read]

    def _schema_capsule(self) -> object:
        capsule, schema = capsules.new(b"arrow_schema")
        told = Told()
        told.check(lib.yk_arrow_schema(self._handle(), schema, told.raw))
        return capsule

    def run(self, columns: Any, rows: Optional[int] = None, nan_is_null: bool = False) -> Answers:
        """Returns the answers over columns of one length: a mapping of them by name, a frame of pandas, or a batch with
        `__arrow_c_array__`.

        A column is a numpy array (a masked one has nulls), a pandas series, a list with None, NaN
        or pandas' NA for null, or an array of Arrow. Raises errors, with the row in which an answer
        faults. `rows` is needed if there are no columns. Among floats a NaN is a value, the greatest, as
        in PostgreSQL; with `nan_is_null` it is null, but in columns of Arrow.
        """
        if not _is_batch(columns):
            return self._run(self._borrowed(columns, nan_is_null), columns, rows)
        told, held = Told(), Held()
        schema_capsule, array_capsule = columns.__arrow_c_array__()
        schema = capsules.struct_in(schema_capsule, b"arrow_schema")
        batch = capsules.struct_in(array_capsule, b"arrow_array")
        told.check(lib.yk_arrow_run(self._handle(), schema, batch, held.raw, told.raw), self._names())
        return Answers(self.answers, held, self._schema_capsule)

    def _names(self) -> list[str]:
        return [name for name, _ in self._read]

    def _run(self, borrowed: list[Borrowed], source: Any, rows: Optional[int]) -> Answers:
        told, held, count = Told(), Held(), _rows_of(borrowed, rows, source)
        told.check(lib.yk_arrow_answer(self._handle(), _raws(borrowed), len(borrowed), count, held.raw, told.raw), self._names())
        return Answers(self.answers, held, self._schema_capsule)

    def select(self, columns: Any, answer: int = 0, rows: Optional[int] = None, nan_is_null: bool = False) -> Any:
        """Returns the numbers of the rows in which an answer, a truth value, is true: an array of int64, ascending."""
        if _is_batch(columns):
            return np.flatnonzero(self._true(columns, answer))
        return self._select(self._borrowed(columns, nan_is_null), columns, answer, rows)

    def _select(self, borrowed: list[Borrowed], source: Any, answer: int, rows: Optional[int]) -> Any:
        told, count = Told(), _rows_of(borrowed, rows, source)
        numbers, selected = np.empty(count, np.int64), c.c_size_t()
        self._check_truth(answer)
        status = lib.yk_arrow_select(
            self._handle(), answer, _raws(borrowed), len(borrowed), count, numbers.ctypes.data, c.byref(selected), told.raw
        )
        told.check(status, self._names())
        # shrinks in place; nothing else points to it yet
        numbers.resize(selected.value, refcheck=False)
        return numbers

    def _check_truth(self, answer: int) -> None:
        """Raises if there is no such answer, or if it is no truth value."""
        if not 0 <= answer < len(self.answers):
            raise Error(101, f"there is no answer {answer}, of {len(self.answers)}, from 0 on")
        name, kind = self.answers[answer]
        if bare(kind) != "bool":
            raise Error(103, f'answer {answer}, "{name}", is {kind}, and rows are taken where a bool is true')

    def _true(self, batch: Any, answer: int) -> Any:
        """Returns in which rows of a batch an answer is true."""
        self._check_truth(answer)
        return np.ma.filled(self.run(batch).column(answer), False)

    def mask(self, columns: Any, answer: int = 0, rows: Optional[int] = None, nan_is_null: bool = False) -> Any:
        """Returns whether an answer, a truth value, is true in each row: an array of bool, False
        for null, as filters of numpy and pandas expect it, `frame[wanted.mask(frame)]`."""
        if _is_batch(columns):
            return self._true(columns, answer)
        return self._mask(self._borrowed(columns, nan_is_null), columns, answer, rows)

    def _mask(self, borrowed: list[Borrowed], source: Any, answer: int, rows: Optional[int]) -> Any:
        told, count = Told(), _rows_of(borrowed, rows, source)
        self._check_truth(answer)
        mask = np.empty(count, np.bool_)
        status = lib.yk_arrow_mask(self._handle(), answer, _raws(borrowed), len(borrowed), count, mask.ctypes.data, told.raw)
        told.check(status, self._names())
        return mask

    def prune(
        self, low: Any = (), high: Any = (), nulls: Any = (), rows: Any = (), answer: int = 0, nan_is_left_out: bool = False
    ) -> Verdicts:
        """Returns what is known of an answer, a truth value, in each group of rows, without a row.

        `low`, `high` and `nulls` are mappings of columns by field, or frames, with an item a group: ends between which
        the rows of the field lie that are not null, and how many are null. A field that one does not have, and an item
        that is null, say nothing. `rows` are the counts of rows. What is said has to be so; the verdicts are of all
        columns of which it is. Raises errors, with the field as `column` and the group as `row`.

        A NaN is the greatest float. Parquet and Iceberg leave it out of the ends of a column that has it: pass their ends with
        `nan_is_left_out`. Then ends of floats say nothing of NaN: high ends of floats, and ends that are NaN, are not looked at.

        >>> wanted = Expression("price > 100", {"price": "i64"})
        >>> wanted.prune(low={"price": [0, 101]}, high={"price": [9, 300]}, rows=[8, 9]).skip
        array([ True, False])
        """
        self._check_truth(answer)
        return verdicts_of(self._handle(), answer, self._read, (low, high, nulls), rows, nan_is_left_out)

    def __reduce__(self) -> Any:
        """Pickles as its text, and is read again where it is unpickled."""
        return Expression, (self.text, dict(self._read))

    def __repr__(self) -> str:
        return f"yurkije.Expression({self._encoded.decode()!r}, {dict(self._read)!r})"


class Stream:
    """The answers of a text over a stream of Arrow's batches: read once, either by iteration, or by
    another library through `__arrow_c_stream__`. Rows are numbered over the whole stream. One
    thread at a time may use it."""

    def __init__(self, text: str, source: Any) -> None:
        encoded, told = text.encode(), Told()
        taken = source.__arrow_c_stream__()
        self._capsule, self._raw = capsules.new(b"arrow_array_stream")
        incoming = capsules.struct_in(taken, b"arrow_array_stream")
        told.check(lib.yk_arrow_stream(encoded, len(encoded), incoming, self._raw, told.raw))
        self.answers = tuple(Answer(name, kind) for name, kind in self._types())

    def _schema_capsule(self) -> object:
        capsule, schema = capsules.new(b"arrow_schema")
        self._check(self._raw.get_schema(c.byref(self._raw), c.byref(schema)))
        return capsule

    def _types(self) -> Iterator[tuple[str, str]]:
        capsule = self._schema_capsule()
        schema = capsules.struct_in(capsule, b"arrow_schema")
        for number in range(schema.n_children):
            child = schema.children[number].contents
            yield child.name.decode(), type_of_format(child.format, bool(child.flags & 2))

    def _check(self, code: int) -> None:
        if code:
            raise error_of(lib.yk_arrow_stream_error(c.byref(self._raw)).contents)

    def __iter__(self) -> Iterator[Answers]:
        while self._raw.release:
            held = Held()
            self._check(self._raw.get_next(c.byref(self._raw), c.byref(held.raw)))
            if not held.raw.release:
                return
            yield Answers(self.answers, held, self._schema_capsule)

    def __arrow_c_stream__(self, requested_schema: object = None) -> object:
        """Exports the stream, as a capsule."""
        return self._capsule


def evaluate(text: str, columns: Any, rows: Optional[int] = None, nan_is_null: bool = False) -> Union[Answers, Stream]:
    """Returns the answers of a text over columns, with the types that they have; for a source with
    `__arrow_c_stream__` a stream of answers.

    >>> evaluate("a + b as sum", {"a": np.array([1, 2]), "b": [3, None]})["sum"]
    masked_array(data=[4, --], mask=[False,  True], fill_value=999999)
    """
    if _is_batch(columns):
        return Expression.of(text, columns).run(columns, rows)
    if not hasattr(columns, "keys") and hasattr(columns, "__arrow_c_stream__"):
        return Stream(text, columns)
    expression, borrowed = Expression._over(text, columns, nan_is_null)
    return expression._run(borrowed, columns, rows)


def select(text: str, columns: Any, nan_is_null: bool = False) -> Any:
    """Returns the numbers of the rows in which a text is true, over columns with the types that
    they have. Columns that it does not name are not read."""
    if _is_batch(columns):
        return Expression.of(text, columns).select(columns)
    expression, borrowed = Expression._over(text, columns, nan_is_null)
    return expression._select(borrowed, columns, 0, None)


def mask(text: str, columns: Any, nan_is_null: bool = False) -> Any:
    """Returns whether a text is true in each row, over columns with the types that they have: an
    array of bool, False where it is false or null, as for `frame[yurkije.mask(text, frame)]`.

    >>> mask("a > 1", {"a": [1, None, 3]})
    array([False, False,  True])
    """
    if _is_batch(columns):
        return Expression.of(text, columns).mask(columns)
    expression, borrowed = Expression._over(text, columns, nan_is_null)
    return expression._mask(borrowed, columns, 0, None)
