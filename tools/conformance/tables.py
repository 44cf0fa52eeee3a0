"""Tables, and the shapes in which they are written as CSV."""
import re
from dataclasses import dataclass, replace

INTEGERS = {f"{sign}{bits}": (-2 ** (bits - 1) if sign == "i" else 0, 2 ** (bits - (sign == "i")) - 1)
            for sign in "iu" for bits in (8, 16, 32, 64)}


@dataclass(frozen=True)
class Column:
    """is_declared: whether --columns has it, or its type is that of the fields of the first rows. by_place: whether --columns has
    its place, and the header another name."""
    name: str
    type: str
    nullable: bool
    is_declared: bool = True
    by_place: bool = False


@dataclass(frozen=True)
class Layout:
    """How a table is written as CSV, and how its answers are. seed: of what is chance in it. is_numbered: whether its columns
    have the names c1, c2 and so on, as without a header. nulls: the texts for null; the first is written. comment: the byte
    that begins a comment line. ragged: whether records are short and long."""
    seed: str = ""
    header: bool = True
    is_numbered: bool = False
    nulls: tuple = ("",)
    comment: str = ""
    ragged: bool = False
    delimiter: str = ","
    output_delimiter: str = ","


@dataclass
class Table:
    """pattern, digits: the names of columns whose texts often are patterns, and numbers. marks: the number of each row where the table
    was made."""
    columns: list
    rows: list
    layout: Layout = Layout()
    pattern: str = "pattern"
    digits: str = "digits"
    marks: list = None

    def __post_init__(self):
        self.marks = list(range(len(self.rows))) if self.marks is None else self.marks

    def column(self, name):
        return next(column for column in self.columns if column.name == name)

    def cell(self, name, place):
        return self.rows[place][[column.name for column in self.columns].index(name)]

    def only(self, names, places=None):
        """The same table with these columns and rows alone. Where rows go, each column is declared: the others might say another
        type. Columns whose names are their numbers all stay."""
        kept = [place for place, column in enumerate(self.columns) if self.layout.is_numbered or column.name in names]
        numbers = range(len(self.rows)) if places is None else places
        columns = [self.columns[place] if places is None else replace(self.columns[place], is_declared=True) for place in kept]
        rows = [tuple(self.rows[number][place] for place in kept) for number in numbers]
        return Table(columns, rows, self.layout, self.pattern, self.digits, [self.marks[number] for number in numbers])


def field(value):
    """A value as a field of CSV, without quotes."""
    return str(value).lower() if isinstance(value, bool) else str(value)


def type_of_fields(values):
    """The type that a column takes of these values' fields, or None where the fields of all are digits of numbers that are
    written otherwise, as 007: builds before 28 November 2026 took those for numbers too."""
    fields = [field(value) for value in values if value is not None]
    if fields and all(one in ("true", "false") for one in fields):
        return "bool"
    low, high = INTEGERS["i64"]
    if fields and all(re.fullmatch("[-+]?[0-9]+", one) and low <= int(one) <= high for one in fields):
        return "i64" if all(one == str(int(one)) for one in fields) else None
    return "utf8"


# How a table is written: each column declared; without a header; with some columns that are not declared; with columns c1, c2 and
# so on; with columns declared by their places; with several texts for null; with comment lines; with short and long records. The
# last three, and other delimiters, come with the others now and then too.
SHAPES = ("declared", "without a header", "inferred", "numbered", "places", "nulls", "comments", "ragged")


def layout_of(rng, shape):
    def has(one):
        return shape == one or rng.random() < 0.25
    delimiter = rng.choice((",", ",", ",", ";", "\t", "|"))
    output_delimiter = rng.choice((delimiter, ",", ";", "\t"))
    return Layout(
        seed=str(rng.random()),
        header=shape not in ("without a header", "numbered") and (shape == "inferred" or rng.random() < 0.8),
        is_numbered=shape == "numbered",
        nulls=rng.choice((("", "NA"), ("NA", ""), ("\\N", "NA", ""), ("null", "-"))) if has("nulls") else ("",),
        comment=rng.choice([byte for byte in "#;%!/" if byte not in (delimiter, output_delimiter)]) if has("comments") else "",
        # if a record is short or long, the first rows, which determine types, may end
        ragged=shape not in ("inferred", "numbered") and has("ragged"),
        delimiter=delimiter,
        output_delimiter=output_delimiter)


def shaped_column(rng, column, place, values, shape):
    """A column of these values, as a table of that shape has it."""
    if shape == "numbered":
        column = replace(column, name=f"c{place + 1}")
    if shape == "places" and rng.random() < 0.6:
        return replace(column, by_place=True)
    is_taken = shape in ("inferred", "numbered") and column.type in ("bool", "i64", "utf8") and rng.random() < 0.6
    if not is_taken or type_of_fields(values) != column.type:
        return column
    # whether it has nulls is determined by the fields too
    return replace(column, nullable=None in values, is_declared=False)


def with_shape(rng, columns, rows, shape):
    """A table of these columns and rows, as the program gets it. Some texts are spelled like null,
    in quotes."""
    layout = layout_of(rng, shape)
    if layout.nulls != ("",):
        rows = [tuple(rng.choice(layout.nulls) if isinstance(value, str) and rng.random() < 0.05 else value for value in row)
                for row in rows]
    shaped = [shaped_column(rng, column, place, [row[place] for row in rows], shape) for place, column in enumerate(columns)]
    names = [column.name for column in columns]
    return Table(shaped, rows, layout, *(shaped[names.index(name)].name for name in ("pattern", "digits")))
