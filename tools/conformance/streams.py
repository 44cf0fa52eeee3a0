"""A table as CSV for rowfn_stream, with the options for reading it; and CSV that is read back."""
import random
from dataclasses import dataclass

from spelling import quoted
from tables import field

# the options that a layout may need; a program without them cannot be tested
OPTIONS = ["--comment", "--ragged", "--output-delimiter"]


def spelled(value, null=""):
    """A value as a field: each text in quotes, and null as one of its texts."""
    if value is None:
        return null
    return quoted(value, '"') if isinstance(value, str) else field(value)


def declared(column, place):
    """A column as --columns declares it."""
    by_place = f"{place + 1} as " * column.by_place
    return f"{by_place}{quoted(column.name, chr(34))} {column.type}{'?' * column.nullable}"


def words(table, for_rows=False):
    """The options for reading a table. `for_rows`: without a delimiter of the output, whose rows
    are those of the input."""
    layout = table.layout
    columns = ", ".join(declared(column, place) for place, column in enumerate(table.columns) if column.is_declared)
    said = ["--columns", columns] * bool(columns) + ["--no-header"] * (not layout.header)
    said += [word for null in layout.nulls if layout.nulls != ("",) for word in ("--null", null)]
    said += ["--comment", layout.comment] * bool(layout.comment) + ["--ragged", "fit"] * layout.ragged
    said += ["--delimiter", layout.delimiter] * (layout.delimiter != ",")
    return said + ["--output-delimiter", layout.output_delimiter] * (not for_rows and layout.output_delimiter != layout.delimiter)


@dataclass
class Written:
    """A table as CSV: its header line, if it has one; the line of each row; and the comment lines before each row, which come
    after the header."""
    header: str
    rows: list
    comments: list

    def text(self):
        return self.header + "".join(map("".join, zip(self.comments, self.rows)))


def comment_lines(rng, layout, often):
    """No comment line, or some: of few fields and of many, and with a quote that opens no field."""
    if not layout.comment or rng.random() >= often:
        return ""
    texts = ["", " a, b", '"', ' "a', "true,1,2", "é'", layout.delimiter * 30]
    return "".join(layout.comment + rng.choice(texts) + rng.choice(("\n", "\n", "\r\n")) for _ in range(rng.choice((1, 1, 2))))


def ragged(rng, row, fields):
    """The fields of a row without some of its last nulls, or with further fields, which are empty: others would be refused."""
    last = max((place for place, value in enumerate(row) if value is not None), default=0)
    if rng.random() < 0.5:
        return fields[:rng.randint(last + 1, len(fields))]
    return fields + [rng.choice(("", "", '""')) for _ in range(rng.choice((0, 1, 1, 3)))]


def written(table):
    """A table as CSV. A row is written the same in each table that has it."""
    layout, often = table.layout, min(0.2, 20 / max(1, len(table.rows)))
    names = [f"h{place}" if column.by_place else column.name for place, column in enumerate(table.columns)]
    begin = comment_lines(random.Random(f"{layout.seed} header"), layout, 0.5)
    header = begin + layout.delimiter.join(map(spelled, names)) + "\n" if layout.header else ""
    rows, comments = [], []
    for number, (mark, row) in enumerate(zip(table.marks, table.rows)):
        rng = random.Random(f"{layout.seed} {mark}")
        fields = [spelled(value, rng.choice(layout.nulls)) for value in row]
        # without a header the first row determines how many fields there are
        if layout.ragged and (layout.header or number):
            fields = ragged(rng, row, fields)
        rows.append(layout.delimiter.join(fields) + "\n")
        comments.append(comment_lines(rng, layout, often))
    return Written(header, rows, comments)


def read_rows(text, delimiter=",", null=""):
    """The rows of a CSV text; a field is a text, or None if it is the text for null without
    quotes."""
    rows, row, place = [], [], 0
    while place < len(text):
        if text[place] == '"':
            found, place = "", place + 1
            while True:
                end = text.index('"', place)
                found += text[place:end]
                place = end + 1
                if text[place:place + 1] != '"':
                    break
                found, place = found + '"', place + 1
        else:
            ends = [end for end in (text.find(delimiter, place), text.find("\n", place)) if end >= 0]
            found, place = text[place:min(ends)], min(ends)
            found = None if found == null else found
        row.append(found)
        if text[place] == "\n":
            rows.append(row)
            row = []
        place += 1
    return rows
