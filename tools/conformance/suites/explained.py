"""Which row of EXPRESSIONS' tables of differences explains another result; None if none does."""

import re

COMPARES = r"[=<>]|\bin\b|\bbetween\b|\bcase\b|\bfield\b"
ROWS = [
    ("a zero divisor, a remainder by zero", lambda c, g: "Arithmetic.Div" in g[2] and
     re.search(r"/", c.text) and c.expected is not None and not re.search("(?i)case|coalesce", c.text)
     or "division by zero" in g[2] or re.search(r"%0|% 0", c.text)),
    ("a value that CASE does not take", lambda c, g: "E7" in g[2] and re.search(
        "(?i)case|coalesce|if", c.text)),
    ("a number past its type", lambda c, g: "E7" in g[2]),
    ("a reference back in a pattern, looking round, other syntax of patterns",
     lambda c, g: "regular expression" in g[2] or re.search(r"(?i)regexp", c.text) and
     re.search(r"\\\\*\d|\\g\d", c.text) and "REPLACE" not in c.text.upper()),
    ("digits before other characters, a number of more than 32 bits",
     lambda c, g: re.search(r"is no (i32|i64|i16|f64|f32) number", g[2])),
    ("a shift by all bits, by a negative count", lambda c, g: "shift by" in g[2]),
    ("a negative length", lambda c, g: "negative length" in g[2]),
    ("formats of dates (their own section)", lambda c, g: "date format" in g[2] or
     "date field" in g[2]),
    ("a number of more than 32 bits", lambda c, g: "integer out of range in cast" in g[2]),
    ("another fault of a row", lambda c, g: "E10" in g[2]),
    ("LIKE and case", lambda c, g: re.search(r"(?i)\blike\b", c.text) and c.engine in (
        "sqlite", "mariadb") and g[1] != "<null>" and "\\" not in c.text),
    ("the backslash in a pattern or a text", lambda c, g: c.engine == "mariadb" and "\\" in c.text
     and "REGEXP_REPLACE" not in c.text.upper()),
    ("a place before the first", lambda c, g: re.search(r"(?i)substr(ing)?\(.*,\s*(-\d|0)", c.text)),
    ("negative lengths", lambda c, g: re.search(r"(?i)(left|right|rpad|lpad)\(.*-\d", c.text)),
    ("blanks at the end, letters in two cases, the order of letters", lambda c, g: c.engine in (
        "mariadb", "derby") and re.search(r"(?i)'[^']*'.*(%s)" % COMPARES, c.text)),
    ("letters in two cases", lambda c, g: c.engine == "mariadb" and re.search(
        r"(?i)instr|locate|field", c.text)),
    ("null among what is compared", lambda c, g: re.search(r"(?i)greatest|least", c.text)),
    ("bits of a number", lambda c, g: c.engine == "mariadb" and re.search(r"~|<<|>>|\||&", c.text)
     and "||" not in c.text),
    ("|| of numbers", lambda c, g: "||" in c.text and c.engine in ("mariadb", "sqlite")),
    ("two minus signs, a comment", lambda c, g: "--" in c.text or "/*!" in c.text),
    ("a quotient of whole numbers", lambda c, g: c.engine == "mariadb" and re.fullmatch(
        r"\s*\d+\s*/\s*\d+\s*", c.text)),
    ("null in replace, concat_ws", lambda c, g: re.search(r"(?i)concat_ws|replace\(", c.text) and
     re.search("(?i)null", c.text)),
    ("a text beside a float", lambda c, g: c.engine == "sqlite" and re.search(
        r"'[\d.]+'\s*==?\s*\d+\.", c.text)),
    ("a text that is rounded to the float 0", lambda c, g: re.search(r"10e-\d+", c.text)),
    ("half past the least whole number", lambda c, g: re.search(r"8\.5\)::int", c.text)),
    ("a truth value in concat, concat_ws", lambda c, g: re.search(r"(?i)concat", c.text) and
     re.search("(?i)true|false", c.text)),
    ("a fraction cast to a whole number", lambda c, g: re.search(
        r"(?i)cast\(\s*-?\d*\.\d+ as int", c.text)),
    ("a float halfway between two, round(x, 2) of a float", lambda c, g: re.search(
        r"(?i)round\(", c.text)),
    ("seconds and epochs are whole (functions of dates)", lambda c, g: c.group == "B" and re.search(
        r"(?i)epoch|second", c.text)),
    ("fractions", lambda c, g: re.search(r"\d\.\d|\d\.|\.\d|\de-?\d", c.text) and c.group == "B"),
    ("the text of a date or a timestamp", lambda c, g: re.fullmatch(
        r"-?\d{4}-\d\d-\d\d(T[\d:.]+)?", g[1] or "")),
]


def row_of(case, got):
    for name, test in ROWS:
        if test(case, got):
            return name
    return None
