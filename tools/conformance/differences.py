"""What differs on purpose: the table of docs/EXPRESSIONS.md, asked anew of everyone."""
import os
import re

from engines import TOP, Fault, Refused
from tables import Column, Table

PAGE, SECTION = os.path.join(TOP, "docs", "EXPRESSIONS.md"), "Where it differs"
TABLE = Table([Column("one", "i64", False), Column("zero", "i64", False), Column("small", "i32", False),
               Column("yes", "bool", False), Column("name", "utf8", False)], [(1, 0, 2, True, "a")])
# What the table asks, row by row: an expression, or how it is spelled here, in PostgreSQL and in SQLite. The first column's words
# are the page's own. The other cells of a row are what was answered, so a change of a message or of a version changes the page:
# not_on_page tells which rows, and `tools/conformance/expressions --table` prints the table as it is answered today.
ASKED = [
    "9223372036854775807 + one",
    "7 / zero",
    "one = 1 or 7 / zero = 1",
    ("null::i64 + 7 / zero", "null::bigint + 7 / zero", "null + 7 / zero"),
    "case when one = 1 then 1 else 7 / zero end",
    "coalesce(one, 7 / zero)",
    ("100::i8 + 100::i8", "100::smallint + 100::smallint", "100 + 100"),
    ("7::u8 < 300", "7 < 300", "7 < 300"),
    ("-32768::i16", "-32768::smallint", "-32768"),
    ("2147483647::i32 + (1 + 0)", "2147483647::int + (1 + 0)", "2147483647 + (1 + 0)"),
    "one = ' 1'",
    "one = '1x'",
    "name = 1",
    "yes + 1",
    "one * 0.1 * 3",
    "9007199254740993 > 9007199254740992.5",
    "cast(2.5 as int)",
    "one and one = 1",
    "One = 1",
    "yes = not yes",
    "one < 2 = yes",
    "yes is null = true",
    '"" = 1',
    "yes = name like 'a'",
    "one!=-1",
    "'A' like 'a'",
    r"'a\b' like 'a\\b'",
    (r"'a\' like 'a\'", r"'a\' like 'a\'", r"'a\' like 'a\' escape '\'"),
    "'a%' like 'a%' escape ''",
    "7 % zero",
    "one << 64",
    ("cast(one as smallint) << small * 8", "cast(one as smallint) << small * 8", "one << small * 8"),
    ("abs(-128::i8)", "abs((-128)::smallint)", "abs(-128)"),
    ("cast(one as boolean)", "cast(one as boolean)", "one <> 0"),
    "cast(yes as bigint)",
    "cast('x' as bigint)",
    ("cast(300 as i8)", "cast(32768 as smallint)", "cast(300 as integer)"),
    "substr('abc', -1)",
    "substr('abc', 2, -1)",
    ("greatest(one, null)", "greatest(one, null)", "max(one, null)"),
    "- - 1",
    "1 in ()",
    r"regexp_like('aa', '(a)\1')",
    r"regexp_like(name, '\ba')",
    "regexp_substr('ab', 'a|ab')",
    ("'É' ilike 'é'", "'É' ilike 'é'", "'É' like 'é'"),
    "upper('é')",
    "upper('ß')",
]


def cell(answer):
    if answer is None:
        return "null"
    return str(answer).lower() if isinstance(answer, bool) else str(answer)


def ours(program, text):
    try:
        return program.answers([text], TABLE, ["utf8"])[0][0]
    except Refused as refused:
        return re.sub(r"^rowfn_stream: (?:[^:]*: )?line \d+, column \d+: ", "", refused.told)


def in_sqlite(file, text):
    try:
        return file.answers([text], TABLE)[0][0]
    except Exception as error:
        return Fault("", str(error))


def told(answer):
    if not isinstance(answer, Fault):
        return cell(answer)
    return answer.told or ("E7 " if answer.name.startswith("Arithmetic.") else "E10 ") + answer.name


def row_of(cells):
    return "| " + " | ".join(cells) + " |"


def escaped(text):
    return text.replace("|", "\\|").replace("\n", " ")


def rows_on_page():
    """The rows of the page's first table, which these engines answer, by the expression in the second cell."""
    with open(PAGE, encoding="utf-8") as page:
        section = page.read().partition(f"\n## {SECTION}\n")[2].partition("\n## ")[0]
    table = section.partition("\n| ")[2].partition("\n\n")[0]
    rows = [line for line in f"| {table}".split("\n") if line.startswith("| ")]
    return {line.split(" | ")[1]: line for line in rows[1:]}


def page_lines(program, server, cased):
    """The lines of the table. `cased` is SQLite as it is, whose LIKE looks past case."""
    names = [f"| What | Expression | Here | {server.version} | {cased.version} |", "|---|---|---|---|---|"]
    spelled = [[row] * 3 if isinstance(row, str) else row for row in ASKED]
    in_postgresql = server.answers([row[1] for row in spelled], TABLE)
    rows, page = [], rows_on_page()
    for row, answers in zip(spelled, in_postgresql):
        answered = [told(ours(program, row[0])), told(answers[0]), told(in_sqlite(cased, row[2]))]
        written = [f"`{row[0]}`"] + [one if text == row[0] else f"`{text}`: {one}" for text, one in zip(row, answered)]
        written = list(map(escaped, written))
        what = page.get(written[0], "| what differs here | ").split(" | ")[0].removeprefix("| ")
        rows.append(row_of([what, *written]))
    return names + rows


def not_on_page(lines):
    """What to mend where the page's table and the one that was asked differ, in words. The header may tell other versions."""
    page, asked = rows_on_page(), {line.split(" | ")[1]: line for line in lines[2:]}
    where = f'docs/EXPRESSIONS.md, "{SECTION}"'
    for expression, line in asked.items():
        if expression not in page:
            yield f"{where} lacks the row of {expression}, which ASKED in tools/conformance/differences.py has:\n    {line}"
        elif page[expression] != line:
            yield f"{where} has of {expression}\n    {page[expression]}\nand asked today the row is\n    {line}"
    for expression in page.keys() - asked.keys():
        yield f"{where} has a row of {expression}, which ASKED in tools/conformance/differences.py lacks: nothing asks it"
