"""Asks rowfn_stream each case, and compares its answer with the one that the suite expects."""

import csv
import io
import itertools
import re
import subprocess
from concurrent.futures import ThreadPoolExecutor

NULL = "<null>"
csv.field_size_limit(1 << 30)


def quoted(name):
    return '"%s"' % name.replace('"', '""')


def one(program, case, columns):
    """(status, the value as text or None for null, the error)."""
    header = [c for c in columns] or ["zz_one"]
    row = []
    for c in columns:
        value = case.row.get(c)
        if value is None or value.strip().lower() == "null":
            row.append(NULL)
        elif value.startswith("'"):
            row.append('"%s"' % value[1:-1].replace("''", "'").replace('"', '""'))
        else:
            row.append(value.strip())
    if not columns:
        row = ["1"]
    text = ",".join(quoted(c) for c in header) + "\n" + ",".join(row) + "\n"
    command = [program, "--null", NULL]
    if columns:
        command += ["--columns", ", ".join("%s %s" % (quoted(c), k) for c, k in columns.items())]
    if case.form == "where":
        command += ["--where", case.text]
    else:
        command += ["--", case.text]
    try:
        done = subprocess.run(command, input=text.encode(), capture_output=True, timeout=20)
    except subprocess.TimeoutExpired:
        return 99, None, "time"
    except ValueError:
        return 98, None, "a zero byte"
    error = done.stderr.decode(errors="replace").strip()
    value = None
    if done.returncode == 0 and case.form != "where":
        rows = list(csv.reader(io.StringIO(done.stdout.decode(errors="replace"))))
        value = rows[-1][0] if len(rows) > 1 and rows[-1] else ""
    return done.returncode, value, error


TEXTUAL = {"like", "glob", "regexp", "||", "match"}
OF_TEXT = {"length", "lower", "upper", "substr", "trim", "ltrim", "rtrim", "instr", "replace"}


def guessed(case, column):
    """The type of a column that has none, by what stands next to it."""
    toks = case.toks
    for i, t in enumerate(toks):
        if t[1].strip('"').lower() != column:
            continue
        near = toks[max(0, i - 2):i] + toks[i + 1:i + 4]
        if any(n[0] == "text" or n[1].lower() in TEXTUAL for n in near):
            return "utf8?"
        if i > 1 and toks[i - 1][1] == "(" and toks[i - 2][1].lower() in OF_TEXT:
            return "utf8?"
    return "i64?"


def ask(program, case):
    free = [c for c, k in case.columns.items() if k == "any"]
    kinds = ["i64?", "utf8?"] if len(free) <= 3 else ["i64?"]
    first = None
    guess = tuple(guessed(case, c) for c in free)
    for chosen in [guess] + [c for c in itertools.product(kinds, repeat=len(free)) if c != guess]:
        columns = dict(case.columns, **dict(zip(free, chosen)))
        got = one(program, case, columns)
        if first is None:
            first = got
        if "expression: " not in got[2]:
            return got
    return first


TRUTH = {"t": "true", "f": "false", "true": "true", "false": "false"}


def verdict(case, got):
    """refused, accepted, same, differs or fault."""
    status, value, error = got
    if re.match(r"rowfn_stream: (expression|where)[ :]", error) or status in (98, 99):
        return "refused"
    if status != 0:
        if re.search(r"row 1, column", error):
            return "accepted"
        if re.search(r"row 1: E\d+|the result is no|answer", error):
            return "same" if case.expected == "FAULT" else "fault"
        return "refused"
    if case.expected is None or case.form == "where":
        return "accepted"
    return "same" if is_same(case, value) else "differs"


def is_same(case, value):
    want, engine = case.expected, case.engine
    if want == "FAULT":
        return False
    nulls = {"postgres": ("",), "sqlite": ("", "NULL", "null"), "mariadb": ("NULL",), "h2": ("null",),
             "hsqldb": ("null", ""), "derby": ("NULL",)}[engine]
    if value == NULL:
        return want in nulls or want == ""
    if value in ("true", "false"):
        low = want.strip().lower()
        return TRUTH.get(low, {"1": "true", "0": "false"}.get(low)) == value
    if value.strip() == want.strip():
        return True
    if re.fullmatch(r"-?\d{4}-\d\d-\d\dT[\d:.]+", value):
        short = [re.sub(r"\.?0*$", "", t) if "." in t else t
                 for t in (value.replace("T", " "), want.strip())]
        return short[0] == short[1]
    try:
        return float(value) == float(want)
    except ValueError:
        return False


def key(case):
    return (case.text, case.form, tuple(case.columns.items()), tuple(sorted(case.row.items())))


def run(program, cases, workers=2, known=None):
    """(case, answer, verdict) of each; `known` has answers by `key`, and gets the new ones."""
    known = {} if known is None else known
    new = {key(c): c for c in cases if key(c) not in known}
    with ThreadPoolExecutor(workers) as pool:
        known.update(zip(new, pool.map(lambda c: ask(program, c), new.values())))
    return [(case, known[key(case)], verdict(case, known[key(case)])) for case in cases]
