"""Tokens and statements of SQL, as far as the suites of the six engines need them."""

import re

ENGINES = ["postgres", "sqlite", "mariadb", "h2", "hsqldb", "derby"]

COMMON = r"""
 (?P<ws>\s+)
|(?P<comment>--[^\n]*|/\*.*?\*/)
|(?P<blob>[xX]'[^']*'|0[xX][0-9a-fA-F]+\b|\b[bB]'[01]*')
|(?P<prefixed>\b(?:[eE]|[nN]|[uU]&)'(?:[^'\\]|''|\\.)*')
|(?P<text>%(text)s)
|(?P<uquoted>[uU]&"(?:[^"]|"")*")
|(?P<quoted>%(quoted)s)
|(?P<back>`(?:[^`]|``)*`)
|(?P<dollar>\$(?P<tag>[A-Za-z_]*)\$.*?\$(?P=tag)\$)
|(?P<fraction>(?:\d+\.\d*|\.\d+)(?:[eE][+-]?\d+)?|\d+[eE][+-]?\d+)
|(?P<number>\d+)
|(?P<variable>[@:?$][@\w]+|\?|@)
|(?P<word>[A-Za-z_\u0080-\uffff][\w$]*)
|(?P<sign><=>|!~~\*|!~~|~~\*|!~\*|~~|!~|~\*|->>|->|\|\||\|/|<>|<=|>=|!=|==|::|:=|<<|>>|&&|!!|\^@|.)
"""
STANDARD = dict(text=r"'(?:[^']|'')*'", quoted=r'"(?:[^"]|"")*"')
BACKSLASH = dict(text=r"'(?:[^'\\]|''|\\.)*'", quoted=r'"(?:[^"\\]|""|\\.)*"')
PATTERNS = {engine: re.compile(COMMON % (BACKSLASH if engine == "mariadb" else STANDARD),
                               re.X | re.S) for engine in ENGINES}


def tokens(engine, text):
    """The tokens of a text, without blanks and comments: (kind, text, position)."""
    found, place = [], 0
    while place < len(text):
        if engine == "mariadb" and text[place] == "#":
            place = (text.find("\n", place) + 1) or len(text)
            continue
        m = PATTERNS[engine].match(text, place)
        if m is None:
            return None
        if m.lastgroup not in ("ws", "comment"):
            kind = "dollar" if m.group("dollar") is not None else m.lastgroup
            found.append((kind, m.group(), place))
        place = m.end()
    return found


def lower(token):
    return token[1].lower() if token[0] in ("word", "sign") else None


def split_statements(engine, text):
    """Statements between semicolons, with the line of each."""
    out, start, toks = [], 0, tokens(engine, text)
    if toks is None:
        return out
    for i, t in enumerate(toks):
        if t[1] == ";" and t[0] == "sign":
            out.append(text[start:t[2]])
            start = t[2] + 1
    if text[start:].strip():
        out.append(text[start:])
    return out


CLAUSES = {"from", "where", "group", "having", "order", "limit", "union", "except", "intersect",
           "window", "into", "offset", "fetch", "for", "procedure", "lock", "minus", "qualify",
           "with", "indexed"}
KEYWORDS = set("""and or not is null between like ilike in case when then else end cast as distinct
 from escape true false collate div mod xor regexp rlike glob match similar to binary interval
 isnull notnull unknown for using both leading trailing symmetric asymmetric any all some exists
 year month day hour minute second zone precision varying double char character time timestamp
 normalized json desc asc nulls first last""".split())
NO_FUNCTION = set("""and or not in is when then else case between like ilike values as from where on
 distinct all escape div mod xor regexp rlike glob union select any some exists overlaps interval
 by having using row then end""".split())


class Select:
    """A SELECT of one table or none: its items, its condition, its table."""

    def __init__(self):
        self.items, self.names, self.where = [], [], None
        self.table, self.alias, self.tail = None, None, ""


def text_of(source, toks):
    return source[toks[0][2]:toks[-1][2] + len(toks[-1][1])].strip() if toks else ""


def strip_alias(engine, toks):
    """The tokens of an item without its alias, and the alias."""
    if len(toks) >= 3 and lower(toks[-2]) == "as":
        return toks[:-2], toks[-1][1]
    if len(toks) >= 2 and toks[-1][0] in ("word", "quoted", "back", "uquoted"):
        last, before = toks[-1], toks[-2]
        if last[0] == "word" and lower(last) in KEYWORDS:
            return toks, None
        if last[0] == "quoted" and engine == "mariadb":
            return toks, None
        ends = before[0] in ("number", "fraction", "text", "quoted", "back", "blob", "prefixed",
                             "dollar")
        ends = ends or before[1] in (")", "]")
        word = lower(before) if before[0] == "word" else None
        ends = ends or (word is not None and (word not in KEYWORDS or word in (
            "null", "true", "false", "end", "unknown", "isnull", "notnull")))
        if ends and not (before[1] == ")" and engine == "sqlite" and False):
            if before[0] == "word" and before[1].startswith("_"):   # a charset's name
                return toks, None
            return toks[:-1], last[1]
    return toks, None


def split_commas(toks):
    parts, depth, part = [], 0, []
    for t in toks:
        if t[1] in "([" and t[0] == "sign":
            depth += 1
        if t[1] in ")]" and t[0] == "sign":
            depth -= 1
        if t[1] == "," and t[0] == "sign" and depth == 0:
            parts.append(part)
            part = []
        else:
            part.append(t)
    parts.append(part)
    return parts


def select_of(engine, text):
    """A text as such a SELECT; None if it is another statement or form."""
    toks = tokens(engine, text)
    if not toks:
        return None
    head = lower(toks[0])
    if head in ("values", "call") and len(toks) > 1:
        out = Select()
        body = toks[1:]
        rows = split_commas(body)
        if engine == "sqlite" or engine == "mariadb":
            return None
        for row in rows:
            if row and row[0][1] == "(" and closes(row) == len(row) - 1:
                inner = row[1:-1]
                out.items += split_commas(inner)
            else:
                out.items.append(row)
        if any(not item or any(lower(t) in ("order", "union", "select") for t in item)
               for item in out.items):
            return None
        out.names = [None] * len(out.items)
        return out
    if head != "select":
        return None
    clauses, depth, name, current = {}, 0, "items", []
    for i, t in enumerate(toks[1:], 1):
        if t[0] == "sign" and t[1] in "([{":
            depth += 1
        if t[0] == "sign" and t[1] in ")]}":
            depth -= 1
        word = lower(t)
        if depth == 0 and t[0] == "word" and word in CLAUSES and not (
                word == "from" and i and lower(toks[i - 1]) == "distinct"):
            if word == "with" and engine != "mariadb" and lower(toks[i - 1]) in (
                    "time", "timestamp"):
                current.append(t)
                continue
            clauses[name] = current
            name, current = word, []
            if name in clauses or name in ("union", "except", "intersect", "minus", "window",
                                           "into", "having", "qualify"):
                return None
        else:
            current.append(t)
    clauses[name] = current
    items = clauses["items"]
    while items and lower(items[0]) in ("all", "sql_no_cache", "straight_join",
                                        "sql_calc_found_rows"):
        items = items[1:]
    out = Select()
    out.distinct = bool(items) and lower(items[0]) == "distinct"
    if out.distinct:
        items = items[1:]
    for part in split_commas(items):
        if not part:
            return None
        body, alias = strip_alias(engine, part)
        out.items.append(body)
        out.names.append(alias)
    table = clauses.get("from")
    if table is not None:
        words = [t for t in table]
        if not words or any(t[1] in (",", "(") or lower(t) in (
                "join", "natural", "left", "partition", "cross") for t in words):
            return None
        names = [unquote(t) for t in words if t[0] in ("word", "quoted", "back")
                 and lower(t) not in ("as", "only")]
        dotted = any(t[1] == "." for t in words)
        if dotted:
            names = names[1:]
        if not names or len(names) > 2:
            return None
        if names[0].lower() not in ("dual", "sysibm.sysdummy1", "sysdummy1"):
            out.table, out.alias = names[0].lower(), names[-1].lower()
    out.where = clauses.get("where")
    out.tail = sorted(k for k in clauses if k not in ("items", "from", "where"))
    return out


def closes(toks):
    depth = 0
    for i, t in enumerate(toks):
        if t[0] == "sign" and t[1] == "(":
            depth += 1
        if t[0] == "sign" and t[1] == ")":
            depth -= 1
            if depth == 0:
                return i
    return -1


def unquote(token):
    if token[0] == "quoted":
        return token[1][1:-1].replace('""', '"')
    if token[0] == "back":
        return token[1][1:-1].replace("``", "`")
    return token[1]


TYPES = [
    (r"(tiny|small|medium|big)?int(eger)?\b|int[248]\b|serial|bigserial|identity", "whole"),
    (r"(var)?char|character|text|clob|long ?varchar|nvarchar|(tiny|medium|long)text|national|"
     r"varchar2|string|name\b|bpchar", "utf8"),
    (r"bool", "bool"),
    (r"date\b", "date"),
    (r"timestamp|datetime", "timestamp"),
    (r"decimal|numeric|dec\b|number\b", "decimal"),
    (r"double|real|float", "f64"),
]
WIDTHS = {"tinyint": "i8", "smallint": "i16", "int2": "i16", "bigint": "i64", "int8": "i64"}


def column_type(engine, words):
    """The type of a column here, of the words of its type there; None if there is none."""
    low = words.lower().strip()
    if "[" in low or re.search(r"for bit data|binary|byte|blob|array|enum|\bset\b|json|bit\b", low):
        return None
    if engine == "sqlite" and re.match(r"$|primary|unique|not null|collate|default|check|ref|as\b",
                                       low):
        return "any"
    for pattern, kind in TYPES:
        if re.match(pattern, low):
            break
    else:
        return None
    if kind == "whole":
        if engine == "sqlite":
            return "i64?"
        base = low.split("(")[0].split()[0]
        width = WIDTHS.get(base, "i32")
        return ("u" + width[1:] if "unsigned" in low else width) + "?"
    if kind == "decimal":
        m = re.search(r"\(\s*(\d+)\s*(?:,\s*(\d+)\s*)?\)", low)
        if m is None:
            return "f64?"
        if int(m.group(1)) > 18:
            return None
        return "decimal?(%s,%s)" % (m.group(1), m.group(2) or 0)
    if kind == "timestamp" and ("zone" in low and "without" not in low):
        return None
    if kind == "utf8" and "collate" in low and engine == "sqlite":
        return "utf8?"
    return kind + "?"


def create_of(engine, text):
    """The name and the columns of a CREATE TABLE: {column: type}."""
    m = re.match(r"\s*create\s+(?:global\s+|local\s+|cached\s+|memory\s+)?"
                 r"(?:temp(?:orary)?\s+)?table\s+"
                 r"(?:if\s+not\s+exists\s+)?([\w.\"`]+)\s*\((.*)\)", text, re.I | re.S)
    if m is None:
        return None
    body = m.group(2)
    toks = tokens(engine, body)
    if toks is None:
        return None
    columns = {}
    for part in split_commas(toks):
        if not part or part[0][0] not in ("word", "quoted", "back"):
            continue
        if part[0][0] == "word" and lower(part[0]) in ("primary", "unique", "foreign", "key",
                                                       "index", "constraint", "check", "like",
                                                       "fulltext", "exclude"):
            continue
        columns[unquote(part[0]).lower()] = column_type(engine, text_of(body, part[1:]))
    name = re.sub(r'["`]', "", m.group(1)).split(".")[-1].lower()
    return name, columns
