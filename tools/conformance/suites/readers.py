"""Reads the test files of each engine as statements with the rows that they expect.

A reader yields (file, line, statement, rows): rows is None where unknown, "error" where the
statement fails there, else a list of rows, each a list of texts, None for a cell not read.
"""

import re
from pathlib import Path

from sql import tokens


def lines_of(path):
    return path.read_text(encoding="utf-8", errors="replace").split("\n")


def is_complete(engine, text):
    if ";" not in text.rsplit("\n", 1)[-1]:
        return False
    toks = tokens(engine, text)
    return bool(toks) and toks[-1][1] == ";"


def by_dashes(dashes, rows, gap):
    """Cells of rows below a line of dashes, columns divided as the dashes are."""
    spans, place = [], 0
    for piece in re.split(gap, dashes):
        spans.append((place, place + len(piece)))
        place += len(piece) + 1
    out = []
    for row in rows:
        cells = [row[a:b].strip() if i + 1 < len(spans) else row[a:].strip()
                 for i, (a, b) in enumerate(spans)]
        out.append(cells)
    return out


def postgres(root):
    folder = next(root.glob("**/regress/expected"))
    for path in sorted(folder.glob("*.out")):
        if re.search(r"_\d\.out$", path.name):
            continue
        lines, i = lines_of(path), 0
        while i < len(lines):
            line = lines[i]
            if not line.strip() or line.startswith("--") or line.startswith("\\"):
                i += 1
                continue
            if not re.match(r"\s*[A-Za-z(]", line):
                i += 1
                continue
            start, text = i, line
            while not is_complete("postgres", text) and i + 1 < len(lines) and i - start < 60:
                i += 1
                text += "\n" + lines[i]
            if i - start >= 60:
                i = start + 1
                continue
            i += 1
            rows = None
            if i < len(lines) and lines[i].startswith("ERROR:"):
                rows = "error: " + lines[i][7:]
                i += 1
                while i < len(lines) and re.match(r"LINE \d|HINT|DETAIL|CONTEXT|QUERY|\s+\^",
                                                  lines[i]):
                    i += 2 if lines[i].startswith("LINE") else 1
            elif i + 1 < len(lines) and re.match(r"-[-+]*$", lines[i + 1]):
                dashes, body = lines[i + 1], []
                i += 2
                while i < len(lines) and not re.match(r"\(\d+ rows?\)", lines[i]):
                    body.append(lines[i])
                    i += 1
                i += 1
                rows = by_dashes(dashes, body, r"\+")
            yield path.name, start + 1, text.strip().rstrip(";"), rows


STARTS = re.compile(r"(select|insert|create|drop|set|alter|update|delete|explain|show|truncate|call|"
                    r"prepare|execute|deallocate|begin|commit|end|flush|analyze|connect|disconnect|"
                    r"connection|use|replace|load|reset|lock|unlock|grant|revoke|optimize|values|do|"
                    r"start|rollback|check|describe|desc|handler|with|signal|"
                    r"\(select)\b|#|--|Warnings:|ERROR", re.I)


def mariadb(root):
    folder = next(root.glob("**/mysql-test/main"))
    for path in sorted(folder.glob("*.result")):
        lines, i = lines_of(path), 0
        while i < len(lines):
            line = lines[i]
            m = re.match(r"(select|create\s+(?:temporary\s+)?table|values)\b", line, re.I)
            if m is None:
                i += 1
                continue
            start, text = i, line
            while not text.rstrip().endswith(";") and i + 1 < len(lines) and i - start < 60:
                i += 1
                text += "\n" + lines[i]
            i += 1
            if not text.rstrip().endswith(";"):
                i = start + 1
                continue
            rows = None
            if i < len(lines) and lines[i].startswith("ERROR"):
                rows = "error: " + lines[i]
            elif m.group(1).lower() == "select" and i < len(lines):
                body = []
                i += 1
                while i < len(lines) and not STARTS.match(lines[i]) and len(body) < 100:
                    body.append(lines[i].split("\t"))
                    i += 1
                rows = body
            yield path.name, start + 1, text.strip().rstrip(";"), rows


def h2(root):
    folder = next(root.glob("**/org/h2/test/scripts"))
    for path in sorted(folder.glob("**/*.sql")):
        lines, i, mode = lines_of(path), 0, "regular"
        while i < len(lines):
            line = lines[i]
            if not line.strip() or line.startswith(("--", ">", "@")):
                i += 1
                continue
            start, text = i, line
            while not lines[i].rstrip().endswith(";") and i + 1 < len(lines) \
                    and not lines[i + 1].startswith(">"):
                i += 1
                text += "\n" + lines[i]
            i += 1
            rows, body = None, []
            while i < len(lines) and lines[i].startswith(">"):
                body.append(lines[i])
                i += 1
            if body and body[0].startswith("> exception"):
                rows = "error: " + body[0][12:]
            elif body and body[0].startswith(">>"):
                rows = [[body[0][2:].strip()]]
            elif len(body) > 2 and re.match(r"> -[- ]*$", body[1]):
                rows = by_dashes(body[1][2:], [b[2:] for b in body[2:]
                                               if not b.startswith("> rows")], " ")
            m = re.match(r"set mode (\w+)", text.strip(), re.I)
            if m:
                mode = m.group(1).lower()
            if mode != "regular":
                continue
            yield path.name, start + 1, text.strip().rstrip(";"), rows


def hsqldb(root):
    folder = next(p for p in root.glob("**/testrun/hsqldb") if p.is_dir())
    for path in sorted(folder.glob("*.txt")):
        lines, blocks = lines_of(path), []
        for number, line in enumerate(lines, 1):
            if line.startswith("--"):
                continue
            if line[:1] in (" ", "\t") and blocks:
                blocks[-1][1] += "\n" + line
            elif line.strip():
                blocks.append([number, line])
        for number, text in blocks:
            m = re.match(r"/\*(\w)(.*?)\*/(.*)", text, re.S)
            tag, value, body = m.groups() if m else ("", "", text)
            rows = None
            if tag == "e":
                rows = "error: "
            elif tag == "r" and "\n" not in value:
                rows = [value.split(",")]
            elif tag == "r":
                rows = [r.strip().split(",") for r in value.strip().split("\n")]
            yield path.name, number, body.strip().rstrip(";").strip(), rows


def derby(root):
    folder = next(root.glob("**/functionTests/master"))
    for path in sorted(folder.glob("*.out")):
        lines, i = lines_of(path), 0
        while i < len(lines):
            m = re.match(r"ij(?:\(\w+\))?> (.*)", lines[i])
            if m is None:
                i += 1
                continue
            start, text = i, m.group(1)
            while ";" not in lines[i] and i + 1 < len(lines) and i - start < 60 \
                    and not lines[i + 1].startswith("ij"):
                i += 1
                text += "\n" + lines[i]
            i += 1
            rows = None
            text = re.sub(r"(?m)^\s*--.*$", "", text).strip()
            while text.startswith("ij>"):
                text = text[3:].strip()
            if i < len(lines) and lines[i].startswith("ERROR"):
                rows = "error: " + lines[i]
            elif i + 1 < len(lines) and re.match(r"-{3,}$", lines[i + 1]):
                header, body = lines[i], []
                i += 2
                while i < len(lines) and re.search(r"\S", lines[i]) \
                        and not re.match(r"\d+ rows? selected", lines[i]):
                    body.append([c.strip() for c in lines[i].split("|")])
                    i += 1
                rows = body if not any("ERROR" in r[0] for r in body) else "error: " + body[-1][0]
            yield path.name, start + 1, text.rstrip(";"), rows
    tests = next(root.glob("**/functionTests/tests/lang"))
    literal = r'"(?:[^"\\]|\\.)*"'
    for path in sorted(tests.glob("*.java")):
        source = path.read_text(encoding="utf-8", errors="replace")
        source = re.sub(r"(?m)^\s*(//|\*).*$", "", source)
        for m in re.finditer(r"%s(?:\s*\+\s*%s)*" % (literal, literal), source):
            text = "".join(s[1:-1] for s in re.findall(literal, m.group()))
            text = text.replace('\\"', '"').replace("\\n", "\n").replace("\\t", "\t")
            if not re.match(r"\s*(select|values|create\s+table)\b", text, re.I):
                continue
            before, after = source[max(0, m.start() - 90):m.start()], source[m.end():m.end() + 5]
            if re.match(r"\s*\+", after) or re.search(r"\+\s*$", before):
                continue
            bad = re.search(r"assert\w*Error\w*\s*\([^;]*$|(?i:fail)\w*\s*\([^;]*$", before)
            yield (path.name, source.count("\n", 0, m.start()) + 1, text.strip().rstrip(";"),
                   "error: " if bad else None)


ESCAPES = {"n": "\n", "t": "\t", "r": "\r", "\n": " "}


def substituted(text):
    """A text between Tcl's double quotes, with its backslashes read."""
    return re.sub(r"\\(u[0-9a-fA-F]{1,4}|x[0-9a-fA-F]{2}|.)", lambda m: (
        chr(int(m.group(1)[1:], 16)) if len(m.group(1)) > 1 else
        ESCAPES.get(m.group(1), m.group(1))), text, flags=re.S)


def tcl_word(text, place):
    """The next word of Tcl, (kind, text, end), or None at the end of a command."""
    while place < len(text) and (text[place] in " \t" or text.startswith("\\\n", place)):
        place += 2 if text[place] == "\\" else 1
    if place >= len(text) or text[place] in "\n;]":
        return None
    if text[place] == "{":
        depth, i = 0, place
        while i < len(text):
            c = text[i]
            if c == "\\":
                i += 1
            elif c == "{":
                depth += 1
            elif c == "}":
                depth -= 1
                if depth == 0:
                    return "brace", text[place + 1:i], i + 1
            i += 1
        return None
    if text[place] == '"':
        i = place + 1
        while i < len(text) and text[i] != '"':
            i += 2 if text[i] == "\\" else 1
        return "quote", substituted(text[place + 1:i]), i + 1
    m = re.compile(r"[^\s;\]]+").match(text, place)
    return ("bare", m.group(), m.end()) if m else None


def tcl_list(text):
    """The elements of a list of Tcl; None if it is none."""
    out, place = [], 0
    text = text.strip()
    while place < len(text):
        while place < len(text) and text[place].isspace():
            place += 1
        if place >= len(text):
            break
        word = tcl_word(text, place)
        if word is None:
            return None
        out.append(word[1])
        place = word[2]
    return out


COMMANDS = re.compile(r"(?<![\w$])(do_execsql_test|do_test|test_expr2?|do_expr_test|do_qexpr_test|"
                      r"do_catchsql_test|datetest|execsql2?|db eval|db one|db onecolumn|"
                      r"do_eqp_test|do_realnum_test|test_realnum_expr)\s")


def sqlite(root):
    folder = next(p for p in root.glob("**/test") if (p / "expr.test").exists())
    for path in sorted(folder.glob("*.test")):
        text = path.read_text(encoding="utf-8", errors="replace")
        text = re.sub(r"(?m)^\s*#.*$", "", text)
        seen = set()
        for m in COMMANDS.finditer(text):
            if m.start() in seen:
                continue
            words, place = [], m.end() - 1
            while len(words) < 5:
                word = tcl_word(text, place)
                if word is None:
                    break
                words.append((word[0], word[1], place))
                place = word[2]
            yield from sqlite_command(path.name, text, m, words, seen)


def sqlite_command(name, text, m, words, seen):
    command, line = m.group(1), text.count("\n", 0, m.start()) + 1
    if command in ("test_expr", "test_realnum_expr"):
        if len(words) >= 4:
            yield name, line, "SELECT %s FROM test1" % words[2][1], \
                ("set", words[1][1], tcl_list(words[3][1]))
        return
    if command == "test_expr2" and len(words) >= 2:
        yield name, line, "SELECT a FROM test1 WHERE %s" % words[1][1], None
        return
    if command == "do_expr_test" and len(words) >= 4:
        yield name, line, "SELECT %s" % words[1][1], [[words[3][1]]]
        return
    if command == "do_qexpr_test" and len(words) >= 3:
        value = words[2][1]
        if re.match(r"'.*'$", value):
            value = value[1:-1].replace("''", "'")
        yield name, line, "SELECT %s" % words[1][1], [[value]]
        return
    if command == "datetest" and len(words) >= 3:
        yield name, line, "SELECT %s" % words[1][1], [[words[2][1]]]
        return
    result, body = None, None
    if command in ("do_execsql_test", "do_catchsql_test") and len(words) >= 2:
        body = words[1]
        if command == "do_catchsql_test":
            parts = tcl_list(words[2][1]) if len(words) > 2 else None
            if not parts or parts[0] != "0":
                return
            result = parts[1] if len(parts) > 1 else None
        else:
            result = words[2][1] if len(words) > 2 and words[2][0] != "quote" else None
    elif command in ("do_test", "do_realnum_test") and len(words) >= 3:
        inner = re.match(r"\s*(execsql|db eval|db one|catchsql)\s+(?=\{)", words[1][1])
        if inner is None:
            return
        word = tcl_word(words[1][1], inner.end())
        if word is None:
            return
        if inner.group(1) == "catchsql":
            parts = tcl_list(words[2][1])
            if not parts or parts[0] != "0":
                return
            result = parts[1] if len(parts) > 1 else None
        else:
            result = words[2][1]
        body = word
        seen.add(words[1][2] + 1 + inner.start(1))
        at = text.find(inner.group(1), words[1][2])
        seen.add(at)
    elif words and words[0][0] == "brace":
        body = words[0]
    if body is None or body[0] != "brace":
        return
    from sql import split_statements
    statements = [s for s in split_statements("sqlite", body[1]) if s.strip()]
    for i, statement in enumerate(statements):
        rows = None
        if i + 1 == len(statements) and result is not None and len(statements) == 1:
            elements = tcl_list(result)
            rows = [elements] if elements is not None else None
        yield name, line, statement.strip(), rows
