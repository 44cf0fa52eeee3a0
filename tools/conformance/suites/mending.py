"""What mending one cause would give: its cases are rewritten to what the program has, and asked."""

import copy
import re
from collections import Counter

import ask
from sql import tokens


def patterns(text):
    text = re.sub(r"(?i)\bnot\s+(regexp|rlike)\b", "!~", text)
    return re.sub(r"(?i)\b(regexp|rlike)\b", "~", text)


def without_collation(text):
    return re.sub(r"(?i)\s*collate\s+(\"[^\"]*\"|'[^']*'|\w+)", "", text)


def trimmed(text):
    def call(m):
        side, what = (m.group(1) or "both").lower(), m.group(2).strip()
        name = {"both": "btrim", "leading": "ltrim", "trailing": "rtrim"}[side]
        return "%s(%s%s)" % (name, m.group(3), "," + what if what else "")
    return re.sub(r"(?i)trim\s*\(\s*(both|leading|trailing)?\s*([^()]*?(?:\([^()]*\))?)\s*from\s+"
                  r"((?:[^()]|\([^()]*\))*)\)", call, text)


def types(text):
    text = re.sub(r"(?i)\bunsigned(\s+integer)?\b", "u64", text)
    return re.sub(r"(?i)\bsigned(\s+integer)?\b", "i64", text)


MENDINGS = [
    ("REGEXP and RLIKE as operators", patterns),
    ("COLLATE of another order", without_collation),
    ('COLLATE of the order of bytes ("C", binary, .._bin)', without_collation),
    ("trim(both .. from ..)", trimmed),
    ("cast to unsigned, signed", types),
]


def tried(program, rows):
    """Lines of a table: what the cases of one cause alone give after its mending."""
    lines = ["| Cause, mended by rewriting | Cases | Not rewritten | Accepted, no result | Same | "
             "Another result | Fault | Refused |", "|---|---|---|---|---|---|---|---|"]
    for cause, rewrite in MENDINGS:
        counts = Counter()
        for case, got, verdict, found in rows:
            if case.group != "A" or found != {cause}:
                continue
            counts["cases"] += 1
            new = copy.copy(case)
            new.text = rewrite(case.text)
            new.toks = tokens(case.engine, new.text)
            counts["kept" if new.text == case.text else
                   ask.verdict(new, ask.ask(program, new))] += 1
        lines.append("| %s | %s |" % (cause, " | ".join(str(counts[k]) for k in (
            "cases", "kept", "accepted", "same", "differs", "fault", "refused"))))
    return lines
