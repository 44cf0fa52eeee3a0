"""Functions of texts: rows of functions.py."""
import re

from forms import (ATOM, FIELD, JOINED, NEGATIVE, NO_CHARACTER, OVERFLOW, Form, Spelling, applied, call, calls, infix)


def whole(place):
    """A place for PostgreSQL's functions, which take integers: what is past these is past each text."""
    return f"whole_place({place})"


def counted(name):
    return lambda node, *operands: f"({name}({', '.join(operands)})::i64)"


def letters(name):
    """By ICU's root locale: the database has the locale C, by which lower and upper know the letters of ASCII alone."""
    return lambda node, operand: f'({name}({operand} COLLATE "und-x-icu") COLLATE "C")'


def sides(name):
    return lambda node, text, count: f"{name}({text}, {whole(count)})"


def substr(node, text, begin, count=None):
    return f"substr({text}, {whole(begin)})" if count is None else f"substr_of({text}, {begin}, {count})"


def near(place):
    """A place for SQLite's functions, which take 32 bits of one."""
    return f"max(min({place}, 1000000000), -1000000000)"


def substr_in_sqlite(node, text, begin, count=None):
    if count is None:
        return f"substr({text}, {near(f'max({begin}, 1)')})"
    return f"(CASE WHEN {count} < 0 THEN NULL ELSE substr({text}, {near(f'max({begin}, 1)')}, {near(f'max(0, {begin} + {count} - max({begin}, 1))')}) END)"


def left_in_sqlite(node, text, count):
    return f"substr({text}, 1, {near(f'CASE WHEN {count} < 0 THEN max(0, length({text}) + {count}) ELSE {count} END')})"


def right_in_sqlite(node, text, count):
    return f"substr({text}, {near(f'CASE WHEN {count} < 0 THEN 1 - {count} ELSE max(1, length({text}) - {count} + 1) END')})"


def joined(node, *operands):
    return f"({' || '.join(operands)})"


def substring_from():
    """SQL's own spellings of substr, of which PostgreSQL has those by its longer name."""
    for name, same in (("substring", True), ("substr", False)):
        yield Spelling(ATOM, f"{name}( %0 from %0 )", same, most=2)
        yield Spelling(ATOM, f"{name}( %0 from %0 for %0 )", same, least=3)


def joined_texts(node, *operands):
    """PostgreSQL's concat writes t for true."""
    return f"{node.kind.split()[0]}({', '.join(f'({one})::text' for one in operands)})"


def any_case(word):
    """By C.utf8: the database has the locale C, by which only letters of ASCII have a case."""
    return lambda node, text, pattern: f'({text} COLLATE "C.utf8" {word} {pattern})'


def padded(name):
    return lambda node, text, *more: f"{name}({', '.join([text, whole(more[0]), *more[1:]])})"


def overlaid(node, text, put, begin, count=None):
    behind = "" if count is None else f" for {whole(count)}"
    return f"overlay({text} placing {put} from {whole(begin)}{behind})"


def extracted(node, text, pattern, group=None):
    if group is None:
        return f"regexp_substr({text}, {pattern})"
    # group 1 of a pattern without groups is the whole there
    last = re.compile(node.operands[1].value).groups if node.operands[1].kind == "literal" else 9
    return f"(CASE WHEN {group} BETWEEN 0 AND {last} THEN regexp_substr({text}, {pattern}, 1, 1, '', least({group}, 100)::int) END)"


TEXTS = [
    Form("length", "utf8", "i64", (*calls("length", "char_length", "character_length", same=True), call("len")), counted("length"), applied("length"), weight=3),
    Form("bit_length", "utf8", "i64", calls("bit_length", same=True), counted("bit_length"), lambda node, a: f"(8 * length(CAST({a} AS BLOB)))"),
    Form("ascii", "utf8", "i64", calls("ascii", same=True), counted("ascii"), lambda node, a: f"(CASE WHEN {a} = '' THEN 0 ELSE unicode({a}) END)"),
    Form("initcap", "utf8", "utf8", calls("initcap"), applied("initcapped")),
    Form("lpad", "utf8 times utf8?", "utf8", calls("lpad", same=True), padded("lpad"), literals="each"),
    Form("rpad", "utf8 times utf8?", "utf8", calls("rpad", same=True), padded("rpad"), literals="each"),
    Form("translate", "utf8 utf8 utf8", "utf8", calls("translate", same=True), applied("translate")),
    Form("overlay", "utf8 utf8 begin times?", "utf8", calls("overlay"), overlaid, faults={NEGATIVE: "place before the first character in overlay"}, literals="each"),
    Form("chr", "code", "utf8", calls("chr", "char"), lambda node, n: f"chr({n}::integer)", faults=dict.fromkeys((OVERFLOW, NO_CHARACTER, FIELD), "no character has that number")),
    Form("to_hex", "N", "utf8", calls("to_hex"), lambda node, n: f"to_hex(bits_of({n}))"),
    Form("space", "times", "utf8", calls("space"), lambda node, n: f"repeat(' ', {whole(n)})", literals="each"),
    Form("concat_ws", "utf8 utf8 utf8+", "utf8", calls("concat_ws", same=True), applied("concat_ws"), is_strict=False, nulls="first"),
    Form("octet_length", "utf8", "i64", calls("octet_length", same=True), counted("octet_length"), lambda node, a: f"length(CAST({a} AS BLOB))"),
    Form("||", "utf8 utf8", "utf8", (Spelling(JOINED, "%7 || %8", True), call("textcat", True)), joined, joined, weight=5),
    # beside a text what is none is cast to one
    Form("|| value", "utf8 T", "utf8", (Spelling(JOINED, "%7 || %8"),), lambda node, a, b: f"({a} || ({b})::text)", literals="each", weight=1),
    Form("value ||", "T utf8", "utf8", (Spelling(JOINED, "%7 || %8"),), lambda node, a, b: f"(({a})::text || {b})", literals="each", weight=1),
    Form("concat values", "T T+", "utf8", calls("concat"), joined_texts, literals="each", is_strict=False, nulls="never", weight=1),
    Form("concat_ws values", "utf8 T T+", "utf8", calls("concat_ws"), joined_texts, literals="each", is_strict=False, nulls="first", weight=1),
    Form("lower", "utf8", "utf8", calls("lower", "lcase"), letters("lower"), weight=3),
    Form("upper", "utf8", "utf8", calls("upper", "ucase"), letters("upper"), weight=3),
    Form("substr", "utf8 place place?", "utf8", (*calls("substr", "substring", same=True), call("mid"), *substring_from()), substr, substr_in_sqlite,
         {NEGATIVE: "negative length in substr"}, "each", weight=4, null_in_sqlite=NEGATIVE),
    Form("left", "utf8 place", "utf8", calls("left", same=True), sides("left"),
         left_in_sqlite, literals="each"),
    Form("right", "utf8 place", "utf8", calls("right", same=True), sides("right"), right_in_sqlite, literals="each"),
    Form("strpos", "utf8 utf8", "i64", (call("strpos", True), call("instr")), counted("strpos"), applied("instr")),
    Form("position", "utf8 utf8", "i64", (Spelling(ATOM, "position( %7 in %7 )", True), call("locate")), lambda node, a, b: f"(strpos({b}, {a})::i64)",
         lambda node, a, b: f"instr({b}, {a})"),
    *(Form(f"{name} of", "utf8 utf8", "utf8", (Spelling(ATOM, f"trim( {side} %0 from %0 )", True), *[Spelling(ATOM, "trim( %0 from %0 )", True)] * (side == "both")),
           lambda node, a, b, name=name: f"{name}({b}, {a})", lambda node, a, b, name=name: f"{name.replace('b', '', 1)}({b}, {a})")
      for name, side in (("btrim", "both"), ("ltrim", "leading"), ("rtrim", "trailing"))),
    Form("btrim", "utf8 utf8?", "utf8", (*calls("btrim", "trim", same=True), Spelling(ATOM, "trim( both from %0 )", True, most=1)), applied("btrim"), applied("trim")),
    Form("ltrim", "utf8 utf8?", "utf8", (call("ltrim", True), Spelling(ATOM, "trim( leading from %0 )", True, most=1)), applied("ltrim"), applied("ltrim")),
    Form("rtrim", "utf8 utf8?", "utf8", (call("rtrim", True), Spelling(ATOM, "trim( trailing from %0 )", True, most=1)), applied("rtrim"), applied("rtrim")),
    Form("starts_with", "utf8 utf8", "bool", (call("starts_with", True), call("startswith")), applied("starts_with"),
         lambda node, a, b: f"(substr({a}, 1, length({b})) = {b})"),
    Form("ends_with", "utf8 utf8", "bool", calls("ends_with", "endswith"), lambda node, a, b: f"(right({a}, length({b})) = {b})"),
    Form("contains", "utf8 utf8", "bool", calls("contains"), lambda node, a, b: f"(strpos({a}, {b}) > 0)", lambda node, a, b: f"(instr({a}, {b}) > 0)"),
    Form("replace", "utf8 utf8 utf8", "utf8", calls("replace", same=True), applied("replace"),
         lambda node, a, b, c: f"(CASE WHEN {c} IS NOT NULL THEN replace({a}, {b}, {c}) END)"),
    Form("split_part", "utf8 utf8 place", "utf8", calls("split_part", same=True), lambda node, a, b, n: f"split_part({a}, {b}, {whole(n)})",
         faults={FIELD: "field 0 in split_part, where the first field is 1"}, literals="each"),
    Form("repeat", "utf8 times", "utf8", calls("repeat", same=True), lambda node, a, n: f"repeat({a}, {whole(n)})", literals="each"),
    Form("reverse", "utf8", "utf8", calls("reverse", same=True), applied("reverse")),
    Form("concat", "utf8 utf8+", "utf8", calls("concat", same=True), applied("concat"),
         lambda node, *operands: "(" + " || ".join(f"coalesce({one}, '')" for one in operands) + ")", is_strict=False, nulls="never"),
    Form("regexp_like", "utf8 regex", "bool", (call("regexp_like", True), Spelling(JOINED, "%7 ~ %8", True), Spelling(JOINED, "%7 regexp %8"), Spelling(JOINED, "%7 rlike %8")), applied("regexp_like"), literals="each"),
    Form("~*", "utf8 regex", "bool", (Spelling(JOINED, "%7 ~* %8", True), call("texticregexeq", True)), any_case("~*"), literals="each"),
    Form("!~", "utf8 regex", "bool", (Spelling(JOINED, "%7 !~ %8", True), call("textregexne", True)), infix("!~"), literals="each"),
    Form("!~*", "utf8 regex", "bool", (Spelling(JOINED, "%7 !~* %8", True), call("texticregexne", True)), any_case("!~*"), literals="each"),
    Form("regexp_substr", "utf8 regex", "utf8", calls("regexp_substr", same=True), applied("regexp_substr"), literals="each", is_strict=False, nulls="always"),
    Form("textregexsubstr", "utf8 regex", "utf8", (Spelling(ATOM, "substring( %0 from %1 )", True), call("textregexsubstr"), call("substring", True)),
         lambda node, a, p: f"substring({a} from {p})", literals="each", is_strict=False, nulls="always"),
    Form("regexp_extract", "utf8 regex place?", "utf8", calls("regexp_extract"), extracted, literals="each", is_strict=False, nulls="always"),
    Form("regexp_instr", "utf8 regex", "i64", calls("regexp_instr", same=True), counted("regexp_instr"), literals="each"),
    Form("regexp_count", "utf8 regex", "i64", calls("regexp_count", same=True), counted("regexp_count"), literals="each"),
    Form("regexp_replace", "utf8 regex written flags?", "utf8", calls("regexp_replace", same=True), applied("regexp_replace"), literals="each"),
]
