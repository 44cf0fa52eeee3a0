"""Why a case is refused: causes with a name each, by what the program says and by its words."""

import re

from sql import closes, lower, split_commas

OWN, SHARED, CONVERSION, WRONG = "own", "shared", "conversion", "taken wrongly"

# Functions that the program lacks: the engines that have them with one meaning.
LACKS = {
    "ascii": "P M H Q", "chr": "P M H", "char": "H Q M S", "insert": "M H Q", "space": "M H Q",
    "soundex": "S M H Q", "difference": "H Q", "translate": "P H Q", "casewhen": "H Q",
    "bitand": "H Q", "bitor": "H Q", "bitxor": "H Q", "bitnot": "H Q", "nvl2": "M H Q",
    "quote_ident": "P H", "unicode": "S", "charindex": "H", "overlay": "P Q", "left": "",
    "position": "", "quote_literal": "P", "convert": "M H", "decode": "H Q", "value": "D Q",
    "max": "S", "min": "S", "lengthb": "M", "mid": "M", "to_char": "P H", "quote": "S M",
    "hex": "S M", "format": "P M S", "md5": "P M", "regexp": "S M",
}
OWN_MEANING = {"quote", "hex", "format", "md5", "convert", "max", "min"}   # one engine's each
SHORT = dict(postgres="P", sqlite="S", mariadb="M", h2="H", hsqldb="Q", derby="D")

UNKNOWN = set()       # names of functions that the program does not know, filled by `find_unknown`


MOST = {"locate": 2, "instr": 2, "regexp_like": 2, "regexp_substr": 2, "regexp_instr": 2,
        "regexp_count": 2, "left": 2, "right": 2, "length": 1, "replace": 3, "strpos": 2}
LEAST = {"replace": 3, "trim": 1, "concat_ws": 2}


def calls(case):
    """The calls of a case: (name, the tokens of each argument)."""
    toks = case.toks
    for i, (t, b) in enumerate(zip(toks, toks[1:])):
        if t[0] == "word" and b[1] == "(":
            end = closes(toks[i + 1:])
            inner = toks[i + 2:i + 1 + end]
            yield t[1].lower(), split_commas(inner) if inner else []


def further(case):
    for name, arguments in calls(case):
        count = len(arguments)
        if count > MOST.get(name, 1000) or count < LEAST.get(name, 0):
            yield name
        if name == "regexp_replace" and (count > 4 or count == 4 and
                                         arguments[3][0][0] in ("number", "sign")):
            yield name


BYTES = re.compile(r'collate\s+["\']?(c|posix|binary|ucs_basic|\w+_bin)\b', re.I)


def functions(case):
    toks = case.toks
    return [t[1].lower() for t, b in zip(toks, toks[1:]) if t[0] == "word" and b[1] == "("]


def of_words(case):
    """The causes that the words of a case show, apart from what the program says."""
    toks, engine, found = case.toks, case.engine, set()
    words = [lower(t) if t[0] == "word" else t[1] for t in toks]
    for i, t in enumerate(toks):
        word, before = words[i], words[i - 1] if i else ""
        after = words[i + 1] if i + 1 < len(words) else ""
        kind_after = toks[i + 1][0] if i + 1 < len(toks) else ""
        if word == "collate":
            found.add("COLLATE of the order of bytes (\"C\", binary, .._bin)"
                      if BYTES.match(case.text[t[2]:]) else "COLLATE of another order")
        elif word == "similar":
            found.add("SIMILAR TO, substring(.. similar ..)")
        elif word in ("regexp", "rlike") and t[0] == "word":
            found.add("REGEXP and RLIKE as operators")
        elif word == "glob":
            found.add("GLOB")
        elif word in ("xor", "div") or word == "mod" and after != "(":
            found.add("MariaDB's XOR, DIV and MOD as operators")
        elif word == "<=" and after == ">" or word == "<=>":
            found.add("MariaDB's <=>")
        elif word == "&&" or word == "!" and engine == "mariadb":
            found.add("MariaDB's && and !")
        elif word == "^":
            found.add("the operator ^")
        elif t[0] == "quoted" and engine in ("mariadb", "sqlite") and \
                t[1][1:-1].lower() not in case.columns:
            found.add('a text in double quotes')
        elif t[0] == "prefixed":
            found.add({"e": "E'..'", "n": "N'..'", "u": "U&'..'"}[t[1][0].lower()])
        elif t[0] == "word" and word.startswith("_") and kind_after in ("text", "prefixed",
                                                                        "blob", "quoted"):
            found.add("a charset before a text, CONVERT .. USING")
        elif word == "using":
            found.add("a charset before a text, CONVERT .. USING")
        elif t[0] in ("text", "prefixed") and kind_after == "text":
            found.add("a text after a text: 'a' 'b'")
        elif t[0] == "sign" and word == "{":
            found.add("{fn ..}")
        elif word == "placing":
            found.add("overlay(.. placing ..)")
        elif word == "from" and "trim" in words[max(0, i - 12):i] and \
                not ({"substring", "extract"} & set(words[max(0, i - 4):i])):
            found.add("trim(both .. from ..)")
        elif word == "in" and after == "(" and words[i + 2:i + 3] == [")"]:
            found.add("IN without an item")
        elif word in ("unsigned", "signed"):
            found.add("cast to unsigned, signed")
        elif word == "binary" and engine == "mariadb":
            found.add("MariaDB's BINARY")
        elif word in ("char", "character", "nchar", "bpchar", "clob") and (
                before in ("as", "::") or before == "," and engine == "mariadb"):
            found.add("cast to char, char(n), clob")
        elif word == "tinyint" and before in ("as", "::"):
            found.add("cast to tinyint")
        elif word == "is" and after not in ("null", "not", "true", "false", "unknown", "distinct"):
            found.add("IS between any two values")
        elif word == "is" and after == "not" and words[i + 2:i + 3] and words[i + 2] not in (
                "null", "true", "false", "unknown", "distinct"):
            found.add("IS between any two values")
        elif word == "not" and after == "null" and before != "is":
            found.add("SQLite's a NOT NULL")
        elif word == "sounds":
            found.add("function soundex")
        elif word == "isnull" and after == "(" and (i == 0 or before in (
                "(", ",", "=", "not", "and", "or")):
            found.add("function isnull")
        elif word == "asymmetric":
            found.add("BETWEEN ASYMMETRIC")
        elif word == "~" and engine == "sqlite":
            if before in ("+", "-", "*", "/", "%", "~"):
                found.add("~ as an operand of + - * and of a sign")
    for name in further(case):
        found.add("fewer or further arguments of %s" % name)
    for name in functions(case):
        if name in UNKNOWN and name not in ("in", "cast", "not", "or", "and", "when", "then", "else",
                                            "case", "between", "like", "xor", "rlike", "regexp",
                                            "glob", "div", "collate", "binary", "values", "varchar",
                                            
                                            "character", "nchar", "clob", "sounds", "as", "escape"):
            found.add("function " + name)
    for i, name in enumerate(words):
        if name == "char" and words[i - 1] in ("as", "::", ",") and "function char" in found and i:
            found.discard("function char")
    return found


# What the program says of cases of the second kind, in this order.
SECOND = [
    (r"(?i)is no interval|an interval", "intervals: other forms, other operands"),
    (r"is no part|is no unit", "other parts and units of dates"),
    (r"is no (date|timestamp)", "other forms of dates and timestamps"),
    (r"is no (f64|f32|float\w*|double\w*|number|decimal\S*|real)", "a text that is no number"),
    (r"takes .*a date or a timestamp", "a text or a number as a date"),
    (r"takes no values of kind (f64|f32).* in cast|as a text|has two digits",
     "a float cast to a text"),
    (r"next to (i\d+|date|timestamp)|takes no (date|timestamp) next",
     "a date next to a number or a timestamp"),
    (r"date|timestamp|f64|f32|decimal|kind", "types of the second kind that do not meet"),
]


def of_message(case, error):
    """The cause that the program's message tells, None where the words tell it."""
    m = re.sub(r"^rowfn_stream: (expression|where)?:? ?", "", error)
    m = re.sub(r"^-*(where|expression): ", "", m)
    m = re.sub(r"line \d+, column \d+: ", "", m)
    if m.startswith("no function"):
        return "function " + re.search(r'"([^"]*)"', m).group(1).lower()
    if m.startswith("no column"):
        name = re.search(r'"(.*)"', m).group(1)
        if case.engine in ("mariadb", "sqlite") and "single quotes" in m or \
                any(t[0] == "quoted" for t in case.toks):
            return None
        if name.lower() in ("char", "varchar", "int", "integer", "unsigned", "signed"):
            return "convert(a, type)"
        if name.lower() == "unknown":
            return "UNKNOWN as a literal"
        return WRONG
    if m.startswith("no type"):
        name = re.search(r'"([^"]*)"', m).group(1).lower()
        return None if name.startswith("_") or name in (
            "unsigned", "signed", "binary", "n", "e", "u", "char", "character", "nchar", "bpchar",
            "tinyint", "clob") else "type " + name
    if "no word and no sign" in m or "a quote is not closed" in m:
        return None if "{" in case.text else WRONG
    if m.startswith("E3") and any(True for _ in further(case)):
        return None
    numbers = r"i8|i16|i32|i64|u8|u16|u32|u64"
    if m.startswith("E3") or m.startswith("expected a truth value"):
        if re.search(r"not .*\bnull\b", m):
            return "null without a type where a number is wanted"
        types = m.split(" not ")[-1].split(";")[0]
        has_text, has_bool = "utf8" in types, "bool" in types
        has_number = re.search(r"\b(%s)\b" % numbers, types)
        wants_truth = "truth value" in m or "conditions" in m
        if re.search(r"(?i)substring", m) and types.replace("?", "").startswith("utf8, utf8") or \
                re.search(r"(?i)substr", m) and types.replace("?", "") == "utf8 and utf8":
            return "substring(s from pattern)"
        if re.search(r"takes a text|takes texts|takes two texts|LikeInput|LikePattern", m):
            if re.search(r"takes a text", m) and types.startswith("utf8") and \
                    "replace" not in m and has_number and \
                    not types.replace("?", "").startswith("utf8, i"):
                return "a text where a number is wanted"
            if types.replace("?", "") == "utf8 and utf8" and "substr" in m:
                return "substring(s from pattern)"
            if has_number or has_bool:
                return "a number where a text is wanted"
            return "substring(s from pattern)" if "substr" in m else "a number where a text is wanted"
        if wants_truth and not (has_text and not has_number and not has_bool):
            if "conditions" in m and types.split(",")[0].replace("?", "") == "bool":
                return "values of two types in CASE, IF, COALESCE" if not (
                    has_text and has_number) else "a number next to a text"
            if "conditions" in m and types.split(",")[0].startswith("utf8"):
                return "a text as a truth value"
            if "conditions" in m:
                if re.search(r"\bcase\s+(?!when)", case.text, re.I):
                    return "a number next to a text"
            return "a number as a truth value"
        if wants_truth:
            return "a text as a truth value"
        if has_text and has_number:
            return "a number next to a text"
        if has_bool and has_number:
            return "a truth value as a number"
        if "u64" in types and has_number:
            return "u64 next to a signed type"
        if has_text and has_bool:
            return "a truth value next to a text"
        if has_text:
            return "arithmetic of texts"
        return "E3: other"
    if any(True for _ in further(case)):
        return None
    if m.startswith("E6"):
        name = re.search(r'"(\w+)"', m)
        return "fewer or further arguments of %s" % name.group(1).lower()
    if re.match(r'".*" is no (i|u)\d+', m, re.S):
        return "a number next to a text"
    if re.match(r"-?\d+ is no [iu]\d", m):
        return "a literal past the column's type"
    if "is none of its type" in m or "expected digits, a column, case" in m and "'" in m[:12]:
        return "arithmetic of texts"
    if m.startswith("an escape is") or "expected a text in single quotes" in m:
        return "ESCAPE of another form"
    if m.startswith('found "="') or "brackets round the comparison" in m or "brackets round" in m:
        return "chains of comparisons, IS before ="
    if m.startswith('found "."'):
        return WRONG
    if m.startswith("found"):
        return None
    for pattern, cause in SECOND:
        if re.search(pattern, m):
            return cause
    return "other"


EXTRA = {
    "GLOB": OWN, "MariaDB's XOR, DIV and MOD as operators": OWN, "MariaDB's <=>": OWN,
    "MariaDB's && and !": OWN, "the operator ^": OWN, "a text in double quotes": OWN, "E'..'": OWN,
    "a charset before a text, CONVERT .. USING": OWN, "cast to unsigned, signed": OWN,
    "MariaDB's BINARY": OWN, "SIMILAR TO, substring(.. similar ..)": OWN,
    "IS between any two values": OWN, "u64 next to a signed type": OWN,
    "U&'..'": SHARED, "SQLite's a NOT NULL": OWN, "substring(s from pattern)": OWN,
    "~ as an operand of + - * and of a sign": SHARED,
    "a number next to a text": CONVERSION, "arithmetic of texts": CONVERSION,
    "a text as a truth value": CONVERSION, "a text where a number is wanted": CONVERSION,
    "a truth value next to a text": CONVERSION,
    "a literal past the column's type": SHARED, "COLLATE of another order": SHARED, WRONG: WRONG,
}


def kind_of(cause):
    if cause in EXTRA:
        return EXTRA[cause]
    if cause.startswith("function "):
        name = cause[9:]
        engines = LACKS.get(name, "").split()
        return OWN if len(engines) < 2 or name in OWN_MEANING else SHARED
    if cause.startswith("type "):
        return OWN
    return SHARED


def causes(case, error):
    found = of_words(case)
    told = of_message(case, error)
    if told is not None:
        found.add(told)
    if not found:
        m = re.search(r'found "([^"]*)"', error)
        found.add("syntax: " + (m.group(1).lower() if m and not re.match(r"\d+$", m.group(1))
                                else "other"))
    return found
