"""SQL's functions and forms, a row each: what a row takes and returns, how it is written here, in PostgreSQL and in SQLite, and which
faults it has. The generator, the texts and the judge go by these rows, so that a new function is a new row."""
from forms import (AND, ATOM, BARE, COMPARED, DISTINCT, FIELD, IS, JOINED, NEGATIVE, NO_CHARACTER, NO_VALUE, NOT, OR, OVERFLOW, PREDICATE, PRODUCT, SHIFT,
                   SIGN, SQL_NAMES, SUM, TILDE, WHOLE_IN_POSTGRESQL, ZERO, Form, Spelling, applied, behind, bits_of, call, calls, infix, is_unsigned, typed)
from tables import INTEGERS
from text_functions import TEXTS


# -- choices ---------------------------------------------------------------------------------------------------------------

def case(node, *operands):
    pairs = "".join(f" WHEN {when} THEN {then}" for when, then in zip(operands[::2], operands[1::2]))
    return f"(CASE{pairs}{f' ELSE {operands[-1]}' * (len(operands) % 2)} END)"


def case_of(node, first, *operands):
    return case(node, *operands).replace("(CASE", f"(CASE {first}", 1)


def farthest(word):
    """In SQLite max and min of rows pass over nulls, as PostgreSQL's greatest and least do."""
    return lambda node, *operands: f"(SELECT {word}(v) FROM ({' UNION ALL '.join(f'SELECT {one} AS v' for one in operands)}))"


def in_list(word):
    return lambda node, first, *others: f"({first} {word} ({', '.join(others)}))"


CHOICES = [
    Form("coalesce", "T T+", "T", (call("coalesce", True), call("ifnull", most=2), call("nvl", most=2)), typed(applied("coalesce")), applied("coalesce"),
         is_strict=False, nulls="all", weight=4),
    Form("nullif", "T T", "T", calls("nullif", same=True), typed(applied("nullif")), applied("nullif"), is_strict=False, nulls="always"),
    Form("case", "case", "T", (Spelling(ATOM, "case %case end", True), call("case_when")), typed(case), case, literals="cases", is_strict=False,
         nulls="cases", weight=5),
    Form("greatest", "T T+", "T", calls("greatest", same=True), typed(applied("greatest")), farthest("max"), is_strict=False, nulls="all"),
    Form("least", "T T+", "T", calls("least", same=True), typed(applied("least")), farthest("min"), is_strict=False, nulls="all"),
    Form("in", "T T+", "bool", (Spelling(PREDICATE, "%7 in ( %* )", True), call("in_list")), in_list("IN"), in_list("IN"), is_strict=False, weight=5),
    Form("not in", "T T+", "bool", (Spelling(PREDICATE, "%7 not in ( %* )", True),), in_list("NOT IN"), in_list("NOT IN"), is_strict=False, weight=3),
    Form("distinct", "T T", "bool", (Spelling(DISTINCT, "%4 is distinct from %5", True), call("is_distinct")), infix("IS DISTINCT FROM"),
         infix("IS DISTINCT FROM"), is_strict=False, nulls="never", weight=3),
    Form("not distinct", "T T", "bool", (Spelling(DISTINCT, "%4 is not distinct from %5", True),), infix("IS NOT DISTINCT FROM"),
         infix("IS NOT DISTINCT FROM"), is_strict=False, nulls="never"),
    Form("if", "bool T T", "T", calls("if", "iif"), typed(case), case, literals="cases", is_strict=False),
    Form("case of", "case of", "T", (Spelling(ATOM, "case %0 %case end", True),), typed(case_of), case_of, literals="cases of", is_strict=False,
         nulls="cases"),
    Form("between symmetric", "T T T", "bool", (Spelling(PREDICATE, "%7 between symmetric %7 and %7", True),),
         lambda node, a, b, c: f"({a} BETWEEN SYMMETRIC {b} AND {c})",
         lambda node, a, b, c: f"(({a} BETWEEN {b} AND {c}) OR ({a} BETWEEN {c} AND {b}))", is_strict=False),
    Form("not between symmetric", "T T T", "bool", (Spelling(PREDICATE, "%7 not between symmetric %7 and %7", True),),
         lambda node, a, b, c: f"({a} NOT BETWEEN SYMMETRIC {b} AND {c})",
         lambda node, a, b, c: f"(NOT (({a} BETWEEN {b} AND {c}) OR ({a} BETWEEN {c} AND {b})))", is_strict=False),
]


def truth_tests():
    for word, name in (("true", "is_true"), ("false", "is_false"), ("unknown", "is_unknown")):
        for no in ("", "not "):
            said = f"IS {no}{word}".upper()
            spellings = (Spelling(IS, f"%4 is {no}{word}", True),) + (() if no else (call(name),))
            yield Form(f"is {no}{word}", "bool", "bool", spellings, behind(said), behind(said.replace("UNKNOWN", "NULL")), is_strict=False, nulls="never")


# -- numbers ---------------------------------------------------------------------------------------------------------------

def bitwise(word):
    def written(node, left, right):
        if node.type == "u64":
            return f"u64_of(bits_of({left}) {word} bits_of({right}))"
        return f"({left} {word} {right})::{node.type}"
    return written


def inverted(node, operand):
    return f"(({INTEGERS[node.type][1]} - {operand})::{node.type})" if is_unsigned(node.type) else f"((~ {operand})::{node.type})"


def shifted(word):
    """A count that the type has no place for is a fault here, and in PostgreSQL the count's lowest bits count."""
    def written(node, left, count):
        name, bits, by = node.type, bits_of(node.type), f"places_of({count})"
        if name in WHOLE_IN_POSTGRESQL:
            value = f"({left} {word} {by})"
        elif name == "u64":
            value = f"u64_of(bits_of({left}) << {by})" if word == "<<" else f"div({left}, power(2::numeric, {by}))"
        elif word == "<<":
            value = f"lowest_bits({left}::bigint << {by}, {bits}, {not is_unsigned(name)})"
        else:
            value = f"({left} >> {by})"
        return f"(CASE WHEN {left} IS NOT NULL AND {count} NOT BETWEEN 0 AND {bits - 1} THEN fault('YK006')::{name} ELSE {value}::{name} END)"
    return written


def sign_in_sqlite(node, operand):
    return f"sign({operand})"


NUMBERS = [
    Form("mod", "N N", "N", (Spelling(PRODUCT, "%10 % %11", True), call("mod", True)), typed(infix("%")), infix("%"),
         {ZERO: "division by zero"}, weight=4),
    Form("minus", "N", "N", (Spelling(SIGN, "- %sign", True),), typed(lambda node, operand: f"(- {operand})"),
         lambda node, operand: f"(0 - {operand})", {OVERFLOW: "Arithmetic.Sub"}, weight=3),
    Form("abs", "N", "N", calls("abs", same=True), typed(applied("abs")), lambda node, a: f"(CASE WHEN {a} < 0 THEN 0 - {a} ELSE {a} END)",
         {OVERFLOW: "integer overflow in abs"}),
    Form("sign", "N", "N", calls("sign"), typed(applied("sign")), sign_in_sqlite),
    Form("bit_and", "N N", "N", (*calls("bit_and", "bitand"), Spelling(JOINED, "%7 & %8", True)), bitwise("&"), infix("&")),
    Form("bit_or", "N N", "N", (*calls("bit_or", "bitor"), Spelling(JOINED, "%7 | %8", True)), bitwise("|"), infix("|")),
    Form("bit_xor", "N N", "N", (*calls("bit_xor", "bitxor"), Spelling(JOINED, "%7 # %8", True)), bitwise("#"),
         lambda node, a, b: f"(({a} | {b}) - ({a} & {b}))"),
    Form("bit_not", "N", "N", (*calls("bit_not", "bitnot"), Spelling(TILDE, "~ %8", True)), inverted,
         lambda node, a: f"({INTEGERS[node.type][1]} - {a})" if is_unsigned(node.type) else f"(~ {a})"),
    Form("shift_left", "N count", "N", (call("shift_left"), Spelling(JOINED, "%7 << %8")), shifted("<<"),
         faults={SHIFT: "shift by a count that is not from 0 to the bits of the type less 1"}),
    Form("shift_right", "N count", "N", (call("shift_right"), Spelling(JOINED, "%7 >> %8")), shifted(">>"),
         faults={SHIFT: "shift by a count that is not from 0 to the bits of the type less 1"}),
    Form("plus", "N", "N", (Spelling(SIGN, "+ %11", True),), typed(lambda node, operand: f"(+ {operand})"), lambda node, operand: operand),
]


# -- casts -----------------------------------------------------------------------------------------------------------------

def cast_in_postgresql(node, operand):
    source, name = node.operands[0].type, node.type
    if source == name:
        return operand
    if name == "bool":
        return f"({operand}::bool)" if source == "utf8" else f"({operand} <> 0)"
    if source == "bool":
        return f"({operand}::{'text' if name == 'utf8' else 'integer'}::{name})"
    return f"(text_number({operand})::{name})" if source == "utf8" else f"({operand}::{name})"


def cast_in_sqlite(node, operand):
    source, name = node.operands[0].type, node.type
    if source == name:
        return operand
    if source == "utf8":
        # SQLite casts any text
        return None
    if name == "utf8":
        return f"(CASE {operand} WHEN 1 THEN 'true' WHEN 0 THEN 'false' END)" if source == "bool" else f"CAST({operand} AS TEXT)"
    return f"({operand} <> 0)" if name == "bool" else f"(+ {operand})"


def casts():
    for name in ("bool", *INTEGERS, "utf8"):
        spellings = [Spelling(ATOM, f"cast( %0 as {one} )", True) for one in SQL_NAMES.get(name, [])]
        spellings += [Spelling(ATOM, f"( %0 ) :: {one}", True) for one in SQL_NAMES.get(name, [])]
        spellings.append(Spelling(ATOM, f"cast( %0 as {name} )", name not in ("bool", "utf8")))
        faults = {"bool": {NO_VALUE: "text that is no truth value in cast to bool"}, "utf8": {}}.get(name, {
            OVERFLOW: f"integer out of range in cast to {name}", NO_VALUE: f"text that is no {name} number in cast"})
        yield Form(f"cast {name}", "S", name, tuple(spellings), cast_in_postgresql, cast_in_sqlite, faults, f"cast {name}", weight=3)


def tried_in_postgresql(node, operand):
    source, name = node.operands[0].type, node.type
    if name in ("utf8", source) or source == "bool" or name == "bool" and source != "utf8":
        return cast_in_postgresql(node, operand)
    return f"tried_{name}({operand}::text)"


def tried():
    """Casts that are null where they cannot be made."""
    for name in ("bool", *INTEGERS, "utf8"):
        spellings = [Spelling(ATOM, f"try_cast( %0 as {one} )") for one in (name, *SQL_NAMES.get(name, []))]
        yield Form(f"try_cast {name}", "S", name, tuple(spellings), tried_in_postgresql, literals="each", is_strict=False, nulls="always", weight=1)


def sizes():
    """Casts to texts of a size at most."""
    for size in (1, 3, 12):
        yield Form(f"varchar {size}", "S", "utf8", (Spelling(ATOM, f"cast( %0 as varchar({size}) )"), Spelling(ATOM, f"( %0 ) :: varchar({size})")),
                   lambda node, operand, size=size: f"left({operand}::text, {size})", literals="cast utf8", weight=1)


def truths():
    """A whole number where a truth value is taken: nothing is written."""
    return [Form("truth", "N", "bool", (Spelling(ATOM, "%0"),), lambda node, operand: f"({operand} <> 0)", lambda node, operand: f"({operand} <> 0)", weight=0)]


def meetings():
    """An operand of an integer type beside one of a wider type: nothing is written."""
    return [Form("meet", "narrower", "N", (Spelling(ATOM, "%0"),), typed(lambda node, operand: operand), lambda node, operand: f"(+ {operand})",
                 weight=0)]


FORMS = {form.kind: form for form in [*CHOICES, *truth_tests(), *NUMBERS, *TEXTS, *casts(), *tried(), *sizes(), *meetings(), *truths()]}

# What the rows above call in PostgreSQL.
POSTGRESQL_FUNCTIONS = [
    # a fault of our own, by its SQLSTATE
    "CREATE FUNCTION fault(state text) RETURNS text LANGUAGE plpgsql VOLATILE AS $$ BEGIN RAISE EXCEPTION 'fault' USING ERRCODE = state; END $$;",
    "CREATE FUNCTION bits_of(numeric) RETURNS bigint LANGUAGE sql IMMUTABLE AS "
    "$$ SELECT (CASE WHEN $1 > 9223372036854775807 THEN $1 - 18446744073709551616 ELSE $1 END)::bigint $$;",
    "CREATE FUNCTION u64_of(bigint) RETURNS u64 LANGUAGE sql IMMUTABLE AS "
    "$$ SELECT (CASE WHEN $1 < 0 THEN $1::numeric + 18446744073709551616 ELSE $1::numeric END)::u64 $$;",
    # how far is shifted, where any type has so many places
    "CREATE FUNCTION places_of(numeric) RETURNS integer LANGUAGE sql IMMUTABLE AS $$ SELECT CASE WHEN $1 BETWEEN 0 AND 63 THEN $1::integer END $$;",
    # the number of so many bits whose lowest bits are these
    "CREATE FUNCTION lowest_bits(bigint, integer, boolean) RETURNS bigint LANGUAGE sql IMMUTABLE AS "
    "$$ SELECT ($1 & ((1::bigint << $2) - 1)) - (CASE WHEN $3 AND ($1 >> ($2 - 1)) & 1 = 1 THEN 1::bigint << $2 ELSE 0 END) $$;",
    # greatest and least pass over nulls
    "CREATE FUNCTION whole_place(bigint) RETURNS integer LANGUAGE sql IMMUTABLE AS "
    "$$ SELECT CASE WHEN $1 IS NULL THEN NULL ELSE greatest(least($1, 2147483647), -2147483647) END::integer $$;",
    # substr over places past integers, by what SQL says of it
    "CREATE FUNCTION substr_of(text, bigint, bigint) RETURNS text LANGUAGE sql VOLATILE AS $$ SELECT CASE "
    "WHEN $1 IS NULL OR $2 IS NULL OR $3 IS NULL THEN NULL WHEN $2 BETWEEN -2147483648 AND 2147483647 AND $3 BETWEEN -2147483648 AND 2147483647 THEN substr($1, $2::integer, $3::integer) "
    "WHEN $3 < 0 THEN fault('22011') "
    "WHEN $2::numeric + $3 <= 1 THEN left($1, 0) "
    "ELSE substr($1, least(greatest($2, 1), 2147483647)::integer, least($2::numeric + $3 - greatest($2, 1), 2147483647)::integer) END $$;",
    *(f"CREATE FUNCTION tried_{name}(text) RETURNS {name} LANGUAGE plpgsql VOLATILE AS "
      f"$$ BEGIN RETURN {'$1' if name == 'bool' else 'text_number($1)'}::{name}; EXCEPTION WHEN OTHERS THEN RETURN NULL; END $$;" for name in ("bool", *INTEGERS)),
    # words are runs of letters and digits, as in C.utf8 and not by ICU, where 日 is one; and a letter may become two
    "CREATE FUNCTION initcapped(text) RETURNS text LANGUAGE sql IMMUTABLE STRICT AS "
    """$$ SELECT string_agg((upper(left(m[1], 1) COLLATE "und-x-icu") COLLATE "C") || (lower(substr(m[1], 2) COLLATE "C.utf8") COLLATE "C") || m[2], '' ORDER BY n) """
    """FROM regexp_matches($1 COLLATE "C.utf8", '([[:alnum:]]*)([^[:alnum:]]*)', 'g') WITH ORDINALITY AS t(m, n) $$;""",
    # PostgreSQL takes 1.5 for a numeric
    "CREATE FUNCTION text_number(text) RETURNS text LANGUAGE sql VOLATILE AS "
    "$$ SELECT CASE WHEN $1 ~ '[^-+0-9 \\t\\n\\v\\f\\r]' THEN fault('22P02') ELSE $1 END $$;",
]


def gives(form, name):
    return form.gives == name or form.gives == "T" or form.gives == "N" and name in INTEGERS


def is_form(node):
    return node.kind in FORMS


def spelling_of(node):
    return FORMS[node.kind].spellings[int(node.form) if node.form.isdigit() else 0]


def fault_of(node, why):
    """The name of the fault of a call that faults so, None where it has no such fault."""
    arithmetic = {"+": "Add", "-": "Sub", "*": "Mul", "/": "Div"}
    if node.kind in arithmetic:
        return "Arithmetic." + arithmetic[node.kind] if why == OVERFLOW or why == ZERO and node.kind == "/" else None
    if not is_form(node):
        return None
    faults = FORMS[node.kind].faults
    if node.kind.startswith("cast ") and node.operands[0].type == "utf8":
        return faults.get(NO_VALUE) if why in (OVERFLOW, NO_VALUE) else None
    return faults.get(why)
