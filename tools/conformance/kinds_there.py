"""The texts of `types` as PostgreSQL reads them, and the functions that stand there for what it lacks or has otherwise.

A schema of its own comes before PostgreSQL's, so that a call finds its function there first where both have one: roundings of floats
from halfway away from zero and by 15 digits, quotients of numerics as quotients of floats, whole seconds."""
import re

TRIED = ("decimal", "date", "timestamp", "float8", "bigint", "int", "smallint")
TRIED_AS = """create function tried_{0}(s {1}) returns {0} language plpgsql as $$
begin
  return cast(s as {0});
exception when others then return null;
end $$;"""
PARTS = ("year", "quarter", "month", "week", "day", "dow", "isodow", "doy", "hour", "minute", "second", "milliseconds", "microseconds", "epoch")
OTHER_NAMES = {"dayofmonth": "day", "dayofyear": "doy", "weekofyear": "week"}
MOMENTS = ("date", "timestamp")


def parts():
    """A function for each part of a date or a timestamp, whole and rounded down, and date_part of the same."""
    for moment in MOMENTS:
        yield (f"create function here.date_part(p text, d {moment}) returns bigint language sql as "
               f"$$ select floor(pg_catalog.date_part(p, d::timestamp))::bigint $$;")
        for name in (*PARTS, *OTHER_NAMES):
            yield (f"create function here.{name}(d {moment}) returns bigint language sql as "
                   f"$$ select here.date_part('{OTHER_NAMES.get(name, name)}', d) $$;")
        yield f"create function here.dayname(d {moment}) returns text language sql as $$ select to_char(d, 'FMDay') $$;"
        yield f"create function here.monthname(d {moment}) returns text language sql as $$ select to_char(d, 'FMMonth') $$;"
        yield (f"create function here.last_day(d {moment}) returns date language sql as "
               f"$$ select (date_trunc('month', d::timestamp) + interval '1 month' - interval '1 day')::date $$;")
        yield from days_between(moment)
    yield "create function here.epoch(d interval) returns numeric language sql as $$ select extract(epoch from d) $$;"


def days_between(moment):
    for other in MOMENTS:
        for name in ("datediff", "date_diff"):
            yield f"create function here.{name}(a {moment}, b {other}) returns int language sql as $$ select a::date - b::date $$;"
            yield f"create function here.{name}(u text, a {moment}, b {other}) returns int language sql as $$ select b::date - a::date $$;"


# A float whose 15 digits end before the point is itself.
FLOATS = """
create function here.round(x float8) returns float8 language sql as $$ select case when x in ('nan', 'inf', '-inf') then x
  when abs(x - pg_catalog.trunc(x)) >= 0.5 then pg_catalog.trunc(x) + pg_catalog.sign(x) else pg_catalog.trunc(x) end $$;
create function here.round(x float8, p int) returns float8 language sql as $$
  select case when abs(x) >= 1e15 then x else pg_catalog.round(x::numeric, p)::float8 end $$;
create function here.trunc(x float8, p int) returns float8 language sql as $$
  select case when abs(x) >= 1e15 then x else pg_catalog.trunc(x::numeric, p)::float8 end $$;
create function here.sign(x float8) returns float8 language sql as $$ select case when x = 'nan' then x else pg_catalog.sign(x) end $$;
create function here.sign(x numeric) returns float8 language sql as $$ select pg_catalog.sign(x)::float8 $$;
create function here.sqrt(x numeric) returns float8 language sql as $$ select pg_catalog.sqrt(x::float8) $$;
create function here.quotient(a numeric, b numeric) returns float8 language sql as
  $$ select a::float8 operator(pg_catalog./) b::float8 $$;
create operator here./ (leftarg = numeric, rightarg = numeric, function = here.quotient);
"""
DATES = """
create function here.add_months(d date, n bigint) returns date language sql as $$ select (d + make_interval(months => n::int))::date $$;
create function here.add_months(d timestamp, n bigint) returns timestamp language sql as $$ select d + make_interval(months => n::int) $$;
create function here.make_date(y int, m int, d bigint) returns date language sql as $$ select make_date(y, m, d::int) $$;
create function here.to_timestamp(s text, f text) returns timestamp language sql as
  $$ select pg_catalog.to_timestamp(s, f) at time zone 'UTC' $$;
create function here.try_to_date(s text, f text) returns date language plpgsql as $$
begin
  return to_date(s, f);
exception when others then return null;
end $$;
create function here.try_to_timestamp(s text, f text) returns timestamp language plpgsql as $$
begin
  return here.to_timestamp(s, f);
exception when others then return null;
end $$;
"""
OTHERS = """
create function here.iif(c bool, a anycompatible, b anycompatible) returns anycompatible language sql as $$ select case when c then a else b end $$;
create function here.contains(s text, t text) returns bool language sql as $$ select strpos(s, t) > 0 $$;
create function here.ends_with(s text, t text) returns bool language sql as $$ select right(s, length(t)) = t $$;
create function here.startswith(s text, t text) returns bool language sql as $$ select starts_with(s, t) $$;
create function here.locate(t text, s text) returns int language sql as $$ select strpos(s, t) $$;
create function here.initcap(s text) returns text language sql as $$ select pg_catalog.initcap(s collate "C.utf8") $$;
create function here.len(s text) returns int language sql as $$ select length(s) $$;
create function tried_decimal(s text, p int, q int) returns numeric language plpgsql as $$
declare v numeric;
begin
  execute 'select cast(' || quote_literal(s) || ' as numeric(' || p || ',' || q || '))' into v;
  return nullif(v, 'nan');
exception when others then return null;
end $$;
create function asked(e text, i int, j int) returns text language plpgsql as $$
declare v text;
begin
  execute 'select (' || e || ')::text from t where number = ' || i || ' and row = ' || j into v;
  return coalesce(v, 'null');
exception when others then return 'error ' || sqlerrm;
end $$;
"""


def setup(columns):
    """What makes the table of these columns, and the functions. Each later session finds the schema first."""
    tried = [TRIED_AS.format(one, given) for one in TRIED if one != "decimal" for given in ("text", "numeric", "float8")
             if given == "text" or one in ("bigint", "int", "smallint")]
    return "\n".join(["set client_min_messages = warning;", "create schema here;", "set search_path = here, public, pg_catalog;",
                      f"create table public.t(number int, row int, {columns});",
                      FLOATS, *parts(), DATES, *tried, OTHERS, "alter role asks set search_path = here, public, pg_catalog;", "alter role asks set timezone = 'UTC';"])


# What is written otherwise there, in this order.
REWRITTEN = (
    (r"try_cast\(([xy]) as decimal\((\d+),(\d+)\)\)", r"tried_decimal(\1::numeric::text, \2, \3)"),
    (r"try_cast\((\w+) as (\w+)\((\d+),(\d+)\)\)", r"tried_\2(\1::text, \3, \4)"),
    (r"try_cast\((\w+) as (\w+)\)", r"tried_\2(\1)"),
    (r"\b(ifnull|nvl)\(", "coalesce("),
    (r"\bif\(", "iif("),
    (r"::(f64|double)\b", "::float8"),
    (r" as (f64|double)\)", " as float8)"),
    (r"extract\('(\w+)', ", r"date_part('\1', "),
    (r"extract\((second|milliseconds|microseconds) from ", r"date_part('\1', "),
    (r"interval '(\d+)' (\w+)", r"interval '\1 \2'"),
    (r"interval (\d+) (\w+)", r"interval '\1 \2'"),
)


def as_postgres(text):
    """The text as PostgreSQL reads it."""
    for pattern, written in REWRITTEN:
        text = re.sub(pattern, written, text)
    return text
