"""Cases of the statements that a suite has: expressions with columns, a row and a result."""

import re

import readers
from sql import (NO_FUNCTION, closes, create_of, lower, select_of, split_commas, text_of, tokens,
                 unquote)

AGGREGATES = set("""count sum avg group_concat total string_agg array_agg std stddev variance
 stddev_pop stddev_samp var_pop var_samp every bool_and bool_or median listagg grouping over
 json_arrayagg bit_and bit_or bit_xor regr_count percentile_cont percentile_disc mode any_value
 corr covar_pop covar_samp rank row_number dense_rank lead lag ntile first_value last_value
 nth_value cume_dist percent_rank histogram selectivity envelope any some""".split())
SESSION = set("""user current_user session_user system_user database schema version now
 current_timestamp current_date current_time curdate curtime sysdate localtime localtimestamp
 utc_date utc_time utc_timestamp rand random randomblob uuid last_insert_id last_insert_rowid
 changes total_changes found_rows row_count connection_id nextval currval identity sleep benchmark
 get_lock release_lock is_free_lock is_used_lock release_all_locks sqlite_version current_role
 set_config current_setting clock_timestamp statement_timestamp transaction_timestamp load_file
 lastval raise session_id timeofday current_schema current_catalog current_schemas memory_used
 memory_free lock_mode lock_timeout readonly autocommit disk_space_used database_path master_pos_wait
 sqlite_source_id sqlite_compileoption_used sqlite_compileoption_get sqlite_offset nextval rownum
 random_uuid secure_rand secure_random setseed gen_random_uuid current_database inet_server_addr
 h2version csvread csvwrite file_read file_write link_schema transaction_id cancel_session
 current_sqlid current sysdate today default uuid_short lastval rowid oid _rowid_ ctid tableoid
 xmin xmax match subtype likelihood sequence next value_of sys_guid systimestamp
 current_query raw_to_hex file set_limit isolation unlikely likely row_count pg_typeof
 data_type_sql db_object_sql db_object_id optimize_trace name_const master_gtid_wait
 binlog_gtid_pos session diagnostics current_path current_transform_group""".split())
OTHER_TYPES = set("""bytea blob tinyblob mediumblob longblob varbinary raw uuid inet cidr macaddr
 point polygon box circle lseg path line geometry xml tsvector tsquery regclass regproc regtype
 regoper regoperator regnamespace regrole regcollation regprocedure oidvector int2vector int4range
 int8range numrange daterange tsrange tstzrange money bit varbit jsonpath json jsonb name xid xid8
 cid pg_lsn pg_snapshot txid_snapshot row array unnest generate_series generate_subscripts table
 int4multirange int8multirange nummultirange tsmultirange tstzmultirange datemultirange
 java_object object linestring multipoint multilinestring multipolygon tid fullname textmultirange
 textrange compositetable bogon charset collation coercibility random_bytes geometrycollection
 zeroblob hextoraw rawtohex rawtoraw stringtoutf8 utf8tostring compress expand uncompress
 uncompressed_length encrypt decrypt aes_encrypt aes_decrypt des_encrypt des_decrypt inet_aton
 inet_ntoa inet6_aton inet6_ntoa is_ipv4 is_ipv6 encode decode hash unhex from_base64 to_base64
 typeof sha sha1 sha2 sha224 sha256 sha384 sha512 password old_password varbyte void record
 anyarray cardinality trim_array array_length array_cat array_to_string string_to_array
 array_append array_contains array_get array_slice pg_lsn_larger get_byte set_byte get_bit set_bit
 bit_count bitget bit_length lead format_type enum numnode querytree hstore ltree gist intarray
 crypt refcursor load_extension fts3_tokenizer snippet offsets matchinfo highlight rtreenode
 rtreecheck rtreedepth extractvalue updatexml column_get column_create column_json column_check
 column_exists column_list column_add column_delete ascii_bytes system_range uuid_from_bin
 sformat decode_oracle month_interval period""".split())
OTHER_PREFIX = ("json", "xml", "st_", "pg_", "ts_", "to_ts", "has_", "txid_", "reg_", "mbr",
                "sqlite_", "fts", "array_", "to_reg", "lo_", "test", "ascontext", "hex_to",
                "jsonb", "geom", "point", "poly", "line", "range", "multi", "wsrep_", "plainto",
                "phraseto", "websearch", "setweight", "xpath", "isempty", "lower_in", "upper_in",
                "information_schema", "cume", "mz", "binary_", "json_")
B_WORDS = set("""date time timestamp timestamptz datetime timetz interval float float4 float8 double real
 decimal numeric dec number decfloat year month day hour minute second quarter week dayofweek
 dayofyear dayofmonth weekday dayname monthname round floor ceil ceiling sqrt cbrt power pow exp ln
 log log2 log10 sin cos tan asin acos atan atan2 cot sinh cosh tanh asinh acosh atanh pi radians degrees
 strftime julianday datediff dateadd date_add date_sub date_format adddate subdate addtime subtime
 timediff timestampdiff timestampadd str_to_date to_days from_days to_seconds sec_to_time
 time_to_sec time_format maketime makedate last_day from_unixtime unix_timestamp unixepoch
 period_add period_diff date_part date_trunc age extract to_char to_date to_timestamp make_date
 make_time make_timestamp make_interval justify_days justify_hours justify_interval isfinite
 at_time_zone convert_tz yearweek weekofyear microsecond get_format trunc truncate
 float_to_char scale min_scale trim_scale width_bucket div_numeric factorial sind cosd tand asind
 acosd atand atan2d cotd erf gcd_numeric add_months months_between next_day parsedatetime
 formatdatetime dateadd day_of_month day_of_week day_of_year iso_week iso_day_of_week epoch
 sysdate tstz isodow doy dow local zone roundmagic fraction datepart minutes hours seconds
 days months years sec_to_date timezone date_bin to_number str epoch_second
 random_normal abstime reltime tinterval""".split())
DATELIKE = re.compile(r"'[^']*\d{2,4}-\d{1,2}-\d{1,2}|'[^']*\d{1,2}:\d{2}(:\d{2})?|"
                      r"'[^'a-zA-Z]*\d\.\d*(?:[eE][+-]?\d+)?\s*'|'\s*\d+[eE]\d+\s*'|"
                      r"'\s*[+-]?(?:nan|inf(?:inity)?)\s*'", re.I)
RUNTIME = re.compile(r"division by zero|out of range|overflow|negative substring", re.I)


def closed(toks):
    depth = 0
    for t in toks:
        if t[0] == "sign" and t[1] in "()":
            depth += 1 if t[1] == "(" else -1
            if depth < 0:
                return False
    return depth == 0


# What may stand before a bracket: functions of the six engines over single values, and words.
KNOWN = set("""in cast not or and when then else case between like is as by on
 hex char quote crc32 crc32c convert substring_index strcmp format printf insert conv soundex max min
 find_in_set field isnull space varchar ora_hash make_set chr overlay normalize md5 export_set
 stringdecode rshift lshift translate difference bitxor bitor bitand bitnot bitnand bitnor bitxnor
 ascii quote_ident ord oct num_nulls num_nonnulls lcm gcd elt unistr quote_literal stringencode
 natural_sort_key mid bin casewhen to_hex lengthb unicode urshift truncate_value regexp regexpi
 xor rlike glob div mod clob nchar character nvarchar charset collation coercibility nullif coalesce
 ifnull nvl nvl2 iif if greatest least abs sign length char_length character_length octet_length
 lower upper lcase ucase substr substring left right strpos instr position locate btrim trim ltrim
 rtrim starts_with regexp_like regexp_substr regexp_instr regexp_count regexp_replace replace
 split_part lpad rpad initcap concat concat_ws repeat reverse textcat case_when charindex decode
 value integer int smallint bigint tinyint boolean bool text unsigned signed decimal numeric dec
 float double real date time timestamp datetime interval year month day hour minute second
 to_char booleq boolne texteq int4eq sounds interval varchar_ignorecase extract sqrt round floor
 ceil ceiling power pow exp ln log log2 log10 sin cos tan asin acos atan atan2 cot pi radians
 degrees truncate trunc mod cbrt strftime julianday datediff dateadd date_add date_sub date_format
 adddate subdate addtime subtime timediff timestampdiff timestampadd str_to_date to_days from_days
 to_seconds sec_to_time time_to_sec time_format maketime makedate last_day from_unixtime
 unix_timestamp unixepoch period_add period_diff date_part date_trunc age to_date to_timestamp
 make_date make_time make_timestamp make_timestamptz make_interval justify_days justify_hours
 justify_interval isfinite convert_tz yearweek weekofyear microsecond get_format week weekday
 dayname monthname dayofweek dayofyear dayofmonth quarter timezone date_bin to_number scale
 min_scale trim_scale width_bucket factorial sinh cosh tanh asinh acosh atanh parsedatetime
 formatdatetime day_of_month day_of_week day_of_year iso_week iso_day_of_week roundmagic sind cosd
 tand asind acosd atand atan2d cotd erf div float8 float4 int8 int4 int2 name timestamptz fn
 quote_nullable escape some distinct varchar2 number add_months months_between values bpchar xmod
 sounds substring_similar precision like collate quarter any_value bit_and bit_or bit_xor
 ifnull zone lower_case translate regexp_matches similar placing to""".split())


class Case:
    def __init__(self, engine, place, text, columns, row, expected, form):
        self.engine, self.place, self.text = engine, place, text
        self.columns, self.row, self.expected, self.form = columns, row, expected, form
        self.group, self.toks = None, None


def left_out(engine, toks):
    """Why an expression is left out, or None."""
    if any(lower(t) in ("sql_buffer_result", "sql_cache", "sql_calc_found_rows", "duplicate")
           for t in toks) or toks[-1][1] in ("=", "*", "<", ">") or toks[0][1] == "%" or \
            any(a[0] == b[0] == "number" for a, b in zip(toks, toks[1:])):
        return "no whole expression"
    if any(a[1] == "(" and b[1] == ")" and (i == 0 or toks[i - 1][0] == "word" and
                                            lower(toks[i - 1]) in ("not", "and", "or"))
           for i, (a, b) in enumerate(zip(toks, toks[1:]))):
        return "row"
    if closed(toks) is False or lower(toks[0]) in ("on", "distinct", "from") or \
            lower(toks[-1]) in ("on", "from", "as", "where", "like", "then", "else", "t", "in") \
            and len(toks) > 1 and lower(toks[-1]) != "t" or toks[-1][1] in ("%", "/", "."):
        return "no whole expression"
    if any(lower(t) == "distinct" and i and lower(toks[i - 1]) not in ("is", "not")
           for i, t in enumerate(toks)):
        return "aggregate"
    for i, t in enumerate(toks):
        after = toks[i + 1] if i + 1 < len(toks) else ("end", "", 0)
        before = toks[i - 1] if i else ("end", "", 0)
        if t[0] == "variable":
            return "variable"
        if t[0] == "blob":
            return "bytes"
        if t[0] == "dollar":
            return "dollar"
        if "\t" in t[1] or "\0" in t[1] or "\ufffd" in t[1]:
            return "bytes that are no text"
        if t[1] == "::" and after[1] == '"char"' or t[0] == "sign" and t[1] in ("<", "!=", "=") and \
                after[1] in ("<<", "-") and t[1] + after[1] in ("<<<", "!=-") and \
                engine == "postgres":
            return "other types"
        word = lower(t) if t[0] == "word" else None
        if word in ("select", "exists", "values", "union"):
            return "subquery"
        if word is not None and word in AGGREGATES and after[1] == "(":
            if not (word in ("bit_and", "bit_or", "bit_xor")) or engine != "h2":
                return "aggregate"
        if word in ("min", "max") and after[1] == "(":
            end = closes(toks[i + 1:])
            inner = split_commas(toks[i + 2:i + 1 + end])
            if engine != "sqlite" or len(inner) < 2:
                return "aggregate"
        if word in ("top", "top") or (word or "").endswith("_agg") or \
                (word == "json" and before[1].lower() in ("is", "not", "format")) or \
                (word == "next" and lower(after) == "value") or \
                (word or "").startswith("syscs_"):
            return "other types"
        if word == "in" and after[1] != "(":
            return "subquery"
        if word in ("regexp_match", "regexp_matches", "regexp_split_to_array",
                    "regexp_split_to_table", "parse_ident", "string_to_table"):
            return "other types"
        if word in ("over", "filter", "within") and after[1] == "(":
            return "aggregate"
        if word in SESSION and before[1] != ".":
            if word not in ("user", "match", "default", "schema", "value", "session", "next", "file",
                            "identity", "version", "database", "current", "readonly", "sequence",
                            "isolation", "today", "now", "rownum", "raise", "random") \
                    or after[1] == "(" or word in ("user", "rownum", "default", "current", "match",
                                                   "random"):
                return "session"
        if word in OTHER_TYPES or (word and word.startswith(OTHER_PREFIX)):
            if word not in ("json", "name", "row", "table", "line", "path", "box", "object",
                            "test") or after[1] == "(" or before[1] in ("::", ".") \
                    or after[0] == "text" or lower(before) == "as" or word == "array":
                return "other types"
        if t[1] in ("->", "->>", "[", "{", "@>", "<@", "?", ":=", ":", "\\", "}", "]", "$") \
                and t[0] == "sign":
            if not (t[1] in "{}" and engine in ("derby", "mariadb", "hsqldb")):
                return "other types"
        if t[1] == "*" and (before[1] in ("", ".", "(", ",")):
            return "star"
        if t[0] == "text" and t[1].lower() in ("'now'", "'today'", "'tomorrow'", "'yesterday'"):
            return "session"
        if t[0] == "sign" and t[1] == "(":
            if not (before[0] in ("word", "quoted") and (lower(before) not in NO_FUNCTION
                                                        or lower(before) in ("in", "values"))):
                end = closes(toks[i:])
                if end > 0 and len(split_commas(toks[i + 1:i + end])) > 1:
                    return "row"
        if word == "row" and after[1] == "(":
            return "row"
        if word in ("binary", "varbinary", "blob") :
            if word != "binary" or engine != "mariadb":
                return "bytes"
    return None


NOT_COLUMNS = set("""and or not is null between like ilike in case when then else end cast as distinct
 from true false unknown isnull notnull symmetric asymmetric escape""".split())


def rewrite(engine, source, toks, table, alias, columns):
    """The text with the names of columns as they are declared; the columns that it names."""
    out, used, place, i = "", {}, toks[0][2], 0
    for_names = {"word", "back"} | (set() if engine == "mariadb" else {"quoted"})
    while i < len(toks):
        t = toks[i]
        out += source[place:t[2]] if t[2] > place else ""
        name, end, at = None, i, i
        if t[0] in for_names:
            if i + 2 < len(toks) and toks[i + 1][1] == "." and unquote(t).lower() in (
                    table, alias) and toks[i + 2][0] in for_names:
                end = i + 2
                name = unquote(toks[end]).lower()
            else:
                name = unquote(t).lower()
        after = toks[end + 1][1] if end + 1 < len(toks) else ""
        before = toks[i - 1] if i else ("", "", 0)
        if name is not None and name in columns and after != "(" and before[1] not in (
                "::", ".") and lower(before) not in ("as", "collate") and not (
                t[0] == "word" and end == i and name in NOT_COLUMNS) and not (
                t[0] == "word" and after.startswith("'") and toks[end + 1][0] == "text"):
            used[name] = columns[name]
            plain = re.fullmatch(r"[a-z_][a-z0-9_]*", name) and name not in NOT_COLUMNS
            out += name if plain else '"%s"' % name
            i, last = end + 1, toks[end]
        else:
            out += t[1]
            i, last = i + 1, t
        place = last[2] + len(last[1])
    return re.sub(r"\s*\n\s*", " ", out.strip()) if "--" not in out else out.strip(), used


def is_trivial(toks):
    if len(toks) == 1:
        return True
    if len(toks) == 2 and toks[0][1] in "+-" and toks[1][0] in ("number", "fraction"):
        return True
    return len(toks) == 3 and toks[1][1] == "." and toks[2][0] in ("word", "quoted", "back", "sign")


def group_of(toks, used, text):
    if any(c in ("f64?", "date?", "timestamp?") or (c or "").startswith("decimal")
           for c in used.values()):
        return "B"
    for i, t in enumerate(toks):
        if t[0] == "fraction":
            return "B"
        if t[0] == "word" and t[1].lower() in B_WORDS and t[1].lower() not in used:
            return "B"
        if t[0] == "number" and (int(t[1]) > 2 ** 63 or int(t[1]) == 2 ** 63 and
                                 (i == 0 or toks[i - 1][1] != "-")):
            return "B"
    return "B" if DATELIKE.search(text) else "A"


COUNTS = {}
OWN = re.compile(r"create\s+(?:or\s+replace\s+|temp(?:orary)?\s+|definer\s*=\s*\S+\s+)*"
                 r"(?:aggregate\s+)?(?:function|procedure|type|domain|aggregate|alias|enum|cast|"
                 r"operator|sequence)\s+(?:if\s+not\s+exists\s+)?([\w.]+)", re.I)
FILES_LEFT_OUT = re.compile(r"boundary\d|func4\.test|fts|rtree|json\d|percentile|spellfix|"
                            r"rowvalue|xml|tsearch|create_cast|collate\.windows")


def own_names(root):
    """The names of functions and types that the suite itself makes."""
    names = set()
    for path in root.glob("**/*"):
        if path.suffix in (".sql", ".out", ".result", ".test", ".java", ".txt") and path.is_file():
            names |= {m.split(".")[-1].lower()
                      for m in OWN.findall(path.read_text(errors="replace"))}
    return names - {"as", "for", "returns", "if", "left", "right", "lower", "upper", "abs", "mod",
                    "length", "replace", "substring", "concat", "coalesce", "text", "integer",
                    "in", "int", "trim", "varchar", "char", "bigint", "is", "locate", "repeat",
                    "greatest", "least", "sign", "nullif", "ifnull", "substr", "position"}


def suite(engine, root):
    """The cases of a suite, without duplicates."""
    statements = list(getattr(readers, engine)(root))
    per_file, everywhere, own = {}, {}, own_names(root)
    for file, line, text, rows in statements:
        if re.match(r"\s*create\b", text, re.I):
            made = create_of(engine, text)
            if made:
                per_file.setdefault((file, made[0]), []).append((line, made[1]))
                everywhere.setdefault(made[0], made[1])
    seen, counts = {}, COUNTS.setdefault(engine, {})
    for file, line, text, rows in statements:
        if not re.match(r"\s*(select|values|call)\b", text, re.I):
            continue
        if isinstance(rows, str) and not RUNTIME.search(rows):
            continue
        if FILES_LEFT_OUT.search(file):
            continue
        if engine == "sqlite" and re.search(r"[$\[]\s*\w|\[", text):
            continue
        picked = select_of(engine, text)
        if picked is None:
            continue
        columns = {}
        if picked.table is not None:
            made = per_file.get((file, picked.table))
            if made:
                before = [c for at, c in made if at <= line]
                columns = before[-1] if before else made[0][1]
            elif engine == "postgres" and picked.table in everywhere:
                columns = everywhere[picked.table]
            else:
                continue
        candidates = []
        grouped = "group" in picked.tail
        if not grouped:
            for i, item in enumerate(picked.items):
                candidates.append((item, i, "item"))
        if picked.where:
            candidates.append((picked.where, None, "where"))
        for toks, i, form in candidates:
            if not toks or is_trivial(toks):
                continue
            while toks and toks[-1][1] == ";":
                toks = toks[:-1]
            why = left_out(engine, toks)
            if not why and any(t[0] in ("word", "quoted") and unquote(t).lower() in own
                               and unquote(t).lower() not in columns for t in toks):
                why = "the suite's own"
            if not why and any(t[0] == "word" and b[1] == "(" and t[1].lower() not in KNOWN
                               for t, b in zip(toks, toks[1:])):
                why = "functions of a test or of an administrator"
            if why:
                counts[why] = counts.get(why, 0) + 1
                continue
            body, used = rewrite(engine, text, toks, picked.table, picked.alias, columns)
            if engine == "mariadb" and "\t" in body:
                continue
            if any(kind is None for kind in used.values()):
                counts["other types"] = counts.get("other types", 0) + 1
                continue
            if picked.table is not None and not used and form == "where":
                pass
            expected, row = None, {}
            if isinstance(rows, tuple):
                row = dict(re.findall(r"(\w+)\s*=\s*('(?:[^']|'')*'|[^,]+)", rows[1]))
                expected = rows[2][i] if rows[2] and i is not None and i < len(rows[2]) else None
            elif isinstance(rows, str):
                expected = "FAULT" if i is not None and len(picked.items) == 1 and \
                    picked.table is None else None
            elif rows and picked.table is None and i is not None and len(rows) >= 1 \
                    and len(rows[0]) == len(picked.items) and not picked.where:
                expected = rows[0][i] if len(rows) == 1 or engine in (
                    "mariadb", "derby") and len(rows) <= 2 else None
            elif rows and picked.table is None and i is not None and engine in (
                    "postgres", "h2", "derby", "hsqldb") and len(picked.items) == len(rows) \
                    and all(len(r) == 1 for r in rows) and re.match(r"\s*values", text, re.I):
                expected = rows[i][0]
            if engine == "sqlite" and expected and expected.startswith("$"):
                expected = None
            case = Case(engine, "%s:%d" % (file, line), body, used, row, expected, form)
            if engine == "mariadb" and rows and isinstance(rows, list) and len(rows) == 1 and \
                    len(rows[0]) == 1 and rows[0][0] == "" and expected == "":
                pass
            case.toks = tokens(engine, body)
            if case.toks is None:
                continue
            case.group = group_of(case.toks, used, body)
            plain = re.sub(r"\s+", " ", body).lower()
            if engine == "mariadb":
                plain = re.sub(r"collate '?\w+'?", "collate x", plain)
            key = (plain,
                   tuple(sorted(used.items())), tuple(sorted(row.items())))
            if key in seen:
                if seen[key].expected is None:
                    seen[key].expected = expected
                continue
            seen[key] = case
    return list(seen.values())
