"""Runs filters over ranges of pages of a PostgreSQL table: those that a summary of the ranges leaves open.

The summary has for each range of pages the least and greatest values and counts of nulls of each column.
`prune` reads it alone. A range of which no row is true is not read; one whose rows are all true is counted
by the summary; the others are read by ranges of row addresses (TID range scans)."""
import json
import subprocess
import sys

import yurkije

PAGES = 16
COLUMNS = {"at": "i64", "price": "i64?", "cost": "i64?", "name": "utf8?"}
FILTERS = [
    "at between 70000 and 75000",
    "price - cost > 900",
    "price > cost * 2 and at < 200000",
    "name like 'k0199%' or price is null",
    "not at + 1 < 290000",
    "coalesce(price, 0) > 1900",
]
PSQL = ["psql", "-h", "127.0.0.1", "-p", sys.argv[1], "-U", "postgres", "-d", "postgres", "-v", "ON_ERROR_STOP=1", "-qAt"]


def sql(text):
    """Returns what statements print."""
    return subprocess.run(PSQL, input=text, capture_output=True, text=True, check=True).stdout.strip()


def make(rows):
    """Makes the table, a BRIN index over its columns, and the summary."""
    parts = [f"'{name}', json_build_array(min({name}), max({name}), count(*) - count({name}))" for name in COLUMNS]
    sql(
        f"""SET client_min_messages = warning;
        CREATE TABLE priced AS
            SELECT i::bigint AS at, CASE WHEN i / 900 % 7 <> 3 OR i % 10 <> 3 THEN (1000 + 900 * sin(i / 40000.0))::bigint + i::bigint * 7919 % 101 END AS price,
                   700 + i::bigint * 104729 % 97 AS cost, 'k' || lpad(i::text, 6, '0') AS name
            FROM generate_series(0, {rows} - 1) i;
        CREATE INDEX priced_brin ON priced USING brin (at, price, cost, name) WITH (pages_per_range = {PAGES});
        CREATE TABLE summary AS
            SELECT (ctid::text::point)[0]::bigint / {PAGES} AS number, count(*) AS rows, json_build_object({', '.join(parts)}) AS columns
            FROM priced GROUP BY 1 ORDER BY 1;
        ANALYZE priced;"""
    )


def summary():
    """Returns the count of rows of each range, and its columns' ends and counts of nulls."""
    rows = json.loads(sql("SELECT json_agg(json_build_array(rows, columns) ORDER BY number) FROM summary"))
    return [count for count, _ in rows], [{name: [columns[name][k] for _, columns in rows] for name in COLUMNS} for k in range(3)]


def ranges(left):
    """Returns the ranges that are open, neighbours joined: as conditions on row addresses."""
    found = []
    for number in left:
        if found and found[-1][1] == number:
            found[-1][1] += 1
        else:
            found.append([number, number + 1])
    return [f"ctid >= '({first * PAGES},0)' AND ctid < '({last * PAGES},0)'" for first, last in found]


def counted(condition, addresses=None):
    """Returns how many rows are true, and how many pages were read for it."""
    wheres = [f"({condition}) AND {address}" for address in addresses] if addresses is not None else [condition]
    query = " UNION ALL ".join(f"SELECT count(*) AS found FROM priced WHERE {where}" for where in wheres)
    if not wheres:
        return 0, 0
    plan = json.loads(sql(f"EXPLAIN (ANALYZE, BUFFERS, TIMING OFF, FORMAT JSON) {query}"))[0]["Plan"]
    found = sql(f"SELECT sum(found) FROM ({query}) AS all_of_them")
    return int(found), plan["Shared Hit Blocks"] + plan["Shared Read Blocks"]


def main():
    make(int(sys.argv[2]))
    rows, (low, high, nulls) = summary()
    for text in FILTERS:
        pruned = yurkije.Expression(text, COLUMNS).prune(low=low, high=high, nulls=nulls, rows=rows)
        left = [number for number in range(len(rows)) if not pruned.skip[number] and not pruned.whole[number]]
        of_whole = sum(count for count, whole in zip(rows, pruned.whole) if whole)
        found, pages = counted(text, ranges(left))
        expected, all_pages = counted(text)
        if found + of_whole != expected:
            sys.exit(f"{text}: {found} and {of_whole} rows, where PostgreSQL finds {expected}")
        print(
            f"{text}: {expected} rows; of {len(rows)} ranges {len(left)} read, {int(pruned.whole.sum())} whole; "
            f"{pages} pages, PostgreSQL with BRIN {all_pages}",
            flush=True,
        )


if __name__ == "__main__":
    main()
