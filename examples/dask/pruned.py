"""Filters a table in parts, of which statistics exclude most, under Dask's distributed scheduler.

Each part is a file. Its least and greatest values and counts of nulls are noted when it is written. A
filter reads only the parts that these leave open; of those that it takes whole it reads nothing."""
import os
import sys
import time

import numpy as np
import pandas
import yurkije
from distributed import Client, LocalCluster

PARTS = 240
TYPES = {"at": "i64", "price": "i64?", "cost": "i64?", "name": "utf8?"}
# each beside the same question to pandas
FILTERS = [
    ("at between 70000 and 75000", lambda f: (f["at"] >= 70000) & (f["at"] <= 75000)),
    ("price - cost > 900", lambda f: f["price"] - f["cost"] > 900),
    ("price > cost * 2 and at < 200000", lambda f: (f["price"] > f["cost"] * 2) & (f["at"] < 200000)),
    ("name like 'k0199%' or price is null", lambda f: f["name"].str.startswith("k0199") | f["price"].isna()),
    ("at >= 0", lambda f: f["at"] >= 0),
    ("not at + 1 < 390000", lambda f: ~(f["at"] + 1 < 390000)),
]


def rows(first, count):
    """Returns rows of a table: prices that rise and fall slowly, one part in seven with nulls."""
    place = np.arange(first, first + count)
    wave = (1000 + 900 * np.sin(place / 40000)).astype(np.int64)
    price = pandas.array(wave + place * 7919 % 101, dtype="Int64")
    price[(place // count % 7 == 3) & (place % 10 == 3)] = pandas.NA
    cost = pandas.array(np.full(count, 700) + place * 104729 % 97, dtype="Int64")
    return pandas.DataFrame({"at": place, "price": price, "cost": cost, "name": [f"k{k:06d}" for k in place]})


def written(folder, number, count):
    """Writes a part, and returns its statistics: ends and counts of nulls by column."""
    frame = rows(number * count, count)
    frame.to_pickle(f"{folder}/{number}")
    return {name: (frame[name].min(), frame[name].max(), int(frame[name].isna().sum())) for name in TYPES}


def filtered(expression, folder, number):
    """Returns the numbers of a part's rows in which the condition is true."""
    return expression.select(pandas.read_pickle(f"{folder}/{number}"))


def column(statistics, name, end):
    return [part[name][end] for part in statistics]


def run(client, expression, folder, count, numbers, whole):
    """Returns the table's rows in which the condition is true: those of the parts that are read, and all of those that are whole."""
    read = client.gather([client.submit(filtered, expression, folder, k, pure=False) for k in numbers])
    found = [np.asarray(rows, np.int64) + k * count for rows, k in zip(read, numbers)]
    found += [np.arange(k * count, (k + 1) * count) for k in whole]
    return np.sort(np.concatenate(found)) if found else np.array([], np.int64)


def timed(call):
    start = time.monotonic()
    return call(), time.monotonic() - start


def size(folder, numbers):
    return sum(os.path.getsize(f"{folder}/{k}") for k in numbers)


def main():
    count = int(sys.argv[1]) // PARTS
    folder = os.path.abspath("parts")
    os.mkdir(folder)
    statistics = [written(folder, k, count) for k in range(PARTS)]
    low, high, nulls = ({name: column(statistics, name, end) for name in TYPES} for end in range(3))
    table = pandas.concat([pandas.read_pickle(f"{folder}/{k}") for k in range(PARTS)], ignore_index=True)
    with LocalCluster(n_workers=2, threads_per_worker=2, host="127.0.0.1", dashboard_address=None) as cluster, Client(cluster) as client:
        for text, beside in FILTERS:
            expression = yurkije.Expression(text, TYPES)
            pruned, told = timed(lambda: expression.prune(low=low, high=high, nulls=nulls, rows=[count] * PARTS))
            left, whole = np.flatnonzero(~pruned.skip & ~pruned.whole), np.flatnonzero(pruned.whole)
            every, all_time = timed(lambda: run(client, expression, folder, count, range(PARTS), []))
            found, time_left = timed(lambda: run(client, expression, folder, count, left.tolist(), whole.tolist()))
            wanted = np.flatnonzero(beside(table).fillna(False).to_numpy(dtype=bool))
            if found.tolist() != every.tolist() or found.tolist() != wanted.tolist():
                sys.exit(f"{text}: other rows than without pruning, or than pandas has")
            print(
                f"{text}: {len(found)} rows; of {PARTS} parts {len(left)} read, {len(whole)} whole; "
                f"{size(folder, left):,} bytes of {size(folder, range(PARTS)):,}; {time_left:.2f} s, all parts {all_time:.2f} s; pruned in {told * 1e3:.1f} ms",
                flush=True,
            )


if __name__ == "__main__":
    main()
