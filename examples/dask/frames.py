"""Evaluates an expression over pandas frames under Dask's distributed scheduler, with a worker killed midway."""
import os
import signal
import sys
import time

import numpy as np
import pandas
import yurkije
from distributed import Client, LocalCluster

TEXT = "a + b as sum, a + b < 100 and s like '%nitr%' or a is null as wanted"
WORDS = ["ion foci", "xylene, mixed isomers", "nitric oxide", "iron", "£", "", "sodium nitrite"]
PARTS = 40


def rows(first, count):
    """Returns rows of a table as a frame: whole numbers, one in ten of `a` missing, and texts."""
    place = np.arange(first, first + count)
    a = pandas.array(place * 7919 % 10007 - 5000, dtype="Int64")
    a[place % 10 == 3] = pandas.NA
    b = pandas.array(place * 104729 % 9973 - 5000, dtype="Int64")
    return pandas.DataFrame({"a": a, "b": b, "s": [WORDS[k] for k in place * 31 % len(WORDS)]})


def answered(expression, first, count):
    """Evaluates one part: the expression is passed as its text, and read once in each thread that
    runs it."""
    # so that a part is still under way when a worker is killed
    time.sleep(0.05)
    answers = expression.run(rows(first, count))
    return answers["sum"], answers["wanted"]


def kill_one(client, parts):
    """Kills the worker that has most of the results so far, once a quarter is there, and reports
    how much that was."""
    while sum(part.done() for part in parts) < PARTS // 4:
        time.sleep(0.01)
    held = {worker: len(keys) for worker, keys in client.has_what().items()}
    victim = max(held, key=held.get)
    os.kill(client.run(os.getpid)[victim], signal.SIGKILL)
    done = sum(part.done() for part in parts)
    print(f"{done} of {PARTS} parts are answered: the worker that has {held[victim]} of them is killed", flush=True)


def main():
    count = int(sys.argv[1])
    part = count // PARTS
    expression = yurkije.Expression(TEXT, {"a": "i64?", "b": "i64?", "s": "utf8?"})
    with LocalCluster(n_workers=3, threads_per_worker=2, host="127.0.0.1", dashboard_address=None) as cluster, Client(cluster) as client:
        parts = client.map(answered, [expression] * PARTS, [part * k for k in range(PARTS)], [part] * PARTS, pure=False)
        kill_one(client, parts)
        answers = client.gather(parts)
    whole = expression.run(rows(0, part * PARTS))
    for number, name in enumerate(("sum", "wanted")):
        together = np.ma.concatenate([answer[number] for answer in answers])
        if together.tolist() != whole[name].tolist():
            sys.exit(f"{name}: another answer than over the whole")
    wanted = np.ma.filled(whole["wanted"], False)
    frame = rows(0, part * PARTS)
    beside = ((frame.a + frame.b < 100) & frame.s.str.contains("nitr", regex=False)) | frame.a.isna()
    if wanted.tolist() != beside.fillna(False).tolist():
        sys.exit("wanted: another answer than pandas has")
    print(f"Dask, {PARTS} parts of {part} rows: the same answers as over the whole, and as pandas has; {wanted.sum()} rows wanted")


if __name__ == "__main__":
    main()
