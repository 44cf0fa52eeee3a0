"""A scan filter over numpy columns, compared with numpy's result."""
import statistics
import sys
import time

import numpy as np
import yurkije

try:
    import pandas
except ImportError:
    pandas = None

WORDS = ["ion foci", "xylene, mixed isomers", "nitric oxide", "iron", "£", "", "sodium nitrite"]


def timed(call):
    """Returns the result of a call, and the median time of some calls in milliseconds."""
    times = []
    for _ in range(9):
        start = time.perf_counter()
        answer = call()
        times.append(1000 * (time.perf_counter() - start))
    return answer, statistics.median(times)


def show(what, expected, calls):
    """Makes the calls, compares each result with the expected one, and prints how long each
    took."""
    told = []
    for name, call in calls.items():
        answer, took = timed(call)
        if not np.array_equal(np.asarray(answer), expected):
            sys.exit(f"{what}: {name} answers otherwise")
        told.append(f"{name} {took:.2f} ms")
    print(f"{what}: the same answers; {', '.join(told)}")


def main():
    rows = int(sys.argv[1])
    rng = np.random.default_rng(1)
    a, b, c = (rng.integers(0, 100, rows) for _ in range(3))
    names = [WORDS[k] for k in rng.integers(0, len(WORDS), rows)]
    columns = {"a": a, "b": b, "c": c, "name": names}
    frame = pandas.DataFrame(columns) if pandas else None

    # An expression is read once, and run over any number of batches: here one of all rows.
    taken = yurkije.Expression.of("a < b and c > 5 as taken", columns)
    calls = {"yurkije": lambda: taken.run(columns)["taken"], "numpy": lambda: (a < b) & (c > 5)}
    if pandas:
        calls["pandas"] = lambda: (frame.a < frame.b) & (frame.c > 5)
    show(f"a < b and c > 5 over {rows} rows", (a < b) & (c > 5), calls)
    calls = {"yurkije": lambda: taken.select(columns), "numpy": lambda: np.flatnonzero((a < b) & (c > 5))}
    if pandas:
        calls["pandas"] = lambda: np.flatnonzero((frame.a < frame.b) & (frame.c > 5))
    show("the rows that it takes", np.flatnonzero((a < b) & (c > 5)), calls)

    # With nulls: in numpy's masked arrays a comparison with null is null, as in SQL.
    masked = np.ma.MaskedArray(b, rng.random(rows) < 0.1)
    with_nulls = {"a": a, "b": masked}
    sums = yurkije.Expression.of("a + b as sum", with_nulls)
    calls = {"yurkije": lambda: np.ma.filled(sums.run(with_nulls)["sum"], -1), "numpy": lambda: np.ma.filled(a + masked, -1)}
    show("a + b, one of ten null", np.ma.filled(a + masked, -1), calls)

    like = yurkije.Expression.of("name like '%nitr%' as found", columns)
    calls = {"yurkije": lambda: like.run(columns)["found"], "python": lambda: ["nitr" in name for name in names]}
    if pandas:
        calls["pandas"] = lambda: frame.name.str.contains("nitr", regex=False)
    show("name like '%nitr%', of a list of str", np.array(["nitr" in name for name in names]), calls)

    # What does not fit is an error, with its row; numpy's sum wraps around.
    try:
        yurkije.evaluate("a * 9223372036854775807", {"a": a})
    except yurkije.ArithmeticRefusal as refusal:
        with np.errstate(over="ignore"):
            wrapped = (a * np.int64(9223372036854775807))[refusal.row]
        print(f"refused: {refusal.message}; numpy says {wrapped}")


main()
