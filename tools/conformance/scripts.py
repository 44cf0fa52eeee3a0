"""rowfn over a table: a tree as lines of a script, as written and after rules."""
import os
import re
import subprocess

from engines import TOP, Fault, Missing, Refused, value_of
from spelling import BACK, cell, lines

ROWFN = os.environ.get("ROWFN", TOP + "/crates/rowfn/out/rowfn")
# how a tree is run: as written, and after rules
WAYS = {"lines": ["run"], "optimized": ["optimize", "run"]}


def line_names(table):
    """The names of the columns in a script: their own, or c0, c1 and so on if one is no word
    there."""
    names = [column.name for column in table.columns]
    are_words = all(re.fullmatch(r"\w+", name, re.ASCII) for name in names)
    return {name: name if are_words else f"c{place}" for place, name in enumerate(names)}


def cells_of(line, tree, count):
    """The values that `run` printed for a tree over that many rows."""
    name, _, rest = line.partition(":")
    cells = re.findall(r'"[^"]*"|[^ ]+', rest)
    if name.rstrip("?") != tree.type or len(cells) != count:
        raise Refused(0, f"rowfn: a column of {tree.type} and {count} rows is printed as {line[:200]}")
    texts = [one[1:-1].translate(BACK) if one.startswith('"') else one for one in cells]
    return [None if one == "null" else value_of(tree.type, text) for one, text in zip(cells, texts)]


class Scripts:
    """rowfn, run with scripts."""

    def __init__(self, path=ROWFN):
        self.path, self.runs = path, 0
        if not os.access(path, os.X_OK):
            raise Missing(f"no program at {path}: say `rt run` in crates/rowfn, or set ROWFN")

    def printed(self, table, said):
        """The lines that a script over a table prints, and the fault that ends it, or None."""
        self.runs += 1
        names, begin = line_names(table), [f"rows {len(table.rows)}"]
        for column, values in zip(table.columns, list(zip(*table.rows)) or [()] * len(table.columns)):
            begin.append(" ".join([f"col {names[column.name]} {column.type}{'?' * column.nullable}", *map(cell, values)]))
        script = "\n".join([*begin, *said, ""])
        ran = subprocess.run([self.path], input=script.encode(), capture_output=True, close_fds=False)
        fault = re.fullmatch(r"error: (Arithmetic\.\w+)\n", ran.stderr.decode())
        if ran.returncode != 0 and not fault:
            raise Refused(ran.returncode, "rowfn: " + ran.stderr.decode().strip())
        return ran.stdout.decode().split("\n")[:-1], fault and Fault(fault[1])

    def answers(self, trees, table, ways=tuple(WAYS)):
        """The values of each tree in each row, by each of these lines; or the fault that ends the
        script, in each row."""
        names, count = line_names(table), len(table.rows)
        said = [line for tree in trees for line in [*lines(tree, names), *(word for way in ways for word in WAYS[way])]]
        printed, fault = self.printed(table, said)
        columns = [line for line in printed if not line.startswith("steps ")]
        asked = [tree for tree in trees for _ in ways]
        found = [cells_of(line, tree, count) for line, tree in zip(columns, asked)]
        return found + [[fault or Fault("not run")] * count] * (len(asked) - len(found))

    def shown(self, trees, table):
        """How each tree is printed, as written and after rules."""
        names, empty = line_names(table), type(table)(table.columns, [])
        said = [line for tree in trees for line in [*lines(tree, names), "show", "optimize", "show"]]
        printed = [line for line in self.printed(empty, said)[0] if not line.startswith("steps ")]
        return list(zip(printed[::2], printed[1::2]))
