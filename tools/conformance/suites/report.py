"""The tables of a measurement: what is accepted, what differs, and why the others are refused."""

import re
from collections import Counter, defaultdict

import causes
import explained
from sql import ENGINES

NAMES = dict(postgres="PostgreSQL", sqlite="SQLite", mariadb="MariaDB", h2="H2", hsqldb="HSQLDB",
             derby="Derby")
SHORT = dict(postgres="P", sqlite="S", mariadb="M", h2="H", hsqldb="Q", derby="D")


def judged(results):
    """(case, answer, verdict, causes), without the cases that were taken wrongly."""
    out = []
    for case, got, verdict in results:
        found = causes.causes(case, got[2]) if verdict == "refused" else set()
        if causes.WRONG not in found:
            out.append((case, got, verdict, found))
    return out


def share(some, all_):
    return "%.1f %%" % (100.0 * some / all_) if all_ else "-"


def table(rows):
    lines = ["| Cases over truth values, whole numbers and texts | Cases | Accepted | Without "
             "spellings of one engine alone | Without those and conversions that engines do "
             "differently |", "|---|---|---|---|---|"]
    for engine in ENGINES + ["all"]:
        mine = [r for r in rows if r[0].group == "A" and engine in (r[0].engine, "all")]
        kept = [r for r in mine if not any(causes.kind_of(c) == causes.OWN for c in r[3])]
        rest = [r for r in kept if not any(causes.kind_of(c) == causes.CONVERSION for c in r[3])]
        cells = [NAMES.get(engine, "all"), "{:,}".format(len(mine)),
                 share(sum(r[2] != "refused" for r in mine), len(mine))]
        cells += ["%s of %s" % (share(sum(r[2] != "refused" for r in part), len(part)),
                                "{:,}".format(len(part))) for part in (kept, rest)]
        lines.append("| " + " | ".join(cells) + " |")
    return lines


def second(rows):
    lines = ["| Cases with fractions, dates, timestamps | Cases | Accepted |", "|---|---|---|"]
    for engine in ENGINES + ["all"]:
        mine = [r for r in rows if r[0].group == "B" and engine in (r[0].engine, "all")]
        lines.append("| %s | %s | %s |" % (NAMES.get(engine, "all"), "{:,}".format(len(mine)), share(
            sum(r[2] != "refused" for r in mine), len(mine))))
    return lines


def weights(rows, group):
    total, alone, by, examples = Counter(), Counter(), defaultdict(Counter), defaultdict(list)
    for case, got, verdict, found in rows:
        if case.group != group or verdict != "refused":
            continue
        for cause in found:
            total[cause] += 1
            alone[cause] += len(found) == 1
            by[cause][case.engine] += 1
            if len(found) == 1:
                examples[cause].insert(0, (case.engine, case.text))
            else:
                examples[cause].append((case.engine, case.text))
    return total, alone, by, examples


def some(examples, count=2):
    """Short examples, of different engines first."""
    picked, engines = [], set()
    for engine, text in sorted(examples, key=lambda e: len(e[1]) > 60):
        if engine not in engines or len(set(e for e, _ in examples)) <= len(engines):
            if text not in [t for _, t in picked]:
                picked.append((engine, text))
                engines.add(engine)
        if len(picked) == count:
            break
    return "; ".join("%s `%s`" % (SHORT[e], t[:90].replace("|", "\\|").replace("\n", " "))
                     for e, t in picked)


def cause_table(rows, group, kinds, least=2):
    total, alone, by, examples = weights(rows, group)
    lines = ["| Cause | Cases | Alone | By engine | Kind | Examples |", "|---|---|---|---|---|---|"]
    for cause, count in total.most_common():
        if causes.kind_of(cause) not in kinds or count < least:
            continue
        lines.append("| %s | %d | %d | %s | %s | %s |" % (
            cause.replace("|", "\\|"), count, alone[cause],
            ", ".join("%s %d" % (SHORT[e], n) for e, n in by[cause].most_common()),
            causes.kind_of(cause), some(examples[cause])))
    return lines


def cumulative(rows, kinds_left_out, most=30):
    """What is reached if causes are mended, each time the one that helps most."""
    kept = [r for r in rows if r[0].group == "A" and not any(
        causes.kind_of(c) in kinds_left_out for c in r[3])]
    accepted = sum(r[2] != "refused" for r in kept)
    open_sets = [set(r[3]) for r in kept if r[2] == "refused"]
    lines = ["| Mended, too | Cases more | Accepted of %d |" % len(kept), "|---|---|---|",
             "| nothing | | %s |" % share(accepted, len(kept))]
    for _ in range(most):
        gain = Counter(next(iter(s)) for s in open_sets if len(s) == 1)
        if not gain:
            break
        cause, count = gain.most_common(1)[0]
        for s in open_sets:
            s.discard(cause)
        done = sum(not s for s in open_sets)
        open_sets = [s for s in open_sets if s]
        accepted += done
        lines.append("| %s | %d | %s |" % (cause.replace("|", "\\|"), done,
                                           share(accepted, len(kept))))
    return lines


def results_table(rows):
    lines = ["| Engine | With a result to compare | Same | Another | Fault here |",
             "|---|---|---|---|---|"]
    for engine in ENGINES:
        for group in "AB":
            v = Counter(r[2] for r in rows if r[0].engine == engine and r[0].group == group)
            lines.append("| %s, %s | %d | %d | %d | %d |" % (
                NAMES[engine], "first kind" if group == "A" else "second kind",
                v["same"] + v["differs"], v["same"], v["differs"], v["fault"]))
    return lines


def differences(rows):
    """Other results and faults, by the row of EXPRESSIONS that explains them."""
    counts, open_ = Counter(), []
    for case, got, verdict, _ in rows:
        if verdict == "differs" or verdict == "fault" and case.expected is not None:
            name = explained.row_of(case, got)
            if name is None:
                open_.append("- %s, %s: `%s`: there `%s`, here `%s`" % (
                    NAMES[case.engine], case.place, case.text[:100].replace("\n", " "),
                    case.expected, got[1] if got[1] is not None else got[2]))
            else:
                counts[(name, verdict, case.group)] += 1
    lines = ["| Row | Another result, first kind | second | Fault, first kind | second |",
             "|---|---|---|---|---|"]
    columns = [(v, g) for v in ("differs", "fault") for g in "AB"]
    for name in sorted({key[0] for key in counts}, key=lambda n: [-counts[(n, *c)]
                                                                  for c in columns]):
        lines.append("| %s | %s |" % (name.replace("|", "\\|"), " | ".join(
            str(counts[(name, *c)]) for c in columns)))
    return lines + ["", "Explained by no row:", ""] + open_


def shapes(rows):
    """What is accepted if cases that differ in literals and names alone count once."""
    kept = {}
    for case, got, verdict, found in rows:
        if case.group == "A" and not any(causes.kind_of(c) == causes.OWN for c in found):
            shape = re.sub(r"'(?:[^']|'')*'", "'t'", case.text.lower())
            shape = re.sub(r"\b\d+\b", "7", re.sub(r"\s+", "", shape))
            for name in sorted(case.columns, key=len, reverse=True):
                shape = re.sub(r"\b%s\b" % re.escape(name), "c", shape)
            shape = re.sub(r"(7,)+7", "7", shape)
            kept.setdefault((case.engine, shape), []).append(verdict != "refused")
    lines = ["| Shapes | Count | Accepted |", "|---|---|---|"]
    for engine in ENGINES + ["all"]:
        mine = [sum(v) / len(v) for (e, _), v in kept.items() if engine in (e, "all")]
        lines.append("| %s | %d | %s |" % (NAMES.get(engine, "all"), len(mine),
                                           share(sum(mine), len(mine))))
    return lines


def text(rows):
    out = ["# Test suites of other engines: measured", ""]
    out += table(rows) + [""] + second(rows) + ["", "## Causes, shared or not of one engine alone",
                                               "", "P PostgreSQL, S SQLite, M MariaDB, H H2, "
                                               "Q HSQLDB, D Derby. Alone: the only cause.", ""]
    out += cause_table(rows, "A", {causes.SHARED, causes.CONVERSION})
    out += ["", "## What mending would reach (without spellings of one engine alone)", ""]
    out += cumulative(rows, {causes.OWN})
    out += ["", "## The same without conversions that engines do differently", ""]
    out += cumulative(rows, {causes.OWN, causes.CONVERSION})
    out += ["", "## Spellings of one engine alone", ""] + cause_table(rows, "A", {causes.OWN})
    out += ["", "## Results", ""] + results_table(rows) + [""] + differences(rows)
    out += ["", "## Shapes, without spellings of one engine alone", "",
            "Cases that differ in literals, names of columns and lengths of lists alone count "
            "once.", ""] + shapes(rows)
    out += ["", "## Causes in the second kind", ""]
    out += cause_table(rows, "B", {causes.SHARED, causes.CONVERSION, causes.OWN}, 8)
    return "\n".join(out) + "\n"
