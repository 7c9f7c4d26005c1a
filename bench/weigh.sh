#!/usr/bin/env bash
# Times one `pc_desk weigh` beside one `pc bound` for each change that it weighs, over files in which the one constraint is changed
# so, and prints both times and their ratio, for a count and a sum over the cases of a folder that have 14 constraints (or as many
# as are given), with no row, 10,000 and 100,000 rows that are left, which are drawn. Times are processor seconds of whole calls, the
# least of the runs; the ends that both say are compared. Run ./build pc and ./build pc_desk first.
# Usage: bench/weigh.sh [RUNS] [CONSTRAINTS]
# CASES names the folder of cases, NAME.schema and NAME.cons with a column `price`.
set -eu
top=$(cd "$(dirname "$0")/.." && pwd)
cases=${CASES:-$top/../shared/bench/cases}
pc=${PC:-$top/pc}
desk=${PC_DESK:-$top/pc_desk}
[ -x "$pc" ] && [ -x "$desk" ] || { echo "bench/weigh.sh: run ./build pc and ./build pc_desk first" >&2; exit 1; }
[ -d "$cases" ] || { echo "bench/weigh.sh: there is no folder $cases" >&2; exit 1; }
work=$(mktemp -d)
trap 'rm -rf "$work"' EXIT
cd "$work"
exec python3 - "$pc" "$desk" "$cases" "${1:-3}" "${2:-14}" <<'PY'
import csv
import io
import pathlib
import random
import re
import resource
import subprocess
import sys

pc, desk, cases, runs, wanted = sys.argv[1], sys.argv[2], pathlib.Path(sys.argv[3]), int(sys.argv[4]), int(sys.argv[5])


def spent(*words):
    """The least processor seconds of the runs, and what is said."""
    least, said = None, ""
    for _ in range(runs):
        before = resource.getrusage(resource.RUSAGE_CHILDREN)
        said = subprocess.run(words, stdin=subprocess.DEVNULL, stdout=subprocess.PIPE, text=True).stdout
        after = resource.getrusage(resource.RUSAGE_CHILDREN)
        seconds = after.ru_utime + after.ru_stime - before.ru_utime - before.ru_stime
        least = seconds if least is None else min(least, seconds)
    return least, said


def changed(lines, change):
    """The lines, of which the one that is named has the limit."""
    name, word, limit = change.rsplit(" ", 2)
    out = []
    for line in lines:
        head, values, least, most = re.fullmatch(r"(.*=>)(.*), *(\d+)\.\.(\d+)", line).groups()
        if head.split(":")[0].strip() == name:
            least = limit if word == "least" else least
            most = limit if word == "most" else most
            values = " true" if word == "values" else values
        out.append(f"{head}{values}, {least}..{most}")
    return out


def ends(report):
    """The ends that a report of pc bound says, with their marks; or that there are none."""
    found = re.findall(r"^(?:low|high) (\S+) (exact|outer)$", report, re.M)
    return [*found[0], *found[1]] if found else None


def drawn(column, draw):
    """A field that the column of this line of the schema can have."""
    kind, *rest = column[1:]
    if kind == "cat":
        return draw.choice(rest)
    low, high = (float(bound) for bound in rest[-2:])
    places = int(rest[0]) if kind == "dec" else 0
    return f"{draw.uniform(low, high):.{places}f}"


def write_rows(schema, count):
    """A row file with so many rows."""
    columns, draw = list(csv.reader(io.StringIO(schema))), random.Random(1)
    with open("rows.csv", "w", newline="") as out:
        writer = csv.writer(out, lineterminator="\n")
        writer.writerow(column[0] for column in columns)
        writer.writerows([drawn(column, draw) for column in columns] for _ in range(count))


for file in sorted(cases.glob("*.cons")):
    lines = [line for line in file.read_text().splitlines() if line.strip() and not line.startswith("#")]
    if len(lines) != wanted:
        continue
    schema = file.with_suffix(".schema")
    for rows in (0, 10_000, 100_000):
        write_rows(schema.read_text(), rows)
        for query in ("count", "sum(price)"):
            took, said = spent(desk, "weigh", "--as", "table", str(schema), "rows.csv", str(file), query)
            single, differ = 0.0, 0
            records = list(csv.DictReader(io.StringIO(said)))
            for record in records:
                text = changed(lines, record["change"]) if record["change"] else lines
                pathlib.Path("changed.txt").write_text("\n".join(text) + "\n")
                seconds, report = spent(pc, "bound", str(schema), "rows.csv", "changed.txt", query)
                single += seconds
                mine = [record["low"], record["low_mark"], record["high"], record["high_mark"]] if record["low"] else None
                differ += mine != ends(report)
            print(f"{file.stem}, {rows} rows, {query}: {len(records)} answers, pc bound {single:.2f} s, pc_desk weigh {took:.2f} s, "
                  f"ratio {took / single:.2f}, {differ} differ", flush=True)
PY
