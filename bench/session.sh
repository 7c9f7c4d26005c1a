#!/usr/bin/env bash
# Times one `pc session` beside one `pc bound` for each of its questions, over files that are edited in the same way, and
# prints both times and their ratio: as they are, and less what each spends before its first question (the start of a
# process, the reading of the files, and of a session the first division). Of the month of examples/month there are a script
# that adds a row before each question, and one in which a rule comes and goes; of a million rows of 12 columns one that
# adds rows. At the end it prints what hundred questions take after hundred different rules came and went, as a ratio to the
# same questions without them, since a session divides the domain further and never less.
# Times are processor seconds, the least of the runs; both sides say the same ends, or that is told. Run ./build first.
# Usage: bench/session.sh [RUNS]
set -eu
top=$(cd "$(dirname "$0")/.." && pwd)
[ -x "$top/pc" ] || { echo "bench/session.sh: run ./build first" >&2; exit 1; }
work=$(mktemp -d)
trap 'rm -rf "$work"' EXIT
cp "$top/examples/month/schema.csv" "$top/examples/month/rows.csv" "$top/examples/month/constraints.txt" "$work"
cd "$work"
exec python3 - "$top/pc" "${1:-3}" <<'PY'
import resource
import subprocess
import sys

pc, runs = sys.argv[1], int(sys.argv[2])


def spent(*words):
    """The least processor seconds of the runs, and what is said but for the runs of rows."""
    least, said = None, ""
    for _ in range(runs):
        before = resource.getrusage(resource.RUSAGE_CHILDREN)
        said = subprocess.run([pc, *words], stdin=subprocess.DEVNULL, stdout=subprocess.PIPE, text=True).stdout
        after = resource.getrusage(resource.RUSAGE_CHILDREN)
        seconds = after.ru_utime + after.ru_stime - before.ru_utime - before.ru_stime
        least = seconds if least is None else min(least, seconds)
    return least, [line for line in said.splitlines() if not line.startswith("run ")]


def write(name, text):
    with open(name, "w") as file:
        file.write(text)


def read(name):
    with open(name) as file:
        return file.read()


def compare(title, files, lines):
    """A session over the files, and a call of `bound` at each of its questions over the files as they stand there."""
    schema, rows, rules = files
    write("script", "\n".join(lines) + "\n")
    write("none", "")
    session, said = spent("session", schema, rows, rules, "script")
    begun, _ = spent("session", schema, rows, rules, "none")
    seen, held = read(rows).splitlines(), read(rules).splitlines()
    calls, reading, called, questions = 0.0, 0.0, [], 0
    for line in lines:
        verb, rest = line.split(" ", 1)
        noun, _, what = rest.partition(" ")
        if verb == "ask":
            questions += 1
            write("rows.now", "\n".join(seen) + "\n")
            write("rules.now", "\n".join(held) + "\n")
            took, ends = spent("bound", schema, "rows.now", "rules.now", rest)
            calls, called = calls + took, called + ends
            reading += spent("bound", schema, "rows.now", "rules.now", "nothing")[0]
        elif (verb, noun) == ("add", "row"):
            seen.append(what)
        elif (verb, noun) == ("drop", "row"):
            del seen[int(what)]
        elif (verb, noun) == ("add", "rule"):
            held.append(what)
        else:
            held = [other for other in held if not other.startswith(what + ":")]
    print(f"{title}: {questions} questions, {len(lines) - questions} edits; the same ends: {'yes' if said == called else 'NO'}")
    print(f"  one session {session:.3f} s, calls {calls:.3f} s: {calls / session:.1f} times as long")
    own, theirs = max(session - begun, 0.001), max(calls - reading, 0.001)
    print(f"  less what comes before the first question: {own:.3f} s and {theirs:.3f} s, {theirs / own:.1f} times")


month = ("schema.csv", "rows.csv", "constraints.txt")
lines = []
for number in range(200):
    lines += [f"add row {('Chicago', 'NewYork', 'Trenton')[number % 3]},{number % 31 + 1},{number % 60 + 20}.00", "ask sum(price)"]
compare("the month, a row more each time", month, lines)

lines = []
for number in range(100):
    low = number % 20 + 1
    lines += [f"add rule x: day in {low}..{low + 9} => price <= {number % 7 + 80}.00, 0..{number % 5 + 20}", "ask sum(price)"]
    lines += ["drop rule x", "ask sum(price)"]
compare("the month, a rule that comes and goes", month, lines)

asks = ["ask sum(price)"] * 100
write("asks", "\n".join(asks) + "\n")
write("rules", "\n".join(line for line in lines if not line.startswith("ask")) + "\n")
write("both", read("rules") + read("asks"))
first, _ = spent("session", *month, "none")
plain, grown, trying = (spent("session", *month, name)[0] - first for name in ("asks", "both", "rules"))
print(f"hundred questions after hundred rules that came and went: {max(grown - trying, 0.001) / max(plain, 0.001):.1f} times as long as without them")

columns = "abcdefghijkl"
write("wide.schema", "".join(f"{column},int,0,99999\n" for column in columns))
write("wide.rules", "p: a in 0..49999 => b in 0..9, 1..3\nq: a in 50000..99999 => true, 0..2\n")
seed = 12345
with open("wide.rows", "w") as file:
    file.write(",".join(columns) + "\n")
    for _ in range(1_000_000):
        numbers = []
        for _ in columns:
            seed = (seed * 1103515245 + 12345) % 2147483648
            numbers.append(str(seed // 65536 % 10000))
        file.write(",".join(numbers) + "\n")
runs = 1
lines = []
for number in range(20):
    lines += ["add row " + ",".join([str(number)] * 12), "ask sum(c)"] if number < 10 else [f"ask sum({columns[number % 12]})"]
files = ("wide.schema", "wide.rows", "wide.rules")
# a million and one rows are too many
text = read("wide.rows").splitlines()
write("wide.rows", "\n".join(text[:-20]) + "\n")
compare("a million rows of 12 columns", files, lines)
PY
