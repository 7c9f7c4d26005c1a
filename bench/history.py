#!/usr/bin/env python3
"""Whether constraints from history hold what was lost, and how wide the ranges over them are, beside intervals of samples.

    history.py PC_DESK PREDICATES

The working folder has diamonds.csv and storms.csv, which bench/history.sh writes. A tenth of the rows of a table is lost, all out of
its later half: at random, or those with the greatest numbers in the column that is asked. `pc_desk history` drafts constraints for
so many lost rows from the rows that are left, and from the earlier half, of which none was lost; and some from the lost rows
themselves, which a history that is right in all would give. The rows of `diamonds` have no time: they are shuffled, and a tenth of
them is a period; one of `storms` is a year. A predicate has one or two columns, of each some names or the numbers from one row's to
another's, and chooses a row at least. Truth is the aggregate over all rows, lost ones too.

It prints a table in Markdown, of each loss and aggregate: how many ranges hold the truth, and the median of their width over the
truth; the same of intervals at 99.99 % that take the rows left for a uniform sample of all, and of intervals from a uniform sample
of a tenth of all rows and one in the cells of the draft, with the number of intervals where it is smaller than that of predicates;
and the processor time of a question of `pc_desk ask`, of which 16 are a call. Below stands how many constraints of each draft the
lost rows break. The status is 1 where an end was not exact, or where the lost rows break no constraint of a draft and a range over
it does not hold the truth.
"""
import bisect
import csv
import io
import pathlib
import random
import resource
import statistics
import subprocess
import sys
from dataclasses import dataclass, field
from fractions import Fraction

import sampling

Z = 3.891  # of 99.99 %
WIDEN = "20"
CALL = 16  # queries of a call


@dataclass
class Source:
    """A table, how it is divided, and what is asked of it."""

    name: str
    schema: str
    by: str
    per: str
    column: str
    shuffled: bool


DIAMONDS = Source(
    "diamonds",
    "carat,dec,2,0,10\ncut,cat,Fair,Good,Very Good,Premium,Ideal\ncolor,cat,D,E,F,G,H,I,J\n"
    "clarity,cat,I1,SI2,SI1,VS2,VS1,VVS2,VVS1,IF\ndepth,dec,1,40,80\ntable,dec,1,40,100\nprice,int,0,20000\n"
    "x,dec,2,0,11.99\nbatch,int,1,10\n",
    "cut,x/4",
    "batch",
    "price",
    True,
)
STORMS = Source(
    "storms",
    "year,int,1975,2020\nmonth,int,1,12\nday,int,1,31\nhour,int,0,23\nlat,dec,1,0,60\nlong,dec,1,-120,0\n"
    "status,cat,tropical depression,tropical storm,hurricane\nwind,int,0,200\npressure,int,850,1050\n",
    "status,month/4",
    "year",
    "wind",
    False,
)
AGGREGATES = ("count", "sum", "avg", "min", "max", "median")


class Table:
    """The rows of a source as texts, in the order of their time, and what divides them."""

    def __init__(self, source, draws):
        self.source = source
        with open(f"{source.name}.csv", newline="") as file:
            self.header, *self.rows = csv.reader(file)
        if source.shuffled:
            draws.shuffle(self.rows)
            self.header.append(source.per)
            for place, row in enumerate(self.rows):
                row.append(str(1 + 10 * place // len(self.rows)))
        self.kinds = {line.split(",")[0]: line.split(",")[1:] for line in source.schema.splitlines()}
        self.numbers = [int(number) for number in self.column(source.column)]
        self.lost_rows = len(self.rows) // 10
        self.later = range(len(self.rows) // 2, len(self.rows))

    def column(self, name):
        """The fields of a column: names, or numbers."""
        place = self.header.index(name)
        return [row[place] if self.kinds[name][0] == "cat" else float(row[place]) for row in self.rows]

    def write(self, file, places):
        with open(file, "w", newline="") as out:
            writer = csv.writer(out, lineterminator="\n")
            writer.writerow(self.header)
            writer.writerows(self.rows[place] for place in places)

    def cells(self):
        """The places of the rows of each cell of the draft that has some."""
        held = {}
        keys = [self.piece_keys(division) for division in self.source.by.split(",")]
        for place, key in enumerate(zip(*keys)):
            held.setdefault(key, []).append(place)
        return list(held.values())

    def piece_keys(self, division):
        """The piece of each row: its name, or its place among ranges of equal width."""
        name, _, parts = division.partition("/")
        fields = self.column(name)
        if not parts:
            return fields
        places = int(self.kinds[name][1]) if self.kinds[name][0] == "dec" else 0
        low, high = (round(float(end) * 10**places) for end in self.kinds[name][-2:])
        starts = [low + k * (high - low + 1) // int(parts) for k in range(int(parts))]
        return [bisect.bisect(starts, round(number * 10**places)) for number in fields]

    def predicate(self, draws):
        """The text of a predicate, and the places of the rows that it chooses, which are one at least."""
        while True:
            names = draws.sample([name for name in self.header if name != self.source.per], draws.randint(1, 2))
            parts = [self.part(name, draws) for name in names]
            chosen = [place for place in range(len(self.rows)) if all(held[place] for _, held in parts)]
            if chosen:
                return " and ".join(text for text, _ in parts), chosen

    def part(self, name, draws):
        fields = self.column(name)
        if self.kinds[name][0] == "cat":
            some = self.kinds[name][1:]
            some = draws.sample(some, draws.randint(1, len(some) - 1))
            held = ", ".join(f'"{one}"' for one in some)
            return f"{name} in {{{held}}}", [one in some for one in fields]
        place = self.header.index(name)
        low, high = sorted((draws.choice(self.rows)[place] for _ in range(2)), key=float)
        return f"{name} in {low}..{high}", [float(low) <= number <= float(high) for number in fields]


def truth_of(numbers):
    """The aggregates of some numbers, of which the median is the lower one."""
    numbers = sorted(numbers)
    total = sum(numbers)
    values = (len(numbers), total, Fraction(total, len(numbers)), numbers[0], numbers[-1], numbers[(len(numbers) - 1) // 2])
    return dict(zip(AGGREGATES, values))


@dataclass
class Tally:
    """How many ranges hold the truth, and the widths of all over its size."""

    held: int = 0
    widths: list = field(default_factory=list)

    def add(self, ends, truth):
        if ends is not None:
            self.held += ends[0] <= truth <= ends[1]
            self.widths.append(float((ends[1] - ends[0]) / abs(truth)))

    def shown(self, whole):
        if not self.widths:
            return "-"
        of = "" if len(self.widths) == whole else f" of {len(self.widths)}"
        return f"{self.held}{of}, {statistics.median(self.widths):.2f}"


def tallies():
    return {aggregate: Tally() for aggregate in AGGREGATES}


def sampled(strata, table, questions):
    """The tallies of intervals of a sample: the size of each stratum, and the places of its rows that are drawn."""
    found = tallies()
    for _, chosen, truth in questions:
        among = set(chosen)
        drawn = [(size, len(places), [table.numbers[place] for place in places if place in among]) for size, places in strata]
        for aggregate, interval in sampling.INTERVALS.items():
            found[aggregate].add(interval(drawn, Z), truth[aggregate])
    return found


class Desk:
    """Calls of the program, with the processor time of the questions."""

    def __init__(self, program):
        self.program, self.seconds, self.questions, self.not_exact = program, 0.0, 0, 0

    def call(self, *words, settled=(0,)):
        done = subprocess.run([self.program, *words], stdin=subprocess.DEVNULL, capture_output=True, text=True)
        if done.returncode not in settled:
            sys.exit(f"bench/history.py: {words[0]} ends with {done.returncode}: {done.stderr}")
        return done.stdout

    def draft(self, source, rows, file, lost):
        """Writes constraints for so many lost rows; where no number is given, those of just these rows as the lost ones."""
        words = ["--by", source.by]
        if lost is not None:
            words += ["--per", source.per, "--widen", WIDEN, "--lost", str(lost)]
        pathlib.Path(file).write_text(self.call("history", *words, "schema", rows))

    def broken(self, constraints, rows):
        """How many constraints these rows break by a value or by their number."""
        lines = list(csv.DictReader(io.StringIO(self.call("try", "--as", "table", "schema", constraints, rows, settled=(0, 1)))))
        return sum(line["broken"] not in ("", "0") or line["within"] == "no" for line in lines), len(lines) - 1

    def ask(self, constraints, queries):
        """The ranges of the queries, one end below the other."""
        ranges = []
        for first in range(0, len(queries), CALL):
            before = resource.getrusage(resource.RUSAGE_CHILDREN)
            words = ["--nodes", "1", "--as", "table", "schema", "left.csv", constraints, *queries[first : first + CALL]]
            said = self.call("ask", *words, settled=(0, 1, 2))
            after = resource.getrusage(resource.RUSAGE_CHILDREN)
            self.seconds += after.ru_utime + after.ru_stime - before.ru_utime - before.ru_stime
            ranges += [self.range_of(block) for block in csv.DictReader(io.StringIO(said))]
        self.questions += len(queries)
        return ranges

    def range_of(self, block):
        """The ends, or nothing where there is never a value; what is not exact is counted."""
        if block["relation"] == "possible" and block["none"] == "always":
            return None
        if (block["low_mark"], block["high_mark"]) != ("exact", "exact"):
            self.not_exact += 1
            return None
        return Fraction(block["low"]), Fraction(block["high"])


def text_of(aggregate, column, predicate):
    return ("count" if aggregate == "count" else f"{aggregate}({column})") + " where " + predicate


def asked(desk, constraints, table, questions):
    """The tallies of the ranges over these constraints, and the milliseconds of a question of each aggregate."""
    found, times = tallies(), {}
    for aggregate in AGGREGATES:
        before = desk.seconds
        ranges = desk.ask(constraints, [text_of(aggregate, table.source.column, text) for text, _, _ in questions])
        for ends, (_, _, truth) in zip(ranges, questions, strict=True):
            found[aggregate].add(ends, truth[aggregate])
        times[aggregate] = 1000 * (desk.seconds - before) / len(questions)
    return found, times


def lose(table, kind, draws):
    """The places of the lost rows."""
    if kind == "at random":
        return set(draws.sample(table.later, table.lost_rows))
    return set(sorted(table.later, key=lambda place: -table.numbers[place])[: table.lost_rows])


def questions_of(table, count, draws):
    """Predicates with the places that they choose and the truth."""
    drawn = (table.predicate(draws) for _ in range(count))
    return [(text, chosen, truth_of(table.numbers[place] for place in chosen)) for text, chosen in drawn]


def after_loss(desk, table, lost, questions, title):
    """What is found over each draft, what is to be said of them, and whether they show a fault."""
    told, notes, wrong = [], [], False
    for rows, where in (("left", "the rows left"), ("past", "the earlier half"), ("lost", "the lost rows")):
        desk.draft(table.source, f"{rows}.csv", f"{rows}.pc", None if rows == "lost" else len(lost))
        broken, count = desk.broken(f"{rows}.pc", "lost.csv")
        told.append(asked(desk, f"{rows}.pc", table, questions))
        ranges = len(questions) * len(AGGREGATES)
        missed = ranges - sum(tally.held for tally in told[-1][0].values())
        wrong |= broken == 0 and missed > 0
        notes.append(f"{title}: the lost rows break {broken} of {count} constraints from {where}, {missed} of {ranges} ranges miss")
    return told, notes, wrong


def measure(desk, source, predicates):
    """The lines of the table for a source are printed; notes and faults are given back."""
    draws, all_notes, faults = random.Random(source.name), [], 0
    table = Table(source, draws)
    pathlib.Path("schema").write_text(source.schema)
    table.write("past.csv", range(table.later.start))
    questions = questions_of(table, predicates, draws)
    whole = len(table.rows)
    samples = [sampling.draw(strata, table.lost_rows, draws) for strata in ([range(whole)], table.cells())]
    samples = [sampled(sample, table, questions) for sample in samples]
    for kind in ("at random", "by value"):
        lost, title = lose(table, kind, draws), f"{source.name}, {kind}"
        table.write("lost.csv", sorted(lost))
        left = [place for place in range(whole) if place not in lost]
        table.write("left.csv", left)
        scaled = sampled([(whole, left)], table, questions)
        told, notes, wrong = after_loss(desk, table, lost, questions, title)
        all_notes, faults = all_notes + notes, faults + wrong
        for aggregate in AGGREGATES:
            ranges = [found for found, _ in told]
            cells = [found[aggregate].shown(predicates) for found in (*ranges, scaled, *samples)]
            time = statistics.mean(times[aggregate] for _, times in told)
            print(f"| {title} | {aggregate} | {' | '.join(cells)} | {time:.1f} ms |", flush=True)
    return all_notes, faults


def main():
    desk, predicates = Desk(sys.argv[1]), int(sys.argv[2])
    titles = ["Table, loss", "Aggregate", "drafted from the rows left: held, width", "from the earlier half", "from the lost rows"]
    titles += ["rows left as a sample", "uniform sample", "in the cells", "a question"]
    print(f"| {' | '.join(titles)} |", "---".join("|" * (len(titles) + 1)), sep="\n")
    found = [measure(desk, source, predicates) for source in (DIAMONDS, STORMS)]
    print("", *(note for notes, _ in found for note in notes), sep="\n")
    print(f"{desk.questions} questions at one node, {desk.not_exact} without two exact ends")
    return 1 if desk.not_exact or any(faults for _, faults in found) else 0


if __name__ == "__main__":
    sys.exit(main())
