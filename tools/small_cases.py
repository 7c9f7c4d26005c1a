#!/usr/bin/env python3
"""Makes 60 counts and sums over small domains, 40 least and greatest numbers and 40 averages, and finds what is true of each
by going over every list of lost rows that is possible.

    tools/small_cases.py table 1          the file small.rt of pc_agg_trials: the first 30 counts and sums
    tools/small_cases.py table 2          its file small_more.rt: the others
    tools/small_cases.py table 3          its file small_extremes.rt: the least and greatest numbers
    tools/small_cases.py averages         the averages: files and query of each, and the lines of its report but for runs, as the
                                          trials averages/small-domains-1.txt to 4 have them
    tools/small_cases.py files FOLDER     each count and sum as files, for a program: NUMBER.schema, .rows, .constraints,
                                          .query, and .range, which has the two ends or `none`

The cases are the same in each run. A list is found once, by adding rows of the domain in their order; nothing but the
greatest numbers of the constraints ends the walk, so it has nothing in common with cells, bounds and searches.
"""
import itertools
import sys
from fractions import Fraction
from pathlib import Path

CASES = 60
EXTREMES = 40
AVERAGES = 40
# a case with more lists than this is passed over
MOST_LISTS = 60_000


class Draws:
    """Numbers of a fixed generator."""

    def __init__(self, state):
        self.state = state

    def below(self, limit):
        self.state = (self.state * 6364136223846793005 + 1442695040888963407) % 2**64
        return (self.state >> 33) % limit

    def between(self, low, high):
        return low + self.below(high - low + 1)

    def among(self, things):
        return things[self.below(len(things))]

    def some(self, things, count):
        """So many of the things, in their order."""
        left = list(range(len(things)))
        taken = {left.pop(self.below(len(left))) for _ in range(count)}
        return [thing for place, thing in enumerate(things) if place in taken]


# ---- columns, atoms and parts


class Names:
    def __init__(self, name, names):
        self.name, self.names = name, names
        self.numbers = range(len(names))

    def line(self):
        return f"{self.name},cat,{','.join(self.names)}"

    def text(self, number):
        return self.names[number]

    def atom_of(self, numbers):
        """The text that chooses these places."""
        names = [self.names[place] for place in numbers]
        return f"{self.name} = {names[0]}" if len(names) == 1 else f"{self.name} in {{{', '.join(names)}}}"

    def atom(self, draws):
        numbers = draws.some(list(self.numbers), draws.between(1, max(1, len(self.names) - 1)))
        return self.atom_of(numbers), set(numbers)


class Numbers:
    """A column of whole numbers, or of decimals where the scale is above 0; numbers count its last place."""

    def __init__(self, name, low, high, scale=0):
        self.name, self.low, self.high, self.scale = name, low, high, scale
        self.numbers = range(low, high + 1)

    def line(self):
        kind = f"dec,{self.scale}" if self.scale else "int"
        return f"{self.name},{kind},{self.text(self.low)},{self.text(self.high)}"

    def text(self, number):
        if not self.scale:
            return str(number)
        digits = str(abs(number)).rjust(self.scale + 1, "0")
        return f"{'-' if number < 0 else ''}{digits[: -self.scale]}.{digits[-self.scale :]}"

    def atom(self, draws):
        low = draws.between(self.low, self.high)
        high = draws.between(low, self.high)
        kind = draws.below(5)
        if kind == 0:
            return f"{self.name} = {self.text(low)}", {low}
        if kind == 1 and low > self.low:
            return f"{self.name} >= {self.text(low)}", set(range(low, self.high + 1))
        if kind == 2 and high < self.high:
            return f"{self.name} <= {self.text(high)}", set(range(self.low, high + 1))
        if kind == 3 and low < self.high:
            return f"{self.name} > {self.text(low)}", set(range(low + 1, self.high + 1))
        return f"{self.name} in {self.text(low)}..{self.text(high)}", set(range(low, high + 1))


class Part:
    """A text, and by the place of a column the numbers that it allows."""

    def __init__(self, atoms=()):
        self.sides = {place: allowed for place, _, allowed in atoms}
        self.text = " and ".join(text for _, text, _ in atoms) or "true"

    def holds(self, row):
        return all(row[place] in allowed for place, allowed in self.sides.items())


def drawn_part(draws, columns, count):
    places = draws.some(list(range(len(columns))), min(count, len(columns)))
    return Part([(place, *columns[place].atom(draws)) for place in places])


# ---- cases


class Case:
    def __init__(self, columns, observed, constraints, aggregate, asked, chosen):
        self.columns, self.observed, self.constraints = columns, observed, constraints
        # the aggregate, the place of its column, or nothing for a count, and the part that chooses rows
        self.aggregate, self.asked, self.chosen = aggregate, asked, chosen

    def schema(self):
        return "".join(column.line() + "\n" for column in self.columns)

    def rows(self):
        lines = [",".join(column.name for column in self.columns)]
        lines += [",".join(column.text(n) for column, n in zip(self.columns, row)) for row in self.observed]
        return "".join(line + "\n" for line in lines)

    def constraint_lines(self):
        return "".join(
            f"{'abcde'[number]}: {when.text} => {values.text}, {least}..{most}\n"
            for number, (when, values, least, most) in enumerate(self.constraints)
        )

    def query(self):
        column = "" if self.asked is None else f"({self.columns[self.asked].name})"
        return self.aggregate + column + (f" where {self.chosen.text}" if self.chosen.sides else "")

    def texts(self):
        return self.schema(), self.rows(), self.constraint_lines(), self.query()

    def with_row(self, value, row):
        """The aggregate of some rows that come to the value, and of one more."""
        if not self.chosen.holds(row):
            return value
        if self.aggregate == "count":
            return value + 1
        number = row[self.asked]
        if self.aggregate == "sum":
            return value + number
        if self.aggregate == "avg":
            return (value[0] + number, value[1] + 1)
        if value is None:
            return number
        return min(value, number) if self.aggregate == "min" else max(value, number)

    def seen(self):
        """The aggregate of the observed rows; a least or a greatest number of no rows is nothing. Of an average it is the sum
        and the number of rows."""
        value = {"count": 0, "sum": 0, "avg": (0, 0)}.get(self.aggregate)
        for row in self.observed:
            value = self.with_row(value, row)
        return value

    def losable(self):
        """The rows of the domain that can be lost, each with its constraints."""
        for row in itertools.product(*(column.numbers for column in self.columns)):
            under = [j for j, (when, *_) in enumerate(self.constraints) if when.holds(row)]
            if under and all(self.constraints[j][1].holds(row) for j in under):
                yield under, row

    def values(self):
        """What the aggregate can be, over every possible list."""
        rows = list(self.losable())
        room = [most for *_, most in self.constraints]
        # how many rows are still to be lost of each constraint
        short = [least for _, _, least, _ in self.constraints]
        found, lists = set(), 0

        def walk(first, value):
            nonlocal lists
            lists += 1
            if lists > MOST_LISTS:
                raise Unfit
            if max(short) <= 0:
                found.add(value)
            for place in range(first, len(rows)):
                under, row = rows[place]
                if all(room[j] for j in under):
                    for j in under:
                        room[j] -= 1
                        short[j] -= 1
                    walk(place, self.with_row(value, row))
                    for j in under:
                        room[j] += 1
                        short[j] += 1

        walk(0, self.seen())
        return found


class Unfit(Exception):
    """A case with too many lists, or without a column for its aggregate."""


# ---- kinds of cases


def number_places(columns):
    return [place for place, column in enumerate(columns) if isinstance(column, Numbers)]


def total_of(draws, columns):
    """A count, or the sum of a column of numbers, of all rows or of some."""
    numbers = number_places(columns)
    asked = draws.among(numbers) if numbers and draws.below(5) < 3 else None
    aggregate = "count" if asked is None else "sum"
    return aggregate, asked, drawn_part(draws, columns, 0 if draws.below(5) < 3 else 1)


def extreme_of(draws, columns):
    """The least or the greatest number of a column, of all rows or of some."""
    numbers = number_places(columns)
    if not numbers:
        raise Unfit
    asked = draws.among(numbers)
    return draws.among(["min", "max"]), asked, drawn_part(draws, columns, draws.below(2))


def average_of(draws, columns):
    """The average of a column, of all rows or of some."""
    numbers = number_places(columns)
    if not numbers:
        raise Unfit
    return "avg", draws.among(numbers), drawn_part(draws, columns, draws.below(2))


def observed_of(draws, columns):
    return [tuple(draws.among(column.numbers) for column in columns) for _ in range(draws.below(4))]


def spread(draws, size):
    """A column of so many numbers."""
    low = draws.among([0, 1, -2, -size // 2])
    return Numbers(draws.among("nmv"), low, low + size - 1, draws.among([0, 0, 1, 2]))


# A name stands for the constraints that speak of it. Where most names have two, the relaxation of many a program has halves.
FIGURES = {
    "triangle": ["ab", "bc", "ac"],
    "triangle and all": ["ab", "bc", "ac", "abc"],
    "triangle and one": ["ab", "bc", "ac", "d"],
    "triangle and tail": ["ab", "bc", "ac", "cd", "d"],
    "triangle and two": ["ab", "bc", "ac", "de", "d", "e"],
    "all pairs of four": ["ab", "ac", "ad", "bc", "bd", "cd"],
    "ring of five": ["ab", "bc", "cd", "de", "ae"],
    "ring and chord": ["ab", "bc", "cd", "de", "ae", "ac"],
    "all pairs of five": ["ab", "ac", "ad", "ae", "bc", "bd", "be", "cd", "ce", "de"],
    "threes of four": ["abc", "abd", "acd", "bcd", "ab"],
    "apart": ["a", "b", "c"],
}

# least and most of a constraint
FREQUENCIES = {
    "at most": [(0, 1), (0, 1), (0, 2), (0, 3)],
    "exact": [(1, 1), (1, 1), (1, 1), (2, 2)],
    "ones": [(1, 1)],
    "at most one": [(0, 1)],
    "near": [(1, 1), (1, 2), (0, 1), (0, 2), (1, 3)],
}


def figure(draws, asked_of, name, frequencies, size):
    """Constraints over names, with up to `size` rows in the domain; some keep numbers, too. `odd` wants one row of each of
    the first three constraints, and is not certain of the others."""
    names = FIGURES[name]
    columns = [Names("k", names)]
    if size // len(names) > 1:
        columns.append(spread(draws, size // len(names)))
    constraints = []
    for letter in sorted(set("".join(names))):
        places = [place for place, name in enumerate(names) if letter in name]
        atoms = [(0, columns[0].atom_of(places), set(places))]
        if len(columns) > 1 and draws.below(6) == 0:
            atoms.append((1, *columns[1].atom(draws)))
        values = Part()
        if len(columns) > 1 and draws.below(4) == 0:
            values = Part([(1, *columns[1].atom(draws))])
        known = frequencies
        if frequencies == "odd":
            known = "ones" if letter in "abc" else "at most"
        constraints.append((Part(atoms), values, *draws.among(FREQUENCIES[known])))
    return Case(columns, observed_of(draws, columns), constraints, *asked_of(draws, columns))


SHAPES = {
    6: [[("k", 3), 2], [6], [("k", 2), 3], [("k", 6)], [3, 2]],
    18: [[("k", 3), 6], [("k", 3), 3, 2], [3, 3, 2]],
    60: [[("k", 3), 5, 4], [("k", 5), 12], [10, 6], [("k", 2), 6, 5], [60], [5, 4, 3]],
}


def boxes(draws, asked_of, size, frequencies, most=5):
    """So many constraints at most, of one or two atoms each, drawn without regard to one another."""
    columns, names = [], iter(draws.among(["npm", "xyz"]))
    for side in draws.among(SHAPES[size]):
        if isinstance(side, tuple):
            columns.append(Names(side[0], ["red", "blue", "green", "grey", "white", "black"][: side[1]]))
        else:
            low = draws.among([0, 1, -1, -side // 2])
            columns.append(Numbers(next(names), low, low + side - 1, draws.among([0, 0, 1, 2])))
    constraints = []
    for _ in range(draws.between(2, most)):
        when = drawn_part(draws, columns, draws.among([0, 1, 1, 1, 2]))
        values = drawn_part(draws, columns, draws.among([0, 0, 1]))
        constraints.append((when, values, *draws.among(FREQUENCIES[frequencies])))
    return Case(columns, observed_of(draws, columns), constraints, *asked_of(draws, columns))


def kinds():
    """How the cases are made, one after the other."""
    for name in FIGURES:
        yield figure, name, "at most", 6
        yield figure, name, "ones", 12
        yield figure, name, "near", 60
    for name in ["all pairs of five", "ring of five", "all pairs of four", "ring and chord"]:
        yield figure, name, "at most one", 20
        yield figure, name, "at most one", 60
    for name in ["triangle and one", "triangle and two"]:
        yield figure, name, "odd", 6
        yield figure, name, "odd", 20
        yield figure, name, "odd", 60
    for frequencies in ("at most", "near", "exact"):
        for size in (6, 18, 60, 60):
            yield boxes, size, frequencies
    yield boxes, 18, "near"


def made_cases():
    """The counts and sums with their ends. Whatever has too many lists is drawn anew."""
    draws = Draws(1)
    for kind, *words in itertools.islice(kinds(), CASES):
        while True:
            case = kind(draws, total_of, *words)
            try:
                found = case.values()
            except Unfit:
                continue
            yield case, (min(found), max(found)) if found else None
            break


# how least and greatest numbers are made, and what is wanted of them, each in turn
EXTREME_KINDS = [
    (figure, "triangle", "near", 12),
    (boxes, 18, "near", 3),
    (figure, "triangle", "ones", 18),
    (figure, "triangle and all", "near", 12),
    (boxes, 6, "exact", 3),
    (figure, "triangle", "exact", 9),
    (figure, "triangle and all", "at most", 16),
]
WANTED = ["kept", "moved", "never", "sometimes", "kept", "moved", "never", "sometimes", "always", "impossible"]


def what_is(case, found):
    """Whether no list is possible, none gives a value, some give one, or all do: then whether the end that the observed rows
    bound stays at theirs. A single number is nothing of these."""
    if not found:
        return "impossible"
    if found == {None}:
        return "always"
    if len(found - {None}) == 1:
        return "single"
    if None in found:
        return "sometimes"
    if case.seen() is None:
        return "never"
    near = max(found) if case.aggregate == "min" else min(found)
    return "kept" if near == case.seen() else "moved"


def made_extremes():
    """The least and greatest numbers with what they can be. Whatever is not wanted is drawn anew, of the next kind."""
    draws, kinds_in_turn = Draws(2), itertools.cycle(EXTREME_KINDS)
    for number in range(EXTREMES):
        turn, place = divmod(number, len(WANTED))
        wanted = ("min", "max")[(turn + place) % 2], WANTED[place]
        while True:
            kind, *words = next(kinds_in_turn)
            try:
                case = kind(draws, extreme_of, *words)
                found = case.values()
            except Unfit:
                continue
            if (case.aggregate, what_is(case, found)) == wanted:
                yield case, found
                break


# what is wanted of averages, each in turn
AVERAGES_WANTED = ["seen", "never", "sometimes", "seen", "never", "sometimes", "seen", "always", "never", "impossible"]


def average_kind(case, found):
    """Whether no list is possible, none gives a value, some give one, or all do; then whether rows were observed. One value
    alone is nothing of these."""
    if not found:
        return "impossible"
    ratios = {Fraction(*value) for value in found if value[1]}
    if not ratios:
        return "always"
    if len(ratios) == 1:
        return "single"
    if (0, 0) in found:
        return "sometimes"
    return "seen" if case.seen()[1] else "never"


def made_averages():
    """The averages with what they can be. Whatever is not wanted is drawn anew, of the next kind."""
    draws, kinds_in_turn = Draws(3), itertools.cycle(EXTREME_KINDS)
    for number in range(AVERAGES):
        while True:
            kind, *words = next(kinds_in_turn)
            try:
                case = kind(draws, average_of, *words)
                found = case.values()
            except Unfit:
                continue
            if average_kind(case, found) == AVERAGES_WANTED[number % len(AVERAGES_WANTED)]:
                yield case, found
                break


# ---- output


def quoted(text):
    return '"' + text.replace("\\", "\\\\").replace('"', '\\"').replace("\n", "\\n") + '"'


def range_text(ends):
    return f"Some({ends})" if ends else "None"


def truth_text(found):
    """What is true of a least or a greatest number, as a variant of `Truth` in pc_agg's tests."""
    if not found:
        return "Truth::Impossible"
    numbers = found - {None}
    if not numbers:
        return "Truth::Always"
    return f"Truth::{'Sometimes' if None in found else 'Never'}({min(numbers)}, {max(numbers)})"


def average_lines(case, found):
    """Lines of the report: of the relation or the lack, and of both ends where they are there."""
    if not found:
        return ["relation impossible"]
    ratios = {Fraction(*value) for value in found if value[1]}
    if not ratios:
        return ["none always"]
    scale = 10 ** case.columns[case.asked].scale
    lack = "sometimes" if (0, 0) in found else "never"
    return [f"none {lack}", f"low {min(ratios) / scale} exact", f"high {max(ratios) / scale} exact"]


def table(first, name, kind, cases):
    lines = [f"pub(super) static {name}: [(Texts<'static>, {kind}); {len(cases)}] = ["]
    for case, text in cases:
        lines += ["    (", "        ("]
        lines += [f"            {quoted(text)}," for text in case.texts()]
        lines += ["        ),", f"        {text},", "    ),"]
    return "\n".join(first + lines + ["];"])


FIRST = ["//! Cases over small domains; tools/small_cases.py made them and found their ranges by going over all", "//! relations."]
RANGES = [
    "use super::Texts;",
    "",
    "/// Texts, and the low and the high end, in units of the last place of the column; none where no",
    "/// relation is possible.",
]
TRUTHS = [
    "use super::Texts;",
    "use super::truths::Truth;",
    "",
    "/// Texts, and what is true of the least or the greatest number, in units of the last place of the column.",
]


def put_table(number):
    if number == "3":
        cases = [(case, truth_text(found)) for case, found in made_extremes()]
        print(table(FIRST + TRUTHS, "SMALL_EXTREMES", "Truth", cases))
        return
    cases = [(case, range_text(ends)) for case, ends in made_cases()]
    second = number == "2"
    half = cases[CASES // 2 :] if second else cases[: CASES // 2]
    print(table(FIRST + RANGES, "SMALL_MORE" if second else "SMALL", "Option<(i128, i128)>", half))


def put_averages():
    for case, found in made_averages():
        for name, text in zip(("schema", "rows", "constraints"), case.texts()):
            print(f"file {name}", *(f"| {line}" for line in text.splitlines()), sep="\n")
        print(f"$ pc bound schema rows constraints '{case.texts()[3]}'")
        print(*(f"| {line}" for line in average_lines(case, found)), "", sep="\n")


def put_files(folder):
    for number, (case, ends) in enumerate(made_cases()):
        for name, text in zip(("schema", "rows", "constraints", "query"), case.texts()):
            (folder / f"{number:02}.{name}").write_text(text)
        (folder / f"{number:02}.range").write_text(f"{ends[0]} {ends[1]}\n" if ends else "none\n")


def main():
    words = sys.argv[1:]
    if words[:1] == ["table"] and words[1:] in (["1"], ["2"], ["3"]):
        put_table(words[1])
    elif words == ["averages"]:
        put_averages()
    elif words[:1] == ["files"] and len(words) == 2:
        put_files(Path(words[1]))
    else:
        sys.exit(__doc__)


if __name__ == "__main__":
    main()
