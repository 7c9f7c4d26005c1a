#!/usr/bin/env python3
"""Divides a domain into cells, plainly: what a script is given that has only the programs left to solve.

    divide.py SCHEMA CONSTRAINTS [COLUMN]

CONSTRAINTS is what `pc show` prints. It writes, as text,

    constraints M
    LEAST MOST        M lines
    cells N
    MASK LOW HIGH     N lines; bit j of MASK stands for constraint j, and LOW and HIGH are the ends of COLUMN over the cell in
                      units of its last place, or 1 and 1 without a column
"""
import re
import sys


def scaled(text, scale):
    whole, _, decimals = text.partition(".")
    return int(whole + decimals.ljust(scale, "0"))


class Column:
    """A side is a pair of ends, or a set of names."""

    def __init__(self, line):
        self.name, kind, *rest = line.split(",")
        self.scale = int(rest.pop(0)) if kind == "dec" else 0
        self.is_names = kind == "cat"
        self.whole = frozenset(rest) if self.is_names else tuple(scaled(text, self.scale) for text in rest)

    def side(self, text):
        if text.startswith("in {"):
            return frozenset(text[4:-1].split(", "))
        if self.is_names:
            return frozenset([text[2:]])
        ends = text[3:].split("..") if text.startswith("in ") else [text[2:]] * 2
        return tuple(scaled(end, self.scale) for end in ends)


def meet(one, other):
    """What both sides hold, or nothing."""
    if isinstance(one, frozenset):
        return one & other or None
    low, high = max(one[0], other[0]), min(one[1], other[1])
    return (low, high) if low <= high else None


def rests(side, part):
    """What a side holds beside a part of it, in one or two sides."""
    if isinstance(side, frozenset):
        return [side - part] if side - part else []
    pairs = [(side[0], part[0] - 1), (part[1] + 1, side[1])]
    return [pair for pair in pairs if pair[0] <= pair[1]]


def common(box, region):
    sides = [meet(one, other) for one, other in zip(box, region)]
    return None if None in sides else tuple(sides)


def minus(box, inner):
    """Boxes apart from each other, which hold what the box has beside the inner one."""
    for place, (side, part) in enumerate(zip(box, inner)):
        for rest in rests(side, part):
            yield inner[:place] + (rest,) + box[place + 1 :]


def read(schema, constraints):
    with open(schema) as file:
        columns = [Column(line) for line in file.read().splitlines()]
    places = {column.name: place for place, column in enumerate(columns)}

    def region(part):
        sides = [column.whole for column in columns]
        for atom in [] if part == "true" else part.split(" and "):
            name, rest = atom.split(" ", 1)
            sides[places[name]] = columns[places[name]].side(rest)
        return tuple(sides)

    with open(constraints) as file:
        lines = [line for line in file.read().splitlines() if not line.startswith("disjoint ")]
    rules = []
    for line in lines:
        when, values, least, most = re.fullmatch(r"\w+: (.*) => (.*), (\d+)\.\.(\d+)", line).groups()
        rules.append((region(when), region(values), int(least), int(most)))
    return columns, rules


def divide(columns, rules):
    """The boxes of rows that may be lost, each with the mask of its constraints."""
    boxes = [(tuple(column.whole for column in columns), 0)]
    for place, (when, values, _, _) in enumerate(rules):
        later = []
        for box, mask in boxes:
            inner = common(box, when)
            if inner is None:
                later.append((box, mask))
                continue
            later += [(rest, mask) for rest in minus(box, inner)]
            kept = common(inner, values)
            if kept is not None:
                later.append((kept, mask | 1 << place))
        boxes = later
    return [(box, mask) for box, mask in boxes if mask]


def main():
    schema, constraints, *asked = sys.argv[1:]
    columns, rules = read(schema, constraints)
    place = next((n for n, column in enumerate(columns) if [column.name] == asked), None)
    cells = {}
    for box, mask in divide(columns, rules):
        low, high = (1, 1) if place is None else box[place]
        before = cells.get(mask, (low, high))
        cells[mask] = min(low, before[0]), max(high, before[1])
    print(f"constraints {len(rules)}")
    for _, _, least, most in rules:
        print(least, most)
    print(f"cells {len(cells)}")
    for mask, (low, high) in cells.items():
        print(mask, low, high)


if __name__ == "__main__":
    main()
