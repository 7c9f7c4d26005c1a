#!/usr/bin/env python3
"""The least and the greatest average, as a script finds them that is given the cells and has cbc solve programs.

    ratios.py CELLS SUM COUNT SCALE

CELLS is what divide.py writes; SUM and COUNT are those of the observed rows, SUM in units of the last place of a column
with SCALE decimals. Each end begins with the most lost rows that can be. A step asks cbc for the lost rows whose numbers
are farthest beyond the average so far, and goes on with theirs while they are beyond it. It writes

    low VALUE STEPS
    high VALUE STEPS

with VALUE in lowest terms, in the column's unit, or `none`.
"""
import os
import subprocess
import sys
import tempfile
from fractions import Fraction

import convert


def read(path):
    with open(path) as file:
        words = file.read().split()
    numbers = iter([int(word) for word in words if word not in ("constraints", "cells")])
    rules = [(next(numbers), next(numbers)) for _ in range(next(numbers))]
    return rules, [tuple(next(numbers) for _ in range(3)) for _ in range(next(numbers))]


def solve(rules, masks, gains, folder):
    """Counts of the greatest worth, or none where there are no counts."""
    caps = [min(most for j, (_, most) in enumerate(rules) if mask >> j & 1) for mask in masks]
    program, answer = os.path.join(folder, "step.lp"), os.path.join(folder, "step.answer")
    with open(program, "w") as file:
        file.write(convert.lp(rules, [(mask, 0, cap, gain) for mask, cap, gain in zip(masks, caps, gains)]))
    subprocess.run(["cbc", program, "solve", "solution", answer], stdout=subprocess.DEVNULL, check=True)
    counts = [0] * len(masks)
    with open(answer) as file:
        if "easible" in next(file):
            return None
        for line in file:
            name, value = line.replace("**", "").split()[1:3]
            if name[0] == "x":
                counts[int(name[1:])] = round(float(value))
    return counts


def highest(rules, masks, numbers, total, rows, folder):
    """The greatest average, and the steps to it."""
    counts = solve(rules, masks, [1] * len(masks), folder)
    if counts is None or rows + sum(counts) == 0:
        return None, 0
    steps = 0
    while True:
        ratio = Fraction(total + sum(map(int.__mul__, counts, numbers)), rows + sum(counts))
        gains = [ratio.denominator * number - ratio.numerator for number in numbers]
        steps += 1
        counts = solve(rules, masks, gains, folder)
        before = ratio.denominator * total - ratio.numerator * rows
        if before + sum(map(int.__mul__, counts, gains)) <= 0:
            return ratio, steps


def main():
    cells, total, rows, scale = sys.argv[1:]
    rules, kinds = read(cells)
    masks = [mask for mask, _, _ in kinds]
    sides = [("low", [-low for _, low, _ in kinds], -1), ("high", [high for _, _, high in kinds], 1)]
    with tempfile.TemporaryDirectory() as folder:
        for end, numbers, sign in sides:
            value, steps = highest(rules, masks, numbers, sign * int(total), int(rows), folder)
            print(end, "none" if value is None else sign * value / 10 ** int(scale), steps)


if __name__ == "__main__":
    main()
