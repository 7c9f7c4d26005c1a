#!/usr/bin/env python3
"""Writes a program as the input of a peer.

    convert.py lp FILE       an integer program, for glpsol --lp and cbc
    convert.py relaxed FILE  its relaxation, for glpsol --exact --lp
    convert.py smt FILE      for z3
    convert.py size FILE     its cells and its constraints, two numbers

A program is text:

    program NAME
    constraints M
    LEAST MOST            M lines
    cells N
    MASK FLOOR CAP GAIN   N lines; bit j of MASK stands for constraint j
"""
import sys


def read(path):
    with open(path) as file:
        words = iter(file.read().split())

    def number():
        return int(next(words))

    assert next(words) == "program"
    next(words)
    assert next(words) == "constraints"
    rows = [(number(), number()) for _ in range(number())]
    assert next(words) == "cells"
    cells = [tuple(number() for _ in range(4)) for _ in range(number())]
    return rows, cells


def cells_of(cells, j):
    return [i for i, cell in enumerate(cells) if cell[0] >> j & 1]


def total(terms):
    """A sum for an LP file, 8 terms a line. The variable `none` is 0, and stands for a sum without terms."""
    parts = [f"{'+' if g > 0 else '-'} {abs(g)} x{i}" for g, i in terms if g]
    lines = [" ".join(parts[k : k + 8]) for k in range(0, len(parts), 8)]
    return "\n ".join(lines) or "none"


def lp(rows, cells, relaxed=False):
    text = "Maximize\n obj: " + total([(cell[3], i) for i, cell in enumerate(cells)]) + "\nSubject To\n"
    for j, (least, most) in enumerate(rows):
        terms = total([(1, i) for i in cells_of(cells, j)])
        if least == most:
            text += f" e{j}: {terms} = {most}\n"
            continue
        text += f" u{j}: {terms} <= {most}\n"
        if least:
            text += f" l{j}: {terms} >= {least}\n"
    text += "Bounds\n 0 <= none <= 0\n"
    text += "".join(f" {floor} <= x{i} <= {cap}\n" for i, (_, floor, cap, _) in enumerate(cells))
    if not relaxed:
        text += "General\n" + "".join(f" x{i}\n" for i in range(len(cells)))
    return text + "End\n"


def smt(rows, cells):
    text = ""
    for i, (_, floor, cap, _) in enumerate(cells):
        text += f"(declare-const x{i} Int)(assert (<= {floor} x{i} {cap}))\n"
    for j, (least, most) in enumerate(rows):
        text += f"(assert (<= {least} (+ 0 {' '.join(f'x{i}' for i in cells_of(cells, j))}) {most}))\n"
    gains = [f"(* {g} x{i})" if g >= 0 else f"(* (- {-g}) x{i})" for i, (_, _, _, g) in enumerate(cells) if g]
    return text + f"(maximize (+ 0 {' '.join(gains)}))\n(check-sat)\n(get-objectives)\n"


def size(rows, cells):
    return f"{len(cells)} {len(rows)}\n"


if __name__ == "__main__":
    kind, path = sys.argv[1:]
    forms = {"lp": lp, "smt": smt, "relaxed": lambda rows, cells: lp(rows, cells, True), "size": size}
    print(forms[kind](*read(path)), end="")
