#!/usr/bin/env python3
"""Draws small cases, and compares quantiles with what they must be by other commands: the quantile of the whole share is
the greatest number, and that of one in a thousand, of fewer rows than that, is the least. What is said of the relation, of
the lack and of both ends has to be the same; the runs may be others.

    tools/quantile_ends.py [PC [COUNT]]    (without PC, ./pc at the top; 200 cases)
"""
import random
import subprocess
import sys
import tempfile
from pathlib import Path

SCHEMA = "branch,cat,Chicago,NewYork,Trenton\nday,int,1,9\nprice,dec,1,-3.0,12.0\n"
NAMES = ["Chicago", "NewYork", "Trenton"]


def price(draw):
    return f"{draw.randint(-30, 120) / 10:.1f}"


def part(draw):
    """A predicate, or what rows keep."""
    atoms = []
    if draw.random() < 0.5:
        atoms.append(f"branch = {draw.choice(NAMES)}")
    if draw.random() < 0.4:
        low, high = sorted((draw.randint(1, 9), draw.randint(1, 9)))
        atoms.append(f"day in {low}..{high}")
    if draw.random() < 0.5:
        low, high = sorted((price(draw), price(draw)), key=float)
        atoms.append(f"price in {low}..{high}")
    return " and ".join(atoms) if atoms else "true"


def constraints(draw):
    lines = []
    for number in range(draw.randint(1, 4)):
        least = draw.choice([0, 0, 0, 1, 2])
        lines.append(f"c{number}: {part(draw)} => {part(draw)}, {least}..{least + draw.randint(0, 3)}")
    return "\n".join(lines) + "\n"


def rows(draw):
    lines = [f"{draw.choice(NAMES)},{draw.randint(1, 9)},{price(draw)}" for _ in range(draw.randint(0, 5))]
    return "\n".join(["branch,day,price"] + lines) + "\n"


def said(pc, words, folder):
    """The status, and what is said without the query and the runs."""
    ran = subprocess.run([pc] + words, cwd=folder, capture_output=True, text=True)
    lines = ran.stdout.splitlines()
    return ran.returncode, [line for line in lines if not line.startswith(("query ", "run "))]


def main():
    pc = str(Path(sys.argv[1] if len(sys.argv) > 1 else Path(__file__).parent.parent / "pc").resolve())
    count = int(sys.argv[2]) if len(sys.argv) > 2 else 200
    draw = random.Random(1)
    failed = 0
    with tempfile.TemporaryDirectory() as name:
        folder = Path(name)
        (folder / "schema").write_text(SCHEMA)
        for case in range(count):
            (folder / "rows").write_text(rows(draw))
            (folder / "constraints").write_text(constraints(draw))
            where = draw.choice(["", " where day <= 4", " where branch = Chicago", " where price > 2"])
            files = ["schema", "rows", "constraints"]
            for share, other in (("1, 1", "max"), ("1, 1000", "min")):
                mine = said(pc, ["quantile"] + files + [f"quantile({share}, price){where}"], folder)
                theirs = said(pc, ["bound"] + files + [f"{other}(price){where}"], folder)
                if mine != theirs:
                    failed += 1
                    print(f"case {case}: {share} {mine}, {other} {theirs}")
    print(f"{count} cases, {failed} differ")
    sys.exit(1 if failed else 0)


main()
