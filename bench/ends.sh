#!/bin/sh
# What a script does that is given the cells: it writes an integer program for each end and has cbc solve it. It prints the
# least and the greatest that the lost rows add, or `none`.
# Usage: bench/ends.sh CELLS   (as bench/divide.py writes them)
set -eu
work=$(mktemp -d)
trap 'rm -rf "$work"' EXIT
# an LP file for cbc has no empty sums: the variable `none` is 0
awk -v least="$work/low.lp" -v greatest="$work/high.lp" '
  # a gain is kept as text, with its sign
  function turned(gain) { return gain ~ /^-/ ? substr(gain, 2) : "-" gain }
  function add(sum, gain, cell) {
    if (gain == 0) return sum
    return sum (gain ~ /^-/ ? " - " substr(gain, 2) : " + " gain) " x" cell (++terms % 8 ? "" : "\n")
  }
  function text(sum) { return sum == "" ? "none" : sum }
  $1 == "constraints" { constraints = $2; for (j = 0; j < constraints; j++) { getline; low[j] = $1; most[j] = $2 } next }
  $1 == "cells" { cells = $2; next }
  {
    cap = -1
    for (j = 0; j < constraints; j++) if (int($1 / 2 ^ j) % 2) {
      row[j] = add(row[j], 1, cell + 0)
      if (cap < 0 || most[j] < cap) cap = most[j]
    }
    down = add(down, turned($2), cell + 0)
    up = add(up, $3, cell + 0)
    bounds = bounds " 0 <= x" cell + 0 " <= " cap "\n"
    names = names " x" cell + 0 "\n"
    cell++
  }
  END {
    for (j = 0; j < constraints; j++) {
      if (low[j] == most[j]) { rules = rules " e" j ": " text(row[j]) " = " most[j] "\n"; continue }
      rules = rules " u" j ": " text(row[j]) " <= " most[j] "\n"
      if (low[j] > 0) rules = rules " l" j ": " text(row[j]) " >= " low[j] "\n"
    }
    rest = "\nSubject To\n" rules "Bounds\n 0 <= none <= 0\n" bounds "General\n" names "End\n"
    print "Maximize\n obj: " text(down) rest > least
    print "Maximize\n obj: " text(up) rest > greatest
  }' "$1"
for end in low high; do
  cbc "$work/$end.lp" solve | awk -v end="$end" '
    /infeasible|No feasible/ { empty = 1 }
    /^Objective value:/ { value = $3 }
    END { if (empty || value == "") print end, "none"; else printf "%s %.0f\n", end, end == "low" ? -value : value }'
done
