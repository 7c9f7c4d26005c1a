#!/bin/sh
# What a script does for a least or a greatest number that is given the cells: it asks cbc whether there are lost rows of
# which one reaches a number, and whether there are some of which none falls short of it, and halves the numbers of the
# cells until it has both ends.
# Usage: bench/levels.sh CELLS min|max SEEN   (CELLS as bench/divide.py writes them, SEEN in units of the last place)
set -eu
work=$(mktemp -d)
trap 'rm -rf "$work"' EXIT
seen=$(printf %.0f "$3")
# a greatest number is a least one with all signs turned
if [ "$2" = max ]; then
  awk 'cells && NF == 3 { print $1, -$3, -$2; next } $1 == "cells" { cells = 1 } { print }' "$1" > "$work/cells"
  seen=$((-seen))
else
  cp "$1" "$work/cells"
fi

# can TEST NUMBER: is there an allocation with a row of NUMBER or less (reach), or without a row of less (avoid)?
can() {
  awk -v test="$1" -v number="$2" '
    function add(sum, cell) { return sum " + x" cell (++terms % 8 ? "" : "\n") }
    function text(sum) { return sum == "" ? "none" : sum }
    $1 == "constraints" { constraints = $2; for (j = 0; j < constraints; j++) { getline; low[j] = $1; most[j] = $2 } next }
    $1 == "cells" { next }
    {
      names = names " x" cell (cell % 8 ? "" : "\n")
      if (test == "avoid" && $3 < number) bounds = bounds " x" cell " = 0\n"
      else bounds = bounds " 0 <= x" cell " <= 200000000\n"
      if (test == "reach" && $2 <= number) reaching = add(reaching, cell)
      for (j = 0; j < constraints; j++) if (int($1 / 2 ^ j) % 2) row[j] = add(row[j], cell)
      cell++
    }
    END {
      print "Maximize\n obj: none\nSubject To"
      for (j = 0; j < constraints; j++) {
        print " u" j ": " text(row[j]) " <= " most[j]
        if (low[j] > 0) print " l" j ": " text(row[j]) " >= " low[j]
      }
      if (test == "reach") print " r: " text(reaching) " >= 1"
      print "Bounds\n 0 <= none <= 0\n" bounds "General\n" names "\nEnd"
    }' "$work/cells" > "$work/test.lp"
  cbc "$work/test.lp" solve > "$work/said"
  ! grep -q 'infeasible\|No feasible' "$work/said"
}

# levels COLUMN: the numbers below that of the observed rows in this column of the cells, least first, and then that one
levels() {
  awk -v column="$1" -v seen="$seen" 'cells && $column < seen { print $column } $1 == "cells" { cells = 1 }' "$work/cells" | sort -nu
  echo "$seen"
}

# the least number that is reached; that of the observed rows is
levels 2 > "$work/levels"
first=1 last=$(wc -l < "$work/levels")
while [ "$first" -lt "$last" ]; do
  middle=$(((first + last) / 2))
  if can reach "$(sed -n "${middle}p" "$work/levels")"; then last=$middle; else first=$((middle + 1)); fi
done
low=$(sed -n "${first}p" "$work/levels")

# the greatest that no row falls short of
levels 3 > "$work/levels"
first=1 last=$(wc -l < "$work/levels")
while [ "$first" -lt "$last" ]; do
  middle=$(((first + last + 1) / 2))
  if can avoid "$(sed -n "${middle}p" "$work/levels")"; then first=$middle; else last=$((middle - 1)); fi
done
high=$(sed -n "${first}p" "$work/levels")

if ! can avoid "$high"; then
  echo low none
  echo high none
elif [ "$2" = max ]; then
  echo low $((-high))
  echo high $((-low))
else
  echo low "$low"
  echo high "$high"
fi
