#!/usr/bin/env bash
# Measures the division of a domain into cells on families of constraints: spans of one column each inside the one before;
# random boxes of 3 and of 12 columns; random spans of two or three columns of 4, 8 or 12, and of 8 with ten numbers each; a
# chain's shops, windows of days times regions, and sliding windows times regions; predicates of two to four random boxes of
# 3 columns and of random spans of 8; random boxes of 3 columns with a line of the rows outside. For each it prints the
# leaves, the cells, the time of one division, that time over the leaves, and peak memory; then the ratios of the time over
# the leaves between the families; and how many cuts the last constraint takes in a tree that is settled for the others,
# over the four per column and leaf that it may take. It proves and builds crates/pc_bench first, and measures with Debian's
# `time`.
# Usage: bench/cells.sh [BINARY]   (BINARY: another build of pc_bench, which is measured in place of this one)
set -eu
top=$(cd "$(dirname "$0")/.." && pwd)
[ -x /usr/bin/time ] || { echo "bench/cells.sh: it needs /usr/bin/time" >&2; exit 1; }
if [ $# -gt 0 ]; then
  ours=$(realpath "$1")
else
  cd "$top/crates/pc_bench"
  rt run -- cells nested 1 1 > /dev/null 2>&1
  ours=$PWD/out/pc_bench
fi
work=$(mktemp -d)
trap 'rm -rf "$work"' EXIT

# a family, a number of constraints, and how often the domain is divided in one run
while read -r family constraints times; do
  said=$(/usr/bin/time -f '%e %M' -o "$work/used" "$ours" cells "$family" "$constraints" "$times")
  read -r seconds memory < "$work/used"
  echo "$family $constraints $times $seconds $memory $said"
done <<'PLANS' | tee "$work/all" | awk '{
  printf "%s %d: %d leaves, %d cells, %.6f s, %.2f microseconds a leaf, %d kB\n", $1, $2, $7, $9, $4 / $3, $4 / $3 * 1000000 / $7, $5
}'
nested 5 300000
nested 10 100000
nested 20 30000
three 5 15000
three 10 5000
three 20 1000
twelve 3 8000
twelve 6 4000
twelve 12 700
twelve 20 200
four-sparse 12 1000
eight-sparse 10 200
eight-grid 10 300
twelve-sparse 8 40
shops 20 4000
windows 16 3000
sliding 20 3000
three-parts 4 2000
three-parts 8 200
eight-parts 4 200
outside 10 5000
PLANS
awk '{ leaf[$1 " " $2] = $4 / $3 / $7 } END {
  printf "a leaf of three 20 over one of nested 20: %.2f\n", leaf["three 20"] / leaf["nested 20"]
  printf "a leaf of twelve 12 over one of nested 20: %.2f\n", leaf["twelve 12"] / leaf["nested 20"]
  printf "a leaf of twelve 20 over one of twelve 12: %.2f\n", leaf["twelve 20"] / leaf["twelve 12"]
}' "$work/all"
while read -r family constraints; do
  echo "$family $constraints $("$ours" cells "$family" "$constraints" 0)"
done <<'PLANS' | awk '{ printf "%s %d: the last one takes %d cuts in %d leaves, %.4f of what it may take\n", $1, $2, $4, $6, $4 / (4 * $8 * $6) }'
nested 20
three 20
twelve 20
four-sparse 12
eight-sparse 10
eight-grid 10
twelve-sparse 8
shops 20
windows 16
sliding 20
PLANS
