#!/usr/bin/env bash
# Counts the instructions of one relaxation of each program of bench/programs: those of a search with one node less those
# of reading the program alone, by callgrind, which no other work on the machine disturbs. In the same run it counts those of
# glpsol for the same program with counts that may be fractions, less those of a program with one cell. For each it prints
# the cells, the constraints, the steps (of bench/programs/STEPS.txt, by the reference), thousands of instructions, those
# of a step, glpsol's, and the ratio of ours to glpsol's. It proves and builds crates/pc_bench first, and counts with
# Debian's valgrind; the peer is Debian's glpk-utils.
# Usage: bench/relax.sh [BINARY]   (BINARY: another build of pc_bench, which is counted in place of this one)
set -eu
export LC_ALL=C
top=$(cd "$(dirname "$0")/.." && pwd)
command -v valgrind > /dev/null || { echo "bench/relax.sh: it needs valgrind" >&2; exit 1; }
if [ $# -gt 0 ]; then
  ours=$(realpath "$1")
else
  cd "$top/crates/pc_bench"
  if ! said=$(rt run -- search data/six-triangles.prog 10000 2>&1); then
    printf '%s\n' "$said" >&2
    echo "bench/relax.sh: pc_bench was not proved or not built" >&2
    exit 1
  fi
  ours=$PWD/out/pc_bench
fi
work=$(mktemp -d)
trap 'rm -rf "$work"' EXIT
cd "$work"

# count COMMAND..: the instructions that it takes, whatever its status
count() {
  valgrind --tool=callgrind --callgrind-out-file=counted "$@" > said 2> faults < /dev/null || true
  sed -nE 's/^totals: ([0-9]+)$/\1/p' counted
}

peer=''
if command -v glpsol > /dev/null; then peer=glpsol; else echo "glpsol is missing"; fi
printf 'program empty\nconstraints 1\n0 1\ncells 1\n1 0 1 1\n' > empty.prog
python3 "$top/bench/convert.py" relaxed empty.prog > empty.lp
if [ -n "$peer" ]; then start=$(count glpsol --lp empty.lp); fi

while read -r name steps; do
  cp "$top/bench/programs/$name.prog" .
  python3 "$top/bench/convert.py" relaxed "$name.prog" > "$name.lp"
  read -r cells constraints <<< "$(python3 "$top/bench/convert.py" size "$name.prog")"
  mine=$(($(count "$ours" search "$name.prog" 1) - $(count "$ours" search "$name.prog" 0)))
  line="$name: $cells cells, $constraints constraints, $steps steps; $((mine / 1000)) thousand, $((mine / steps)) a step"
  if [ -n "$peer" ]; then
    theirs=$(($(count glpsol --lp "$name.lp") - start))
    line="$line; glpsol $((theirs / 1000)) thousand; ratio $(awk -v one="$mine" -v other="$theirs" 'BEGIN { printf "%.2f", one / other }')"
  fi
  echo "$line"
done < "$top/bench/programs/STEPS.txt"
