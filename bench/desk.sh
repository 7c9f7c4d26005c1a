#!/usr/bin/env bash
# Measures `pc_desk ask` beside `pc bound` over the same files and queries, in the processor time of whole calls: over a million
# rows of 12 columns and 20 constraints, one query and five; and over the cases of a folder, each with 500 drawn rows, five
# queries each. Both are run in turn, so many times each; printed are the least times and the ratio of ours to its.
# Run ./build pc and ./build pc_desk first.
# Usage: bench/desk.sh [RUNS]
# CASES names the folder of cases, NAME.schema and NAME.cons with a column `price`; where it is not there, it is left out.
set -eu
export LC_ALL=C
top=$(cd "$(dirname "$0")/.." && pwd)
runs=${1:-5}
cases=${CASES:-$top/../shared/bench/cases}
pc=${PC:-$top/pc}
desk=${PC_DESK:-$top/pc_desk}
[ -x "$pc" ] && [ -x "$desk" ] || { echo "bench/desk.sh: run ./build pc and ./build pc_desk first" >&2; exit 1; }
[ -d "$cases" ] || echo "there is no folder $cases, so its cases are left out"
work=$(mktemp -d)
trap 'rm -rf "$work"' EXIT
cd "$work"

# spent TIMES COMMAND..: the processor microseconds of one call are left in `took`; an answer that is not settled is one too
spent() {
  local times=$1 call user system
  shift
  TIMEFORMAT='%3U %3S'
  { time for ((call = 0; call < times; call++)); do "$@" < /dev/null > said 2> faults || [ $? -le 2 ]; done; } 2> spent
  read -r user system < spent
  took=$(((10#${user/./} + 10#${system/./}) * 1000 / times))
}

# beside NAME TIMES WORD..: the least of the runs of each, and their ratio
beside() {
  local name=$1 times=$2 run plain= shown=
  shift 2
  for ((run = 0; run < runs; run++)); do
    spent "$times" "$pc" bound "$@"
    if [ -z "$plain" ] || [ "$took" -lt "$plain" ]; then plain=$took; fi
    spent "$times" "$desk" ask "$@"
    if [ -z "$shown" ] || [ "$took" -lt "$shown" ]; then shown=$took; fi
  done
  awk -v name="$name" -v plain="$plain" -v shown="$shown" 'BEGIN {
    printf "%s: pc bound %.4f s, pc_desk ask %.4f s, ratio %.2f\n", name, plain / 1000000, shown / 1000000, shown / plain }'
}

# draw SCHEMA ROWS: so many rows, each number and name of the domain as likely as another
draw() {
  awk -F, -v rows="$2" '
    {
      name[NR] = $1; kind[NR] = $2
      if ($2 == "cat") { size[NR] = NF - 2; for (n = 0; n < size[NR]; n++) text[NR, n] = $(n + 3) }
      else { scale[NR] = $2 == "dec" ? $3 : 0; low[NR] = $(NF - 1); size[NR] = ($NF - $(NF - 1)) * 10 ^ scale[NR] + 1 }
    }
    END {
      for (column = 1; column <= NR; column++) printf "%s%s", name[column], column < NR ? "," : "\n"
      seed = 1
      for (row = 0; row < rows; row++) for (column = 1; column <= NR; column++) {
        seed = seed * 16807 % 2147483647
        place = seed % int(size[column] + 0.5)
        if (kind[column] == "cat") printf "%s", text[column, place]
        else printf "%.*f", scale[column], low[column] + place / 10 ^ scale[column]
        printf "%s", column < NR ? "," : "\n"
      }
    }' "$1"
}

for column in a b c d e f g h i j k l; do echo "$column,int,0,9999"; done > million.schema
draw million.schema 1000000 > million.rows
for part in 0 1 2 3 4 5 6 7 8 9 10 11 12 13 14 15 16 17 18 19; do
  echo "a$part: a in $((part * 500))..$((part * 500 + 499)) and d < 9000 => c in 0..9899, 10..$((40 + part))"
done > million.constraints
million=(million.schema million.rows million.constraints)
beside 'a million rows, count' 1 "${million[@]}" count
beside 'a million rows, a sum of a part' 1 "${million[@]}" 'sum(c) where d < 5000 and e >= 100'
beside 'a million rows, five queries' 1 "${million[@]}" count 'sum(c)' 'min(d)' 'max(e)' 'avg(f)'
for schema in "$cases"/*.schema; do
  [ -e "$schema" ] || continue
  draw "$schema" 500 > case.rows
  beside "$(basename "$schema" .schema), five queries" 5 "$schema" case.rows "${schema%.schema}.cons" count 'sum(price)' 'min(price)' 'max(price)' 'avg(price)'
done
