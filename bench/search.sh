#!/usr/bin/env bash
# Measures the search for the greatest worth of a program of counts. Each program of bench/programs is searched with at
# most 10,000 nodes, and given to glpsol, cbc and z3 in the same run. For each it prints the cells, the constraints, the
# answer, the nodes, seconds, peak memory, the peers' seconds, the ratio of ours to the lesser of glpsol's and cbc's, and
# whether the answer agrees with bench/programs/EXPECT.txt and with cbc. Then it searches a made program of 200 cells and
# 20 constraints with 100,000 nodes, and prints its time and peak memory. It proves and builds crates/pc_bench
# first, and measures with Debian's `time`; the peers are Debian's glpk-utils, coinor-cbc and z3.
# Seconds are of the processor, so that other work on the machine counts little: the least of five runs, or the first where
# that takes a second, less those of a program with one cell and one constraint, which are those of starting. Less than a
# thousandth of a second counts as one. The limits are 60 seconds of the clock for ours and 5 for a peer.
# Usage: bench/search.sh [BINARY]   (BINARY: another build of pc_bench, which is measured in place of this one)
set -eu
export LC_ALL=C
top=$(cd "$(dirname "$0")/.." && pwd)
[ -x /usr/bin/time ] || { echo "bench/search.sh: it needs /usr/bin/time" >&2; exit 1; }
if [ $# -gt 0 ]; then
  ours=$(realpath "$1")
else
  cd "$top/crates/pc_bench"
  if ! said=$(rt run -- search data/six-triangles.prog 10000 2>&1); then
    printf '%s\n' "$said" >&2
    echo "bench/search.sh: pc_bench was not proved or not built" >&2
    exit 1
  fi
  ours=$PWD/out/pc_bench
fi
work=$(mktemp -d)
trap 'rm -rf "$work"' EXIT
cd "$work"

# measure LIMIT COMMAND..: what it wrote is left in `said`; `took` is processor milliseconds and `memory` kilobytes of the
# quickest run, and `late` says whether the limit, in seconds of the clock, ended it
measure() {
  local limit=$1 status now user system
  shift
  took='' late=''
  TIMEFORMAT='%3U %3S'
  for _ in 1 2 3 4 5; do
    { time /usr/bin/time -f %M -o used timeout "$limit" "$@" < /dev/null > said 2> faults && status=0 || status=$?; } 2> spent
    read -r user system < spent
    now=$((10#${user/./} + 10#${system/./}))
    if [ -z "$took" ] || [ "$now" -lt "$took" ]; then took=$now memory=$(tail -1 used); fi
    if [ "$status" -eq 124 ]; then late=yes; fi
    if [ -n "$late" ] || [ "$now" -ge 1000 ]; then break; fi
  done
}

# work_of TOOL: milliseconds of the last run without those of starting the tool
work_of() {
  local rest=$((took - ${start[$1]}))
  echo $((rest < 1 ? 1 : rest))
}

seconds() { awk -v thousandths="$1" 'BEGIN { printf "%.3f", thousandths / 1000 }'; }

ratio() { awk -v one="$1" -v other="$2" 'BEGIN { printf "%.2f", one / other }'; }

# solve TOOL PROGRAM NODES LIMIT: measures a tool on PROGRAM.prog
solve() {
  rm -f answer
  case $1 in
    ours) measure "$4" "$ours" search "$2.prog" "$3" ;;
    glpsol) measure "$4" glpsol --lp "$2.lp" -o answer ;;
    cbc) measure "$4" cbc "$2.lp" solve ;;
    z3) measure "$4" z3 "$2.smt" ;;
  esac
}

# value_of PEER: the greatest value that it last told of, `none` where there is none, or `?`
value_of() {
  case $1 in
    glpsol) awk '/^Status:.*INTEGER OPTIMAL/ { ended = 1 } /^Status:.*INTEGER EMPTY/ { empty = 1 }
        /^Objective:/ { value = $4 } END { if (ended) printf "%.0f", value; else printf empty ? "none" : "?" }' answer ;;
    cbc) awk '/^Objective value:/ { value = $3; ended = 1 } /infeasible|No feasible/ { empty = 1 }
        END { if (empty) printf "none"; else if (ended) printf "%.0f", value; else printf "?" }' said ;;
    z3) tr -d '\n' < said | sed -E 's/^unsat.*/none/; s/^sat.*\) (\(- )?([0-9]+)\)*$/\1\2/; s/\(- /-/' ;;
  esac
}

# agrees VALUE ANSWER: `agrees` where an answer of ours is that value or leaves it open, or `none` and has none
agrees() {
  local kind first found
  read -r kind first _ found _ <<< "$2"
  case $kind$1 in
    "best$first" | nothingnone) echo agrees ;;
    best* | nothing*) echo DISAGREES ;;
    spentnone) if [ "$found" = none ]; then echo agrees; else echo DISAGREES; fi ;;
    *) if [ "$1" -le "$first" ] && { [ "$found" = none ] || [ "$found" -le "$1" ]; }; then echo agrees; else echo DISAGREES; fi ;;
  esac
}

# prepare PROGRAM: writes it for the peers
prepare() {
  python3 "$top/bench/convert.py" lp "$1.prog" > "$1.lp"
  python3 "$top/bench/convert.py" smt "$1.prog" > "$1.smt"
}

peers=''
for peer in glpsol cbc z3; do
  if command -v "$peer" > /dev/null; then peers="$peers $peer"; else echo "$peer is missing"; fi
done

declare -A start
printf 'program empty\nconstraints 1\n0 1\ncells 1\n1 0 1 1\n' > empty.prog
prepare empty
for tool in ours $peers; do
  solve "$tool" empty 1 5
  start[$tool]=$took
  echo "$tool starts in $(seconds "$took") s, with $memory kB"
done

while read -r name expected; do
  cp "$top/bench/programs/$name.prog" .
  prepare "$name"
  read -r cells constraints <<< "$(python3 "$top/bench/convert.py" size "$name.prog")"
  solve ours "$name" 10000 60
  mine=$(work_of ours) over=${late:+>} answer=$(cat said)
  line="$name: $cells cells, $constraints constraints; ${answer:-not ended}; $over$(seconds "$mine") s, $memory kB"
  least='' said_by_cbc=''
  for peer in $peers; do
    solve "$peer" "$name" 0 5
    if [ -n "$late" ]; then line="$line; $peer >5 s"; continue; fi
    theirs=$(work_of "$peer") value=$(value_of "$peer")
    line="$line; $peer $(seconds "$theirs") s"
    if [ "$value" != "$expected" ]; then line="$line and says $value"; fi
    if [ "$peer" = z3 ]; then continue; fi
    if [ -z "$least" ] || [ "$theirs" -lt "$least" ]; then least=$theirs; fi
    if [ "$peer" = cbc ] && [ "$value" != "?" ]; then said_by_cbc=$value; fi
  done
  if [ -n "$least" ]; then line="$line; ratio $over$(ratio "$mine" "$least")"; fi
  if [ -n "$answer" ]; then line="$line; $(agrees "$expected" "$answer") with EXPECT"; fi
  if [ -n "$answer" ] && [ -n "$said_by_cbc" ]; then line="$line, $(agrees "$said_by_cbc" "$answer") with cbc"; fi
  echo "$line"
done < "$top/bench/programs/EXPECT.txt"

# 200 cells under two random constraints of 20 each, with gains -1, 0 and 1. Each constraint wants an exact number of rows
# from 1 to 4, and these have an odd sum, while a row counts in two of them: so no counts are lawful, and no count that was
# found ever closes a node.
awk 'function draw(n) { seed = (seed * 1103515245 + 12345) % 2147483648; return int(seed / 65536) % n }
  BEGIN {
    seed = 1
    for (j = 0; j < 20; j++) { rows[j] = 1 + draw(3); sum += rows[j] }
    if (sum % 2 == 0) rows[0]++
    print "program odd\nconstraints 20"
    for (j = 0; j < 20; j++) print rows[j], rows[j]
    print "cells 200"
    for (cell = 0; cell < 200; cell++) {
      one = draw(20)
      other = (one + 1 + draw(19)) % 20
      print 2 ^ one + 2 ^ other, 0, 5, draw(3) - 1
    }
  }' > odd.prog
solve ours odd 100000 900
answer=$(cat said)
echo "odd, 100,000 nodes: 200 cells, 20 constraints; ${answer:-not ended}; ${late:+>}$(seconds "$took") s, $memory kB (the aim is below 200,000 kB)"
