#!/usr/bin/env bash
# Measures what `pc bound` spends on a count, a sum, a least and a greatest number and an average where constraints overlap:
# over the month of examples/month, over the cases of a folder, each with 500 drawn rows, and over a million rows of 12
# columns. Of each it prints
# - the processor time of the whole call;
# - the shares of reading, of the cells and of the search. Reading is the same call with no constraints. Cells are the same
#   call less reading where each constraint allows no row: the domain is divided as before, and each program is over at
#   once. The search is the rest;
# - the time of bench/ends.sh, a script that is given the cells and has cbc solve a program for each end, or of
#   bench/levels.sh, which has cbc halve the numbers of the cells for the ends of a least or a greatest number, or of
#   bench/ratios.py, which has it solve a program for each step towards an end of an average; and the ratio of ours to it, of
#   the whole call and of the call less reading;
# - of an average, the steps that each end takes there, by the method that is ours too;
# - whether both say the same ends.
# Of each case it then prints what `pc quantile` takes for the median, as a ratio to `pc bound` for the sum, and its ends.
# At the end it prints what sixteen questions over the million rows take in one call, as a ratio to one of them, what a
# generated case takes, and what `pc conflict` takes over twenty constraints of which three contradict each other, as a ratio
# to a call of `pc bound` for each of its tests.
# Both sides are measured in the same run, each with the start of its processes. A time is the median of the runs, each of
# several calls where a call is short; what takes a second or more is run once. Run ./build first.
# Usage: bench/answers.sh [RUNS]
# CASES names the folder of cases, NAME.schema and NAME.cons with a column `price`; where it is not there, it is left out.
set -eu
export LC_ALL=C
top=$(cd "$(dirname "$0")/.." && pwd)
runs=${1:-5}
cases=${CASES:-$top/../shared/bench/cases}
pc=$top/pc
[ -x "$pc" ] || { echo "bench/answers.sh: run ./build first" >&2; exit 1; }
command -v cbc > /dev/null || echo "cbc is missing, so there is no ratio (Debian's coinor-cbc)"
[ -d "$cases" ] || echo "there is no folder $cases, so its cases are left out"
work=$(mktemp -d)
trap 'rm -rf "$work"' EXIT
cd "$work"

# calls TIMES COMMAND..: the processor microseconds of one call are left in `took`, and what it wrote in `said`
calls() {
  local times=$1 call user system
  shift
  TIMEFORMAT='%3U %3S'
  { time for ((call = 0; call < times; call++)); do "$@" < /dev/null > said 2> faults || true; done; } 2> spent
  read -r user system < spent
  took=$(((10#${user/./} + 10#${system/./}) * 1000 / times))
}

# measure COMMAND..: the same, as the median of the runs
measure() {
  local times=1 run all=''
  calls 1 "$@"
  if [ "$took" -ge 1000000 ]; then return; fi
  if [ "$took" -lt 100000 ]; then times=5; fi
  if [ "$took" -lt 20000 ]; then times=20; fi
  for ((run = 0; run < runs; run++)); do
    calls "$times" "$@"
    all="$all$took"$'\n'
  done
  took=$(printf %s "$all" | sort -n | sed -n "$(((runs + 1) / 2))p")
}

# added SEEN REPORT: what the lost rows add to the seen value at each end of a report, in units of the last place; the ends
# themselves where that is 0
added() {
  awk -v seen="$1" '
    $1 == "relation" && $2 == "impossible" { print "low none"; print "high none" }
    $1 == "low" || $1 == "high" { sub(/\./, "", $2); printf "%s %.0f %s\n", $1, $2 - seen, $3 }' "$2"
}

# ratios REPORT: the ends of an average as they are printed
ratios() {
  awk '
    $1 == "relation" && $2 == "impossible" || $1 == "none" && $2 == "always" { print "low none"; print "high none" }
    $1 == "low" || $1 == "high"' "$1"
}

# agree OURS THEIRS: an exact end of ours is theirs, and an outer one holds theirs
agree() {
  awk 'NR == FNR { theirs[$1] = $2; next }
    function number(text, parts) { return split(text, parts, "/") == 2 ? parts[1] / parts[2] : text + 0 }
    $3 == "outer" { open = 1; if (theirs[$1] != "none" && ($1 == "low" ? number($2) > number(theirs[$1]) : number($2) < number(theirs[$1]))) wrong = 1; next }
    $2 != theirs[$1] { wrong = 1 }
    END { print wrong ? "DISAGREES" : open ? "agrees, an end is outer" : "agrees" }' "$2" "$1"
}

# answer NAME SCHEMA ROWS CONSTRAINTS COLUMN
answer() {
  local name=$1 schema=$2 rows=$3 constraints=$4 column=$5 query asked reading idle whole summed theirs seen count total scale base peer line
  "$pc" show "$schema" "$constraints" > shown || { echo "$name: $(cat shown)"; return; }
  sed '/^disjoint /d; s/, [0-9]*\.\.[0-9]*$/, 0..0/' shown > idle.constraints
  : > no.constraints
  scale=$(awk -F, -v column="$column" '$1 == column { print $2 == "dec" ? $3 : 0 }' "$schema")
  for query in count "sum($column)" "min($column)" "max($column)" "avg($column)"; do
    asked=$column
    if [ "$query" = count ]; then asked=''; fi
    python3 "$top/bench/divide.py" "$schema" shown $asked > cells
    if ! "$pc" bound "$schema" "$rows" "$constraints" "$query" > report; then
      echo "$name, $query: $(head -1 report)"
      continue
    fi
    measure "$pc" bound "$schema" "$rows" no.constraints "$query"
    reading=$took seen=$(awk '$1 == "low" { sub(/\./, "", $2); print $2 }' said)
    case $query in
      count) count=$seen ;;
      sum*) total=$seen ;;
    esac
    measure "$pc" bound "$schema" "$rows" idle.constraints "$query"
    idle=$took
    measure "$pc" bound "$schema" "$rows" "$constraints" "$query"
    whole=$took
    case $query in sum*) summed=$whole ;; esac
    line=$(awk -v name="$name" -v query="$query" -v reading="$reading" -v idle="$idle" -v whole="$whole" '
      function share(part) { return sprintf("%.2f", part < 0 ? 0 : part / whole) }
      $1 == "constraints" { constraints = $2 }
      $1 == "cells" { cells = $2 }
      END { printf "%s, %s: %d cells, %d constraints; %.4f s; reading %s, cells %s, search %s", name, query, cells, constraints, whole / 1000000, share(reading), share(idle - reading), share(whole - idle) }' cells)
    if command -v cbc > /dev/null; then
      base=$seen peer=("$top/bench/ends.sh" cells)
      case $query in
        min* | max*) base=0 peer=("$top/bench/levels.sh" cells "${query%%(*}" "$seen") ;;
        avg*) peer=("$top/bench/ratios.py" cells "$total" "$count" "$scale") ;;
      esac
      measure "${peer[@]}"
      theirs=$took
      cp said ends
      case $query in
        avg*) ratios report > ours ;;
        *) added "$base" report > ours ;;
      esac
      line="$line; $(awk -v theirs="$theirs" -v whole="$whole" -v reading="$reading" 'BEGIN {
        printf "cbc %.4f s, ratio %.2f, without reading %.2f", theirs / 1000000, whole / theirs, (whole > reading ? whole - reading : 0) / theirs }'); $(agree ours ends)"
      case $query in avg*) line="$line; steps $(awk '{ printf "%s%s %s", (NR > 1 ? ", " : ""), $1, $3 }' ends)" ;; esac
    fi
    echo "$line"
  done
  measure "$pc" quantile "$schema" "$rows" "$constraints" "quantile(1, 2, $column)"
  awk -v name="$name" -v took="$took" -v summed="${summed:-0}" '
    $1 == "query" { sub(/^query /, ""); query = $0 }
    $1 == "relation" && $2 != "possible" || $1 == "none" && $2 == "always" || $1 == "low" || $1 == "high" { ends = ends "; " $0 }
    END { printf "%s, %s: %.4f s; the sum %.4f s, ratio %.2f%s\n", name, query, took / 1000000, summed / 1000000, (summed ? took / summed : 0), ends }' said
}

# draw SCHEMA ROWS: so many rows, each number and name of the domain as likely as another
draw() {
  awk -F, -v rows="$2" '
    {
      name[NR] = $1; kind[NR] = $2
      if ($2 == "cat") { size[NR] = NF - 2; for (n = 0; n < size[NR]; n++) text[NR, n] = $(n + 3) }
      else { scale[NR] = $2 == "dec" ? $3 : 0; low[NR] = $(NF - 1); size[NR] = ($NF - $(NF - 1)) * 10 ^ scale[NR] + 1 }
    }
    END {
      for (column = 1; column <= NR; column++) printf "%s%s", name[column], column < NR ? "," : "\n"
      seed = 1
      for (row = 0; row < rows; row++) for (column = 1; column <= NR; column++) {
        seed = seed * 16807 % 2147483647
        place = seed % int(size[column] + 0.5)
        if (kind[column] == "cat") printf "%s", text[column, place]
        else printf "%.*f", scale[column], low[column] + place / 10 ^ scale[column]
        printf "%s", column < NR ? "," : "\n"
      }
    }' "$1"
}

month=$top/examples/month
"$month/rows.sh" > month.rows
answer month "$month/schema.csv" month.rows "$month/constraints.txt" price

for schema in "$cases"/*.schema; do
  [ -e "$schema" ] || continue
  draw "$schema" 500 > case.rows
  answer "$(basename "$schema" .schema)" "$schema" case.rows "${schema%.schema}.cons" price
done

# margins over three columns, a total, and six constraints across them
for column in a b c d e f g h i j k l; do echo "$column,int,0,9999"; done > million.schema
draw million.schema 1000000 > million.rows
{
  echo 'all: true => true, 1000..1010'
  for part in 0 1 2 3 4; do echo "a$part: a in $((part * 2000))..$((part * 2000 + 1999)) => true, 190..210"; done
  for part in 0 1 2 3; do echo "b$part: b in $((part * 2500))..$((part * 2500 + 2499)) => true, 240..260"; done
  for part in 0 1 2 3; do echo "c$part: c in $((part * 2500))..$((part * 2500 + 2499)) => d in 0..$((9999 - part * 500)), 240..260"; done
  echo 'x0: a < 3000 and d >= 5000 => c in 0..7999, 100..400'
  echo 'x1: b >= 7000 and c < 6000 => true, 50..300'
  echo 'x2: a >= 5000 and e in 1000..4999 => true, 0..500'
  echo 'x3: f >= 9000 => c in 100..9899, 0..100'
  echo 'x4: b < 5000 and g < 100 => true, 0..40'
  echo 'x5: a in 2500..7499 and c in 2500..7499 => true, 100..400'
} > million.constraints
answer "a million rows" million.schema million.rows million.constraints c

# sixteen questions in one call, against one of them
queries=(count)
for column in a b c d e; do queries+=("sum($column)" "min($column)" "max($column)"); done
measure "$pc" bound million.schema million.rows million.constraints count
one=$took
measure "$pc" bound million.schema million.rows million.constraints "${queries[@]}"
awk -v one="$one" -v many="$took" 'BEGIN { printf "a million rows, %d questions in one call: %.2f s; one: %.2f s; ratio %.2f\n", 16, many / 1000000, one / 1000000, many / one }'

# a generated case of 100,000 rows, and five questions about it
measure "$pc" gen 7 1000
awk -v took="$took" 'BEGIN { printf "gen 7 1000: %.2f s\n", took / 1000000 }'

# twenty constraints of which three contradict each other, and the same tests by hand: all, and then all that are left
# without each, which is left out where the others still contradict each other
{
  echo 'week: day in 1..7 => true, 10..20'
  for day in 8 9 10 11 12 13 14 15; do echo "d$day: day = $day => price in 0.00..$((day * 10)).00, 0..$day"; done
  echo 'chicago: branch = Chicago => true, 0..4'
  for day in 16 17 18 19 20 21 22 23; do echo "d$day: day = $day and branch in {NewYork, Trenton} => true, 1..$day"; done
  echo 'others: branch in {NewYork, Trenton} and day in 1..7 => price <= 90.00, 0..5'
  echo 'all: true => true, 5..400'
} > conflict.constraints
head -1 month.rows > header.rows

by_hand() {
  local place
  cp conflict.constraints left.constraints
  "$pc" bound "$month/schema.csv" header.rows left.constraints count | grep -q impossible || { echo none; return; }
  for ((place = 1; place <= 20; place++)); do
    grep -v "^$(sed -n "${place}s/:.*//p" conflict.constraints):" left.constraints > tried.constraints
    if "$pc" bound "$month/schema.csv" header.rows tried.constraints count | grep -q impossible; then mv tried.constraints left.constraints; fi
  done
  echo "conflict $(sed 's/:.*//' left.constraints | paste -sd, | sed 's/,/, /g')"
}

measure by_hand
theirs=$took
cp said by_hand.said
measure "$pc" conflict "$month/schema.csv" conflict.constraints
awk -v ours="$took" -v theirs="$theirs" -v said="$(head -1 said)" -v hand="$(cat by_hand.said)" 'BEGIN {
  printf "conflict of twenty constraints: %s; %.4f s; by hand, 21 calls of bound, %.4f s; ratio %.2f; %s\n", said, ours / 1000000, theirs / 1000000, ours / theirs, said == hand ? "agrees" : "DISAGREES" }'
