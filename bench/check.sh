#!/usr/bin/env bash
# Measures what a proof costs: for the month of examples/month, for the cases of a folder, each with 500 drawn rows, and for
# some documents that are large by design, it prints
# - the processor time of `pc prove` and of `pc check`, each as a ratio to that of `pc bound` of the same questions;
# - the size of the document, as a ratio to that of the report, and how many bytes a second are checked;
# - the greatest memory of `pc check`, as a ratio to the size of the document;
# - what `pc check` says.
# One of the large documents has real trees: it is what `pc prove` writes of the sum of aud10c6-1, with its block many times.
# All sides are measured in the same run, each with the start of its process. A time is the median of the runs, each of several
# calls where a call is short; what takes a second or more is run once. Run ./build first.
# Usage: bench/check.sh [RUNS]
# CASES names the folder of cases, NAME.schema and NAME.cons with a column `price`; where it is not there, it is left out.
# LINES is how many lines the large documents have (200,000 without it), and BLOCKS how many blocks that of real trees has
# (751 without it, which makes 193 MB; a document may have 268 MB).
set -eu
export LC_ALL=C
top=$(cd "$(dirname "$0")/.." && pwd)
runs=${1:-5}
lines=${LINES:-200000}
blocks=${BLOCKS:-751}
cases=${CASES:-$top/../shared/bench/cases}
pc=$top/pc
[ -x "$pc" ] || { echo "bench/check.sh: run ./build first" >&2; exit 1; }
[ -d "$cases" ] || echo "there is no folder $cases, so its cases are left out"
work=$(mktemp -d)
trap 'rm -rf "$work"' EXIT
cd "$work"

# calls TIMES COMMAND..: the processor microseconds of one call are left in `took`, and what it wrote in `said`
calls() {
  local times=$1 call user system
  shift
  TIMEFORMAT='%3U %3S'
  { time for ((call = 0; call < times; call++)); do "$@" < /dev/null > said 2> faults || true; done; } 2> spent
  read -r user system < spent
  took=$(((10#${user/./} + 10#${system/./}) * 1000 / times))
}

# measure COMMAND..: the same, as the median of the runs
measure() {
  local times=1 run all=''
  calls 1 "$@"
  if [ "$took" -ge 1000000 ]; then return; fi
  if [ "$took" -lt 100000 ]; then times=5; fi
  if [ "$took" -lt 20000 ]; then times=20; fi
  for ((run = 0; run < runs; run++)); do
    calls "$times" "$@"
    all="$all$took"$'\n'
  done
  took=$(printf %s "$all" | sort -n | sed -n "$(((runs + 1) / 2))p")
}

# peak COMMAND..: the greatest memory of the command, in bytes; 0 where it cannot be told
peak() {
  python3 - "$@" <<'PYTHON'
import resource, subprocess, sys
subprocess.run(sys.argv[1:], stdout=subprocess.DEVNULL, stderr=subprocess.DEVNULL)
print(resource.getrusage(resource.RUSAGE_CHILDREN).ru_maxrss * 1024)
PYTHON
}

# checked NAME SCHEMA ROWS CONSTRAINTS DOCUMENT: time, memory and what is said
checked() {
  local memory
  measure "$pc" check "$2" "$3" "$4" "$5"
  memory=$(peak "$pc" check "$2" "$3" "$4" "$5")
  awk -v name="$1" -v took="$took" -v size="$(wc -c < "$5")" -v memory="$memory" -v said="$(cat said)" 'BEGIN {
    printf "%s: %d bytes; check %.3f s, %.1f MB a second, memory %.1f times the document; %s\n", name, size, took / 1000000, size / took, memory / size, said }'
}

# proofs NAME SCHEMA ROWS CONSTRAINTS: each aggregate by itself
proofs() {
  local query bound report prove
  for query in count 'sum(price)' 'min(price)' 'max(price)' 'avg(price)'; do
    measure "$pc" bound "$2" "$3" "$4" "$query"
    bound=$took report=$(wc -c < said)
    measure "$pc" prove "$2" "$3" "$4" "$query"
    prove=$took
    cp said document
    measure "$pc" check "$2" "$3" "$4" document
    awk -v name="$1" -v query="$query" -v bound="$bound" -v prove="$prove" -v check="$took" -v report="$report" -v size="$(wc -c < document)" -v said="$(cat said)" 'BEGIN {
      printf "%s, %s: bound %.4f s; prove %.2f, check %.2f times that; document %d bytes, %.1f times the report; %s\n", name, query, bound / 1000000, prove / bound, check / bound, size, size / report, said }'
  done
}

# draw SCHEMA ROWS: so many rows, each number and name of the domain as likely as another
draw() {
  awk -F, -v rows="$2" '
    {
      name[NR] = $1; kind[NR] = $2
      if ($2 == "cat") { size[NR] = NF - 2; for (n = 0; n < size[NR]; n++) text[NR, n] = $(n + 3) }
      else { scale[NR] = $2 == "dec" ? $3 : 0; low[NR] = $(NF - 1); size[NR] = ($NF - $(NF - 1)) * 10 ^ scale[NR] + 1 }
    }
    END {
      for (column = 1; column <= NR; column++) printf "%s%s", name[column], column < NR ? "," : "\n"
      seed = 1
      for (row = 0; row < rows; row++) for (column = 1; column <= NR; column++) {
        seed = seed * 16807 % 2147483647
        place = seed % int(size[column] + 0.5)
        if (kind[column] == "cat") printf "%s", text[column, place]
        else printf "%.*f", scale[column], low[column] + place / 10 ^ scale[column]
        printf "%s", column < NR ? "," : "\n"
      }
    }' "$1"
}

# repeated TIMES DOCUMENT: the one block of a document so often, each further one over the tree of the one before
repeated() {
  awk -v times="$1" '
    NR == 1 { print; next }
    $0 == "end" { next }
    { first = first $0 "\n" }
    $1 == "cut" || $1 == "leaf" { next }
    $1 == "tree" { $2 = "same" }
    { further = further $0 "\n" }
    END { printf "%s", first; for (block = 1; block < times; block++) printf "%s", further; print "end" }' "$2"
}

month=$top/examples/month
"$month/rows.sh" > month.rows
proofs month "$month/schema.csv" month.rows "$month/constraints.txt"

for schema in "$cases"/*.schema; do
  [ -e "$schema" ] || continue
  draw "$schema" 500 > case.rows
  proofs "$(basename "$schema" .schema)" "$schema" case.rows "${schema%.schema}.cons"
done

# large documents: one number, and one constraint that allows so many rows of it
echo "v,int,0,$lines" > line.schema
echo v > line.rows
echo 'all: true => true, 0..10000000' > line.constraints
half=$((lines / 2))

# a search tree whose splits stand below each other, each with a leaf
{
  printf 'pc 1\nquery count\ntree own\nleaf 1 in\nrelation possible\nlow 0 exact\nby tree\nbound 1 0\nhigh 10000000 outer\nby tree\n'
  awk -v splits="$half" 'BEGIN { for (at = splits; at >= 1; at--) print "split 0 " at - 1; for (at = 0; at <= splits; at++) print "bound 1 1" }'
  echo end
} > deep
checked "splits below each other" line.schema line.rows line.constraints deep

# a tree of cuts below each other
{
  printf 'pc 1\nquery count\ntree own\n'
  awk -v cuts="$half" 'BEGIN { for (at = cuts; at >= 1; at--) print "cut v " at - 1; for (at = 0; at <= cuts; at++) print "leaf 1 in" }'
  printf 'relation possible\nlow 0 exact\nby tree\nbound 1 0\nhigh 10000000 outer\nby tree\nbound 1 1\nend\n'
} > cuts
checked "cuts below each other" line.schema line.rows line.constraints cuts

# runs of one row each
{
  printf 'pc 1\nquery count\ntree own\nleaf 1 in\nrelation possible\n'
  awk -v runs="$lines" 'BEGIN { for (run = 0; run < runs; run++) print "run 1: " run }'
  printf 'low 0 exact\nby tree\nbound 1 0\nhigh 10000000 outer\nby tree\nbound 1 1\nend\n'
} > many
checked "runs" line.schema line.rows line.constraints many

# blocks of one question over 100,000 rows
awk 'BEGIN { print "v"; for (row = 0; row < 100000; row++) print row % 1000 }' > tall.rows
{
  echo 'pc 1'
  for ((block = 0; block < 500; block++)); do
    printf 'query count\ntree %s\nrelation possible\nlow 100000 exact\nby tree\nbound 1 0\nhigh 10100000 outer\nby tree\nbound 1 1\n' "$([ "$block" = 0 ] && printf 'own\nleaf 1 in' || echo same)"
  done
  echo end
} > blocks
checked "500 blocks over 100,000 rows" line.schema tall.rows line.constraints blocks

# real trees: the sum of aud10c6-1 over 500 drawn rows
audit=$cases/aud10c6-1
if [ -e "$audit.schema" ]; then
  draw "$audit.schema" 500 > real.rows
  "$pc" prove "$audit.schema" real.rows "$audit.cons" 'sum(price)' > once
  repeated "$blocks" once > real
  checked "the sum of aud10c6-1, its block $blocks times" "$audit.schema" real.rows "$audit.cons" real
fi
