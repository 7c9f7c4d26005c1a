#!/usr/bin/env bash
# Times `pc bound` on 1,000,000 rows of 12 columns, once of whole numbers and once of 128 names each, and prints time
# and peak memory as ratios to sqlite3's import of the same file in the same run, to mawk, which splits the lines and adds
# up one column, and to the reader of Python's csv module. Of 200,000 rows of numbers it counts instructions as well, where
# valgrind is there. Then it takes the processor seconds of
# answers over the numbers under 20 disjoint constraints beside those of the same command with a query that is no query,
# which ends after the files are read, and prints the share of the answer in the whole. Run ./build first.
# Usage: bench/rows.sh [RUNS]
set -eu
top=$(cd "$(dirname "$0")/.." && pwd)
runs=${1:-3}
[ -x "$top/pc" ] || { echo "bench/rows.sh: run ./build first" >&2; exit 1; }
work=$(mktemp -d)
trap 'rm -rf "$work"' EXIT
cd "$work"

columns=a,b,c,d,e,f,g,h,i,j,k,l

# rows FORMAT LIMIT: the same random numbers for each file, written by a format
rows() {
  awk -v names="$columns" -v format="$1" -v limit="$2" 'BEGIN {
    print names
    seed = 12345
    for (row = 0; row < 1000000; row++) {
      line = ""
      for (column = 0; column < 12; column++) {
        seed = (seed * 1103515245 + 12345) % 2147483648
        line = line (column ? "," : "") sprintf(format, int(seed / 65536) % limit)
      }
      print line
    }
  }'
}

# what mawk and Python do with a file
cat > mawk_reads <<'SH'
#!/bin/sh
exec mawk -F, 'NR > 1 { sum += $1 } END { print sum }' "$1"
SH
cat > python3_reads <<'SH'
#!/usr/bin/env python3
import csv, sys
with open(sys.argv[1], newline="") as file:
    for _ in csv.reader(file):
        pass
SH
chmod +x mawk_reads python3_reads
PATH=$PATH:$work

# measure COMMAND..: seconds and peak kilobytes of one run
measure() {
  python3 - "$@" <<'PY'
import resource, subprocess, sys, time
begin = time.monotonic()
done = subprocess.run(sys.argv[1:], stdin=subprocess.DEVNULL, stdout=subprocess.DEVNULL)
seconds = time.monotonic() - begin
print(f"{seconds:.3f} {resource.getrusage(resource.RUSAGE_CHILDREN).ru_maxrss}")
sys.exit(done.returncode)
PY
}

# compare KIND: the runs over KIND.csv under KIND.schema and KIND.constraints
compare() {
  echo "$1: $(wc -c < "$1.csv") bytes, $(($(wc -l < "$1.csv") - 1)) rows of 12 columns"
  for run in $(seq "$runs"); do
    ours=$(measure "$top/pc" bound "$1.schema" "$1.csv" "$1.constraints" count)
    line="  run $run: pc ${ours% *} s, ${ours#* } kB"
    if command -v sqlite3 >/dev/null; then
      rm -f rows.db
      theirs=$(measure sqlite3 rows.db ".import --csv $1.csv t")
      line="$line; sqlite3 ${theirs% *} s, ${theirs#* } kB"
      line="$line; time $(awk "BEGIN { printf \"%.2f\", ${ours% *} / ${theirs% *} }"), memory $(awk "BEGIN { printf \"%.2f\", ${ours#* } / ${theirs#* } }")"
    else
      line="$line; sqlite3 is missing, so there is no ratio"
    fi
    for peer in mawk python3; do
      command -v "$peer" >/dev/null || continue
      theirs=$(measure "${peer}_reads" "$1.csv")
      line="$line; $peer ${theirs% *} s, time $(awk "BEGIN { printf \"%.2f\", ${ours% *} / ${theirs% *} }")"
    done
    echo "$line; memory over the file $(awk "BEGIN { printf \"%.2f\", ${ours#* } * 1024 / $(wc -c < "$1.csv") }")"
  done
}

for column in ${columns//,/ }; do echo "$column,int,0,99999"; done > numbers.schema
rows %d 10000 > numbers.csv
printf 'p: a in 0..49999 => b in 0..9, 1..3\nq: a in 50000..99999 => true, 0..2\n' > numbers.constraints
compare numbers

# instructions COMMAND..: how many millions it takes, whatever its status
instructions() {
  valgrind --tool=callgrind --callgrind-out-file=counted "$@" > /dev/null 2>&1 < /dev/null || true
  awk '/^totals: / { printf "%d", $2 / 1000000 }' counted
}

if command -v valgrind >/dev/null; then
  head -200001 numbers.csv > part.csv
  echo "200,000 rows of numbers, $(wc -c < part.csv) bytes, millions of instructions:"
  ours=$(instructions "$top/pc" bound numbers.schema part.csv numbers.constraints count)
  line="  pc $ours"
  if command -v mawk >/dev/null; then
    theirs=$(instructions mawk -F, 'NR > 1 { sum += $1 } END { print sum }' part.csv)
    line="$line; mawk $theirs, ratio $(awk "BEGIN { printf \"%.2f\", $ours / $theirs }")"
  fi
  if command -v sqlite3 >/dev/null; then
    theirs=$(instructions sqlite3 :memory: ".import --csv part.csv t")
    line="$line; sqlite3 into memory $theirs, ratio $(awk "BEGIN { printf \"%.2f\", $ours / $theirs }")"
  fi
  echo "$line"
fi

names=$(for name in $(seq 0 127); do printf ',n%d' "$name"; done)
for column in ${columns//,/ }; do echo "$column,cat$names"; done > names.schema
rows n%d 128 > names.csv
printf 'p: true => true, 1..3\n' > names.constraints
compare names

# least COMMAND..: the least processor seconds of the runs, whatever the command's status
least() {
  python3 - "$runs" "$@" <<'PY'
import resource, subprocess, sys
seconds = []
for run in range(int(sys.argv[1])):
    before = resource.getrusage(resource.RUSAGE_CHILDREN)
    subprocess.run(sys.argv[2:], stdin=subprocess.DEVNULL, stdout=subprocess.DEVNULL)
    after = resource.getrusage(resource.RUSAGE_CHILDREN)
    seconds.append(after.ru_utime + after.ru_stime - before.ru_utime - before.ru_stime)
print(f"{min(seconds):.3f}")
PY
}

# answer QUERY: the share of the answer to a query over numbers.csv in the whole run
answer() {
  reading=$(least "$top/pc" bound numbers.schema numbers.csv twenty.constraints nothing)
  whole=$(least "$top/pc" bound numbers.schema numbers.csv twenty.constraints "$1")
  echo "  $1: processor seconds $whole, of reading alone $reading; share of the answer $(awk "BEGIN { printf \"%.3f\", ($whole - $reading) / $whole }")"
}

echo "numbers, 20 disjoint constraints, least of $runs runs"
for part in $(seq 0 19); do
  echo "c$part: a in $((part * 5000))..$((part * 5000 + 4999)) and b >= 100 => c in $((part * 10))..$((part * 10 + 500)), 1..$((part + 5))"
done > twenty.constraints
answer count
answer 'sum(c)'
answer 'sum(c) where d < 5000 and e >= 100'
