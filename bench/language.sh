#!/usr/bin/env bash
# Times `pc show` on constraint files that are as long as they may be: comments, one word, one quoted text that does not
# end, one line of atoms, and one of `and`s. Each is run at half and at full length; where time is linear the ratio is
# about 2. Time is also told as a ratio to sed deleting the comments of the same file. Run ./build first.
# Usage: bench/language.sh [MEGABYTES]
set -eu
top=$(cd "$(dirname "$0")/.." && pwd)
size=${1:-60}
[ -x "$top/pc" ] || { echo "bench/language.sh: run ./build first" >&2; exit 1; }
work=$(mktemp -d)
trap 'rm -rf "$work"' EXIT
cd "$work"
printf 'day,int,1,31\n' > schema

# make KIND BYTES: a file of about so many bytes
make() {
  python3 - "$1" "$2" <<'PY'
import sys
kind, size = sys.argv[1], int(sys.argv[2])
texts = {
    "comments": ("# a line that says nothing\n", "", ""),
    "word": ("a", "", ": true => true, 0..1\n"),
    "quoted": ('""', '"', ""),
    "atoms": ("day >= 1 and ", "c: ", "day = 5 => true, 0..1\n"),
    "ands": ("and ", "c: ", "=> true, 0..1\n"),
}
piece, front, end = texts[kind]
with open(kind, "w") as out:
    out.write(front + piece * ((size - len(front) - len(end)) // len(piece)) + end)
PY
}

# measure COMMAND..: seconds and peak kilobytes of one run, and the line that it wrote first
measure() {
  python3 - "$@" <<'PY'
import resource, subprocess, sys, time
begin = time.monotonic()
done = subprocess.run(sys.argv[1:], stdin=subprocess.DEVNULL, stdout=subprocess.PIPE)
seconds = time.monotonic() - begin
first = done.stdout.split(b"\n")[0][:60].decode()
print(f"{seconds:.3f} {resource.getrusage(resource.RUSAGE_CHILDREN).ru_maxrss} {first}")
PY
}

for kind in comments word quoted atoms ands; do
  make "$kind" $((size * 500000))
  read -r half _ _ <<< "$(measure "$top/pc" show schema "$kind")"
  make "$kind" $((size * 1000000))
  read -r full memory said <<< "$(measure "$top/pc" show schema "$kind")"
  read -r peer _ _ <<< "$(measure sed '/^[ \t]*#/d' "$kind")"
  awk -v kind="$kind" -v half="$half" -v full="$full" -v memory="$memory" -v peer="$peer" -v bytes="$(wc -c < "$kind")" -v said="$said" 'BEGIN {
    printf "%s: %d bytes; half %s s, full %s s, ratio %.2f; sed %s s, ratio %.2f; memory over the file %.1f; %s\n", kind, bytes, half, full, full / half, peer, full / peer, memory * 1024 / bytes, said
  }'
done
