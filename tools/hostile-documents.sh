#!/usr/bin/env bash
# Has `pc check` read documents that are made to break it: trees of 200,000 cuts, with and without their leaves, numbers at
# the limit of 128 bits and past it, and a run that is taken no times. Each answer is compared, and none may crash.
# Usage: tools/hostile-documents.sh [PC]   (without PC, ./pc at the top)
set -eu
cd "$(dirname "$0")/.." || exit 1
pc=$(realpath "${1:-./pc}")
folder=$(mktemp -d)
trap 'rm -rf "$folder"' EXIT
cd "$folder"

printf 'branch,cat,Chicago,NewYork,Trenton\nday,int,1,31\nprice,dec,2,0.00,1000.00\n' >schema
printf 'branch,day,price\nChicago,3,100.00\nNewYork,5,50.00\n' >rows
printf 'c1: branch = Chicago => price in 0.00..149.99, 0..5\n' >constraints
cat >whole <<'DOCUMENT'
pc 1
query sum(price)
tree own
cut branch {Chicago}
cut price 149.99
leaf 1 in
leaf barren
leaf barren
relation possible
low 150.00 exact
by tree
bound 1 0
high 899.95 exact
run 5: Chicago, 1, 149.99
by tree
bound 1 14999
end
DOCUMENT

# The text, so many times.
times() {
  yes "$2" | head -n "$1" || true
}

failed=0
says() {
  local want=$1 said
  said=$("$pc" check schema rows constraints document || true)
  if [ "$said" = "$want" ]; then
    echo "ok: $said"
  else
    echo "wanted '$want', got '$said'"
    failed=1
  fi
}

cp whole document
says 'yes'
{ head -n 3 whole; times 200000 'cut price 0.01'; } >document
says 'no line 200004 rule 1'
{ head -n 3 whole; times 200000 'cut price 0.01'; times 200001 'leaf barren'; tail -n +9 whole; } >document
says 'no line 5 rule 3'
sed '12s/.*/bound 1 170141183460469231731687303715884105727/' whole >document
says 'no line 12 rule 8'
sed '12s/.*/bound 1 170141183460469231731687303715884105728/' whole >document
says 'no line 12 rule 1'
sed '14s/.*/run 0: Chicago, 1, 149.99/' whole >document
says 'no line 13 rule 5'
exit "$failed"
