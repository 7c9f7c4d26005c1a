#!/usr/bin/env bash
# Refuses each allocation of some runs of `pc` in turn, in the program as it is built: its `malloc` and `realloc` are counted,
# and the one of the number that is next answers null. Each such run must end with status 6 and nothing written, or be as it
# is without a refusal. It proves nothing; it says how many were tried. It wants gcc.
# Usage: tools/refuse-memory.sh [PC]   (without PC, ./pc at the top)
set -eu
cd "$(dirname "$0")/.." || exit 1
pc=$(realpath "${1:-./pc}")
folder=$(mktemp -d)
trap 'rm -rf "$folder"' EXIT
cd "$folder"

cat >refuse.c <<'SOURCE'
#define _GNU_SOURCE
#include <dlfcn.h>
#include <stdio.h>
#include <stdlib.h>

static long count;

static long refused(void) {
    static long number = -1;
    if (number < 0) {
        const char *text = getenv("REFUSED");
        number = text ? atol(text) : 0;
    }
    return number;
}

void *malloc(size_t size) {
    static void *(*next)(size_t);
    if (!next) next = (void *(*)(size_t))dlsym(RTLD_NEXT, "malloc");
    return ++count == refused() ? NULL : next(size);
}

void *realloc(void *old, size_t size) {
    static void *(*next)(void *, size_t);
    if (!next) next = (void *(*)(void *, size_t))dlsym(RTLD_NEXT, "realloc");
    return ++count == refused() ? NULL : next(old, size);
}

__attribute__((destructor)) static void tell(void) {
    const char *name = getenv("COUNTED");
    long all = count;
    FILE *file = name ? fopen(name, "w") : NULL;
    if (file) {
        fprintf(file, "%ld\n", all);
        fclose(file);
    }
}
SOURCE
gcc -O1 -shared -fPIC -o refuse.so refuse.c -ldl

printf 'branch,cat,Chicago,NewYork,Trenton\nday,int,1,31\nprice,dec,2,0.00,1000.00\n' >schema
printf 'branch,day,price\nChicago,3,100.00\nNewYork,5,50.00\n' >rows
printf 'c1: branch = Chicago => price in 0.00..149.99, 0..5\n' >constraints
printf 'a: day in 1..10 => true, 2..9\nb: branch = Chicago => true, 0..0\nc: day in 1..20 and branch in {NewYork, Trenton} => true, 0..1\n' >contrary
printf 'a: day in 1..20 => price in 0.00..10.00, 3..10\nb: day in 5..10 => true, 2..4\n' >nested
: >none
printf 'ask sum(price)\nadd rule c2: true => price in 0.00..100.00, 0..3\nask sum(price)\nadd row Trenton,9,10.00\ndrop rule c1\nask sum(price)\n' >script
"$pc" prove schema rows constraints 'sum(price)' >document

all=0
refused_all=0
# Runs the words once as they are, and then with each of its allocations refused.
try_each() {
  local status said number total ended refused=0
  status=0
  COUNTED=$folder/count LD_PRELOAD=$folder/refuse.so "$pc" "$@" >want || status=$?
  total=$(cat count)
  for ((number = 1; number <= total; number++)); do
    ended=0
    REFUSED=$number LD_PRELOAD=$folder/refuse.so "$pc" "$@" >said || ended=$?
    if [ "$ended" = 6 ] && [ ! -s said ]; then
      refused=$((refused + 1))
    elif [ "$ended" != "$status" ] || ! cmp -s said want; then
      echo "allocation $number of '$*' refused: status $ended"
      cat said
      exit 1
    fi
  done
  echo "$total refused, $refused with status 6: $*"
  all=$((all + total))
  refused_all=$((refused_all + refused))
}

try_each bound schema rows none count
try_each bound schema rows constraints 'sum(price)'
try_each bound schema rows constraints 'avg(price)'
try_each bound schema rows constraints 'sum(price) group by branch'
try_each prove schema rows constraints 'sum(price)'
try_each prove schema rows constraints 'avg(price)'
try_each prove schema rows constraints 'sum(price) group by branch'
try_each check schema rows constraints document
try_each show schema constraints
try_each conflict schema contrary
try_each quantile schema rows constraints 'quantile(1, 2, price)'
try_each session schema rows constraints script
try_each bound --nodes 1 schema rows nested 'sum(price)'
try_each gen 7 3
echo "$all allocations refused one by one: $refused_all runs ended with status 6 and nothing written, the others as without"
