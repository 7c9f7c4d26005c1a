#!/bin/sh
# Writes the tables of this example: october.csv, of which nothing was lost, and rows.csv, what is left of November.
# A row of awk's own numbers for each sale, so that each machine writes the same files.
sales() { awk -v days="$1" -v seed="$2" -v lost="$3" '
  function next_number() { state = (state * 75 + 74) % 65537; return state }
  BEGIN {
    state = seed; split("Harbour Market Station", shops, " ")
    print "shop,day,till,pieces,amount"
    for (day = 1; day <= days; day++) for (s = 1; s <= 3; s++) {
      count = 34 + next_number() % 12
      for (i = 1; i <= count; i++) {
        till = 1 + next_number() % 2
        pieces = 1 + next_number() % 12
        cents = pieces * (80 + next_number() % 420)
        if (s == 1 && next_number() % 100 < 2) cents = 9000 + next_number() % 11001
        gone = lost && ((s == 1 && day >= 11 && day <= 13) || (s == 3 && day == 20 && till == 2))
        if (!gone) printf "%s,%d,%d,%d,%d.%02d\n", shops[s], day, till, pieces, cents / 100, cents % 100
      }
    }
  }'; }
sales 31 7 0 > october.csv
sales 30 11 1 > rows.csv
