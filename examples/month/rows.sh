#!/bin/sh
# Writes the 2,000 sales that are left of the month, as a row file, to standard output.
awk 'BEGIN {
  split("Chicago NewYork Trenton", branch, " ")
  print "branch,day,price"
  for (k = 0; k < 2000; k++) printf "%s,%d,%d.00\n", branch[k % 3 + 1], k % 31 + 1, k % 100 + 20
}'
