#!/usr/bin/env bash
# Loses a tenth of the rows of two public tables, at random and by value, drafts constraints by `pc_desk history` from the rows that
# are left and from an earlier part, and prints, of six aggregates over 200 drawn predicates (or as many as are given), how often the
# range of `pc_desk ask` holds the truth and how wide it is, beside the intervals of samples: bench/history.py tells how. The tables
# are `diamonds` of r-cran-ggplot2 (GPL-2.0+) and `storms` of r-cran-dplyr (MIT), packages of Debian. Run ./build pc_desk first.
# Usage: bench/history.sh [PREDICATES]
set -eu
top=$(cd "$(dirname "$0")/.." && pwd)
desk=${PC_DESK:-$top/pc_desk}
[ -x "$desk" ] || { echo "bench/history.sh: run ./build pc_desk first" >&2; exit 1; }
command -v Rscript >/dev/null || { echo "bench/history.sh: install r-cran-ggplot2 and r-cran-dplyr first" >&2; exit 1; }
desk=$(realpath "$desk")
work=$(mktemp -d)
trap 'rm -rf "$work"' EXIT
cd "$work"
Rscript -e '
write <- function(rows, file) write.csv(rows, file, row.names = FALSE, quote = FALSE)
data(diamonds, package = "ggplot2")
write(diamonds[c("carat", "cut", "color", "clarity", "depth", "table", "price", "x")], "diamonds.csv")
data(storms, package = "dplyr")
write(storms[c("year", "month", "day", "hour", "lat", "long", "status", "wind", "pressure")], "storms.csv")'
python3 "$top/bench/history.py" "$desk" "${1:-200}"
