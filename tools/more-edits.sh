#!/usr/bin/env bash
# Tries the must-fail edits that stand outside the gate, in tools/edits/NAME/, on a clone of HEAD: the prover must refuse each.
# Usage, from the top: tools/more-edits.sh [NAME..]   (no name: all crates that have some)
set -eu
top=$(git -C "$(dirname "$0")" rev-parse --show-toplevel)
[ $# -gt 0 ] || set -- $(ls "$top/tools/edits")
work=$(mktemp -d)
trap 'rm -rf "$work"' EXIT
git clone -q "$top" "$work/pc"
cd "$work/pc"
for name in "$@"; do
  rm -rf "crates/$name/must-fail"
  cp -r "tools/edits/$name" "crates/$name/must-fail"
done
rt must-fail "$@"
