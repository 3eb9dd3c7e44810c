#!/bin/sh
# Makes the stored cases `check` anew, from answers/check.txt.gz. Of the sheets of some 65,535 bytes one of 65,535 and one of 65,536 are
# taken.
# usage: oracle/store-checks.sh
set -eu
here=$(cd "$(dirname "$0")" && pwd)
work=$(mktemp -d)
trap 'rm -rf "$work"' EXIT

gunzip -c "$here/answers/check.txt.gz" | awk -F'\t' '
    length($2) < 100000 || length($2) == 131070 || length($2) == 131072' > "$work/cases"
cut -f1,2 "$work/cases" > "$work/texts"
cut -f3 "$work/cases" > "$work/answers"
cd "$here/.."
python3 tools/stored.py store check "$work/texts" "$work/answers"
