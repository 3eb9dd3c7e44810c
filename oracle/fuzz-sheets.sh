#!/bin/sh
# Answers generated sheets, good and damaged, with the oracle and with `run_sheet_cases check` (crates/run_sheet_cases/out): how often each answer
# came up, then the lines that differ.
# usage: oracle/fuzz-sheets.sh SEED COUNT   after oracle/build.sh and `rt run` in crates/run_sheet_cases
set -eu
here=$(cd "$(dirname "$0")" && pwd)
oracle=$here/../target/oracle/places/release/oracle
work=$(mktemp -d)
trap 'rm -rf "$work"' EXIT

"$oracle" gen-sheets "$1" "$2" > "$work/sheets"
"$oracle" check < "$work/sheets" > "$work/answers"
"$here/../crates/run_sheet_cases/out/run_sheet_cases" check < "$work/sheets" > "$work/ours"
awk '{ count[$1 == "refuse" ? $1 " " $2 : $1]++ } END { for (k in count) printf "  %s: %d", k, count[k]; print "" }' "$work/answers"
paste "$work/answers" "$work/ours" "$work/sheets" | awk -F'\t' '$1 != $2 { differ++; if (differ < 5) print } END { printf "%d sheets, %d differ\n", NR, differ }'
