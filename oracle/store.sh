#!/bin/sh
# Makes the stored answers anew.
# usage: oracle/store.sh   after oracle/build.sh
set -eu
here=$(cd "$(dirname "$0")" && pwd)
oracle=$here/../target/oracle/places/release/oracle
work=$(mktemp -d)
trap 'rm -rf "$work"' EXIT
. "$here/hex.sh"

# take COUNT LOW HIGH: the first COUNT lines of LOW to HIGH characters.
take() {
    awk -v count="$1" -v low="$2" -v high="$3" \
        'length($0) >= low && length($0) <= high && taken < count { taken++; print }'
}

# each MODE COUNT COLUMNS: of the inputs of $work/inputs, the first COUNT for
# each refusal and each verdict.
each() {
    "$oracle" "$1" < "$work/inputs" | paste "$work/inputs" - | awk -F'\t' -v count="$2" \
        '{ split($NF, word, " ") } seen[word[1] word[2]]++ < count' | cut -f"$3"
}

# The reference inputs, every word at the first spot and a part of the others,
# then scripts of each kind, most of them short.
scripts() {
    awk -F'\t' '$1 == "rust" || $1 == "model" { print $2 }' "$here/answers/reference.txt" | to_hex
    "$oracle" gen 1 3080 words | awk 'NR <= 70 || NR % 11 == 0'
    "$oracle" gen 2 9000 grammar | take 650 0 300
    "$oracle" gen 3 9000 damage | take 350 0 300
    "$oracle" gen 4 9000 short | take 200 0 200
    "$oracle" gen 5 9000 limits | take 120 0 900
    "$oracle" gen 6 9000 limits | take 10 30000 40000
    "$oracle" gen 8 9000 long | take 150 0 500
    "$oracle" gen 7 40000 | take 40000 0 500 > "$work/inputs"
    each read 20 1
}

sheets() {
    awk -F'\t' '$1 ~ /check$/ { print $2 }' "$here/answers/reference.txt" | to_hex > "$work/texts"
    awk -F'\t' '$1 ~ /check$/ { print $3 }' "$here/answers/reference.txt" | paste "$work/texts" -
    "$oracle" gen-sheets 1 9000 | take 800 0 300
    "$oracle" gen-sheets 2 9000 | take 30 301 2000
    "$oracle" gen-sheets 3 20000 | take 6 100000 200000
    "$oracle" gen-sheets 4 20000 | take 4 30000 40000
    "$oracle" gen-sheets 5 40000 | take 40000 0 500 > "$work/inputs"
    each check 20 1,2
}

scripts > "$work/scripts"
"$oracle" read < "$work/scripts" | paste "$work/scripts" - | gzip -9n > "$here/answers/read.txt.gz"
sheets > "$work/sheets"
"$oracle" check < "$work/sheets" | paste "$work/sheets" - | gzip -9n > "$here/answers/check.txt.gz"
