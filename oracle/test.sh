#!/bin/sh
# Compares the oracle's answers with reference.txt and with the stored ones,
# and the changed syn with the unchanged one.
# usage: oracle/test.sh   after oracle/build.sh
set -eu
here=$(cd "$(dirname "$0")" && pwd)
oracle=$here/../target/oracle/places/release/oracle
work=$(mktemp -d)
trap 'rm -rf "$work"' EXIT
. "$here/hex.sh"
failed=0

# report NAME: compares NAME.want with NAME.got.
report() {
    if cmp -s "$work/$1.want" "$work/$1.got"; then
        echo "$1: $(wc -l < "$work/$1.want") answers as stored"
    else
        failed=1
        echo "$1: differences, stored < > given"
        diff "$work/$1.want" "$work/$1.got" | head -40
    fi
}

# reference.txt may leave out the sheet: `accept`, or `accept, then VERDICT`.
shorten() {
    awk -F'\t' -v OFS='\t' 'NR == FNR { given[FNR] = $0; next } {
        split(given[FNR], part, "\t"); answer = part[1]
        if (answer ~ /^accept/ && $NF !~ /^accept [0-9]/)
            answer = part[2] == "accept" ? "accept" : "accept, then " part[2]
        $NF = answer; print }' "$1" "$2"
}

reference() {
    awk -F'\t' '$1 == "rust" || $1 == "model"' "$here/answers/reference.txt" > "$work/reference.want"
    cut -f2 "$work/reference.want" | to_hex | "$oracle" read > "$work/given"
    shorten "$work/given" "$work/reference.want" > "$work/reference.got"
    report reference
}

reference_check() {
    awk -F'\t' '$1 ~ /check$/' "$here/answers/reference.txt" > "$work/reference-check.want"
    cut -f2 "$work/reference-check.want" | to_hex > "$work/texts"
    cut -f3 "$work/reference-check.want" | paste "$work/texts" - | "$oracle" check > "$work/given"
    cut -f1-3 "$work/reference-check.want" | paste - "$work/given" > "$work/reference-check.got"
    report reference-check
}

stored_read() {
    gzip -cd "$here/answers/read.txt.gz" > "$work/read.want"
    cut -f1 "$work/read.want" > "$work/scripts"
    "$oracle" read < "$work/scripts" | paste "$work/scripts" - > "$work/read.got"
    report read
}

stored_check() {
    gzip -cd "$here/answers/check.txt.gz" > "$work/check.want"
    cut -f1,2 "$work/check.want" > "$work/sheets"
    "$oracle" check < "$work/sheets" | paste "$work/sheets" - > "$work/check.got"
    report check
}

reference
reference_check
stored_read
stored_check
"$oracle" compare-syn "$here/../target/oracle/plain/release/oracle" < "$work/scripts" || failed=1
exit $failed
