#!/bin/sh
# Makes the stored cases `sheet` anew: good sheets, each kind of node first in some, and each of them with every byte one more, one less, removed and doubled; then the sheets of answers/reference.txt, and 16 and 17 containers nested. Of a text
# only the length matters: it is all `x`.
# usage: oracle/store-sheets.sh   after oracle/build.sh
set -eu
here=$(cd "$(dirname "$0")" && pwd)
oracle=$here/../target/oracle/places/release/oracle
work=$(mktemp -d)
trap 'rm -rf "$work"' EXIT
. "$here/hex.sh"

# Texts as so many `x`.
plain() {
    awk -F'\t' '{ gsub(/../, "78", $1); print $1 "\t" $2 }'
}

# The first two good sheets for each kind, and two that hold more than five records.
good() {
    "$oracle" gen-sheets 1 9000 | plain | awk -F'\t' 'length($2) >= 40 && length($2) <= 70' > "$work/sheets"
    "$oracle" records < "$work/sheets" | paste "$work/sheets" - | awk -F'\t' '
        $3 != "no sheet" && (seen[substr($2, 5, 2)]++ < 2 || split($3, size, " ") > 6 && more++ < 2) { print $1 "\t" $2 }'
}

damaged() {
    awk -F'\t' '
        function moved(byte, by, value) {
            value = (16 * index(digits, substr(byte, 1, 1)) + index(digits, substr(byte, 2, 1)) - 17 + 256 + by) % 256
            return substr(digits, int(value / 16) + 1, 1) substr(digits, value % 16 + 1, 1)
        }
        BEGIN { digits = "0123456789ABCDEF" }
        {
            print
            for (i = 1; i < length($2); i += 2) {
                front = $1 "\t" substr($2, 1, i - 1); byte = substr($2, i, 2); back = substr($2, i + 2)
                print front moved(byte, 1) back
                print front moved(byte, -1) back
                print front back
                print front byte byte back
            }
        }'
}

reference() {
    awk -F'\t' '$1 ~ /check$/ { print $2 }' "$here/answers/reference.txt" | to_hex > "$work/texts"
    awk -F'\t' '$1 ~ /check$/ { print $3 }' "$here/answers/reference.txt" | paste "$work/texts" - | plain
}

# nested COUNT: that many containers, each in the one before.
nested() {
    printf '78\t0001%s0300000000\n' "$(many $(($1 - 1)) 0300000001)"
}

{ good | damaged; reference; nested 16; nested 17; } > "$work/cases"
awk -F'\t' '{ print length($1) / 2 "\t" $2 }' "$work/cases" > "$work/lengths"
"$oracle" records < "$work/cases" > "$work/answers"
cd "$here/.."
python3 tools/stored.py store sheet "$work/lengths" "$work/answers"
