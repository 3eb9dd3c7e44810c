#!/bin/sh
# Makes the stored cases `script` anew: each text of answers/read.txt.gz and of answers/reference.txt once, and 01's "Run only"
# cases. The answers are the oracle's.
# usage: oracle/store-scripts.sh   after oracle/build.sh
set -eu
here=$(cd "$(dirname "$0")" && pwd)
oracle=$here/../target/oracle/places/release/oracle
work=$(mktemp -d)
trap 'rm -rf "$work"' EXIT
. "$here/hex.sh"

# padded SIZE TEXT: TEXT and blanks, SIZE bytes in all.
padded() {
    printf "%-$1s\n" "$2"
}

# nested COUNT HEAD INSIDE: COUNT containers, each in the one before, the last one's head HEAD, with INSIDE in it.
nested() {
    echo "$(many $(($1 - 1)) 'sequence{')$2{$3}$(many $(($1 - 1)) '}')"
}

# opened COUNT BEFORE AFTER: COUNT delimiters open at once between BEFORE and AFTER.
opened() {
    echo "$2$(many "$1" '(')$(many "$1" ')')$3"
}

# 01: "16,384 and 16,385 bytes".
bytes() {
    for size in 16384 16385; do
        padded $size 'at 0.5;'
        padded $size "$(many $((size / 10)) 'label "a";')"
    done
}

# "16 and 17 containers"
containers() {
    for head in sequence parallel 'group parallel' stagger; do
        nested 16 "$head" 'at 0.5'
        nested 17 "$head" 'at 0.5'
    done
    nested 16 sequence 'sequence'
    nested 16 sequence 'keyframes p{}'
    nested 16 sequence 'at 1;}sequence{at 2'
    nested 17 'group x' ''
    nested 17 'stagger delay:x' ''
}

# "64 and 65 openers"
openers() {
    for count in 64 65; do
        opened $count '' ''
        opened $count 'at 1;' ' foo'
        opened $((count - 1)) 'tween p:[1 ' ']=>1 duration:1'
        opened $((count - 2)) 'sequence{keyframes p{0:1 ' '}}'
    done
}

# "10 and 11 digits", by 02 (n) 40 and 41; after the point 40 and 41
digits() {
    for count in 40 41; do
        zeros=$(many $((count - 10)) 0)
        printf '%s\n' "at ${zeros}1234567890" "at $(many "$count" 1)" "at 1.${zeros}1234567890" "at 1.$(many "$count" 9)e-5" \
            "tween p:0=>1 duration:1 round:${zeros}1234567890"
    done
}

# "`0` to `[5]`", and "`0` to `[]`", which checking refuses, not reading
values() {
    printf '%s\n' 'tween p: 0 => [5] duration: 1' 'tween p: 0 => [] duration: 1'
}

texts() {
    gunzip -c "$here/answers/read.txt.gz" | cut -f1
    awk -F'\t' '$1 == "rust" || $1 == "model" { print $2 }' "$here/answers/reference.txt" | to_hex
    { bytes; containers; openers; digits; values; } | to_hex
}

texts | awk '!seen[$0]++' > "$work/texts"
"$oracle" read < "$work/texts" > "$work/answers"
cd "$here/.."
python3 tools/stored.py store script "$work/texts" "$work/answers"
