#!/bin/sh
# Makes the texts of crates/run_token_cases and the answers of the text rules: a
# refusal of 2 to 5 by text_rules.rs, else accept.
# usage: oracle/store-token.sh   after oracle/build.sh
set -eu
here=$(cd "$(dirname "$0")" && pwd)
oracle=$here/../target/oracle/places/release/oracle
cases=$here/../crates/run_token_cases
work=$(mktemp -d)
trap 'rm -rf "$work"' EXIT
. "$here/hex.sh"

# take COUNT HIGH: the first COUNT lines of at most HIGH characters.
take() {
    awk -v count="$1" -v high="$2" 'length($0) <= high && taken < count { taken++; print }'
}

# 64 and 65 delimiters open at once, also after others were closed.
openers() {
    echo "$(many 64 '(')$(many 64 ')')"
    echo "$(many 65 '(')$(many 65 ')')"
    echo "()[]{}$(many 64 '[')$(many 64 ']')$(many 64 '{')$(many 64 '}')"
    echo "()[]{}$(many 64 '{')()$(many 64 '}')"
    echo "$(many 64 '[') \"a\" 1s name"
    echo "$(many 64 '[')]] [[ [ ]"
    echo "$(many 65 '{')#"
    echo "$(many 64 '{')#"
}

# Closers, and an unclosed opener, which comes last.
closers() {
    printf '%s\n' ')' '(' '(]' '(})' '([)]' '{[()]}' '{[()]} }' 'a ( ' '( #' '( 1.' '( "a' '(a"b"' '([{ ]' '((((' '  (   '
}

# Digits before and after the point, the suffix, and what follows.
numbers() {
    printf '%s\n' 1234567890 12345678901 0000000000 00000000000 0.123456789 0.1234567890 1234567890.123456789 12345678901.1234567890 \
        1s 1ss 1sx 1.5s 1.5ss 1_ 1a 1.a '1. 5' 1. 1.. 1..2 1.5. 1.5..2 1s. 1s.5 1.5s. 1.s 12345678901a 12345678901. 1.1234567890x \
        12345678901s 12345678901sx 1"a" 1.5"a" 1s"a" .5 ..5 -1 '- 1' 007 0.000000000 9999999999.999999999 \
        1e5 1E5 1e+5 1e-05 1e 1e+ 1e005 1e5x 1e5s 1se5 1e5.5 1e5. 1e5..2 1.e5 1.5e5 1.5e 1e5e5 '1e 5' $(many 40 1) $(many 41 1) \
        0.$(many 40 1) 0.$(many 41 1) $(many 41 1)e005 $(many 41 1).$(many 41 1) $(many 40 9).$(many 40 9)e99
}

# Names and strings.
words() {
    printf '%s\n' '"' '""' '"a' 'x "a' '"a"b' '"a"_' '"a"1' '"a" 1' '"a""b"' 'a"b"' '_"b"' 'a "b"' '"a\b"' '"a\"' '"~ !"' _ __ a_1 1_a \
        'x	"a	b"' 'hex:2261C3A922' 'hex:22610A6222' 'hex:610922620922' 'hex:00' 'hex:7F' 'hex:6100' 'hex:200A0D09' 'hex:80' 'hex:FF' \
        "a'b" 'a#b' '!' '*' '/' '<' '?' '@' '\' '^' '`' '|' '~' '&' '$' ': ; , = > . + - %' '::' '=>' '..'
}

# each COUNT: of the given texts, the first COUNT for each of the refusals 2 to 5.
each() {
    cat > "$work/texts"
    "$oracle" read < "$work/texts" | paste "$work/texts" - | awk -F'\t' -v count="$1" \
        '$2 ~ /^refuse [2-5] / { split($2, word, " "); if (seen[word[2]]++ < count) print $1 }'
}

texts() {
    echo
    awk -F'\t' '$1 == "rust" || $1 == "model" { print $2 }' "$here/answers/reference.txt" | to_hex
    { openers; closers; numbers; words; } | to_hex
    "$oracle" gen 21 9000 damage | take 150 150
    "$oracle" gen 22 9000 short | take 100 150
    "$oracle" gen 23 90000 | take 90000 200 | each 60
}

texts > "$cases/stdin"
"$oracle" read < "$cases/stdin" | sed -E '/^refuse [2-5] at /!s/.*/accept/' > "$cases/stdout"
size=$(wc -c < "$cases/stdin")
[ "$size" -lt 65536 ] || { echo "store-token.sh: $size bytes are more than the program reads" >&2; exit 1; }
