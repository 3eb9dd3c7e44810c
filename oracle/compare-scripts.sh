#!/bin/sh
# Compares the answers of `run_script_cases script` (crates/run_script_cases/out) with the oracle's, and prints the differences. Those with
# the same two refusals (or accept) are one sort, of which it prints how many there are and the shortest text, made shorter as long as it
# still differs so.
# usage: oracle/compare-scripts.sh [-x WORDS] [TEXTS ANSWERS]   after oracle/build.sh and `rt run` in crates/run_script_cases
# TEXTS and ANSWERS are the stored cases if left out. Texts in which one of WORDS stands are left out.
set -eu
here=$(cd "$(dirname "$0")" && pwd)
oracle=$here/../target/oracle/places/release/oracle
program=$here/../crates/run_script_cases/out/run_script_cases
crate=$here/../crates/run_script_cases
words=
if [ "${1:-}" = -x ]; then
    words=$2
    shift 2
fi
work=$(mktemp -d)
trap 'rm -rf "$work"' EXIT
texts=${1:-$crate/data/script/cases}
answers=${2:-$work/stored}
. "$here/hex.sh"

# without: of lines TEXT TAB NUMBER, the numbers of those with none of the words in it.
without() {
    from_hex | awk -F'\t' -v words="$words" '
        BEGIN { count = split(words, word, " "); for (i = 1; i <= count; i++) out[word[i]] }
        { gsub(/\\x../, " ", $1); count = split($1, word, /[^A-Za-z0-9_]+/) }
        { for (i = 1; i <= count; i++) if (word[i] in out) next; print $2 }'
}

# differing TEXTS ANSWERS: lines SORT TAB TEXT TAB ANSWER TAB THE PROGRAM'S where these differ.
differing() {
    "$program" script < "$1" | tr '\t' ' ' | paste "$1" "$2" - | awk -F'\t' -v OFS='\t' '
        function sort(answer, word) { split(answer, word, " "); return word[1] == "accept" ? "accept, " word[4] " " word[5] : word[1] " " word[2] }
        $2 != $3 { print sort($2) ", not " sort($3), $0 }'
}

# shorter TEXT: that text with 64, 32 .. or 1 bytes taken out of each place.
shorter() {
    awk -v text="$1" 'BEGIN {
        for (size = 128; size > 1; size /= 2)
            for (i = 1; i + size <= length(text) + 1; i += 2) print substr(text, 1, i - 1) substr(text, i + size) }'
}

# shrink SORT LINE: the line of differing for the shortest text found with a difference of that sort.
shrink() {
    line=$2
    while text=$(echo "$line" | cut -f2) && [ ${#text} -lt 4000 ]; do
        shorter "$text" > "$work/shorter"
        "$oracle" read < "$work/shorter" | tr '\t' ' ' > "$work/answers"
        next=$(differing "$work/shorter" "$work/answers" | awk -F'\t' -v sort="$1" '!found && $1 == sort { print; found = 1 }')
        [ -n "$next" ] || break
        line=$next
    done
    echo "$line"
}

[ $# -gt 1 ] || (cd "$here/.." && python3 tools/stored.py answers script) > "$answers"
# The verdict stands behind a blank here, so that an answer is one field.
tr '\t' ' ' < "$answers" | paste "$texts" - > "$work/cases"
if [ -n "$words" ]; then
    awk -F'\t' -v OFS='\t' '{ print $1, NR }' "$work/cases" | without > "$work/kept"
    awk 'NR == FNR { kept[$1]; next } FNR in kept' "$work/kept" "$work/cases" > "$work/chosen"
    mv "$work/chosen" "$work/cases"
fi
cut -f1 "$work/cases" > "$work/texts"
cut -f2 "$work/cases" > "$work/wanted"
differing "$work/texts" "$work/wanted" > "$work/differing"
echo "$(wc -l < "$work/texts") scripts compared, $(wc -l < "$work/differing") differ"
[ -s "$work/differing" ] || exit 0
cut -f1 "$work/differing" | sort | uniq -c | sort -rn | while read -r count sort; do
    awk -F'\t' -v sort="$sort" '$1 == sort && (!least || length($2) < least) { least = length($2); line = $0 } END { print line }' \
        "$work/differing" > "$work/least"
    shrink "$sort" "$(cat "$work/least")" > "$work/shrunk"
    echo "$count $sort: $(cut -f2 "$work/shrunk" | from_hex)"
    echo "    $(cut -f3 "$work/shrunk"), not $(cut -f4 "$work/shrunk")"
done
exit 1
