#!/bin/sh
# Answers generated scripts with the oracle and with `run_script_cases script` (crates/run_script_cases/out): how often each answer and each
# kind of node came up, then the differences, as compare-scripts.sh prints them. One script in ten is of the kind `rare`, one in ten of the kind `long`.
# usage: oracle/fuzz-scripts.sh SEED COUNT [-x WORDS]   after oracle/build.sh and `rt run` in crates/run_script_cases
# With `short` for SEED, and any COUNT, the scripts are all short strings of tokens at the chosen spots.
set -eu
here=$(cd "$(dirname "$0")" && pwd)
oracle=$here/../target/oracle/places/release/oracle
seed=$1
count=$2
shift 2
work=$(mktemp -d)
trap 'rm -rf "$work"' EXIT

# Of lines TEXT TAB SHEET, how many records of each kind there are. The head is no node.
kinds() {
    cat > "$work/sheets"
    "$oracle" records < "$work/sheets" | paste "$work/sheets" - | awk -F'\t' '
        {
            last = split($3, size, " ")
            at = 1
            for (i = 2; i <= last; i++) {
                if (i > 2) nodes[substr($2, at, 2)]++
                at += 2 * size[i]
            }
        }
        END {
            count = split("tween spring keyframes sequence parallel group stagger path morph draw color waveform preset label at", name, " ")
            for (i = 1; i <= count; i++) printf "  %s %d", name[i], nodes[sprintf("%02X", i - 1)]
            print ""
        }'
}

if [ "$seed" = short ]; then
    "$oracle" gen-short
else
    "$oracle" gen "$seed" $((count - 2 * (count / 10)))
    "$oracle" gen "$seed" $((count / 10)) rare
    "$oracle" gen "$seed" $((count / 10)) long
fi > "$work/texts"
"$oracle" read < "$work/texts" > "$work/answers"
awk -F'\t' '
    { split(NF == 2 ? $2 : $1, word, " ") }
    word[1] == "accept" { accepted++ }
    word[1] == "refuse" { refused[word[2]]++ }
    END {
        printf "%d scripts, %d accepted; refused:", NR, accepted
        for (i = 1; i <= 27; i++) if (refused[i]) printf "  %d: %d", i, refused[i]
        print ""
    }' "$work/answers"
echo "nodes:$(cut -f1 "$work/answers" | paste "$work/texts" - | awk -F'\t' -v OFS='\t' 'sub(/^accept [0-9]+ /, "", $2)' | kinds)"
"$here/compare-scripts.sh" "$@" "$work/texts" "$work/answers"
