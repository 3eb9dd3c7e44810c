#!/bin/sh
# Builds the library, tests both of its bindings, the program shelfstrip and an install, and runs the examples of docs/LANGUAGE.md,
# docs/REFUSALS.md and README.md. Needs rt, cargo, a C compiler and Python 3; no packages, but shelfstrip is tested only where its libraries
# are there, and what is installed only where pkg-config is. With --after-ci the archive is made of what `rt ci` has just proved.
# usage: bindings/test.sh [--after-ci]
set -eu
# cargo's own folder, where the search path leaves it out
PATH=$PATH:${CARGO_HOME:-${HOME:-/root}/.cargo}/bin
root=$(cd "$(dirname "$0")/.." && pwd)
out=$root/target/bindings
cd "$root"
tools/staticlib.py "$@" strip
cargo test -j 1 --offline --manifest-path bindings/rust/Cargo.toml --target-dir "$out/rust"

mkdir -p "$out"
${CC:-cc} -std=c99 -Wall -Wextra -Werror -O2 -o "$out/example" bindings/c/example.c target/staticlib/libstrip.a

# expect TEXT OUTPUT: the example's output for a script, both with escapes, call by call and on a page.
expect() {
    printf "$2" > "$out/wanted"
    for how in calls page; do
        printf "$1" | "$out/example" $how > "$out/got"
        cmp "$out/got" "$out/wanted"
    done
}
# one HOW TEXT OUTPUT: the example's output for a script in one of its other modes.
one() {
    printf "$3" > "$out/wanted"
    printf "$2" | "$out/example" "$1" > "$out/got"
    cmp "$out/got" "$out/wanted"
}
# look CHAIN NAME STORE OUTPUT: the example's output for a lookup.
look() {
    printf "$4" > "$out/wanted"
    printf "$3" | "$out/example" lookup "$1" "$2" > "$out/got"
    cmp "$out/got" "$out/wanted"
}
# draw KIND PHASE OUTPUT: the example's output for a waveform.
draw() {
    printf '%s\n' "$3" > "$out/wanted"
    "$out/example" wave "$1" "$2" < /dev/null > "$out/got"
    cmp "$out/got" "$out/wanted"
}
expect 'at 0.5;' '00020001FD\n00080E00003F00000000AB\naccept 1\n'
expect '' '00020000FE\naccept 0\n'
expect 'tween' 'refuse 6 at 5\n'
expect 'keyframes p {50%%: 0, 0.5s: 1}' 'refuse 26 at 1\n'
one feed 'sequence {keyframes p {0: 0, 1: 1, 2: 0}} keyframes q {0: 0, 1: 1}' 'accept 3, 5/2\n'
one feed '' 'accept 0\n'
one feed 'tween' 'refuse 6 at 5\n'
one feed 'keyframes p {50%%: 0, 0.5s: 1}' 'refuse 26 at 1\n'
one rounded 'at 0.5; at 0.1; at 16777217' '2\n'
one rounded 'at 1.25e2; at 1e-1; at 33333333333333333333333333333.3' '2\n'
one color 'Tomato' 'FF6347FF\n'
one color '#1234' '11223344\n'
one color 'Tomato\n' 'FF6347FF\n'
one color 'Tomato\n\n' 'refuse 25 at 0\n'
one color 'transparent' 'refuse 25 at 0\n'
one short 'at 0.5;' 'refuse 16 at 0\n'
one back '' '\n'
one back 'at--0.50;label "a";' 'at + 0.5 ; label "a" ;\n'
one back 'tween' 'refuse 6 at 5\n'
one back 'keyframes p{loop:once 5%%:[],0.50:10000000 Easing::Linear}' 'keyframes p { 5 %% : [ ] , 0.5 : 9999999.5 Easing :: Linear , loop : once } ;\n'
one back 'preset fadein' 'refuse 24 at 1\n'
one back 'at 1.25E-3s' 'at 0.00125 ;\n'
one back 'at 1e-45' 'refuse 34 at 0\n'
look 'a={at 1} b={at 2}' a 'a={ at 0 }' ' at 0 \n'
look 'a={at 1} b={at 2}' b 'a={ at 0 }' 'at 2\n'
look 'a={at 1} b={at 2}' c 'a={ at 0 }' 'refuse 43 at 0\n'
look '#' a 'a={}' 'refuse 2 at 0\n'
one order 'a={preset c} b={} c={}' '1 2 0\n'
one order 'a={preset b} b={preset a}' 'refuse 39 at 0\n'
one order 'a={};b={}' 'refuse 6 at 4\n'
one plane 'at 0.5;' '00010E00003F00000000\n'
one plane 'keyframes p {0: 1, 1: [2]}' '0001020000000A0001000201000001010001400000000000003F3F008080000000000000\n'
draw 0 0 '0 12539 23170 30273 32767 30273 23170 12539 0 -12539 -23170 -30273 -32767 -30273 -23170 -12539'
draw 1 0 '-32767 -28656 -24544 -20432 -16320 -12208 -8096 -3984 128 4240 8352 12464 16576 20688 24800 28912'
draw 3 129 '-511 -8703 -16895 -25087 -32255 -24063 -15871 -7679 511 8703 16895 25087 32255 24063 15871 7679'
draw 4 256 'refuse 41 at 0'
draw 2 256 'refuse 42 at 0'
# Arguments that are no mode are told, with 2.
for arguments in 'lines' 'lookup' 'back back' 'wave 0'; do
    status=0
    # shellcheck disable=SC2086
    "$out/example" $arguments < /dev/null > "$out/got" 2> "$out/told" || status=$?
    # a line each: the shell ends at the last of a chain of && alone
    [ "$status" -eq 2 ]
    [ ! -s "$out/got" ]
    grep -q '^usage: ' "$out/told"
done
python3 tools/language.py "$out/example"
echo "C example: 4 passed, each in two ways, 4 fed, 2 counts of rounded numbers, 5 colours, a short scratch, 7 written back, 4 looked up, 3 listed, 2 planed and back, 5 drawn, and 4 that are no mode"
python3 tools/readme.py "$out"
# shelfstrip, where its libraries are there
if reason=$(bindings/shelfstrip/crates.sh target/shelfstrip); then
    bindings/shelfstrip/test.sh
else
    echo "shelfstrip: not tested, $reason"
fi
bindings/test-install.sh "$out/install"
