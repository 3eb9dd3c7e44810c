#!/bin/sh
# Installs the library under a prefix of its own, builds the C example by pkg-config against what is installed, and runs it and shelfstrip on
# examples/. Where pkg-config is not there, a line says so. Nothing is fetched. usage: bindings/test-install.sh FOLDER
set -eu
root=$(cd "$(dirname "$0")/.." && pwd)
mkdir -p "$1"
out=$(cd "$1" && pwd)
prefix=$out/prefix
rm -rf "$prefix"
CARGO_NET_OFFLINE=true "$root/bindings/install.sh" "$prefix" > "$out/installed" 2>&1 || { cat "$out/installed"; exit 1; }
cmp "$prefix/include/strip.h" "$root/bindings/c/strip.h"

# same PROGRAM [ARGUMENT..]: the program's output for each script of examples/ is the stored one.
same() {
    for script in "$root"/examples/*.strip; do
        "$@" < "$script" > "$out/got"
        cmp "$out/got" "${script%.strip}.out"
    done
}
if command -v pkg-config > /dev/null; then
    PKG_CONFIG_PATH=$prefix/lib/pkgconfig
    export PKG_CONFIG_PATH
    # the example is compiled from a copy, so that no header beside it is taken
    cp "$root/bindings/c/example.c" "$out/installed-example.c"
    # shellcheck disable=SC2046
    ${CC:-cc} -std=c99 -Wall -Wextra -Werror -O2 -o "$out/installed-example" $(pkg-config --cflags strip) "$out/installed-example.c" \
        $(pkg-config --libs strip)
    same "$out/installed-example" page
    echo "install: the C example built by pkg-config ($(pkg-config --modversion strip)), 6 scripts compared"
else
    echo "install: the C example is not built, there is no pkg-config"
fi
if [ -x "$prefix/bin/shelfstrip" ]; then
    same "$prefix/bin/shelfstrip" lines -
    echo "install: shelfstrip, 6 scripts compared"
else
    echo "install: shelfstrip is not installed, it could not be built"
fi
# no prefix, an empty one, and a folder without the archive are told
for wrong in 2: 2:empty 1:folder; do
    status=0
    case $wrong in
    2:) "$root/bindings/install.sh" 2> "$out/told" || status=$? ;;
    2:empty) "$root/bindings/install.sh" '' 2> "$out/told" || status=$? ;;
    1:folder) STRIP_LIB=$out/none "$root/bindings/install.sh" "$out/unused" 2> "$out/told" || status=$? ;;
    esac
    # a line each: the shell ends at the last of a chain of && alone
    [ "$status" -eq "${wrong%%:*}" ]
    [ -s "$out/told" ]
    [ ! -e "$out/unused" ]
done
