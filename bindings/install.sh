#!/bin/sh
# Puts the library under a prefix: lib/libstrip.a, include/strip.h, lib/pkgconfig/strip.pc, and bin/shelfstrip where it can be built; where
# not, a line says so. The archive is the one that `tools/staticlib.py strip` has written; STRIP_LIB names the folder of another.
# usage: bindings/install.sh PREFIX
set -eu
if [ $# -ne 1 ] || [ -z "$1" ]; then
    echo "usage: $0 PREFIX" >&2
    exit 2
fi
here=$(cd "$(dirname "$0")" && pwd)
root=$(cd "$here/.." && pwd)
lib=$(cd "${STRIP_LIB:-$root/target/staticlib}" 2> /dev/null && pwd) || lib=
if [ ! -f "$lib/libstrip.a" ]; then
    echo "$0: there is no libstrip.a: run \`tools/staticlib.py strip\` in $root, or name its folder by STRIP_LIB" >&2
    exit 1
fi
mkdir -p "$1"
prefix=$(cd "$1" && pwd)
case $prefix in
*[!A-Za-z0-9/._+,:=@%~-]*)
    echo "$0: $prefix: a prefix has letters, digits and /._+,:=@%~- alone" >&2
    exit 1
    ;;
esac
version=$(sed -n 's/^version = "\(.*\)"$/\1/p' "$here/rust/Cargo.toml")
mkdir -p "$prefix/lib/pkgconfig" "$prefix/include" "$prefix/bin"
install -m 644 "$lib/libstrip.a" "$prefix/lib/libstrip.a"
install -m 644 "$here/c/strip.h" "$prefix/include/strip.h"
cat > "$prefix/lib/pkgconfig/strip.pc" <<EOF
prefix=$prefix
includedir=\${prefix}/include
libdir=\${prefix}/lib

Name: strip
Description: Motion scripts of shelf-edge strips: reading, checking, lining and the other operations, proved
Version: $version
Cflags: -I\${includedir}
Libs: -L\${libdir} -lstrip
EOF
chmod 644 "$prefix/lib/pkgconfig/strip.pc"
# a name that stands for the folder from anywhere; where none is set, none is set here, or cargo would build what is built
[ -z "${STRIP_LIB:-}" ] || export STRIP_LIB="$lib"
if "$here/shelfstrip/cargo.sh" build --release; then
    install -m 755 "$root/target/shelfstrip/release/shelfstrip" "$prefix/bin/shelfstrip"
else
    echo "shelfstrip: not installed, it could not be built"
fi
echo "installed under $prefix"
