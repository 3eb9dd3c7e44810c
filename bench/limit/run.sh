#!/bin/sh
# Measures reading against a reader written by hand in C, in one run, and compares their sheets. usage: bench/limit/run.sh
# It takes the archive in the folder that STRIP_LIB names, or else proves and builds it (`tools/staticlib.py strip`). It needs cargo and cc.
set -eu
here=$(cd "$(dirname "$0")" && pwd)
root=$(cd "$here/../.." && pwd)
[ -n "${STRIP_LIB:-}" ] || (cd "$root" && tools/staticlib.py strip) >&2
cd "$here"
echo "Machine: $(sed -n 's/^model name.*: //p' /proc/cpuinfo | head -1), $(nproc) processors; $(cc --version | head -1)"
echo "Load before the run: $(cut -d' ' -f1-3 /proc/loadavg)"
cargo run -q --offline --release -j 1 --target-dir "$root/target/bench/limit"
