#!/bin/sh
# Measures `shelfstrip check` against the Rust's parser and validator on the same 1,860 files. usage: bench/check/run.sh [FOLDER OF THE RUST
# SOURCES]. Needs libstrip.a (`tools/staticlib.py strip`, or its folder in STRIP_LIB), shelfstrip's libraries, and oracle/build.sh to have run, for
# the folder of the crates; syn is the unchanged one.
set -eu
here=$(cd "$(dirname "$0")" && pwd)
root=$(cd "$here/../.." && pwd)
sources=$(cd "${1:-$root/../shared/docs/src}" && pwd)
out=$root/target/bench/check
"$root/bindings/shelfstrip/cargo.sh" build --release
(cd "$here" && ORACLE_SOURCES=$sources cargo --config "$root/target/oracle/plain.toml" \
    build --offline --release -j 1 --target-dir "$out")
echo "Machine: $(sed -n 's/^model name.*: //p' /proc/cpuinfo | head -1), $(nproc) processors; $(rustc --version)"
echo "Load before the run: $(cut -d' ' -f1-3 /proc/loadavg)"
python3 "$here/run.py" "$root/target/shelfstrip/release/shelfstrip" "$out/release/check_bench"
echo "Load after the run: $(cut -d' ' -f1-3 /proc/loadavg)"
