#!/bin/sh
# Measures the library against parser.rs and validate.rs, in one run. usage: bench/strip/run.sh [FOLDER OF THE RUST SOURCES]
# Needs oracle/build.sh to have run, for the folder of the crates; syn is the unchanged one.
set -eu
here=$(cd "$(dirname "$0")" && pwd)
root=$(cd "$here/../.." && pwd)
sources=$(cd "${1:-$root/../shared/docs/src}" && pwd)
(cd "$root" && tools/staticlib.py strip) >&2
cd "$here"
export ORACLE_SOURCES=$sources
run="--offline --release -j 1 --target-dir $root/target/bench/strip"
cargo --config "$root/target/oracle/plain.toml" build $run
echo "Machine: $(sed -n 's/^model name.*: //p' /proc/cpuinfo | head -1), $(nproc) processors; $(rustc --version); $(rt version)"
echo "Load before the run: $(cut -d' ' -f1-3 /proc/loadavg)"
cargo --config "$root/target/oracle/plain.toml" run -q $run
echo
echo "Load after the run: $(cut -d' ' -f1-3 /proc/loadavg)"
