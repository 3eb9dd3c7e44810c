#!/bin/sh
# Measures checking against validate.rs. usage: bench/validate/run.sh [FOLDER OF THE RUST SOURCES]
# Needs oracle/build.sh to have run, for its copy of syn.
set -eu
here=$(cd "$(dirname "$0")" && pwd)
root=$(cd "$here/../.." && pwd)
sources=$(cd "${1:-$root/../shared/docs/src}" && pwd)
(cd "$root" && tools/staticlib.py strip)
cd "$here"
ORACLE_SOURCES=$sources cargo --config "$root/target/oracle/places.toml" \
    run --offline --release -j 1 --target-dir "$root/target/bench/validate"
