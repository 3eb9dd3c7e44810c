#!/bin/sh
# Runs cargo for shelfstrip, with its output in target/shelfstrip: with the crates of Debian's packages where all are there, and else with
# those that cargo fetches from crates.io. usage: cargo.sh SUBCOMMAND [OPTION..], as in `cargo.sh build --release`
set -eu
# cargo's own folder, where the search path leaves it out
PATH=$PATH:${CARGO_HOME:-${HOME:-/root}/.cargo}/bin
here=$(cd "$(dirname "$0")" && pwd)
out=$(cd "$here/../.." && pwd)/target/shelfstrip
subcommand=$1
shift
cd "$here"
if reason=$(./crates.sh "$out"); then
    exec cargo --config "$out/debian.toml" "$subcommand" --locked --offline --target-dir "$out" "$@"
fi
echo "shelfstrip: $reason; cargo fetches the libraries" >&2
exec cargo "$subcommand" --target-dir "$out" "$@"
