#!/bin/sh
# Builds the oracle twice, over Debian's syn and over a changed copy of it.
# usage: oracle/build.sh [FOLDER OF THE RUST SOURCES]
# The folder is by default ../shared/docs/src beside the repository.
set -eu
here=$(cd "$(dirname "$0")" && pwd)
root=$(cd "$here/.." && pwd)
sources=$(cd "${1:-$root/../shared/docs/src}" && pwd)
debian=/usr/share/cargo/registry
out=$root/target/oracle

crates="syn-1.0.107 proc-macro2-1.0.47 quote-1.0.21 unicode-ident-1.0.0"
packages="librust-syn-dev librust-proc-macro2-dev librust-quote-dev"

# missing: whether one of the crates is not there.
missing() {
    for crate in $crates; do
        [ -d "$debian/$crate" ] || return 0
    done
    return 1
}

if missing; then
    apt-get install -y $packages || { apt-get update && apt-get install -y $packages; }
fi
if missing; then
    echo "build.sh: $debian has not all of $crates" >&2
    exit 1
fi

# config NAME FOLDER: a cargo configuration that takes crates from FOLDER alone.
config() {
    cat > "$out/$1.toml" <<EOF
[source.crates-io]
replace-with = "$1"
[source.$1]
directory = "$2"
EOF
}

# Makes the changed copy anew if the change is not the one it was made with.
# Cargo does not look for changes in such a folder, so its output goes too.
change() {
    cat "$here/patch-syn.sh" "$here/syn-live.rs" > "$out/change.new"
    if ! cmp -s "$out/change.new" "$out/change"; then
        rm -rf "$out/crates" "$out/places"
        mkdir "$out/crates"
        for crate in $crates; do
            cp -rL "$debian/$crate" "$out/crates/$crate"
        done
        "$here/patch-syn.sh" "$out/crates/syn-1.0.107"
        mv "$out/change.new" "$out/change"
    fi
}

# build NAME FEATURES
build() {
    (cd "$here" && ORACLE_SOURCES=$sources cargo --config "$out/$1.toml" build --offline --release \
        -j "${ORACLE_JOBS:-1}" --target-dir "$out/$1" --features "$2")
}

mkdir -p "$out"
change
config plain $debian
config places "$out/crates"
build plain ""
build places places
echo "built $out/places/release/oracle"
