#!/bin/sh
# Makes a folder of the crates that Cargo.lock names, copied from Debian's packages, and a cargo configuration that takes crates from it
# alone. Debian's own folder has texts in the place of some checksums; the copies have what Cargo.lock has.
# usage: crates.sh FOLDER; ends with 1 and names the crate if one is not there.
set -eu
here=$(cd "$(dirname "$0")" && pwd)
debian=/usr/share/cargo/registry
mkdir -p "$1"
out=$(cd "$1" && pwd)

# name, version and checksum (or null) of each package that is not of this repository
awk -F' = ' '
    function flush() { if (source != "") print name, version, checksum; source = ""; checksum = "null" }
    /^\[\[package\]\]/ { flush() }
    /^name/ { gsub(/"/, "", $2); name = $2 }
    /^version/ { gsub(/"/, "", $2); version = $2 }
    /^source/ { source = $2 }
    /^checksum/ { checksum = $2 }
    END { flush() }
' "$here/Cargo.lock" > "$out/list.new"

while read -r name version checksum; do
    if [ ! -d "$debian/$name-$version" ]; then
        echo "$debian has no $name-$version"
        exit 1
    fi
done < "$out/list.new"

if [ ! -d "$out/crates" ] || ! cmp -s "$out/list.new" "$out/list"; then
    rm -rf "$out/crates" "$out/list"
    mkdir "$out/crates"
    while read -r name version checksum; do
        cp -rL "$debian/$name-$version" "$out/crates/"
        rm -f "$out/crates/$name-$version/.cargo-checksum.json"
        echo "{\"package\":$checksum,\"files\":{}}" > "$out/crates/$name-$version/.cargo-checksum.json"
    done < "$out/list.new"
    mv "$out/list.new" "$out/list"
fi
cat > "$out/debian.toml" <<END
[source.crates-io]
replace-with = "debian"
[source.debian]
directory = "$out/crates"
END
