#!/bin/sh
# Builds shelfstrip and tests it: the built program over files and pipes, on a terminal, its page in Chromium and its SVG drawn. The build
# is that of a release, which bindings/install.sh installs. Needs libstrip.a (STRIP_LIB names its folder, target/staticlib by default),
# cargo, Python 3 and the libraries that Cargo.lock names. These come from Debian's packages where all are there:
#     apt-get install librust-clap-dev librust-clap-derive-dev librust-clap-complete-dev librust-codespan-reporting-dev \
#         librust-indicatif-dev librust-serde-json-dev
# and else cargo fetches them from crates.io. Chromium and rsvg-convert (Debian: chromium, librsvg2-bin) draw page and SVG; a line tells
# where one is not there.
set -eu
here=$(cd "$(dirname "$0")" && pwd)
out=$(cd "$here/../.." && pwd)/target/shelfstrip
# the tests' files are in memory where there is room for them: `fmt --write` waits for the disk with each of 4,097
memory=${TMPDIR:-/dev/shm}
[ -w "$memory" ] || memory=/tmp
TMPDIR=$memory "$here/cargo.sh" test --release
python3 -B "$here/tests/terminal.py" "$out/release/shelfstrip"
python3 -B "$here/tests/page.py" "$out/release/shelfstrip" "$out"
python3 -B "$here/tests/drawn.py" "$out/release/shelfstrip" "$out"
