#!/bin/sh
# The tests: the names that the documents cite, the code that tools/words.py makes, the files that docs/CHANGING.md lists, the definitions that a reader must believe,
# then every crate proved, every must-fail edit refused, every file's layout and every program's output compared (`rt ci`), no edit that
# cannot be tried, and the bindings on the archive that was proved. Its last line is rt ci's own, 'N passed, M failed'.
set -eu
cd "$(dirname "$0")"
python3 tools/names.py
python3 tools/words.py --check
python3 tools/changing.py
python3 tools/definitions.py
room=$(mktemp -d)
trap 'rm -rf "$room"' EXIT
{ rt ci 2>&1 && touch "$room/passed"; } | tee "$room/log"
[ -e "$room/passed" ]
# rt ci passes over an edit that cannot be applied or read, and says `, N bad`
if grep -Eq '^rt: ok;.*must-fail edits: [^;]*, [1-9][0-9]* bad(;|$)' "$room/log"; then
    echo "test.sh: must-fail edits that cannot be tried, as told above" >&2
    exit 1
fi
bindings/test.sh --after-ci
tail -n 1 "$room/log"
