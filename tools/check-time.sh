#!/usr/bin/env bash
# check-time.sh REV..: proves each commit given from nothing (`rt all check`), one after the other, in a worktree of its own, and tells
# wall clock and processor time. Nothing else should run meanwhile. Four checks at a time, unless RT_JOBS says otherwise.
set -eu
cd "$(git rev-parse --show-toplevel)"
export RT_JOBS=${RT_JOBS:-4}
room=$(mktemp -d)
trap 'git worktree remove --force "$room/tree" 2>/dev/null || true; rm -rf "$room"' EXIT
for rev in "$@"; do
    git worktree add --quiet --detach "$room/tree" "$rev"
    (
        cd "$room/tree"
        TIMEFORMAT="$(git rev-parse --short HEAD): %0R s, %0U s of processor time and %0S s in the system"
        time rt all check --jobs "$RT_JOBS" >"$room/log" 2>&1 || { tail -n 5 "$room/log" && exit 1; }
        tail -n 1 "$room/log"
    )
    git worktree remove --force "$room/tree"
done
