#!/usr/bin/env bash
# Runs the gate in a fresh clone of the committed state, and prints what it took: minutes of the clock and of
# the processors, and crate by crate those of proof, of tests and of edits.
#
# Usage: gate.sh [PROCESSORS]
#
# With a number the gate runs on that many processors. What the gate itself prints goes to standard error.
set -eu
bench=$(cd "$(dirname "$0")" && pwd)
room=$(mktemp -d)
trap 'rm -rf "$room"' EXIT
git clone -q "$bench/.." "$room/clone"
cd "$room/clone"
# (what was proved is kept on this machine)
export XDG_CACHE_HOME=$room/cache
if [ $# -gt 0 ]; then
    taskset -c "0-$(($1 - 1))" "$bench/gate_times.py" .ci/run
else
    "$bench/gate_times.py" .ci/run
fi
