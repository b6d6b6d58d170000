#!/bin/bash
# Tests the example for Dask. Arguments: a folder that has a folder dask; the program.
folder=$1/dask
program=$2
# shellcheck source=tests/bindings/counting.sh
. "$(dirname "$0")/counting.sh"

# without_heartbeats LOG: the records of a log of Dask but those of a heartbeat that failed, as one does that is under way while
# the scheduler closes, on a busy machine.
without_heartbeats() {
    awk 'BEGIN { is_kept = 1 } /^[0-9-]+ [0-9:,]+ - / { is_kept = !/during heartbeat/ } is_kept' "$1"
}

stamp="2026-01-02 03:04:05,678 - distributed"
heartbeat="$stamp.worker - ERROR - Failed to communicate with scheduler during heartbeat."
trace=$'Traceback (most recent call last):\n  File "core.py", line 1'
death="$stamp.nanny - WARNING - Worker exceeded 95% memory budget.  Restarting: killing it"
printf '%s\n' "$heartbeat" "$trace" "$death" "$trace" > "$folder/log"
printf '%s\n' "$death" "$trace" > "$folder/wanted"
writes "Dask: a log without the heartbeats that failed" "$folder/wanted" without_heartbeats "$folder/log"

if $python -c 'import dask.dataframe, distributed' 2> /dev/null; then
    passes "Dask: the package" $python -m pip install -q --no-index --root-user-action=ignore --target "$folder/package" bindings/python
    passes "Dask: 20,000 tags on four workers" env PYTHONPATH="$folder/package" examples/dask/run.sh 20000 "$program"
    cat "$folder/out"
    without_heartbeats "$folder/err" > "$folder/said"
    passes "Dask: no worker is killed" sh -c 'cat "$1"; ! grep -q -i -e killing -e Traceback "$1"' - "$folder/said"
else
    missing Dask
fi
counted dask
