#!/bin/sh
# Runs canon.py and column.py on four workers, and compares what they write with what one process writes, byte for byte.
#
# Usage: run.sh [LINES [PROGRAM]]     200,000 lines, and build/langtag, if they are not named
#
# It needs a python with Dask's distributed scheduler and pandas, as Debian's with python3-distributed and
# python3-pandas, which PYTHON may name; in it, or in the folder that PYTHONPATH names, the package bcp47; and the
# program.
set -eu

root=$(cd "$(dirname "$0")/../.." && pwd)
program=${2:-$root/build/langtag}
registry=$root/examples/iana-2025-05-15.txt
lines=${1:-200000}
folder=$(mktemp -d)
trap 'rm -rf "$folder"' EXIT

for python in ${PYTHON:-python3 /usr/bin/python3}; do
    "$python" -c 'import bcp47, dask.dataframe, distributed' 2> /dev/null && break
    python=
done
if [ -z "$python" ]; then
    echo "no python with dask, distributed, pandas and bcp47: install them, or name one by PYTHON" >&2
    exit 1
fi

export PYTHONDONTWRITEBYTECODE=1
# timed NAME COMMAND..: runs a command, and says how long it took.
timed() {
    name=$1
    shift
    begin=$(date +%s%N)
    "$@"
    echo "$name: $((($(date +%s%N) - begin) / 100000000)) tenths of a second" >&2
}

few=$((lines < 1000000 ? lines : 1000000))
"$python" "$root/bench/make_tags.py" "$registry" mixed "$few" | grep -v '[",]' > "$folder/few"
while cat "$folder/few"; do :; done 2> /dev/null | head -n "$lines" > "$folder/tags"
(echo id,tag && awk '{print NR "," $0}' "$folder/tags") > "$folder/rows.csv"
"$program" canon "$registry" < "$folder/tags" > "$folder/one" || [ $? = 1 ]
timed "the program, 4 workers" "$python" "$root/examples/dask/canon.py" "$program" "$registry" "$folder/tags" > "$folder/many"
cmp "$folder/one" "$folder/many"
timed "a column, 1 process" "$python" "$root/examples/dask/column.py" --workers 0 "$registry" "$folder/rows.csv" "$folder/whole"
timed "a column, 4 workers" "$python" "$root/examples/dask/column.py" "$registry" "$folder/rows.csv" "$folder/parts"
cat "$folder"/parts/part-*.csv | cmp "$folder/whole/whole.csv" -
# the program's answers, from the two columns
"$python" -c 'import csv, sys
for row in csv.DictReader(open(sys.argv[1], newline="")): print(row["canonical"] or "! " + row["fault"])' "$folder/whole/whole.csv" |
    cmp "$folder/one" -
echo "$(wc -l < "$folder/many") lines, the same"
