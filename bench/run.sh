#!/bin/sh
# Measures `langtag canon` over four lists of tags, with each registry that is named. It builds nothing: run `make` before.
#
# Usage: bench/run.sh [PROGRAM [REGISTRY..]]
#
# With no registry it takes one that is made, of the size of IANA's. The lists are made from the subtags of the first.
set -eu

bench=$(cd "$(dirname "$0")" && pwd)
program=${1:-$bench/../build/langtag}
[ $# -eq 0 ] || shift
folder=$(mktemp -d)
trap 'rm -rf "$folder"' EXIT

if [ $# -eq 0 ]; then
    python3 "$bench/make_registry.py" > "$folder/registry.txt"
    set -- "$folder/registry.txt"
fi
for list in mixed catalogue distinct new; do
    python3 "$bench/make_tags.py" "$1" $list > "$folder/$list.txt"
done
for registry in "$@"; do
    echo "$(basename "$registry"), $(wc -c < "$registry") bytes"
    python3 "$bench/measure.py" "$program" "$registry" "$folder/mixed.txt" "$folder/catalogue.txt" "$folder/distinct.txt" "$folder/new.txt"
done
