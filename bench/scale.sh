#!/bin/bash
# Measures so many rows (10,000,000, if no number is given) on four workers of Dask and of PostgreSQL, beside one process, with what
# `make` and `make lib` built. tests/packages.sh installs what it needs.
set -e
cd "$(dirname "$0")/.."
rows=${1:-10000000}
registry=$PWD/examples/iana-2025-05-15.txt
folder=$(mktemp -d)
trap 'rm -rf "$folder"' EXIT
/usr/bin/python3 -m pip install -q --no-index --root-user-action=ignore --target "$folder/python" bindings/python
PYTHONPATH=$folder/python examples/dask/run.sh "$rows"
/usr/bin/python3 bench/make_tags.py "$registry" mixed $((rows < 1000000 ? rows : 1000000)) > "$folder/few"
while cat "$folder/few"; do :; done 2> /dev/null | head -n "$rows" > "$folder/tags"
bench/bindings/parallel.sh "$folder" "$registry"
