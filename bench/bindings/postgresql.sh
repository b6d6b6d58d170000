#!/bin/bash
# Calls a second of the extension of PostgreSQL, by a server in a folder of its own. Arguments: the folder of `tags`; a registry.
registry=$2
# shellcheck source=bindings/postgresql/server.sh
. "$(dirname "$(realpath "$0")")/../../bindings/postgresql/server.sh"
ask -c 'CREATE EXTENSION bcp47' -c 'CREATE TABLE books (tag text)' -c "$copy" || exit 1
# The session's first question reads the registry, the next two touch each row.
ask -c 'SET max_parallel_workers_per_gather = 0' -c "SELECT bcp47_canonical('en')" -c 'SELECT count(length(tag)) FROM books' \
    -c 'EXPLAIN (ANALYZE, TIMING OFF) SELECT count(length(tag)) FROM books' \
    -c 'EXPLAIN (ANALYZE, TIMING OFF) SELECT count(bcp47_canonical(tag)) FROM books' > answers || exit 1
rows=$(wc -l < tags)
awk -v rows="$rows" '/Execution Time/ { took[++n] = $3 }
    END { printf "PostgreSQL, bcp47_canonical: %.2f million rows a second (without the call %.2f)\n", rows / took[2] / 1000, rows / took[1] / 1000 }' answers
