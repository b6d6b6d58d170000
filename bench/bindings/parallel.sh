#!/bin/bash
# The same question to PostgreSQL by one process and by four workers beside it, over the rows of FOLDER/tags. Arguments: FOLDER; a registry.
registry=$2
# shellcheck source=bindings/postgresql/server.sh
. "$(dirname "$(realpath "$0")")/../../bindings/postgresql/server.sh"
ask -c 'CREATE EXTENSION bcp47' -c 'CREATE TABLE books (tag text)' -c "$copy" -c 'VACUUM ANALYZE books' || exit 1
question="SELECT count(*), count(answer), sum(hashtext(answer)) FROM (SELECT bcp47_canonical(tag) AS answer FROM books) AS answers"
for workers in 0 4; do
    ask -c "SET max_parallel_workers_per_gather = $workers" -c "$question" -c "EXPLAIN (ANALYZE, TIMING OFF) $question" > "answers$workers" || exit 1
    head -n 1 "answers$workers" > "sums$workers"
    awk -v workers="$workers" '/Workers Launched/ { launched = $3 } /Execution Time/ { printf "PostgreSQL, %d workers of %d: %.1f s\n", launched, workers, $3 / 1000 }' "answers$workers"
done
cmp sums0 sums4 && echo "the same sums: $(cat sums0)"
