#!/bin/bash
# A catalogue of 1,000,000 rows with an index on the canonical tag. Arguments: the folder of bcp47_sqlite.so, `tags` and
# `wanted`; a registry.
for _ in 1 2 3 4 5; do sed 's/"/""/g; s/.*/"&"/' "$1/tags"; done > "$1/catalogue"
wanted=$(grep -cx 'yue' "$1/wanted")
date=$(sed -n '1s/File-Date: //p' "$2")
begun=$(date +%s%N)
got=$(sqlite3 "$1/catalogue.db" ".load $1/bcp47_sqlite" "SELECT bcp47_load('$2');" "CREATE TABLE books (tag TEXT);" ".mode csv" \
    ".import $1/catalogue books" ".mode list" \
    "CREATE INDEX by_canonical ON books (bcp47_canonical(tag, '$date'));" "SELECT count(*) FROM books;" \
    "SELECT count(*) FROM books WHERE bcp47_canonical(tag, '$date') = 'yue';" | tr '\n' ' ')
ended=$(date +%s%N)
rm -f "$1/catalogue.db" "$1/catalogue"
echo "SQLite: 1,000,000 rows loaded and indexed in $(((ended - begun) / 1000000)) ms"
[ "${got#* }" = "1000000 $((5 * wanted)) " ] || { echo "$got" >&2 && exit 1; }
