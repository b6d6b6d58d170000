#!/bin/bash
# Calls a second of the extension of SQLite. Arguments: the folder of bcp47.so and `tags`; a registry.
sed 's/"/""/g; s/.*/"&"/' "$1/tags" > "$1/tags.csv"
sqlite3 :memory: > "$1/answers" << END || exit 1
.load $1/bcp47_sqlite
SELECT bcp47_load('$2');
CREATE TABLE books (tag TEXT);
.mode csv
.import $1/tags.csv books
.mode list
.timer on
SELECT count(length(tag)) FROM books;
SELECT count(bcp47_canonical(tag)) FROM books;
END
awk -v rows="$(wc -l < "$1/tags")" '/^Run Time/ { took[++n] = $6 + $8 }
    END { printf "SQLite, bcp47_canonical: %.2f million rows a second (without the call %.2f)\n", rows / took[2] / 1e6, rows / took[1] / 1e6 }' "$1/answers"
