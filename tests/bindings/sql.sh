#!/bin/bash
# Tests SQLite's and PostgreSQL's functions. Arguments: the folder of tests/bindings.sh, which has tags and what the program answers; the program.
shared=$1
folder=$1/sql
program=$2
# shellcheck source=tests/bindings/counting.sh
. "$(dirname "$0")/counting.sh"
mkdir "$folder/coverage"
ln -s "$shared"/{tags,wanted,few,explained-tags,explained,shown-tags,shown} "$folder"
passes "compile for SQLite" gcc -O2 -fPIC -shared -fvisibility=hidden -Wl,--exclude-libs,ALL -Wall -Wextra -Werror -Ibindings/c \
    -o "$folder/bcp47_sqlite.so" bindings/sqlite/bcp47_sqlite.c build/libbcp47.a
made sqlite tests/bindings/sqlite.c bindings/sqlite/bcp47_sqlite.c $files $memory -DSQLITE_CORE -lsqlite3 "$wrapped,--wrap=bcp47_canonical"
passes "SQLite: each growth refused under sanitizers" "$folder/sqlite" "$sample"
cat "$folder/out"
# shellcheck disable=SC2086
passes "compile SQLite's file for gcov" gcc $flags -O0 --coverage -DSQLITE_CORE -c bindings/sqlite/bcp47_sqlite.c -o "$folder/coverage/bcp47_sqlite.o"
made coverage/sqlite tests/bindings/sqlite.c "$folder/coverage/bcp47_sqlite.o" build/libbcp47.a --coverage -lsqlite3 "$wrapped,--wrap=bcp47_canonical"
passes "SQLite for gcov" "$folder/coverage/sqlite" "$sample"
(cd "$folder/coverage" && gcov -o . bcp47_sqlite.o > report 2>&1)
passes "each line of SQLite's file is run" grep -qz "bcp47_sqlite.c'.Lines executed:100.00%" "$folder/coverage/report"
passes "each line that SQLite and PostgreSQL share is run" grep -qz "sql.h'.Lines executed:100.00%" "$folder/coverage/report"
passes "SQLite's tests" bindings/sqlite/test.sh "$folder" "$sample"
passes "SQLite: indexes, registries, connections, threads" $python -W error bindings/sqlite/test_habits.py "$folder" "$sample" build/libbcp47.so.1
passes "SQLite answers as the program" bindings/sqlite/answers.sh "$folder" "$registry"
passes "a catalogue of 1,000,000 rows" bindings/sqlite/catalogue.sh "$folder" "$registry"
cat "$folder/out"

passes "PostgreSQL's tests" bindings/postgresql/test.sh "$folder" "$registry" "$sample"
cat "$folder/out"
counted sql
