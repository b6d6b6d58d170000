#!/bin/bash
# Answers each line of `tags` as the program does. Arguments: the folder of bcp47_sqlite.so, `tags`, `wanted`, and the few tags
# `explained-tags` with their explanations `explained`, `shown-tags` with what is shown of them, `shown`; a registry.

# answers FOLDER REGISTRY TAGS FUNCTION WANTED: the texts of a function of each line, or why there is none.
answers() {
    rm -f "$1/answers.db"
    sed 's/"/""/g; s/.*/"&"/' "$1/$3" > "$1/tags.csv"
    sqlite3 "$1/answers.db" ".load $1/bcp47_sqlite" "SELECT bcp47_load('$2');" "CREATE TABLE lines (tag TEXT);" ".mode csv" \
        ".import $1/tags.csv lines" ".mode list" ".output $1/sqlite-answers" \
        "SELECT coalesce($4(tag), '! ' || bcp47_fault(tag)) FROM lines ORDER BY rowid;" > "$1/loaded" || exit 1
    rm -f "$1/answers.db"
    cmp "$1/$5" "$1/sqlite-answers"
}
answers "$1" "$2" tags bcp47_canonical wanted && answers "$1" "$2" explained-tags bcp47_explain explained &&
    answers "$1" "$2" shown-tags bcp47_show shown
