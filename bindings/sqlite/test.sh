#!/bin/bash
# Tests of the functions in SQLite, and docs/SQL.md's first example. Arguments: the folder of bcp47_sqlite.so, the sample registry.
here=$(dirname "$(realpath "$0")")
page=$here/../../docs/SQL.md
books=$1/books
rm -rf "$books"
mkdir "$books"
cp "$1/bcp47_sqlite.so" "$books"
cp "$here/../../examples/iana-2025-05-15.txt" "$books/registry.txt"
sed -n '/^## SQLite/,/^## PostgreSQL/s/^    sqlite> //p' "$page" > "$books/example"
sed -n '/^## SQLite/,/^## PostgreSQL/{/^    \(sqlite>\|\$\) /!s/^    //p}' "$page" > "$books/wanted"
(cd "$books" && sqlite3 books.db < example > got 2>&1)
diff "$books/wanted" "$books/got" || exit 1
got=$(sqlite3 :memory: ".load $1/bcp47_sqlite" "SELECT bcp47_canonical('en');" 2>&1)
case $got in *"no registry is loaded"*) ;; *) echo "not loaded: $got" && exit 1 ;; esac
got=$(sqlite3 :memory: ".load $1/bcp47_sqlite" "SELECT bcp47_load('/no/such/file');" 2>&1)
case $got in *'the registry in "/no/such/file" can'"'"'t be read: No such file'*) ;; *) echo "no file: $got" && exit 1 ;; esac
got=$(sqlite3 :memory: ".load $1/bcp47_sqlite" "SELECT bcp47_load(readfile('/no/such/file'));" 2>&1)
case $got in *"bcp47_load takes a path or a blob"*) ;; *) echo "NULL: $got" && exit 1 ;; esac
printf 'no registry\n' > "$1/other"
got=$(sqlite3 :memory: ".load $1/bcp47_sqlite" "SELECT bcp47_load('$1/other');" 2>&1)
case $got in *"the registry in \"$1/other\" is refused: jar BadLine line 1"*) ;; *) echo "refused: $got" && exit 1 ;; esac
got=$(sqlite3 :memory: ".load $1/bcp47_sqlite" "SELECT bcp47_load('$2');" \
    "SELECT bcp47_canonical('zh-yue'), bcp47_equivalent('zh-yue', 'YUE'), bcp47_fault('en_US');" \
    "SELECT bcp47_explain('sgn-dd');" \
    ".nullvalue NULL" \
    "SELECT bcp47_canonical('en_US'), bcp47_fault('zh-yue'), bcp47_equivalent('en', 'en_US'), bcp47_equivalent('en', 'zh');" \
    "SELECT bcp47_canonical(NULL), bcp47_fault(NULL), bcp47_equivalent(NULL, 'en'), bcp47_equivalent('en', NULL);" \
    "SELECT bcp47_match('zh-yue', 'yue-GB'), bcp47_match('de-DE', 'de-Latn-DE'), bcp47_match('de-DE', 'de'), bcp47_match('*-GB', 'de-GB');" \
    "SELECT bcp47_match('en', 'e_n'), bcp47_match('e_n', 'en'), bcp47_match('en', NULL), bcp47_match(NULL, 'en'), bcp47_match('', '');" \
    "SELECT bcp47_explain(NULL), bcp47_explain('en_US'), bcp47_explain('EN');" \
    "SELECT json_extract(bcp47_show('zh-yue'), '\$[1].record'), bcp47_show('en_US'), bcp47_show(NULL), json_array_length(bcp47_show('X-a'));" \
    "SELECT bcp47_canonical(''), bcp47_fault(''), bcp47_fault(x'ff'), bcp47_fault(1);" \
    "SELECT length(bcp47_canonical('en-x-' || substr(replace(hex(zeroblob(700)), '00', 'abcdefgh-'), 1, 1007)));" \
    "SELECT 'zh-yue' = 'YUE' COLLATE BCP47, 'zh' = 'YUE' COLLATE BCP47;" \
    "CREATE TABLE books (tag TEXT); INSERT INTO books VALUES ('zh-yue'), ('en_US'), ('YUE'), ('iw'), ('he'), ('');" \
    "CREATE INDEX by_canonical ON books (bcp47_canonical(tag, '2024-01-01')); CREATE INDEX by_tag ON books (tag COLLATE BCP47_20240101);" \
    "SELECT group_concat(tag, ' ') FROM (SELECT tag FROM books ORDER BY tag COLLATE BCP47, rowid);" \
    "SELECT count(*) FROM books WHERE bcp47_canonical(tag, '2024-01-01') = 'he';" \
    "EXPLAIN QUERY PLAN SELECT * FROM books WHERE bcp47_canonical(tag, '2024-01-01') = 'he';" \
    "EXPLAIN QUERY PLAN SELECT * FROM books WHERE tag = 'he' COLLATE BCP47_20240101;" 2>&1)
wanted='1
yue|1|BadByte 1
Region 2 27 sgn-DE
Whole 1 44 gsg
= gsg
NULL|NULL|NULL|0
NULL|NULL|NULL|NULL
1|1|0|1
NULL|NULL|NULL|NULL|NULL
NULL|NULL|= en
23|NULL|NULL|2
NULL|EmptySubtag 1|BadByte 1|BadLanguage 1
1012
1|0
iw he zh-yue YUE  en_US
2
QUERY PLAN
`--SEARCH books USING INDEX by_canonical (<expr>=?)
QUERY PLAN
`--SEARCH books USING COVERING INDEX by_tag (tag=?)'
[ "$got" = "$wanted" ] && exit 0
diff <(echo "$wanted") <(echo "$got")
exit 1
