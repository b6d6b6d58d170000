#!/bin/bash
# Tests the extension on a server in a folder of its own. Arguments: the folder of `tags`, `wanted`, `explained-tags`, `explained`,
# `shown-tags` and `shown`, IANA's registry, the sample registry.
registry=$2
# what each session runs is counted as it ends
flags=--coverage
# shellcheck source=bindings/postgresql/server.sh
. "$(dirname "$(realpath "$0")")/server.sh"
cp "$3" sample
cp "$1/wanted" "$1/explained-tags" "$1/explained" "$1/shown-tags" "$1/shown" .
chmod 644 sample wanted explained-tags explained shown-tags shown
fail() { echo "$@"; exit 1; }
again() { as_user "$tools/pg_ctl" -D "$folder/data" -m fast -w stop > /dev/null 2>&1; start "$@"; }
# is NAME WANTED COMMAND..: compares what a command prints.
is() {
    local name=$1 wanted=$2 got
    shift 2
    got=$("$@" 2>&1)
    [ "$got" = "$wanted" ] || { diff <(echo "$wanted") <(echo "$got") && exit 1; fail "$name"; }
}

printf 'no registry\n' > bad
mkdir wrong && cp sample wrong/2020-01-01.txt && chmod 755 wrong && chmod 644 bad wrong/*
is 'from version 1.0' "WARNING:  default value for column canonical of table generated does not name its registry: replace it by one that does, else its dump can't be restored
WARNING:  index by_canonical does not name its registry: replace it by one that does, else its dump can't be restored
WARNING:  table parted does not name its registry: replace it by one that does, else its dump can't be restored
t" ask -c "CREATE EXTENSION bcp47 VERSION '1.0'" -c 'CREATE TABLE old (tag text DEFAULT bcp47_canonical($$en$$))' \
    -c 'CREATE INDEX by_canonical ON old (bcp47_canonical(tag))' -c 'CREATE TABLE generated (tag text, canonical text GENERATED ALWAYS AS (bcp47_canonical(tag)) STORED)' \
    -c 'CREATE TABLE parted (tag text) PARTITION BY LIST (bcp47_canonical(tag))' \
    -c 'ALTER EXTENSION bcp47 UPDATE' -c 'DROP TABLE old, generated, parted' -c "SELECT bcp47_equivalent(first => 'iw', second => 'he')" -c 'DROP EXTENSION bcp47'
is extension '' ask -c 'CREATE EXTENSION bcp47'
is answers 'yue|t|BadByte 1
NULL|NULL|NULL|f
NULL|NULL|NULL|NULL
NULL|EmptySubtag 1|TooLong 0' ask -c "SELECT bcp47_canonical('zh-yue'), bcp47_equivalent('zh-yue', 'YUE'), bcp47_fault('en_US')" \
    -c "SELECT bcp47_canonical('en_US'), bcp47_fault('zh-yue'), bcp47_equivalent('en', 'en_US'), bcp47_equivalent('en', 'zh')" \
    -c "SELECT bcp47_canonical(NULL), bcp47_fault(NULL), bcp47_equivalent(NULL, 'en'), bcp47_equivalent('en', NULL)" \
    -c "SELECT bcp47_canonical(''), bcp47_fault(''), bcp47_fault(repeat('a', 100000))"

is parts 'HK|1994-nedis|NULL|NULL
ERROR:  there is no kind of part "regions"' ask -c "SELECT bcp47_part('zh-hant-hk-1994-nedis', 'region'), bcp47_part('zh-hant-hk-1994-nedis', 'Variant'), bcp47_part('en', 'region'), bcp47_part('e_n', 'region')" \
    -c "SELECT bcp47_part('en', 'regions')"

is 'a part that is not replaced' "ERROR:  \"key\" can't be replaced: language, script, region, variant, singleton and privateusesingleton can" \
    ask -c "SELECT bcp47_with('en', 'key', 'co')"
is 'no part' 'ERROR:  there is no kind of part "script "' ask -c "SELECT bcp47_part('e_n', 'script ')"
is 'a part is replaced' 'de-AT|zh-Hant-TW|de|NULL|NULL
ERROR:  there is no kind of part "regions"' ask -c "SELECT bcp47_with('de-CH', 'region', 'AT'), bcp47_with('ZH-tw', 'Script', 'hant'), bcp47_with(tag => 'de-CH', kind => 'region', value => ''), bcp47_with('de', 'region', 'A_'), bcp47_with('de', 'region', NULL)" \
    -c "SELECT bcp47_with('en', 'regions', 'AT')"
is matches 't|t|f|t
NULL|NULL|NULL|NULL|NULL
t' ask -c "SELECT bcp47_match('zh-yue', 'yue-HK'), bcp47_match('de-DE', 'de-Latn-DE'), bcp47_match('de-DE', 'de'), bcp47_match(tag => 'de-CH', range => '*-CH')" \
    -c "SELECT bcp47_match('en', 'e_n'), bcp47_match('e_n', 'en'), bcp47_match('en', NULL), bcp47_match(NULL, 'en'), bcp47_match('', '')" \
    -c "SELECT bcp47_match('zh-yue', 'yue-HK', '$(sed -n '1s/File-Date: //p' registry)')"
is 'readers are served' 'de-DE|he|zh-yue|NULL|NULL|NULL
he' ask -c "SELECT bcp47_best('de, en;q=0.8', 'en,de-DE'), bcp47_best('iw-IL, en;q=0.3', 'en, he'), bcp47_best('zh', string_agg(tag, ', ')), bcp47_best('fr', 'en'), bcp47_best('e_n', 'en'), bcp47_best('en', 'en,e_n') FROM (VALUES ('en'), ('zh-yue')) AS books (tag)" \
    -c "SELECT bcp47_best(tags => 'en,he', accept => 'iw', registry => '$(sed -n '1s/File-Date: //p' registry)')"
is shown '3|Modern Greek (1453-)|NULL|NULL
Modern' ask -c "SELECT json_array_length(bcp47_show('zh-yue')), bcp47_show('EL') -> 0 -> 'fields' -> 0 ->> 'body', bcp47_show('e_n'), bcp47_show(NULL)" \
    -c "SELECT left(bcp47_show('el', registry => '$(sed -n '1s/File-Date: //p' registry)') -> 0 -> 'fields' -> 0 ->> 'body', 6)"
is 'an index by a range without a name' 'ERROR:  functions in index predicate must be marked IMMUTABLE' \
    ask -c 'CREATE TEMP TABLE tagged (tag text)' -c "CREATE INDEX by_range ON tagged (tag) WHERE bcp47_match('zh-yue', tag)"

is 'prepared statements' 'he|he|BadByte 1
NULL' ask -c 'PREPARE asked AS SELECT bcp47_canonical($1), bcp47_canonical($1, $2), bcp47_fault($3)' -c "EXECUTE asked('iw', '$(sed -n '1s/File-Date: //p' registry)', 'en_US')" \
    -c 'SELECT bcp47_canonical(NULL, NULL)'
is 'order and groups' 'he|3
yue|2
NULL|1
2' ask -c "SELECT bcp47_canonical(tag), count(*) FROM (VALUES ('iw'), ('HE'), ('he'::char(9)), ('zh-yue'), ('yue'::varchar), ('日本語')) AS books (tag) GROUP BY 1 ORDER BY 1" \
    -c "SELECT count(DISTINCT bcp47_show(tag)::jsonb) FROM (VALUES ('en'), ('EN'), ('de')) AS books (tag)"
# What pg_dump, psql and an ORM see of the functions.
is catalogue "bcp47_best(accept text, tags text) text s 100
bcp47_best(accept text, tags text, registry text) text i 100
bcp47_canonical(tag text) text s 5
bcp47_canonical(tag text, registry text) text i 5
bcp47_equivalent(first text, second text) boolean s 10
bcp47_equivalent(first text, second text, registry text) boolean i 10
bcp47_explain(tag text) text s 1000
bcp47_explain(tag text, registry text) text i 1000
bcp47_fault(tag text) text s 5
bcp47_fault(tag text, registry text) text i 5
bcp47_match(range text, tag text) boolean s 10
bcp47_match(range text, tag text, registry text) boolean i 10
bcp47_part(tag text, kind text) text i 5
bcp47_registry() text s 1
bcp47_show(tag text) json s 100
bcp47_show(tag text, registry text) json i 100
bcp47_with(tag text, kind text, value text) text i 5
t" ask -F ' ' -c "SELECT format('%s(%s)', proname, pg_get_function_arguments(oid)), pg_get_function_result(oid), provolatile, procost FROM pg_proc
    WHERE proname LIKE 'bcp47%' ORDER BY proname, pronargs" -c "SELECT bool_and(proisstrict AND proparallel = 's') FROM pg_proc WHERE proname LIKE 'bcp47%'"
# states QUERY..: the SQLSTATE of the error of each.
states() { local query; for query; do ask -v VERBOSITY=sqlstate -c "$query"; done; }
is 'SQLSTATEs of a name, of kinds and of types' 'ERROR:  42704
ERROR:  22023
ERROR:  22023
ERROR:  42883
ERROR:  42883' states "SELECT bcp47_canonical('en', '')" "SELECT bcp47_part('en', '')" "SELECT bcp47_with('en', 'key', 'co')" 'SELECT bcp47_canonical(7)' \
    "SELECT bcp47_canonical('en'::bytea)"
is 'what is shown to others' '' sh -c 'nm -D --defined-only "$1" | grep -vE " (Pg_magic_func|_PG_init|pg_finfo_[a-z]+_of|[a-z]+_of)$"' - "$folder/built/bcp47.so"
# A session takes no memory for the registry, which is the server's.
is 'memory of a session' 'en-u-ca-buddhist-nu-latn
t' ask -c "CREATE FUNCTION private_kilobytes() RETURNS int LANGUAGE sql AS \$\$ SELECT substring(pg_read_file('/proc/self/smaps_rollup') FROM 'Private_Dirty: *([0-9]+)')::int \$\$" \
    -c 'CREATE TEMP TABLE before AS SELECT private_kilobytes() AS kilobytes' -c "SELECT bcp47_canonical('en-u-nu-latn-ca-buddhist')" \
    -c 'SELECT private_kilobytes() - kilobytes < 1500 FROM before' -c 'DROP FUNCTION private_kilobytes'

# docs/SQL.md's example
page=$here/../../docs/SQL.md
ask -c 'CREATE DATABASE example' || exit 1
sed -n '/^## PostgreSQL/,$s/^    postgres=# //p' "$page" | ask -d example -F ' | ' > answers 2>&1
diff <(sed -n '/^## PostgreSQL/,${/^    postgres=#/!s/^     *//p}' "$page") answers || exit 1

# 200,000 tags, by an index and in parallel
date=$(sed -n '1s/File-Date: //p' registry)
begun=$(date +%s%N)
ask -c 'CREATE TABLE books (place serial, tag text)' -c "$copy" \
    -c "CREATE INDEX by_canonical ON books (bcp47_canonical(tag, '$date'))" || exit 1
ended=$(date +%s%N)
ask -c "SELECT coalesce(bcp47_canonical(tag), '! ' || bcp47_fault(coalesce(tag, ''))) FROM books ORDER BY place" > answers || exit 1
cmp wanted answers || exit 1
ask -c 'CREATE TABLE explained (place serial, tag text)' -c "COPY explained (tag) FROM '$folder/explained-tags'" || exit 1
ask -c "SELECT coalesce(bcp47_explain(tag), '! ' || bcp47_fault(tag)) FROM explained ORDER BY place" > answers || exit 1
cmp explained answers || exit 1
ask -c 'CREATE TABLE shown (place serial, tag text)' -c "COPY shown (tag) FROM '$folder/shown-tags'" || exit 1
ask -c "SELECT coalesce(bcp47_show(tag)::text, '! ' || bcp47_fault(tag)) FROM shown ORDER BY place" > answers || exit 1
cmp shown answers || exit 1
# A database of another encoding has the letters of Bokmål as its own, and those that it lacks escaped.
ask -c 'CREATE DATABASE latin ENCODING LATIN1 TEMPLATE template0' || exit 1
export PGCLIENTENCODING=UTF8 database=latin
is 'another encoding' 'Norwegian Bokmål|Sauraseni Pr\u0101krit|= en' ask -c 'CREATE EXTENSION bcp47' \
    -c "SELECT bcp47_show('nb') -> 0 -> 'fields' -> 0 ->> 'body', substring(bcp47_show('psu')::text FROM 'Sauraseni [^\"]*'), bcp47_explain('en')"
unset PGCLIENTENCODING database
of_yue="SELECT count(*) FROM books WHERE bcp47_canonical(tag, '$date') = 'yue'"
is 'by the index' "$(grep -cx yue wanted)" ask -c 'SET enable_seqscan = off' -c "$of_yue"
parallel='SET max_parallel_workers_per_gather = 4; SET parallel_setup_cost = 0; SET parallel_tuple_cost = 0; SET min_parallel_table_scan_size = 0'
case $(ask -c "$parallel" -c 'EXPLAIN (COSTS OFF) SELECT count(bcp47_fault(tag)) FROM books') in *Gather*) ;; *) fail 'no parallel plan' ;; esac
is 'in parallel' "$(grep -c '^! ' wanted)" ask -c "$parallel" -c "SELECT count(bcp47_fault(coalesce(tag, ''))) FROM books"

# A session can't take another registry; what names none serves in no index, and what names one only where the server has it.
is 'set in a session' 'ERROR:  parameter "bcp47.registry" cannot be changed without restarting the server' \
    ask -c "SET bcp47.registry = '$folder/sample'"
is 'set in the file' 'ERROR:  invalid value for parameter "bcp47.registry": "/no/such/file"
DETAIL:  could not read the registry "/no/such/file": No such file or directory' ask -c "ALTER SYSTEM SET bcp47.registry = '/no/such/file'"
is 'no registry set in the file' "ERROR:  invalid value for parameter \"bcp47.registry\": \"$folder/bad\"
DETAIL:  the registry \"$folder/bad\" is refused: jar BadLine line 1" ask -c "ALTER SYSTEM SET bcp47.registry = '$folder/bad'"
is 'no folder set in the file' "ERROR:  invalid value for parameter \"bcp47.folder\": \"$folder/wrong\"
DETAIL:  the registry \"$folder/wrong/2020-01-01.txt\" has the File-Date \"2024-01-01\"" ask -c "ALTER SYSTEM SET bcp47.folder = '$folder/wrong'"
is 'set in the file, and read again' 't' ask -c "ALTER SYSTEM SET bcp47.registry = '$folder/sample'" -c "ALTER SYSTEM SET bcp47.folder = '$folder/dates'" \
    -c 'SELECT pg_reload_conf()'
sleep 1
is 'after that' "$date" ask -c "SELECT split_part(bcp47_registry(), ' ', 1)"
is 'set no more' '' ask -c 'ALTER SYSTEM RESET bcp47.registry' -c 'ALTER SYSTEM RESET bcp47.folder'
for setting in registry folder; do
    is "who reads a setting, $setting" "ERROR:  must be superuser or have privileges of pg_read_all_settings to examine \"bcp47.$setting\"" \
        ask -c "CREATE ROLE of_$setting" -c "SET ROLE of_$setting" -c "SHOW bcp47.$setting"
done
is 'an index without a name' 'ERROR:  functions in index expression must be marked IMMUTABLE' \
    ask -c 'CREATE INDEX by_any ON books (bcp47_canonical(tag))'
digest=$(sha256sum < registry | cut -c 1-64)
is 'a name that is not there' "ERROR:  the server has no registry \"2001-01-01\"
DETAIL:  It has $date (${digest:0:8}), by bcp47.registry $date (${digest:0:8}).
HINT:  Put it into the folder that bcp47.folder names, as 2025-05-15.txt by its File-Date, and start the server again: its log names the files that it passed over." \
    ask -c "SELECT bcp47_canonical('en', '2001-01-01')"
is 'which registry' "$date $(grep -c '^%%' registry) $digest" ask -c 'SELECT bcp47_registry()'
is 'named by the digest' 'he|he|he' ask -c "SELECT bcp47_canonical('iw', '$digest'), bcp47_canonical('iw', '${digest:0:8}'), bcp47_canonical('iw', upper('$digest'))"
is 'too short a name' "ERROR:  the server has no registry \"${digest:0:7}\"" ask -v VERBOSITY=terse -c "SELECT bcp47_canonical('iw', '${digest:0:7}')"

# What a name means in the folder is no matter of bcp47.registry, which has the same date here; a file that has no date is no registry.
sed '/^Subtag: iw$/,/^%%$/{/^Preferred-Value: /d;s/^Description: .*/Description: 𐐷ā/;}' registry > same-date
cp sample dates/registries.txt && cp sample dates/.2001-01-01.txt.swp && chmod 644 same-date dates/registries.txt
again -c "bcp47.registry=$folder/same-date" || fail "$(cat start.log log)"
passed_over="WARNING:  the file \"registries.txt\" in \"$folder/dates\" is passed over"
how_to_name='HINT:  Name the file of a registry by its File-Date, as 2025-05-15.txt.'
is 'a wrong name is told at the start' "$passed_over
$how_to_name" sed -n '/passed over$/{N;s/[^\n]* \(WARNING\|HINT\):  /\1:  /g;p}' log
is 'a wrong name is told with the setting' "$passed_over
$how_to_name" ask -c "ALTER SYSTEM SET bcp47.folder = '$folder/dates'" -c 'ALTER SYSTEM RESET bcp47.folder'
is 'the folder comes first' 'he|iw' ask -c "SELECT bcp47_canonical('iw', '$date'), bcp47_canonical('iw')"
is 'escaped' '\ud801\udc37\u0101' env database=latin bash -c "$(declare -f ask as_user); $(declare -p folder user tools); ask -c \"SELECT substring(bcp47_show('iw')::text FROM '.ud801[^,}]*u0101')\""
again || fail "$(cat start.log log)"

# The file is replaced while the server runs, and it starts again with another one: the index has what it says.
cp sample "$folder/registry"
is 'a replaced file' "$date" ask -c "SELECT split_part(bcp47_registry(), ' ', 1)"
again || fail "$(cat start.log log)"
is 'another registry' "2024-01-01|$(grep -cx yue wanted)" ask -c 'SET enable_seqscan = off' -c "SELECT split_part(bcp47_registry(), ' ', 1), ($of_yue)"
is 'a replacement that repeats' 'ReplacementRepeats alalc97' ask -c "SELECT bcp47_fault('ja-Latn-hepburn-alalc97-heploc')"
ask -c "CREATE TABLE kept (tag text CHECK (bcp47_fault(tag, '$date') IS NULL), canonical text GENERATED ALWAYS AS (bcp47_canonical(tag, '$date')) STORED)" \
    -c "INSERT INTO kept VALUES ('iw')" || exit 1
is 'a dump' '' as_user "$tools/pg_dump" -h "$folder" -f "$folder/dump" postgres
ask -c 'CREATE DATABASE restored' || exit 1
database=restored ask -f "$folder/dump" > restored 2>&1 || fail "$(cat restored)"
is 'a restored index' "$(grep -cx yue wanted)|t" env database=restored bash -c "$(declare -f ask as_user); $(declare -p folder user tools); ask -c 'SET enable_seqscan = off' -c \"SELECT (${of_yue//\"/}), (SELECT indisvalid FROM pg_index WHERE indexrelid = 'by_canonical'::regclass)\""

is 'a restored column and constraint' 'he
ERROR:  new row for relation "kept" violates check constraint "kept_tag_check"' env database=restored bash -c "$(declare -f ask as_user); $(declare -p folder user tools)
    ask -c 'SELECT canonical FROM kept' && ask -v VERBOSITY=terse -c \"INSERT INTO kept VALUES ('en_US')\""

# make installcheck, by the sample registry
as_user env PATH="$PATH" bash -c "cd '$folder/built' && true"
[ "$(id -u)" != 0 ] || chown -R "$user" "$folder/built"
(as_user make -s -C "$folder/built" ROOT="$(realpath "$here/../..")" installcheck PGHOST="$folder" REGRESS_OPTS="--host=$folder --user=$user" > check.log 2>&1) ||
    { cat check.log "$folder"/built/regression.diffs && exit 1; }

# What takes long ends, and what the server can't read keeps it from starting.
hostile=en-u-$(for letter in z y x w v; do seq -f "$letter%02g" -s - 65 -1 10; done | paste -sd - | cut -c 1-980)
is 'a long explanation' 'ERROR:  the explanation has more than 20000 steps' ask -c "SET statement_timeout = '20s'" -c "SELECT length(bcp47_explain('${hostile%-}'))"
is 'its SQLSTATE' 'ERROR:  54000' states "SELECT bcp47_explain('${hostile%-}')"
mkdir many && chmod 755 many
truncate -s 70M long
: > empty && mkfifo pipe && cp sample closed && chmod 0 closed
for year in $(seq 2001 2065); do printf 'File-Date: %s-01-01\n%%%%\nType: language\nSubtag: en\n' "$year" > "many/$year-01-01.txt"; done
chmod 644 long empty pipe many/*
for flag in "-c bcp47.registry=/no/such/file" "-c bcp47.registry=$folder/bad" "-c bcp47.folder=$folder/wrong" \
    "-c bcp47.registry=$folder/long" "-c bcp47.folder=$folder/many" "-c bcp47.folder=/no/such/folder" "-c bcp47.registry=$folder/empty" \
    "-c bcp47.registry=$folder/pipe" "-c bcp47.registry=$folder/closed"; do
    again "$flag" && fail "the server starts with $flag"
done
for line in 'could not read the registry "/no/such/file": No such file or directory' 'is refused: jar BadLine line 1' 'has the File-Date "2024-01-01"' \
    '/long": it is too long' '/many" has more than 64 registries' 'could not read the folder "/no/such/folder": No such file or directory' \
    '/empty" is refused: NoEntries' '/pipe": it is no file' '/closed": Permission denied'; do
    grep -qF "$line" log || fail "the log has no $line"
done
start -c bcp47.registry= || fail "$(cat log)"
is 'SQLSTATE where there is no registry' 'ERROR:  55000' states "SELECT bcp47_canonical('en')"
is 'no registry' 'ERROR:  bcp47.registry names no file|he' sh -c 'echo "$1|$2"' - "$(ask -v VERBOSITY=terse -c "SELECT bcp47_canonical('en')" 2>&1)" \
    "$(ask -c "SELECT bcp47_canonical('iw', '$date')")"
as_user "$tools/pg_ctl" -D "$folder/data" -m fast -w stop > /dev/null 2>&1
start -c shared_preload_libraries= -c bcp47.registry= || fail "$(cat log)"
is 'not loaded by the server' 'ERROR:  bcp47 is not loaded by the server' ask -v VERBOSITY=terse -c "SELECT bcp47_canonical('en')"
as_user "$tools/pg_ctl" -D "$folder/data" -m fast -w stop > /dev/null 2>&1
(cd "$folder/built" && gcov -o . bcp47_postgresql.o > report 2>&1)
# Each line is run, but for want of memory and a status that no call has.
not_run=$(grep -hE '^ +#####' "$folder/built/bcp47_postgresql.c.gcov")
[ "$(echo "$not_run" | wc -l)" -le 2 ] || fail "not run: $not_run"
echo "PostgreSQL: 200,000 rows loaded and indexed in $(((ended - begun) / 1000000)) ms"
