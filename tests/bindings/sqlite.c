/* Refuses each growth of memory in turn, of the extension's and of SQLite's, while statements ask; then answers as where no memory
   is left for a call among many. Linked with bindings/sqlite/bcp47_sqlite.c, which is compiled with -DSQLITE_CORE, and with
   -Wl,--wrap=malloc and so on. Argument: the sample registry. */
#include "support.h"
#include <sqlite3.h>

int sqlite3_extension_init(sqlite3 *, char **, const void *);
void *__real_malloc(size_t), *__real_calloc(size_t, size_t), *__real_realloc(void *, size_t);
void *__wrap_malloc(size_t), *__wrap_calloc(size_t, size_t), *__wrap_realloc(void *, size_t);
bcp47_outcome __real_bcp47_canonical(const bcp47_registry *, const char *, size_t, char *, size_t);
bcp47_outcome __wrap_bcp47_canonical(const bcp47_registry *, const char *, size_t, char *, size_t);
static long refused_at = 0, growths = 0;
/* how many further calls are busy */
static int busy_calls = 0;
static sqlite3_mem_methods methods;

static int is_refused(void) {
    return ++growths == refused_at;
}

void *__wrap_malloc(size_t size) {
    return is_refused() ? NULL : __real_malloc(size);
}

void *__wrap_calloc(size_t items, size_t size) {
    return is_refused() ? NULL : __real_calloc(items, size);
}

void *__wrap_realloc(void *old, size_t size) {
    return is_refused() ? NULL : __real_realloc(old, size);
}

static void *of_sqlite(int size) {
    return is_refused() ? NULL : methods.xMalloc(size);
}

static void *more_of_sqlite(void *old, int size) {
    return is_refused() ? NULL : methods.xRealloc(old, size);
}

bcp47_outcome __wrap_bcp47_canonical(const bcp47_registry *registry, const char *text, size_t length, char *buffer, size_t room) {
    if (!busy_calls) return __real_bcp47_canonical(registry, text, length, buffer, room);
    busy_calls--;
    return (bcp47_outcome){.status = BCP47_BUSY};
}

static const char *path;

static const struct {
    const char *statement, *wanted;
} rows[] = {
    {"SELECT bcp47_canonical('en')", NULL},
    {"SELECT bcp47_match('en', 'en')", NULL},
    {"SELECT bcp47_show('en')", NULL},
    {"SELECT bcp47_best('en', 'en')", NULL},
    {"SELECT bcp47_registry()", "NULL"},
    {"SELECT bcp47_load(?)", "1"},
    {"SELECT bcp47_load(?)", "1"},
    {"SELECT bcp47_load(x'6e6f')", NULL},
    {"SELECT bcp47_load(cast(? AS blob))", NULL},
    {"SELECT bcp47_canonical('zh-yue')", "yue"},
    {"SELECT bcp47_canonical('en-u-nu-latn-ca-buddhist', '2024-01-01')", "en-u-ca-buddhist-nu-latn"},
    {"SELECT bcp47_canonical(12)", "NULL"},
    {"SELECT bcp47_fault('en_US')", "BadByte 1"},
    {"SELECT bcp47_fault('ja-Latn-hepburn-alalc97-heploc')", "ReplacementRepeats alalc97"},
    {"SELECT bcp47_explain('sgn-dd')", "Region 2 27 sgn-DE\nWhole 1 44 gsg\n= gsg"},
    {"SELECT bcp47_show('YUE')", "[{\"place\":1,\"kind\":\"Language\",\"text\":\"yue\",\"listing\":\"Record\",\"record\":16,\"fields\":[]}]"},
    {"SELECT json_extract(bcp47_show('zh-yue', '2024-01-01'), '$[1].fields[0].body')", "yue"},
    {"SELECT bcp47_show('en', 'none')", NULL},
    {"SELECT bcp47_show('e_n') IS NULL AND bcp47_show(NULL) IS NULL AND length(bcp47_show('x' || replace(hex(zeroblob(250)), '00', '-a-a'))) > 9999", "1"},
    {"SELECT bcp47_equivalent('en-u-ca-buddhist-nu-latn', 'en-u-nu-latn-ca-buddhist')", "1"},
    {"SELECT bcp47_match('zh-yue', 'yue-GB')", "1"},
    {"SELECT bcp47_match('de', 'en-u-ca-buddhist-nu-latn', '2024-01-01')", "0"},
    {"SELECT bcp47_match('en', 'e_n') IS NULL AND bcp47_match('e_n', 'en') IS NULL AND bcp47_match(NULL, 'en') IS NULL AND "
     "bcp47_match('en', NULL) IS NULL", "1"},
    {"SELECT bcp47_best('de-DE;q=0.5, iw', 'en, de , he', '2024-01-01')", "he"},
    {"SELECT bcp47_best('de', 'en') IS NULL AND bcp47_best('e_n', 'en') IS NULL AND bcp47_best('en', 'e_n') IS NULL AND bcp47_best(NULL, 'en') IS NULL", "1"},
    {"SELECT bcp47_part('zh-hant-hk', 'script')", "Hant"},
    {"SELECT substr(bcp47_registry(), 1, 10)", "2024-01-01"},
    {"SELECT bcp47_canonical(NULL) IS NULL AND bcp47_fault(NULL) IS NULL AND bcp47_explain(NULL) IS NULL AND bcp47_equivalent(NULL, 'en') "
     "IS NULL AND bcp47_equivalent('en', NULL) IS NULL AND bcp47_part(NULL, 'key') IS NULL AND bcp47_part('en', NULL) IS NULL", "1"},
    {"SELECT bcp47_canonical('e_n') IS NULL AND bcp47_fault('en') IS NULL AND bcp47_explain('e_n') IS NULL AND bcp47_equivalent('en', 'e_n') "
     "IS NULL AND bcp47_part('e_n', 'key') IS NULL AND bcp47_part('en', 'key') IS NULL AND bcp47_equivalent('en', 'de') = 0", "1"},
    {"SELECT bcp47_with('de-CH', 'region', 'AT') || ' ' || bcp47_with('ZH-tw', 'Script', 'hant')", "de-AT zh-Hant-TW"},
    {"SELECT bcp47_with('de', 'region', 'A_') IS NULL AND bcp47_with('x-a', 'region', 'AT') IS NULL AND bcp47_with(NULL, 'region', 'AT') IS NULL", "1"},
    {"SELECT bcp47_with('de', 'regions', 'AT')", NULL},
    {"SELECT bcp47_with('de', 'key', 'co')", NULL},
    {"SELECT bcp47_part('en', 'regions')", NULL},
    {"SELECT bcp47_part('e_n', 'regions')", NULL},
    {"SELECT bcp47_canonical('en', '0123456789' || hex(zeroblob(32)))", NULL},
    {"SELECT bcp47_load(NULL)", NULL},
    {"SELECT bcp47_load(7)", NULL},
    {"SELECT bcp47_load('/no/such/file')", NULL},
    {"SELECT bcp47_load('/')", NULL},
    {"SELECT bcp47_load(x'')", NULL},
    {"SELECT bcp47_load(cast('Type: language' || char(10) || 'Subtag: en' AS blob))", NULL},
    {"SELECT bcp47_canonical('en', 'none')", NULL},
    {"SELECT bcp47_canonical('en', '0123456789')", NULL},
    {"SELECT bcp47_canonical('en', NULL)", NULL},
    {"SELECT group_concat(column1, ' ') FROM (SELECT column1 FROM (VALUES ('yue'), ('en-u-nu-latn-ca-buddhist'), ('iw'), ('e_n'), "
     "('en-u-ca-buddhist-nu-latn')) ORDER BY column1 COLLATE BCP47)", "en-u-nu-latn-ca-buddhist en-u-ca-buddhist-nu-latn iw yue e_n"},
    {"SELECT 'iw' < 'yue' COLLATE BCP47_20240101", "1"},
};

/* The first value of a statement: it is what is wanted, or else a growth was refused. */
static void ask(sqlite3 *database, const char *statement, const char *wanted) {
    sqlite3_stmt *prepared = NULL;
    long before = growths;
    int status = sqlite3_prepare_v2(database, statement, -1, &prepared, NULL);
    if (!status) status = strchr(statement, '?') ? sqlite3_bind_text(prepared, 1, path, -1, SQLITE_STATIC) : SQLITE_OK;
    if (!status) status = sqlite3_step(prepared);
    const char *text = status == SQLITE_ROW ? (const char *)sqlite3_column_text(prepared, 0) : NULL;
    int is_same = status == SQLITE_ROW && wanted && !strcmp(text ? text : "NULL", wanted);
    if (!is_same && !((status == SQLITE_ERROR || status == SQLITE_NOMEM) && !wanted) && !(before < refused_at && refused_at <= growths)) {
        fprintf(stderr, "%s: %d %s\n", statement, status, text ? text : sqlite3_errmsg(database));
        failures++;
    }
    sqlite3_finalize(prepared);
}

/* All statements, with the growth of this number refused; answers whether one was. */
static int run(long number) {
    sqlite3 *database;
    growths = 0;
    refused_at = number;
    if (!sqlite3_open(":memory:", &database) && !sqlite3_extension_init(database, NULL, NULL))
        for (size_t i = 0; i < sizeof rows / sizeof *rows; i++) ask(database, rows[i].statement, rows[i].wanted);
    CHECK(!sqlite3_close(database));
    return growths >= number;
}

/* An order that another extension gave. */
static int no_order(void *data, int first_length, const void *first, int second_length, const void *second) {
    (void)data, (void)first_length, (void)first, (void)second_length, (void)second;
    return 0;
}

int main(int count, char **words) {
    if (count < 2) return 3;
    path = words[1];
    sqlite3_config(SQLITE_CONFIG_GETMALLOC, &methods);
    sqlite3_mem_methods counted = methods;
    counted.xMalloc = of_sqlite;
    counted.xRealloc = more_of_sqlite;
    sqlite3_config(SQLITE_CONFIG_MALLOC, &counted);
    long number = 0, runs = 0;
    while (run(number)) number++, runs++;
    CHECK(number > 100);
    sqlite3 *database;
    refused_at = 0;
    CHECK(!sqlite3_open(":memory:", &database) && !sqlite3_extension_init(database, NULL, NULL));
    CHECK(!sqlite3_create_collation_v2(database, "BCP47", SQLITE_UTF8, NULL, no_order, NULL));
    ask(database, "SELECT bcp47_load(?)", NULL);
    ask(database, "SELECT bcp47_registry()", "NULL");
    CHECK(!sqlite3_close(database));
    CHECK(!sqlite3_open(":memory:", &database) && !sqlite3_extension_init(database, NULL, NULL));
    ask(database, "SELECT bcp47_load(?)", "1");
    ask(database, "SELECT bcp47_load('/dev/zero')", NULL);
    ask(database, "WITH RECURSIVE n (i) AS (VALUES (0) UNION ALL SELECT i + 1 FROM n WHERE i < 249) "
                  "SELECT bcp47_explain('en-u-' || group_concat(char(122 - i / 66) || printf('%02d', 65 - i % 66), '-')) FROM n", NULL);
    busy_calls = 2;
    ask(database, "SELECT bcp47_canonical('en')", NULL);
    CHECK(sqlite3_errcode(database) == SQLITE_NOMEM);
    ask(database, "SELECT bcp47_fault('en')", NULL);
    CHECK(sqlite3_errcode(database) == SQLITE_NOMEM);
    CHECK(!sqlite3_exec(database, "CREATE TABLE tags (tag TEXT COLLATE BCP47 PRIMARY KEY); INSERT INTO tags VALUES ('en'), ('de')", NULL, NULL, NULL));
    busy_calls = 250;
    ask(database, "INSERT INTO tags VALUES ('fr') RETURNING tag", "fr");
    CHECK(!busy_calls);
    ask(database, "SELECT group_concat(tag, ' ') FROM (SELECT tag FROM tags ORDER BY tag)", "de en fr");
    ask(database, "PRAGMA integrity_check", "ok");
    CHECK(!sqlite3_close(database));
    sqlite3_shutdown();
    if (!failures) printf("SQLite: %ld growths refused in turn\n", runs);
    return failures != 0;
}
