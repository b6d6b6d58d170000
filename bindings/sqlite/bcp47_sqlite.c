/* SPDX-License-Identifier: MIT OR Apache-2.0 */
/* BCP 47 language tags in SQLite: docs/SQL.md tells of the functions. A connection has one registry. Connections of a process
   that read the same bytes share it. */
#include "sql.h"
#include <stdarg.h>
#include <sqlite3ext.h>
SQLITE_EXTENSION_INIT1

/* ---- registries of the process */

typedef struct shared {
    named_registry named;
    char *bytes; /* what it was read from */
    size_t length;
    int users;
    struct shared *next;
} shared;

static shared *all;

static sqlite3_mutex *mutex(void) {
    return sqlite3_mutex_alloc(SQLITE_MUTEX_STATIC_APP1);
}

/* One user less; the last one closes it. */
static void leave(shared *it) {
    if (!it) return;
    sqlite3_mutex_enter(mutex());
    if (!--it->users) {
        shared **place = &all;
        while (*place != it) place = &(*place)->next;
        *place = it->next;
        bcp47_close(it->named.registry);
        free(it->bytes);
        free(it);
    }
    sqlite3_mutex_leave(mutex());
}

/* The registry of the bytes, which it keeps or frees, with one user more; NULL where they are none, with the line. */
static shared *join(char *bytes, size_t length, char line[BCP47_LINE]) {
    shared *it;
    sqlite3_mutex_enter(mutex());
    for (it = all; it; it = it->next)
        if (it->length == length && !memcmp(it->bytes, bytes, length)) break;
    if (it) {
        free(bytes);
        it->users++;
    } else if ((it = calloc(1, sizeof *it))) {
        bcp47_outcome outcome = bcp47_open(&it->named.registry, bytes, length, line, BCP47_LINE);
        if (outcome.status == BCP47_DONE) {
            take_names(&it->named);
            it->bytes = bytes, it->length = length, it->users = 1, it->next = all;
            all = it;
        } else {
            free(it), free(bytes);
            it = NULL;
        }
    } else {
        free(bytes);
        strcpy(line, "OutOfMemory");
    }
    sqlite3_mutex_leave(mutex());
    return it;
}

/* ---- connections */

typedef struct {
    sqlite3 *database;
    shared *held;
    char *from; /* what that was loaded from, for a message */
    int users;  /* functions and collations that have it */
    int orders; /* collations that it has */
} connection;

static void release(void *data) {
    connection *c = data;
    if (--c->users) return;
    leave(c->held);
    sqlite3_free(c->from);
    free(c);
}

/* Answers an error. */
static void say(sqlite3_context *context, const char *format, ...) {
    va_list words;
    va_start(words, format);
    char *text = sqlite3_vmprintf(format, words), *message = text ? sqlite3_mprintf("bcp47: %s", text) : NULL;
    va_end(words);
    if (message) sqlite3_result_error(context, message, -1);
    else sqlite3_result_error_nomem(context);
    sqlite3_free(text);
    sqlite3_free(message);
}

static int collate(void *, int, const void *, int, const void *);

/* Makes the orders by the connection's registry: BCP47, and for tables and indexes those that name it, by its digest and its date.
   That is not before it is loaded: without it they could not compare, and can't tell an error. Whether all are made. */
static int make_orders(connection *c) {
    char names[3][20] = {"BCP47"};
    const char *date = c->held->named.info.file_date;
    snprintf(names[1], sizeof *names, "BCP47_%.8s", c->held->named.digest);
    if (*date) snprintf(names[2], sizeof *names, "BCP47_%.4s%.2s%.2s", date, date + 5, date + 8);
    for (; c->orders < 3 && *names[c->orders]; c->orders++, c->users++)
        if (sqlite3_create_collation_v2(c->database, names[c->orders], SQLITE_UTF8, c, collate, release) != SQLITE_OK) return 0;
    return 1;
}

/* bcp47_load(path or blob) */
static void load(sqlite3_context *context, int count, sqlite3_value **values) {
    connection *c = sqlite3_user_data(context);
    char line[BCP47_LINE] = "", *bytes;
    size_t length;
    int type = sqlite3_value_type(values[0]);
    (void)count;
    if (type != SQLITE_TEXT && type != SQLITE_BLOB)
        return say(context, "bcp47_load takes a path or a blob: where a registry is, or its bytes");
    const char *path = type == SQLITE_TEXT ? (const char *)sqlite3_value_text(values[0]) : NULL, *why = NULL;
    char *from = path || type == SQLITE_BLOB ? sqlite3_mprintf(path ? "\"%s\"" : "a blob", path) : NULL;
    if (!from) return sqlite3_result_error_nomem(context);
    if (path) {
        why = read_file(path, &bytes, &length);
    } else {
        const void *blob = sqlite3_value_blob(values[0]);
        length = (size_t)sqlite3_value_bytes(values[0]);
        bytes = malloc(length + 1);
        if (bytes && length) memcpy(bytes, blob, length);
        if (!bytes) why = "OutOfMemory";
    }
    shared *it = why ? NULL : join(bytes, length, line);
    if (!it) {
        say(context, why ? "the registry in %s can't be read: %s" : "the registry in %s is refused: %s", from, why ? why : line);
    } else if (c->held && it != c->held) {
        say(context, "another registry is loaded, %s from %s: open another connection to load %s from %s", c->held->named.names, c->from,
            it->named.names, from);
        leave(it);
    } else {
        if (c->held) leave(it);
        else c->held = it, c->from = from, from = NULL;
        if (make_orders(c)) sqlite3_result_int(context, 1);
        else say(context, "the collation can't be made: %s", sqlite3_errmsg(c->database));
        if (!c->orders) {
            from = c->from, c->from = NULL, c->held = NULL;
            leave(it);
        }
    }
    sqlite3_free(from);
}

/* bcp47_registry(): File-Date, number of entries, SHA-256 */
static void registry(sqlite3_context *context, int count, sqlite3_value **values) {
    connection *c = sqlite3_user_data(context);
    char line[2 * BCP47_LINE];
    (void)count, (void)values;
    if (!c->held) return;
    tell_registry(&c->held->named, line);
    sqlite3_result_text(context, line, -1, SQLITE_TRANSIENT);
}

/* ---- tags */

/* Answers a question of so many texts, after which there may be the name of a registry, where it asks one. */
static void tell(sqlite3_context *context, int count, sqlite3_value **values, question *asks, int texts, int asks_registry) {
    connection *c = sqlite3_user_data(context);
    given of[4] = {{NULL, 0}};
    answer to;
    to.text = to.taken = NULL;
    for (int i = 0; i < count; i++) {
        int is_null = sqlite3_value_type(values[i]) == SQLITE_NULL;
        if (is_null && i < texts) return;
        of[i].bytes = (const char *)sqlite3_value_text(values[i]);
        of[i].length = (size_t)sqlite3_value_bytes(values[i]);
        if (!of[i].bytes && !is_null) return sqlite3_result_error_nomem(context);
    }
    if (asks_registry && !c->held) return say(context, "no registry is loaded: call bcp47_load(path) first");
    if (count > texts && !(of[texts].bytes && is_named(&c->held->named, of[texts])))
        return say(context, "the registry that is loaded has another name than %Q: it is %s from %s. Ask by this name, or load "
                   "the other registry in another connection", of[texts].bytes, c->held->named.names, c->from);
    asks(asks_registry ? c->held->named.registry : NULL, of, &to);
    switch (to.outcome.status) {
    case BCP47_DONE:
    case BCP47_DIFFERENT:
        if (!to.text) sqlite3_result_int(context, to.outcome.status == BCP47_DONE);
        else sqlite3_result_text64(context, to.text, to.outcome.length, to.taken ? bcp47_free : SQLITE_TRANSIENT, SQLITE_UTF8);
        break;
    case BCP47_NOT_A_TAG:
    case BCP47_INVALID:
    case BCP47_REPLACEMENT_REPEATS:
    case BCP47_BAD_HEADER:
        break;
    case BCP47_OUT_OF_MEMORY:
    case BCP47_BUSY:
        sqlite3_result_error_nomem(context);
        break;
    default:
        say(context, why_not(to.outcome, of), (int)of[1].length, of[1].bytes);
    }
}

#define FUNCTION(asks, name, texts, asks_registry)                                       \
    static void asks##_of(sqlite3_context *context, int count, sqlite3_value **values) { \
        tell(context, count, values, asks, texts, asks_registry);                        \
    }
FUNCTIONS(FUNCTION)

/* Texts compare by their canonical texts, where they have one; those that have none come last, by their bytes. A collation can't answer
   an error, and a statement may write by a wrong order before it is interrupted: where memory runs out, it asks until there is an
   answer. */
static int collate(void *data, int first_length, const void *first, int second_length, const void *second) {
    const connection *c = data;
    char buffers[2][BUFFER];
    const void *texts[2] = {first, second};
    size_t lengths[2] = {(size_t)first_length, (size_t)second_length};
    int refused[2];
    for (int i = 0; i < 2; i++) {
        bcp47_outcome outcome;
        while (outcome = bcp47_canonical(c->held->named.registry, texts[i], lengths[i], buffers[i], BUFFER),
               outcome.status == BCP47_OUT_OF_MEMORY || outcome.status == BCP47_BUSY)
            sqlite3_sleep(5);
        refused[i] = outcome.status != BCP47_DONE;
        if (refused[i]) continue;
        texts[i] = buffers[i];
        lengths[i] = outcome.length;
    }
    if (refused[0] != refused[1]) return refused[0] - refused[1];
    size_t least = lengths[0] < lengths[1] ? lengths[0] : lengths[1];
    int order = least ? memcmp(texts[0], texts[1], least) : 0;
    return order ? order : (lengths[0] > lengths[1]) - (lengths[0] < lengths[1]);
}

/* The name that SQLite looks for first, whatever the file is called. */
#ifdef _WIN32
__declspec(dllexport)
#else
__attribute__((visibility("default")))
#endif
int sqlite3_extension_init(sqlite3 *database, char **error, const sqlite3_api_routines *api) {
    /* What asks the connection's registry without its name answers otherwise by another one: it serves in no index. A function that
       asks none is made twice, which changes nothing. */
    enum { PURE = SQLITE_UTF8 | SQLITE_INNOCUOUS | SQLITE_DETERMINISTIC, LOADED = SQLITE_UTF8 | SQLITE_INNOCUOUS };
#define ROWS(asks, name, texts, asks_registry)                        \
    {"bcp47_" name, texts, asks_registry ? LOADED : PURE, asks##_of}, \
    {"bcp47_" name, texts + asks_registry, PURE, asks##_of},
    static const struct {
        const char *name;
        int words, flags;
        void (*does)(sqlite3_context *, int, sqlite3_value **);
    } functions[] = {
        {"bcp47_load", 1, SQLITE_UTF8 | SQLITE_DIRECTONLY, load},
        FUNCTIONS(ROWS)
        {"bcp47_registry", 0, SQLITE_UTF8, registry},
    };
    (void)error;
    SQLITE_EXTENSION_INIT2(api);
    /* Where the connection has the functions, of which this is the last, it goes on as it was. */
    sqlite3_stmt *before = NULL;
    int result = sqlite3_prepare_v2(database, "SELECT bcp47_registry()", -1, &before, NULL);
    sqlite3_finalize(before);
    if (result != SQLITE_ERROR) return result;
    connection *c = calloc(1, sizeof *c);
    if (!c) return SQLITE_NOMEM;
    c->database = database;
    c->users = 1;
    result = SQLITE_OK;
    for (size_t i = 0; i < sizeof functions / sizeof *functions && result == SQLITE_OK; i++) {
        c->users++;
        result = sqlite3_create_function_v2(database, functions[i].name, functions[i].words, functions[i].flags, c,
                                            functions[i].does, NULL, NULL, release);
    }
    release(c);
    return result;
}
