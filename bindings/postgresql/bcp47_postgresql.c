/* SPDX-License-Identifier: MIT OR Apache-2.0 */
/* BCP 47 language tags in PostgreSQL: docs/SQL.md tells of the functions. The server reads the registries once, when it
   starts, and its sessions share them: none of them changes one. */
#include "postgres.h"
#include "fmgr.h"
#include "mb/pg_wchar.h"
#include "access/xact.h"
#include "miscadmin.h"
#include "lib/stringinfo.h"
#include "utils/builtins.h"
#include "utils/guc.h"
#include "utils/memutils.h"
#include "sql.h"
#include <dirent.h>

PG_MODULE_MAGIC;

/* The most registries of the folder. */
enum { MOST = 64 };

static char *registry_path = NULL, *folder_path = NULL;

/* The first is that of bcp47.registry, if it names one; the others are those of the folder. */
static named_registry registries[1 + MOST];
static int count = 1;

void _PG_init(void);

/* ---- reading */

/* Why a file gives no registry; NULL where it does. */
static const char *read_registry(const char *path, named_registry *it) {
    char line[BCP47_LINE] = "", *bytes;
    size_t length;
    bcp47_outcome outcome;
    const char *why = read_file(path, &bytes, &length);

    if (why) return psprintf("could not read the registry \"%s\": %s", path, why);
    outcome = bcp47_open(&it->registry, bytes, length, line, sizeof line);
    free(bytes);
    if (outcome.status != BCP47_DONE) return psprintf("the registry \"%s\" is refused: %s", path, line);
    take_names(it);
    return NULL;
}

/* Reads each file of the folder that is named by a date, as 2025-05-15.txt, and has that File-Date: how many there are then in
   `read`, which has one more to begin with, or why they are not. It warns of files with other names, but for hidden ones. */
static const char *read_folder(const char *path, named_registry *read, int *count) {
    DIR *folder = opendir(path);
    const char *why = folder ? NULL : psprintf("could not read the folder \"%s\": %m", path);
    struct dirent *entry;

    *count = 1;
    while (!why && (entry = readdir(folder)) != NULL) {
        size_t length = strlen(entry->d_name);
        char *whole;
        if (*entry->d_name == '.') continue;
        if (length != 14 || strspn(entry->d_name, "0123456789-") != 10 || strcmp(entry->d_name + 10, ".txt")) {
            ereport(WARNING, (errmsg("the file \"%s\" in \"%s\" is passed over", entry->d_name, path),
                              errhint("Name the file of a registry by its File-Date, as 2025-05-15.txt.")));
            continue;
        }
        if (*count > MOST) {
            why = psprintf("\"%s\" has more than %d registries", path, MOST);
            break;
        }
        whole = psprintf("%s/%s", path, entry->d_name);
        why = read_registry(whole, &read[*count]);
        if (why) break;
        if (strncmp(read[(*count)++].info.file_date, entry->d_name, 10))
            why = psprintf("the registry \"%s\" has the File-Date \"%s\"", whole, read[*count - 1].info.file_date);
    }
    if (folder) closedir(folder);
    return why;
}

/* Whether ALTER SYSTEM may set what the next start reads. It is no place for an error, which would end a server that reads its
   settings again; and there nothing is read. */
static bool is_readable(const char *path, bool is_folder) {
    named_registry *read;
    const char *why;
    int count = 1;

    if (process_shared_preload_libraries_in_progress || !*path || !IsTransactionState()) return true;
    read = palloc0((1 + MOST) * sizeof *read);
    why = is_folder ? read_folder(path, read, &count) : read_registry(path, read);
    for (int i = 0; i < count; i++) bcp47_close(read[i].registry);
    if (why) GUC_check_errdetail("%s", why);
    return !why;
}

static bool is_registry(char **path, void **extra, GucSource source) {
    return is_readable(*path, false);
}

static bool is_folder(char **path, void **extra, GucSource source) {
    return is_readable(*path, true);
}

void _PG_init(void) {
    const char *why = NULL;

    if (!process_shared_preload_libraries_in_progress)
        ereport(ERROR, (errcode(ERRCODE_OBJECT_NOT_IN_PREREQUISITE_STATE),
                        errmsg("bcp47 is not loaded by the server"),
                        errhint("Add bcp47 to shared_preload_libraries in postgresql.conf, and start the server again.")));
    DefineCustomStringVariable("bcp47.registry", "The file of the registry that functions without a name ask.", NULL,
                               &registry_path, "", PGC_POSTMASTER, GUC_SUPERUSER_ONLY, is_registry, NULL, NULL);
    DefineCustomStringVariable("bcp47.folder", "The folder of registries, each in a file that is named by its File-Date.", NULL,
                               &folder_path, "", PGC_POSTMASTER, GUC_SUPERUSER_ONLY, is_folder, NULL, NULL);
#if PG_VERSION_NUM >= 150000
    MarkGUCPrefixReserved("bcp47");
#else
    EmitWarningsOnPlaceholders("bcp47");
#endif
    if (*registry_path) why = read_registry(registry_path, &registries[0]);
    if (!why && *folder_path) why = read_folder(folder_path, registries, &count);
    if (why) ereport(ERROR, (errcode(ERRCODE_CONFIG_FILE_ERROR), errmsg("%s", why)));
}

/* ---- which registry */

/* The registry of a name: its File-Date, or at least 8 digits of its digest. Those of the folder come first, so that what a name
   means there is no matter of bcp47.registry. */
static const named_registry *named(given name) {
    StringInfoData others;

    for (int i = count; i-- > 0;)
        if (registries[i].registry && is_named(&registries[i], name)) return &registries[i];
    initStringInfo(&others);
    for (int i = count; i-- > 0;)
        if (registries[i].registry)
            appendStringInfo(&others, "%s%s%s", others.len ? ", " : "", i ? "" : "by bcp47.registry ", registries[i].names);
    ereport(ERROR, (errcode(ERRCODE_UNDEFINED_OBJECT),
                    errmsg("the server has no registry \"%.*s\"", (int)name.length, name.bytes),
                    errdetail("It has %s.", others.len ? others.data : "none"),
                    errhint("Put it into the folder that bcp47.folder names, as 2025-05-15.txt by its File-Date, and start the server "
                            "again: its log names the files that it passed over.")));
}

/* The registry that functions without a name ask. */
static const named_registry *unnamed(void) {
    if (registries[0].registry) return &registries[0];
    ereport(ERROR, (errcode(ERRCODE_OBJECT_NOT_IN_PREREQUISITE_STATE), errmsg("bcp47.registry names no file"),
                    errhint("Set it in postgresql.conf, and start the server again.")));
}

/* ---- asking */

/* The text of an answer, which is of UTF-8; NULL where memory runs out. Where the server has another encoding, a letter that is not
   ASCII is escaped as JSON escapes it (RFC 8259, 7): only JSON has such letters. */
static text *text_of(answer *from) {
    const char *bytes = from->text;
    size_t length = from->outcome.length;
    bool is_utf8 = GetDatabaseEncoding() == PG_UTF8;
    size_t most = is_utf8 || !from->taken ? length : 6 * length;
    text *it = AllocSizeIsValid(most + VARHDRSZ) ? palloc_extended(most + VARHDRSZ, MCXT_ALLOC_NO_OOM) : NULL;
    char *to = it ? VARDATA(it) : NULL;

    for (size_t i = 0; it && i < length;) {
        pg_wchar letter;
        if (is_utf8 || !IS_HIGHBIT_SET(bytes[i])) {
            *to++ = bytes[i++];
            continue;
        }
        letter = utf8_to_unicode((const unsigned char *)bytes + i);
        i += (size_t)pg_utf_mblen((const unsigned char *)bytes + i);
        if (letter > 0xFFFF) to += sprintf(to, "\\u%04x", 0xD7C0 + (letter >> 10)), letter = 0xDC00 | (letter & 0x3FF);
        to += sprintf(to, "\\u%04x", letter);
    }
    bcp47_free(from->taken);
    if (it) SET_VARSIZE(it, to - (char *)it);
    return it;
}

/* Answers a question of so many texts, after which there may be the name of a registry, where it asks one. */
static Datum told(FunctionCallInfo fcinfo, question *asks, int texts, bool asks_registry) {
    given of[4] = {{NULL, 0}};
    answer to;
    bcp47_registry *by = NULL;
    text *it;

    to.text = to.taken = NULL;
    for (int i = 0; i < PG_NARGS(); i++) {
        it = PG_GETARG_TEXT_PP(i);
        of[i] = (given){VARDATA_ANY(it), VARSIZE_ANY_EXHDR(it)};
    }
    if (asks_registry) by = (PG_NARGS() > texts ? named(of[texts]) : unnamed())->registry;
    asks(by, of, &to);
    switch (to.outcome.status) {
    case BCP47_DONE:
    case BCP47_DIFFERENT:
        if (!to.text) PG_RETURN_BOOL(to.outcome.status == BCP47_DONE);
        it = text_of(&to);
        if (it) PG_RETURN_TEXT_P(it);
        /* FALLTHROUGH */
    case BCP47_OUT_OF_MEMORY:
    case BCP47_BUSY:
        ereport(ERROR, (errcode(ERRCODE_OUT_OF_MEMORY), errmsg("out of memory")));
        break;
    case BCP47_NOT_A_TAG:
    case BCP47_INVALID:
    case BCP47_REPLACEMENT_REPEATS:
    case BCP47_BAD_HEADER:
        PG_RETURN_NULL();
    }
    ereport(ERROR, (errcode(to.outcome.status == BCP47_BAD_CALL ? ERRCODE_INVALID_PARAMETER_VALUE : ERRCODE_PROGRAM_LIMIT_EXCEEDED),
                    errmsg(why_not(to.outcome, of), (int)of[1].length, of[1].bytes)));
}

#define FUNCTION(asks, name, texts, asks_registry) \
    PG_FUNCTION_INFO_V1(asks##_of);                \
    Datum asks##_of(PG_FUNCTION_ARGS) { return told(fcinfo, asks, texts, asks_registry); }
FUNCTIONS(FUNCTION)

/* File-Date, number of entries and SHA-256 of the registry that functions without a name ask. */
PG_FUNCTION_INFO_V1(registry_of);
Datum registry_of(PG_FUNCTION_ARGS) {
    char line[2 * BCP47_LINE];

    tell_registry(unnamed(), line);
    PG_RETURN_TEXT_P(cstring_to_text(line));
}
