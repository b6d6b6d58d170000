/* SPDX-License-Identifier: MIT OR Apache-2.0 */
/* What the functions in SQLite and those in PostgreSQL have in common; each of the two includes it once. */
#include "bcp47.h"
#include <errno.h>
#include <stdio.h>
#include <stdlib.h>
#include <string.h>
#include <strings.h>
#include <sys/stat.h>

/* The most steps that are told, so that a call ends soon; the most bytes of a registry, of which IANA's has some 730,000; and room
   for any canonical text, and more. */
enum { STEPS = 20000, LONGEST = 64 << 20, BUFFER = 2048 };

/* A text that a function is given, which need not end in a zero. */
typedef struct {
    const char *bytes;
    size_t length;
} given;

/* ---- registries */

/* A registry, and what names it. */
typedef struct {
    bcp47_registry *registry;
    bcp47_info info;
    char digest[65];
    char names[BCP47_LINE]; /* the two that a caller may use, for a message: "2025-05-15 (afc9ef06)" */
} named_registry;

/* Takes down what names a registry that is open. */
static void take_names(named_registry *it) {
    const char *date = it->info.file_date;
    bcp47_registry_info(it->registry, &it->info);
    for (int i = 0; i < 32; i++) sprintf(it->digest + 2 * i, "%02x", it->info.sha256[i]);
    snprintf(it->names, sizeof it->names, *date ? "%s (%.8s)" : "%s%.8s", date, it->digest);
}

/* Whether a text names a registry: its File-Date, or its digest, or at least 8 digits at the front of that. */
static int is_named(const named_registry *it, given name) {
    const char *date = it->info.file_date;
    if (name.length >= 8 && name.length <= 64 && !strncasecmp(name.bytes, it->digest, name.length)) return 1;
    return *date && name.length == strlen(date) && !memcmp(name.bytes, date, name.length);
}

/* File-Date, number of entries and SHA-256. */
static void tell_registry(const named_registry *it, char line[2 * BCP47_LINE]) {
    snprintf(line, 2 * BCP47_LINE, "%s %zu %s", *it->info.file_date ? it->info.file_date : "-", it->info.entries, it->digest);
}

/* The bytes of a file, for free(); or why there are none. What is no file, as a pipe, could be read for ever. */
static const char *read_file(const char *path, char **bytes, size_t *length) {
    struct stat about;
    FILE *file;
    *bytes = NULL, *length = 0;
    if (stat(path, &about)) return strerror(errno);
    if (!S_ISREG(about.st_mode)) return "it is no file";
    if (about.st_size > LONGEST) return "it is too long";
    file = fopen(path, "rb");
    if (!file) return strerror(errno);
    *bytes = malloc((size_t)about.st_size + 1);
    if (*bytes) *length = fread(*bytes, 1, (size_t)about.st_size, file);
    fclose(file);
    if (*bytes && *length == (size_t)about.st_size) return NULL;
    free(*bytes);
    return "it can't be read whole";
}

/* ---- the functions */

/* What a function answers. Where its status refuses a text, that is NULL in SQL. Else it is the text, or, where that is NULL, whether
   the status is BCP47_DONE and not BCP47_DIFFERENT. */
typedef struct {
    bcp47_outcome outcome; /* its length is that of the text */
    const char *text;
    char *taken; /* the text, where bcp47_free() lets go of it */
    char buffer[BUFFER];
} answer;

/* A function's work: `text` and `taken` of the answer are NULL before. */
typedef void question(bcp47_registry *by, const given *of, answer *to);

/* The functions: the question, the name in SQL, how many texts it has, and whether it asks a registry, whose name may follow them. */
#define FUNCTIONS(X)                \
    X(canonical, "canonical", 1, 1) \
    X(fault, "fault", 1, 1)         \
    X(explanation, "explain", 1, 1) \
    X(rows, "show", 1, 1)           \
    X(equality, "equivalent", 2, 1) \
    X(match, "match", 2, 1)         \
    X(best, "best", 2, 1)           \
    X(part, "part", 2, 0)           \
    X(replacement, "with", 3, 0)

static void canonical(bcp47_registry *by, const given *of, answer *to) {
    to->outcome = bcp47_canonical(by, of->bytes, of->length, to->buffer, BUFFER);
    to->text = to->buffer;
}

/* The line that the program prints for a refusal, without `! `. */
static void fault(bcp47_registry *by, const given *of, answer *to) {
    bcp47_outcome *outcome = &to->outcome;
    char variant[9] = "";
    int length;
    canonical(by, of, to);
    if (outcome->status == BCP47_DONE) {
        outcome->status = BCP47_INVALID;
    } else if (outcome->status <= BCP47_REPLACEMENT_REPEATS) {
        if (outcome->status == BCP47_REPLACEMENT_REPEATS) memcpy(variant, to->buffer, outcome->length);
        length = *variant ? snprintf(to->buffer, BUFFER, "%s %s", bcp47_status_name(outcome->status), variant)
                          : snprintf(to->buffer, BUFFER, "%s %zu", bcp47_fault_name(outcome->detail), outcome->place);
        *outcome = (bcp47_outcome){.status = BCP47_DONE, .length = (size_t)length};
    }
}

/* The lines that the program prints, without the line feed of the last. */
static void explanation(bcp47_registry *by, const given *of, answer *to) {
    to->outcome = bcp47_explanation(by, of->bytes, of->length, STEPS, &to->taken);
    to->text = to->taken;
    to->outcome.length -= to->outcome.status == BCP47_DONE;
}

/* What the registry says of a tag, as JSON. */
static void rows(bcp47_registry *by, const given *of, answer *to) {
    to->outcome = bcp47_show(by, of->bytes, of->length, &to->taken);
    to->text = to->taken;
}

static void equality(bcp47_registry *by, const given *of, answer *to) {
    to->outcome = bcp47_equivalent(by, of[0].bytes, of[0].length, of[1].bytes, of[1].length, NULL, 0);
}

/* Whether a language range matches a tag by extended filtering. */
static void match(bcp47_registry *by, const given *of, answer *to) {
    to->outcome = bcp47_match(by, BCP47_EXTENDED, of[0].bytes, of[0].length, of[1].bytes, of[1].length, NULL, 0);
}

/* The tag of a list, with commas between them, to serve to the reader of an Accept-Language header. */
static void best(bcp47_registry *by, const given *of, answer *to) {
    bcp47_available *available;
    const char *list = of[1].bytes, *end = list + of[1].length, **tags;
    size_t *lengths, count = 1, number;
    for (const char *byte = list; byte < end; byte++) count += *byte == ',';
    tags = malloc(count * (sizeof *tags + sizeof *lengths));
    to->outcome.status = BCP47_OUT_OF_MEMORY;
    if (!tags) return;
    lengths = (size_t *)(tags + count);
    for (size_t i = 0; i < count; i++) {
        const char *comma = memchr(list, ',', (size_t)(end - list));
        if (!comma) comma = end;
        while (list < comma && *list == ' ') list++;
        tags[i] = list, lengths[i] = (size_t)(comma - list);
        while (lengths[i] && list[lengths[i] - 1] == ' ') lengths[i]--;
        list = comma + 1;
    }
    to->outcome = bcp47_available_open(&available, by, tags, lengths, count);
    if (to->outcome.status == BCP47_DONE) {
        to->outcome = bcp47_best(available, of[0].bytes, of[0].length);
        bcp47_available_close(available);
        number = to->outcome.status == BCP47_DONE ? to->outcome.place : 0;
        if (number) to->text = tags[number - 1], to->outcome.length = lengths[number - 1];
        else if (to->outcome.status == BCP47_DONE) to->outcome.status = BCP47_INVALID;
    }
    free(tags);
}

/* The number of a kind of part, whose name may be in any case; 0 where there is none. */
static int kind_of(given name) {
    for (int kind = 1; *bcp47_part_kind_name(kind); kind++) {
        const char *of = bcp47_part_kind_name(kind);
        if (strlen(of) == name.length && !strncasecmp(name.bytes, of, name.length)) return kind;
    }
    return 0;
}

/* The parts of a kind, with hyphens between them. */
static void part(bcp47_registry *by, const given *of, answer *to) {
    bcp47_part parts[BCP47_PARTS];
    char shown[BCP47_TEXT];
    size_t end = 0;
    int kind = kind_of(of[1]);
    (void)by;
    to->outcome.status = BCP47_BAD_CALL;
    if (!kind) return;
    to->outcome = bcp47_parts(of->bytes, of->length, shown, sizeof shown, parts, BCP47_PARTS);
    for (size_t i = 0; to->outcome.status == BCP47_DONE && i < to->outcome.place; i++) {
        if (parts[i].kind != kind) continue;
        memcpy(to->buffer + end, shown + parts[i].start, parts[i].length);
        end += parts[i].length;
        to->buffer[end++] = '-';
    }
    if (to->outcome.status == BCP47_DONE && !end) to->outcome.status = BCP47_INVALID;
    to->outcome.length = end - 1;
    to->text = to->buffer;
}

/* The tag with a part replaced, or taken away where the value is empty. */
static void replacement(bcp47_registry *by, const given *of, answer *to) {
    (void)by;
    to->outcome = bcp47_with(of[0].bytes, of[0].length, kind_of(of[1]), of[2].bytes, of[2].length, to->buffer, BUFFER);
    to->text = to->buffer;
}

/* Why a function fails, for printf with the length and the bytes of its second text. */
static const char *why_not(bcp47_outcome outcome, const given *of) {
    if (outcome.status != BCP47_BAD_CALL)
        return outcome.status == BCP47_TOO_MANY_STEPS ? "the explanation has more than 20000 steps" : bcp47_status_name(outcome.status);
    return kind_of(of[1]) ? "\"%.*s\" can't be replaced: language, script, region, variant, singleton and privateusesingleton can"
                          : "there is no kind of part \"%.*s\"";
}
