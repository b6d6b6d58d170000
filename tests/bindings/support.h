/* What the tests in C share. */
#include <bcp47.h>
#include <stdio.h>
#include <stdlib.h>
#include <string.h>

#define UNUSED __attribute__((unused))

static UNUSED int failures = 0;

#define CHECK(condition)                                                          \
    do {                                                                          \
        if (!(condition)) {                                                       \
            fprintf(stderr, "%s:%d: not so: %s\n", __FILE__, __LINE__, #condition); \
            if (++failures == 1000) _Exit(1);                                     \
        }                                                                         \
    } while (0)

static UNUSED char *read_all(const char *path, size_t *length) {
    FILE *file = fopen(path, "rb");
    size_t room = 1 << 16, got;
    char *bytes = malloc(room);
    *length = 0;
    if (!file || !bytes) exit(4);
    while ((got = fread(bytes + *length, 1, room - *length, file))) {
        *length += got;
        if (*length == room && !(bytes = realloc(bytes, room *= 2))) exit(4);
    }
    fclose(file);
    return bytes;
}

/* The registry of a file. */
static UNUSED bcp47_registry *opened(const char *path) {
    size_t length;
    char *bytes = read_all(path, &length), line[BCP47_LINE];
    bcp47_registry *registry;
    bcp47_outcome o = bcp47_open(&registry, bytes, length, line, sizeof line);
    free(bytes);
    if (o.status) {
        fprintf(stderr, "%s: %s\n", path, line);
        exit(2);
    }
    return registry;
}

/* The line that the program prints for an answer, with the text that was written. */
static UNUSED int line_of(bcp47_outcome o, const char *text, char *line, size_t room) {
    if (o.status == BCP47_DONE || o.status == BCP47_DIFFERENT) return snprintf(line, room, "%.*s\n", (int)o.length, text);
    if (o.status == BCP47_REPLACEMENT_REPEATS) return snprintf(line, room, "! ReplacementRepeats %.*s\n", (int)o.length, text);
    return snprintf(line, room, "! %s %zu\n", bcp47_fault_name(o.detail), o.place);
}
