/* Answers each line of a file as `langtag canon` does, by so many threads that ask one registry, and prints
   the lines in order. Arguments: registry, lines, threads; and `explain`, to answer as that command does, or `show`, with the rows
   that this prints by `--json`. */
#include "support.h"
#include <pthread.h>

typedef struct {
    const char *texts;
    size_t begin, end, used, room;
    char *lines;
} part;

static int is_explained = 0;
static bcp47_outcome (*writes)(const bcp47_registry *, const char *, size_t, char *, size_t) = bcp47_canonical;

/* The rows of a tag, written to a buffer that has room for them. */
static bcp47_outcome show(const bcp47_registry *by, const char *text, size_t length, char *buffer, size_t room) {
    char *rows;
    bcp47_outcome o = bcp47_show(by, text, length, &rows);
    if (o.length > room) exit(4);
    if (rows) memcpy(buffer, rows, o.length);
    bcp47_free(rows);
    return o;
}

static bcp47_registry *registry;

static void *answer(void *data) {
    part *p = data;
    static _Thread_local char buffer[65536];
    static _Thread_local char line[66000];
    for (size_t i = p->begin; i < p->end;) {
        size_t j = i;
        while (p->texts[j] != '\n') j++;
        bcp47_outcome o = writes(registry, p->texts + i, j - i, buffer, sizeof buffer);
        size_t n = (size_t)line_of(o, buffer, line, sizeof line);
        if (is_explained && o.status == BCP47_DONE) n--;
        if (p->used + n > p->room && !(p->lines = realloc(p->lines, p->room = 2 * (p->room + n)))) exit(4);
        memcpy(p->lines + p->used, line, n);
        p->used += n;
        i = j + 1;
    }
    return NULL;
}

int main(int count, char **words) {
    size_t texts_length;
    int threads = count > 3 ? atoi(words[3]) : 1;
    is_explained = count > 4 && !strcmp(words[4], "explain");
    if (count > 4) writes = is_explained ? bcp47_explain : show;
    char *texts = read_all(words[2], &texts_length);
    registry = opened(words[1]);
    part *parts = calloc((size_t)threads, sizeof *parts);
    pthread_t *ids = calloc((size_t)threads, sizeof *ids);
    if (!parts || !ids) return 4;
    size_t begin = 0;
    for (int i = 0; i < threads; i++) {
        size_t end = i + 1 == threads ? texts_length : texts_length / (size_t)threads * (size_t)(i + 1);
        while (end < texts_length && end > 0 && texts[end - 1] != '\n') end++;
        parts[i] = (part){.texts = texts, .begin = begin, .end = end};
        begin = end;
    }
    for (int i = 0; i < threads; i++)
        if (pthread_create(&ids[i], NULL, answer, &parts[i])) return 4;
    for (int i = 0; i < threads; i++) {
        pthread_join(ids[i], NULL);
        fwrite(parts[i].lines, 1, parts[i].used, stdout);
        free(parts[i].lines);
    }
    bcp47_close(registry);
    free(parts);
    free(ids);
    free(texts);
    return 0;
}
