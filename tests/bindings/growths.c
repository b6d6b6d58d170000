/* Refuses each growth of memory in turn, in each call; then counts those of calls that take none. Linked with
   -Wl,--wrap=malloc and so on, so that sanitizers and valgrind see what is taken. Arguments: the sample registry, and how
   far it is from one growth that is refused to the next (1, if that is not given). */
#include "support.h"

void *__real_malloc(size_t), *__real_calloc(size_t, size_t), *__real_realloc(void *, size_t);
void *__wrap_malloc(size_t), *__wrap_calloc(size_t, size_t), *__wrap_realloc(void *, size_t);
static long refused_at = 0, growths = 0;

static int is_refused(void) {
    return ++growths == refused_at;
}

void *__wrap_malloc(size_t size) {
    return is_refused() ? NULL : __real_malloc(size);
}

void *__wrap_calloc(size_t items, size_t size) {
    return is_refused() ? NULL : __real_calloc(items, size);
}

void *__wrap_realloc(void *old, size_t size) {
    return is_refused() ? NULL : __real_realloc(old, size);
}

static const char *const tags[] = {"zh-yue", "en-us", "I-KLINGON", "sgn-dd", "en-t-iw-m0-names", "en-u-nu-latn-ca-buddhist-foo",
                                   "en_US", "xx", "de-1901-1901", "x-own-use", "en-a-bbb-x-own"};
#define TAGS (sizeof tags / sizeof *tags)
#define CALLS 19
static char buffer[4096];
static bcp47_part parts[BCP47_PARTS];
static char wanted[CALLS * TAGS][2048];
static const bcp47_step steps[2] = {{BCP47_REGION, 2, 27}, {BCP47_WHOLE, 1, 44}};

/* Whether a growth was refused since so many. */
static int was_refused(long before) {
    return before < refused_at && refused_at <= growths;
}

/* An answer is that of the run in which no growth was refused; or the growth of this call was refused. */
static void kept(int is_first, size_t at, bcp47_outcome o, const char *text, long before) {
    char line[2048];
    int n = line_of(o, text, line, sizeof line);
    snprintf(line + n, sizeof line - (size_t)n, "%d", 10 * o.text + o.status);
    if (is_first) strcpy(wanted[at], line);
    if (o.status == BCP47_OUT_OF_MEMORY) CHECK(was_refused(before));
    else CHECK(!strcmp(line, wanted[at]));
}

static void ask(const bcp47_registry *registry, int is_first, size_t at, const char *text, size_t n) {
    long before = growths;
    char *lines;
    kept(is_first, at, bcp47_canonical(registry, text, n, buffer, sizeof buffer), buffer, before);
    before = growths;
    kept(is_first, at + 1, bcp47_extlang(registry, text, n, buffer, sizeof buffer), buffer, before);
    before = growths;
    kept(is_first, at + 2, bcp47_classify(registry, text, n, buffer, sizeof buffer), buffer, before);
    before = growths;
    kept(is_first, at + 3, bcp47_explain(registry, text, n, buffer, sizeof buffer), buffer, before);
    before = growths;
    kept(is_first, at + 4, bcp47_equivalent(registry, text, n, "yue", 3, buffer, sizeof buffer), buffer, before);
    before = growths;
    kept(is_first, at + 5, bcp47_validate(registry, text, n), buffer, before);
    before = growths;
    kept(is_first, at + 6, bcp47_verify(registry, text, n, steps, 2, "gsg", 3), buffer, before);
    before = growths;
    bcp47_outcome o = bcp47_explanation(registry, text, n, SIZE_MAX, &lines);
    CHECK((o.status == BCP47_DONE) == (lines != NULL));
    kept(is_first, at + 7, o, lines ? lines : "", before);
    bcp47_free(lines);
    before = growths;
    bcp47_step *given;
    const char *behind;
    o = bcp47_steps(registry, text, n, SIZE_MAX, &given, &behind);
    CHECK((o.status == BCP47_DONE || o.status == BCP47_REPLACEMENT_REPEATS) == (given != NULL) && !given == !behind);
    if (given) o.length = strlen(behind);
    kept(is_first, at + 13, o, given ? behind : "", before);
    bcp47_free(given);
    before = growths;
    bcp47_field *fields;
    o = bcp47_record(registry, 2, &fields, &behind);
    CHECK((o.status == BCP47_DONE) == (fields != NULL) && !fields == !behind);
    if (fields) o.length = strlen(behind);
    kept(is_first, at + 14, o, fields ? behind : "", before);
    bcp47_free(fields);
    before = growths;
    kept(is_first, at + 15, bcp47_parent(text, n, buffer, sizeof buffer), buffer, before);
    before = growths;
    kept(is_first, at + 16, bcp47_with(text, n, BCP47_PART_VARIANT, "a2345-b2345", 11, buffer, sizeof buffer), buffer, before);
    before = growths;
    kept(is_first, at + 17, bcp47_posix(text, n, buffer, sizeof buffer), buffer, before);
    before = growths;
    kept(is_first, at + 18, bcp47_posix("sr_RS@latin", 11, buffer, sizeof buffer), buffer, before);
    before = growths;
    kept(is_first, at + 8, bcp47_classify(NULL, text, n, buffer, sizeof buffer), buffer, before);
    before = growths;
    kept(is_first, at + 9, bcp47_parts(text, n, buffer, sizeof buffer, parts, BCP47_PARTS), buffer, before);
    before = growths;
    kept(is_first, at + 10, bcp47_match(registry, BCP47_EXTENDED, "zh-yue", 6, text, n, buffer, sizeof buffer), buffer, before);
    before = growths;
    kept(is_first, at + 11, bcp47_match(registry, BCP47_LOOKUP, text, n, "yue", 3, buffer, sizeof buffer), buffer, before);
    before = growths;
    o = bcp47_show(registry, text, n, &lines);
    CHECK((o.status == BCP47_DONE) == (lines != NULL));
    kept(is_first, at + 12, o, lines ? lines : "", before);
    bcp47_free(lines);
}

/* A list of tags is prepared, asked and closed; or a growth of the call was refused. */
static void serve(bcp47_registry *registry) {
    static const char *const offered[] = {"en-u-nu-latn-ca-buddhist", "zh-yue"};
    static const size_t lengths[] = {24, 6};
    bcp47_available *available;
    size_t places[2];
    long before = growths;
    bcp47_outcome o = bcp47_available_open(&available, registry, offered, lengths, 2);
    CHECK((o.status == BCP47_DONE) == (available != NULL) && !o.text);
    if (o.status) CHECK(o.status == BCP47_OUT_OF_MEMORY && was_refused(before));
    if (!available) return;
    before = growths;
    o = bcp47_best(available, "yue, en;q=0.5", 13);
    CHECK(o.status == BCP47_DONE ? o.place == 2 : o.status == BCP47_OUT_OF_MEMORY && was_refused(before));
    before = growths;
    o = bcp47_filter(available, "en;q=0.5, yue", 13, places, 2);
    if (o.status == BCP47_DONE) CHECK(o.place == 2 && places[0] == 2 && places[1] == 1);
    else CHECK(o.status == BCP47_OUT_OF_MEMORY && was_refused(before));
    bcp47_available_close(available);
}

/* All calls, with the growth of this number refused; answers whether one was. */
static int run(const char *bytes, size_t length, long number) {
    bcp47_registry *registry;
    growths = 0;
    refused_at = number;
    bcp47_outcome o = bcp47_open(&registry, bytes, length, buffer, sizeof buffer);
    if (o.status) {
        CHECK(o.status == BCP47_OUT_OF_MEMORY && was_refused(0));
        CHECK(!registry && o.length == strlen("OutOfMemory") && !strcmp(buffer, "OutOfMemory"));
        return growths >= number;
    }
    serve(registry);
    for (size_t i = 0; i < TAGS; i++) ask(registry, !number, CALLS * i, tags[i], strlen(tags[i]));
    long before = growths;
    o = bcp47_upgrade_check(registry, registry);
    CHECK(o.status == BCP47_DONE || (o.status == BCP47_OUT_OF_MEMORY && was_refused(before)));
    bcp47_close(registry);
    return growths >= number;
}

/* The answers of the run in which no growth was refused. */
static void first_answers(void) {
    static const struct {
        size_t at;
        const char *line;
    } rows[] = {
        {0, "yue\n0"}, {3, "Extlang 2 23 yue\n= yue\n\n0"}, {4, "\n0"}, {5, "\n0"}, {6, "! None 1\n11"},
        {CALLS + 4, "! UnknownRegion 2\n12"}, {3 * CALLS + 4, "\n6"}, {3 * CALLS + 5, "\n0"}, {3 * CALLS + 6, "\n0"},
        {6 * CALLS + 5, "! BadByte 1\n1"}, {7 * CALLS + 5, "! UnknownLanguage 1\n2"}, {7 * CALLS + 6, "! UnknownLanguage 1\n12"},
        {8 * CALLS + 5, "! DuplicateVariant 3\n2"}, {9, "zh-yue\n0"}, {2 * CALLS + 9, "i-klingon\n0"}, {6 * CALLS + 9, "! BadByte 1\n1"},
        {13, "yue\n0"}, {14, "Type\n0"}, {15, "zh\n0"}, {16, "zh-yue-a2345-b2345\n0"}, {6 * CALLS + 16, "! BadByte 1\n11"},
        {6 * CALLS + 17, "en-US\n0"}, {18, "sr-Latn-RS\n0"}, {10, "\n0"}, {11, "\n0"}, {3 * CALLS + 10, "\n6"}, {6 * CALLS + 10, "! BadByte 1\n21"}, {6 * CALLS + 11, "! BadByte 0\n11"},
        {7 * CALLS + 10, "! UnknownLanguage 1\n22"}, {7 * CALLS + 11, "\n6"}, {6 * CALLS + 12, "! BadByte 1\n1"},
        {7 * CALLS + 12, "[{\"place\":1,\"kind\":\"Language\",\"text\":\"xx\",\"listing\":\"Unregistered\",\"record\":null,\"fields\":[]}]\n0"},
    };
    for (size_t i = 0; i < sizeof rows / sizeof *rows; i++) {
        if (strcmp(wanted[rows[i].at], rows[i].line)) fprintf(stderr, "%zu: %s\n", rows[i].at, wanted[rows[i].at]);
        CHECK(!strcmp(wanted[rows[i].at], rows[i].line));
    }
}

int main(int count, char **words) {
    size_t length;
    if (count < 2) return 3;
    char *bytes = read_all(words[1], &length);
    long far = count > 2 ? atol(words[2]) : 1, number = 1, runs = 0;
    run(bytes, length, 0);
    first_answers();
    for (; run(bytes, length, number); number += far) runs++;
    CHECK(number > 100);
    bcp47_registry *registry;
    refused_at = 0;
    CHECK(!bcp47_open(&registry, bytes, length, buffer, sizeof buffer).status);
    growths = 0;
    for (int i = 0; i < 1000; i++) {
        CHECK(!bcp47_canonical(registry, "zh-yue", 6, buffer, sizeof buffer).status);
        CHECK(!bcp47_extlang(registry, "yue", 3, buffer, sizeof buffer).status);
        CHECK(!bcp47_classify(registry, "EN-us", 5, buffer, sizeof buffer).status);
        CHECK(!bcp47_validate(registry, "en-gb", 5).status);
    }
    CHECK(growths == 0);
    bcp47_close(registry);
    free(bytes);
    if (!failures) printf("growths: %ld refused in turn\n", runs);
    return failures != 0;
}
