/* Calls a second of bcp47_canonical, of ICU and, where LIBLANGTAG is defined, of liblangtag, in turns: the best round of each. With
   ICU a tag is read, made canonical and written as a tag; liblangtag is asked for the first tags alone. Arguments: registry, tags. */
#include "../../tests/bindings/support.h"
#include <time.h>
#include <unicode/uloc.h>
#ifdef LIBLANGTAG
#include <liblangtag/langtag.h>
#endif

enum { MOST = 1 << 20, FEW = 2000, ROUNDS = 9 };
static const char *texts[MOST];
static size_t lengths[MOST], count = 0;
static bcp47_registry *registry;

static double now(void) {
    struct timespec t;
    clock_gettime(CLOCK_PROCESS_CPUTIME_ID, &t);
    return (double)t.tv_sec + (double)t.tv_nsec * 1e-9;
}

static size_t ask(void) {
    size_t done = 0;
    char buffer[4096];
    for (size_t i = 0; i < count; i++)
        done += bcp47_canonical(registry, texts[i], lengths[i], buffer, sizeof buffer).status == BCP47_DONE;
    return done;
}

static size_t ask_icu(void) {
    size_t done = 0;
    char read[4096], canonical[4096], written[4096];
    for (size_t i = 0; i < count; i++) {
        UErrorCode error = U_ZERO_ERROR;
        int32_t parsed = 0;
        uloc_forLanguageTag(texts[i], read, sizeof read, &parsed, &error);
        uloc_canonicalize(read, canonical, sizeof canonical, &error);
        uloc_toLanguageTag(canonical, written, sizeof written, 0, &error);
        done += U_SUCCESS(error);
    }
    return done;
}

#ifdef LIBLANGTAG
static size_t ask_liblangtag(void) {
    size_t done = 0;
    lt_tag_t *tag = lt_tag_new();
    for (size_t i = 0; i < count && i < FEW; i++) {
        lt_error_t *error = NULL;
        char *canonical = lt_tag_parse(tag, texts[i], &error) ? lt_tag_canonicalize(tag, &error) : NULL;
        done += canonical != NULL;
        free(canonical);
        if (error) lt_error_unref(error);
    }
    lt_tag_unref(tag);
    return done;
}
#endif

static const struct {
    const char *name;
    size_t (*ask)(void);
    size_t most;
} asked[] = {
    {"bcp47_canonical", ask, MOST},
    {"ICU", ask_icu, MOST},
#ifdef LIBLANGTAG
    {"liblangtag", ask_liblangtag, FEW},
#endif
};
enum { ASKED = sizeof asked / sizeof *asked };

int main(int words_count, char **words) {
    size_t n, done[ASKED] = {0};
    double best[ASKED];
    if (words_count < 3) return 3;
    char *tags = read_all(words[2], &n);
    registry = opened(words[1]);
#ifdef LIBLANGTAG
    lt_db_initialize();
#endif
    for (size_t i = 0; i < n && count < MOST; i += lengths[count++] + 1) {
        texts[count] = tags + i;
        lengths[count] = (size_t)((char *)memchr(tags + i, '\n', n - i) - texts[count]);
        tags[i + lengths[count]] = 0;
    }
    for (int round = 0; round < ROUNDS; round++)
        for (int k = 0; k < ASKED; k++) {
            double begun = now();
            done[k] = asked[k].ask();
            double seconds = now() - begun;
            if (round == 0 || seconds < best[k]) best[k] = seconds;
        }
    for (int k = 0; k < ASKED; k++) {
        size_t tried = count < asked[k].most ? count : asked[k].most;
        printf("C, %s: %.4f million calls a second (%zu of %zu canonical), %.1f times as many by bcp47_canonical\n", asked[k].name,
               (double)tried / best[k] / 1e6, done[k], tried, best[k] / (double)tried * (double)count / best[0]);
    }
    bcp47_close(registry);
    free(tags);
    return 0;
}
