/* How much of a stack each call touches, in a thread and in a handler of a signal that has a stack of its own: at most the kilobytes
   that docs/C.md promises, on tags that are made against it too. Arguments: a registry, the kilobytes. */
#include "support.h"
#include <pthread.h>
#include <signal.h>

#define STACK (64 << 10)
static _Alignas(4096) unsigned char stack[STACK];
static bcp47_registry *registry;
static char *bytes, line[BCP47_LINE], *buffer;
static size_t length, room = 1 << 24;
static const char *text;

static void ask_nothing(void) {}

static void ask_open(void) {
    bcp47_registry *other;
    CHECK(!bcp47_open(&other, bytes, length, line, sizeof line).status);
    bcp47_close(other);
}

static void ask_open_refused(void) {
    bcp47_registry *other;
    CHECK(bcp47_open(&other, "%%\nType: tongue\n", 16, line, sizeof line).status == BCP47_BAD_RECORD);
}

static void ask_upgrade(void) {
    CHECK(!bcp47_upgrade_check(registry, registry).status);
}

static void ask_canonical(void) {
    bcp47_canonical(registry, text, strlen(text), buffer, room);
}

static void ask_extlang(void) {
    bcp47_extlang(registry, text, strlen(text), buffer, room);
}

static void ask_classify(void) {
    bcp47_classify(registry, text, strlen(text), buffer, room);
    bcp47_classify(NULL, text, strlen(text), buffer, room);
}

static void ask_explain(void) {
    bcp47_explain(registry, text, strlen(text), buffer, room);
}

static void ask_show(void) {
    char *rows;
    bcp47_field *fields;
    const char *texts;
    bcp47_show(registry, text, strlen(text), &rows);
    bcp47_free(rows);
    CHECK(!bcp47_record(registry, 2, &fields, &texts).status);
    bcp47_free(fields);
}

static void ask_explanation(void) {
    char *lines;
    bcp47_step *steps;
    const char *tags;
    bcp47_explanation(registry, text, strlen(text), 1000, &lines);
    bcp47_free(lines);
    bcp47_steps(registry, text, strlen(text), 1000, &steps, &tags);
    bcp47_free(steps);
}

static void ask_others(void) {
    bcp47_step step = {BCP47_REGION, 2, 1};
    bcp47_validate(registry, text, strlen(text));
    bcp47_equivalent(registry, text, strlen(text), "sgn-DD", 6, NULL, 0);
    for (int scheme = BCP47_BASIC; scheme <= BCP47_LOOKUP; scheme++)
        bcp47_match(registry, scheme, text, strlen(text), text, strlen(text), NULL, 0);
    bcp47_verify(registry, text, strlen(text), &step, 1, text, strlen(text));
    bcp47_parent(text, strlen(text), buffer, room);
    bcp47_with(text, strlen(text), BCP47_PART_VARIANT, "rozaj-biske", 11, buffer, room);
    bcp47_posix("ca_ES.UTF-8@valencia", 20, buffer, room);
}

static void ask_list(void) {
    const char *const tags[] = {"zh-yue", text};
    const size_t lengths[] = {6, strlen(text)};
    bcp47_available *available;
    size_t places[2];
    for (size_t count = 1; count < 3; count++) {
        bcp47_available_open(&available, registry, tags, lengths, count);
        bcp47_best(available, text, strlen(text));
        bcp47_filter(available, text, strlen(text), places, 2);
        bcp47_filter(available, "yue, *;q=0.5", 12, places, 2);
        bcp47_available_close(available);
    }
}

static void ask_parts(void) {
    static bcp47_part parts[600];
    bcp47_parts(text, strlen(text), buffer, room, parts, sizeof parts / sizeof *parts);
}

static void ask_info(void) {
    bcp47_info info;
    CHECK(!bcp47_registry_info(registry, &info).status && info.entries > 1000);
}

static void *run(void *data) {
    (*(void (**)(void))data)();
    return NULL;
}

static size_t left_untouched(void) {
    size_t left = 0;
    while (left < sizeof stack && stack[left] == 0xA5) left++;
    return left;
}

/* The bytes of the stack of a thread that a call touches. */
static size_t touched(void (*call)(void)) {
    pthread_t id;
    pthread_attr_t attributes;
    memset(stack, 0xA5, sizeof stack);
    pthread_attr_init(&attributes);
    if (pthread_attr_setstack(&attributes, stack, sizeof stack) || pthread_create(&id, &attributes, run, &call)) exit(4);
    pthread_join(id, NULL);
    pthread_attr_destroy(&attributes);
    return sizeof stack - left_untouched();
}

static void (*handled)(void);

static void handle(int number) {
    (void)number;
    handled();
}

/* The bytes of a handler's own stack that a call and the frame of the signal touch. */
static size_t touched_in_handler(void (*call)(void)) {
    stack_t own = {.ss_sp = stack, .ss_size = sizeof stack}, none = {.ss_flags = SS_DISABLE};
    struct sigaction action = {.sa_handler = handle, .sa_flags = SA_ONSTACK};
    memset(stack, 0xA5, sizeof stack);
    handled = call;
    if (sigaltstack(&own, NULL) || sigaction(SIGUSR1, &action, NULL) || raise(SIGUSR1) || sigaltstack(&none, NULL)) exit(4);
    return sizeof stack - left_untouched();
}

/* The greater of the two. */
static size_t most_touched(void (*call)(void)) {
    size_t in_thread = touched(call), in_handler = touched_in_handler(call);
    return in_thread > in_handler ? in_thread : in_handler;
}

int main(int count, char **words) {
    static char keys[1100] = "en", variants[1100] = "de", fields[1100] = "en-t-de", singletons[1100] = "en", parts[1100] = "x";
    static const char *const few[] = {"en", "zh-yue", "I-KLINGON", "sgn-DD", "en-u-kn-true", "en_US", "xx", "hy-arevela",
                                      "de-1901-1996-x-a", "en-t-iw-m0-names", "en-GB-oed", "sl-rozaj-biske-1994"};
    if (count < 3) return 3;
    size_t promised = (size_t)atol(words[2]) << 10, most = 0, alone;
    strcat(keys, "-u");
    for (int i = 329; i > 0; i--) sprintf(keys + strlen(keys), "-%c%c", 'a' + i / 26 % 26, 'a' + i % 26);
    for (int i = 0; i < 165; i++) sprintf(variants + strlen(variants), "-v%04d", i);
    for (int i = 0; i < 100; i++) sprintf(fields + strlen(fields), "-%c%d-abcde", 'z' - i / 10, i % 10);
    for (char c = 'a'; c < 'x'; c++) sprintf(singletons + strlen(singletons), "-%c-abc-def", c == 'u' || c == 't' ? '1' + (c == 'u') : c);
    for (int i = 0; i < 110; i++) strcat(parts, "-abcdefgh");
    const char *const made[] = {keys, variants, fields, singletons, parts};
    bytes = read_all(words[1], &length);
    registry = opened(words[1]);
    if (!(buffer = malloc(room))) return 4;
    alone = touched(ask_nothing);
    static const struct {
        const char *name;
        void (*call)(void);
    } of_none[] = {{"open", ask_open}, {"open refused", ask_open_refused}, {"upgrade_check", ask_upgrade},
                   {"registry_info", ask_info}},
      of_text[] = {{"canonical", ask_canonical}, {"extlang", ask_extlang},         {"classify", ask_classify},
                   {"explain", ask_explain},     {"explanation", ask_explanation}, {"others", ask_others},
                   {"show", ask_show},           {"parts", ask_parts},             {"list", ask_list}};
    for (size_t i = 0; i < sizeof of_none / sizeof *of_none; i++) {
        size_t bytes_touched = most_touched(of_none[i].call);
        if (bytes_touched > most) most = bytes_touched;
        printf("%s: %zu bytes\n", of_none[i].name, bytes_touched);
        CHECK(bytes_touched <= promised);
    }
    for (size_t i = 0; i < sizeof of_text / sizeof *of_text; i++) {
        size_t most_here = 0;
        for (size_t k = 0; k < sizeof few / sizeof *few + sizeof made / sizeof *made; k++) {
            text = k < sizeof few / sizeof *few ? few[k] : made[k - sizeof few / sizeof *few];
            size_t bytes_touched = most_touched(of_text[i].call);
            if (bytes_touched > most_here) most_here = bytes_touched;
        }
        if (most_here > most) most = most_here;
        printf("%s: %zu bytes\n", of_text[i].name, most_here);
        CHECK(most_here <= promised);
    }
    bcp47_close(registry);
    free(bytes);
    free(buffer);
    printf("stacks: at most %zu bytes, of which a thread that calls nothing has %zu\n", most, alone);
    return failures != 0;
}
