/* Calls within calls: from malloc, which a call of an unusual tag makes, more calls of the same registry, a fork, a jump and a close.
   Linked with -Wl,--wrap=malloc,--wrap=calloc, and compiled with the library's BCP47_SLOTS. Arguments: the sample registry; and
   `refused`, to refuse each growth of memory of the deepest call. */
#include "support.h"
#include <setjmp.h>
#include <sys/wait.h>
#include <unistd.h>

/* As many calls as a registry has slots for, then those each of which has one of the 8 that are kept to make slots from, and one that
   finds none of those. */
#define DEEPEST (BCP47_SLOTS + 9)
static const char unusual[] = "en-u-nu-latn-ca-buddhist", usual[] = "zh-yue";
static const char rows[] =
    "[{\"place\":1,\"kind\":\"Language\",\"text\":\"iw\",\"listing\":\"Record\",\"record\":9,\"fields\":[{\"name\":\"Preferred-Value\",\"body\":\"he\"}]}]";

void *__real_malloc(size_t), *__real_calloc(size_t, size_t);
void *__wrap_malloc(size_t), *__wrap_calloc(size_t, size_t);
static bcp47_registry *registry;
static int depth = 0, is_over = 0, is_first = 1, does_show = 0, is_each_refused = 0;
static long refused_at = 0, growths = 0;
static bcp47_available *available;
static void (*within)(void) = NULL;

static int is_refused(void) {
    return ++growths == refused_at;
}

void *__wrap_malloc(size_t size) {
    if (is_refused()) return NULL;
    if (within && depth) within();
    return __real_malloc(size);
}

void *__wrap_calloc(size_t items, size_t size) {
    return is_refused() ? NULL : __real_calloc(items, size);
}

/* The status of a call, which has the answer of a call alone. */
static int ask(void) {
    char buffer[64], *given = NULL;
    bcp47_outcome o;
    depth++;
    o = does_show ? bcp47_show(registry, "iw", 2, &given) : bcp47_canonical(registry, unusual, strlen(unusual), buffer, sizeof buffer);
    depth--;
    if (!o.status) CHECK(!strcmp(does_show ? given : buffer, does_show ? rows : "en-u-ca-buddhist-nu-latn"));
    bcp47_free(given);
    return o.status;
}

/* Each call is answered, whatever is under way. */
static void ask_each(void) {
    char buffer[64], *given;
    bcp47_step steps[2] = {{BCP47_REGION, 2, 27}, {BCP47_WHOLE, 1, 44}};
    CHECK(!bcp47_extlang(registry, "yue", 3, buffer, sizeof buffer).status && !strcmp(buffer, "zh-yue"));
    CHECK(!bcp47_explain(registry, "yue", 3, buffer, sizeof buffer).status);
    CHECK(!bcp47_classify(registry, "YUE", 3, buffer, sizeof buffer).status && !strcmp(buffer, "yue"));
    CHECK(!bcp47_show(registry, "iw", 2, &given).status && !strcmp(given, rows));
    bcp47_free(given);
    CHECK(!bcp47_validate(registry, "yue", 3).status);
    CHECK(!bcp47_equivalent(registry, "zh-yue", 6, "yue", 3, NULL, 0).status);
    CHECK(!bcp47_match(registry, BCP47_BASIC, "yue", 3, "yue", 3, NULL, 0).status);
    CHECK(!bcp47_verify(registry, "sgn-DD", 6, steps, 2, "gsg", 3).status);
    CHECK(!bcp47_upgrade_check(registry, registry).status);
    CHECK(!bcp47_explanation(registry, "yue", 3, 9, &given).status);
    bcp47_free(given);
}

/* Each call is BUSY where there is no memory for a slot. */
static void be_busy(void) {
    char buffer[64], *given = buffer;
    bcp47_step step = {BCP47_WHOLE, 1, 1};
#define BUSY(call) (refused_at = growths + 1, (call).status == BCP47_BUSY)
    CHECK(BUSY(bcp47_canonical(registry, "yue", 3, buffer, sizeof buffer)));
    CHECK(BUSY(bcp47_extlang(registry, "yue", 3, buffer, sizeof buffer)));
    CHECK(BUSY(bcp47_explain(registry, "yue", 3, buffer, sizeof buffer)));
    CHECK(BUSY(bcp47_classify(registry, "yue", 3, buffer, sizeof buffer)));
    refused_at = growths + 1;
    CHECK(bcp47_show(registry, "yue", 3, &given).status == BCP47_OUT_OF_MEMORY && !given);
    given = buffer;
    CHECK(BUSY(bcp47_explanation(registry, "yue", 3, 9, &given)) && !given);
    CHECK(BUSY(bcp47_validate(registry, "yue", 3)));
    CHECK(BUSY(bcp47_equivalent(registry, "yue", 3, "yue", 3, NULL, 0)));
    CHECK(BUSY(bcp47_match(registry, BCP47_BASIC, "yue", 3, "yue", 3, NULL, 0)));
    CHECK(BUSY(bcp47_verify(registry, "yue", 3, &step, 1, "yue", 3)));
    CHECK(BUSY(bcp47_upgrade_check(registry, registry)));
    CHECK(BUSY(bcp47_available_open(&available, registry, NULL, NULL, 0)) && !available);
    CHECK(BUSY(bcp47_available_open(&available, registry, &(const char *){"yue"}, &(size_t){3}, 1)) && !available);
    refused_at = 0;
    CHECK(bcp47_classify(NULL, "EN", 2, buffer, sizeof buffer).status == BCP47_DONE);
}

/* Refuses each growth of one more call: there is no room for it, or no memory for its answer. */
static void refuse_each(void) {
    void (*before)(void) = within;
    int status = BCP47_BUSY;
    within = NULL;
    for (long number = 1; status; number++) {
        refused_at = growths + number;
        status = ask();
        CHECK(!status || status == BCP47_BUSY || status == BCP47_OUT_OF_MEMORY);
        CHECK(!status || refused_at <= growths);
    }
    refused_at = 0;
    within = before;
}

/* One more call, until there are as many as are to be. */
static void call_again(void) {
    if (is_over) return;
    if (depth < DEEPEST) {
        CHECK(!ask());
        return;
    }
    is_over = 1;
    if (is_each_refused && (is_first || does_show)) {
        if (!does_show) be_busy();
        refuse_each();
    }
    ask_each();
}

/* The one slot that is left is for the older registry, and none for the newer. */
static void upgrade_within(void) {
    if (is_over) return;
    if (depth < BCP47_SLOTS - 1) {
        CHECK(!ask());
        return;
    }
    is_over = 1;
    refused_at = growths + 1;
    CHECK(bcp47_upgrade_check(registry, registry).status == BCP47_BUSY);
    refused_at = 0;
    CHECK(bcp47_upgrade_check(registry, registry).status == BCP47_DONE);
}

/* The records are kept by the call within the first one, which is then too late with its own. */
static void show_within(void) {
    if (is_over) return;
    is_over = 1;
    CHECK(!ask());
}

/* The status of a call that asks the list, which has the answer of a call alone. */
static int ask_list(void) {
    depth++;
    bcp47_outcome o = bcp47_best(available, "zh-yue", 6);
    depth--;
    if (!o.status) CHECK(o.place == 1);
    return o.status;
}

/* As many calls of a list as it has handles for, and one that finds none. The list is closed in their midst, which ends none of them. */
static void serve_within(void) {
    if (is_over) return;
    if (depth < DEEPEST - 1) {
        CHECK(!ask_list());
        return;
    }
    is_over = 1;
    CHECK(ask_list() == BCP47_BUSY);
    bcp47_available_close(available);
    CHECK(ask_list() == BCP47_NOT_OPEN);
    bcp47_available_close(available);
}

static void serve(const char *path) {
    static const char *const tags[] = {"yue"};
    static const size_t lengths[] = {3};
    registry = opened(path);
    CHECK(!bcp47_available_open(&available, registry, tags, lengths, 1).status);
    bcp47_close(registry);
    within = serve_within;
    is_over = 0;
    CHECK(!ask_list() && is_over);
    within = NULL;
}

/* The child of a fork in the midst of so many calls goes on, and closes the registry. */
static void fork_within(void) {
    if (is_over) return;
    if (depth < DEEPEST) {
        CHECK(!ask());
        return;
    }
    is_over = 1;
    pid_t child = fork();
    if (child < 0) exit(4);
    if (!child) {
        alarm(60);
        for (int i = 0; i < 100; i++) ask_each();
        /* The calls that are under way here never end. */
        bcp47_close(registry);
        if (!does_show) CHECK(bcp47_validate(registry, usual, strlen(usual)).status == BCP47_NOT_OPEN);
        if (!does_show) CHECK(bcp47_show(registry, NULL, 1, &(char *){NULL}).status == BCP47_NOT_OPEN);
        if (!does_show) bcp47_close(registry);
        exit(failures ? 1 : 7);
    }
    int status;
    CHECK(waitpid(child, &status, 0) == child && WIFEXITED(status) && WEXITSTATUS(status) == 7);
}

/* A call that is left by a jump, which no caller may do, keeps its slot only. */
static jmp_buf out;

static void jump_out(void) {
    longjmp(out, 1);
}

/* What such a call had is lost, which no tool looks at in a process that ends at once. */
static void ask_after_jumps(const char *path) {
    int status;
    pid_t child = fork();
    if (child < 0) exit(4);
    if (child) {
        CHECK(waitpid(child, &status, 0) == child && WIFEXITED(status) && WEXITSTATUS(status) == 7);
        return;
    }
    alarm(60);
    registry = opened(path);
    within = jump_out;
    for (volatile int i = 0; i < DEEPEST; i++) {
        if (!setjmp(out)) ask();
        depth = 0;
    }
    within = NULL;
    ask_each();
    _exit(failures ? 1 : 7);
}

/* The bytes that were given for a registry, which are written over once they are copied. */
static char *given;
static size_t given_length;
static int copies = 0;

static void write_over(void) {
    if (copies++) memset(given, '?', given_length);
}

static void open_and_write_over(const char *path) {
    char line[BCP47_LINE], buffer[64];
    bcp47_registry *other;
    given = read_all(path, &given_length);
    within = write_over;
    depth++;
    CHECK(!bcp47_open(&other, given, given_length, line, sizeof line).status && copies > 1);
    depth--;
    CHECK(!bcp47_canonical(other, usual, strlen(usual), buffer, sizeof buffer).status && !strcmp(buffer, "yue"));
    bcp47_close(other);
    free(given);
}

/* A call of a registry that is opened anew, from within which others come; and again, by the slots that those made. */
static void ask_within(const char *path, int times, void (*others)(void)) {
    registry = opened(path);
    for (is_first = 1; times; times--, is_first = 0) {
        within = others;
        is_over = 0;
        CHECK(!ask() && is_over);
        within = NULL;
    }
    bcp47_close(registry);
}

int main(int count, char **words) {
    if (count < 2) return 3;
    is_each_refused = count > 2;
    ask_within(words[1], 1, upgrade_within);
    for (does_show = 0; does_show < 2; does_show++) {
        ask_within(words[1], 2, call_again);
        ask_within(words[1], 2, fork_within);
    }
    ask_within(words[1], 1, show_within);
    does_show = 0;
    serve(words[1]);
    open_and_write_over(words[1]);
    ask_after_jumps(words[1]);
    if (!failures) printf("nested: %d calls at once\n", DEEPEST + 1);
    return failures != 0;
}
