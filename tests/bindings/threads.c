/* Threads that ask one registry, by eight calls of the header; a fork while they do; and a signal handler that asks too. Each
   answer has to be the one that is given alone. Arguments: registry, tags, how many of them, threads; and `signals`, `forks`
   or the bytes of each thread's stack. */
#include "support.h"
#include <pthread.h>
#include <signal.h>
#include <stdatomic.h>
#include <stdbool.h>
#include <sys/time.h>
#include <sys/wait.h>
#include <unistd.h>

#define MOST 200000
#define ROOM 200
#define CALLS 7
typedef struct {
    bcp47_outcome o[CALLS];
    char text[4][ROOM], *rows;
} answers;

static bcp47_registry *registry;
static char *texts;
static size_t begins[MOST + 1], count = 0;
static answers *wanted;
static atomic_long wrong = 0, calls = 0, handled = 0;
static atomic_bool is_over = false;

static int same(bcp47_outcome a, bcp47_outcome b, const char *x, const char *y, size_t room) {
    return a.status == b.status && a.detail == b.detail && a.place == b.place && a.length == b.length && a.text == b.text &&
           (a.length > room || !a.length || !memcmp(x, y, a.length));
}

static void ask(size_t i, answers *got) {
    const char *text = texts + begins[i], *other = texts + begins[(i + 1) % count];
    size_t n = begins[i + 1] - begins[i] - 1, m = begins[(i + 1) % count + 1] - begins[(i + 1) % count] - 1;
    got->o[0] = bcp47_canonical(registry, text, n, got->text[0], ROOM);
    got->o[1] = bcp47_extlang(registry, text, n, got->text[1], ROOM);
    got->o[2] = bcp47_classify(registry, text, n, got->text[2], ROOM);
    got->o[3] = bcp47_explain(registry, text, n, got->text[3], ROOM);
    got->o[4] = bcp47_validate(registry, text, n);
    got->o[5] = bcp47_equivalent(registry, text, n, other, m, NULL, 0);
    got->o[6] = bcp47_show(registry, text, n, &got->rows);
    calls += CALLS;
}

static void compare(size_t i) {
    answers got;
    ask(i, &got);
    for (int k = 0; k < 6; k++)
        if (!same(got.o[k], wanted[i].o[k], k < 4 ? got.text[k] : "", k < 4 ? wanted[i].text[k] : "", ROOM)) wrong++;
    if (!same(got.o[6], wanted[i].o[6], got.rows, wanted[i].rows, SIZE_MAX)) wrong++;
    bcp47_free(got.rows);
}

static void *run(void *data) {
    size_t me = (size_t)(uintptr_t)data;
    for (size_t j = 0; j < count; j++) compare((j * 7 + me * 311) % count);
    return NULL;
}

static void *run_on(void *data) {
    size_t j = 0;
    while (!is_over) compare((j++ * 7 + (size_t)(uintptr_t)data * 311) % count);
    return NULL;
}

/* A handler asks for what takes no memory. */
static void handle(int number) {
    char buffer[ROOM];
    (void)number;
    bcp47_outcome o = bcp47_canonical(registry, "iw", 2, buffer, sizeof buffer);
    if (o.status || strcmp(buffer, "he")) wrong++;
    handled++;
}

static void ask_under_signals(void) {
    struct sigaction action = {.sa_handler = handle};
    struct itimerval often = {{0, 100}, {0, 100}};
    char buffer[ROOM];
    sigaction(SIGALRM, &action, NULL);
    setitimer(ITIMER_REAL, &often, NULL);
    while (handled < 3000) {
        bcp47_outcome o = bcp47_canonical(registry, "zh-yue", 6, buffer, sizeof buffer);
        if (o.status || strcmp(buffer, "yue")) wrong++;
        calls++;
    }
    often.it_value.tv_usec = 0;
    setitimer(ITIMER_REAL, &often, NULL);
}

/* Forks while the threads are in their calls: the child asks too, and closes its copy. */
static void fork_in_midst(int forks) {
    for (int i = 0; i < forks; i++) {
        pid_t child = fork();
        if (child < 0) exit(4);
        if (!child) {
            alarm(20);
            wrong = 0;
            for (size_t j = 0; j < 50; j++) compare(j % count);
            bcp47_close(registry);
            _exit(wrong ? 1 : 7);
        }
        int status;
        if (waitpid(child, &status, 0) != child || !WIFEXITED(status) || WEXITSTATUS(status) != 7) wrong++;
    }
    is_over = true;
}

int main(int words_count, char **words) {
    size_t length;
    if (words_count < 5) return 3;
    const char *how = words_count > 5 ? words[5] : "";
    size_t most = (size_t)atol(words[3]), threads = (size_t)atol(words[4]), stack = (size_t)atol(how);
    int is_forked = !strcmp(how, "forks");
    registry = opened(words[1]);
    texts = read_all(words[2], &length);
    for (size_t i = 0; i < length && count < most && count < MOST; i++)
        if (texts[i] == '\n') begins[++count] = i + 1;
    wanted = calloc(count, sizeof *wanted);
    pthread_t *ids = calloc(threads, sizeof *ids);
    if (!wanted || !ids || !count) return 4;
    for (size_t i = 0; i < count; i++) ask(i, &wanted[i]);
    calls = 0;
    /* Opened anew, so that the threads have to read the records, which the first call does that shows a tag. */
    bcp47_close(registry);
    registry = opened(words[1]);
    pthread_attr_t attributes;
    pthread_attr_init(&attributes);
    if (stack && pthread_attr_setstacksize(&attributes, stack)) return 4;
    for (size_t i = 0; i < threads; i++)
        if (pthread_create(&ids[i], &attributes, is_forked ? run_on : run, (void *)(uintptr_t)i)) return 4;
    if (is_forked) fork_in_midst(100);
    if (!strcmp(how, "signals")) ask_under_signals();
    for (size_t i = 0; i < threads; i++) pthread_join(ids[i], NULL);
    if (bcp47_upgrade_check(registry, registry).status) wrong++;
    bcp47_close(registry);
    pthread_attr_destroy(&attributes);
    for (size_t i = 0; i < count; i++) bcp47_free(wanted[i].rows);
    free(ids);
    free(wanted);
    free(texts);
    printf("%zu tags, %zu threads %s: %ld calls, %ld wrong\n", count, threads, how, (long)calls, (long)wrong);
    return wrong != 0 || calls == 0;
}
