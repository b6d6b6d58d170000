/* Preloaded into a program by tests/runs.py: gives its reads and writes in pieces, and refuses one of its calls.

   FAULTS is a list of NAME:MOST:FAILS:HOW. NAME is input, output or errors, or first or second for the files in the order in which
   they are opened; MOST is the most bytes of a call (0: all), FAILS the number of the call that fails, from 1 (0: none), and HOW
   what it does: -1 fails, 0 moves no byte. A call for no bytes is not counted. open:0:K:-1 has the K-th open of a file fail for want of
   memory. growth:FD:K:-1 refuses the K-th growth of memory, and writes a byte to FD. */
#define _GNU_SOURCE
#include <dlfcn.h>
#include <errno.h>
#include <fcntl.h>
#include <stdarg.h>
#include <stdio.h>
#include <stdlib.h>
#include <string.h>
#include <unistd.h>

enum { INPUT, OUTPUT, ERRORS, FIRST, SECOND, OPEN, GROWTH, COUNT };
static const char *const names[COUNT] = {"input", "output", "errors", "first", "second", "open", "growth"};
static struct { size_t most; long fails, calls; int how, fd; } devices[COUNT];

extern void *__libc_malloc(size_t), *__libc_calloc(size_t, size_t), *__libc_realloc(void *, size_t);

__attribute__((constructor)) static void start(void) {
    char *rest = getenv("FAULTS"), *word;
    for (int i = 0; i < COUNT; i++) devices[i].fd = i <= ERRORS ? i : -1;
    for (rest = rest ? strdup(rest) : NULL; (word = strsep(&rest, " "));)
        for (int i = 0; i < COUNT; i++) {
            size_t length = strlen(names[i]);
            if (!strncmp(word, names[i], length) && word[length] == ':')
                sscanf(word + length + 1, "%zu:%ld:%d", &devices[i].most, &devices[i].fails, &devices[i].how);
        }
    devices[GROWTH].calls = 0; /* those of the loader are no growths of the program */
}

/* Whether this call of a device is the one that fails. */
static int counts(int at) {
    return at >= 0 && ++devices[at].calls == devices[at].fails;
}

/* The device of a descriptor; -1 where it is none. */
static int device_of(int fd) {
    int at = OPEN - 1;
    while (at >= 0 && devices[at].fd != fd) at--;
    return at;
}

/* Whether a read or a write fails, and else the bytes that it may move. */
static int fails(int at, size_t *size) {
    if (at < 0 || !*size) return 0;
    if (devices[at].most && *size > devices[at].most) *size = devices[at].most;
    if (!counts(at)) return 0;
    if (!devices[at].how) return *size = 0;
    return -1;
}

ssize_t read(int fd, void *data, size_t size) {
    static ssize_t (*next)(int, void *, size_t);
    static struct { char bytes[1 << 16]; size_t begin, end; } all[COUNT];
    if (!next) next = dlsym(RTLD_NEXT, "read");
    int at = device_of(fd);
    if (fails(at, &size)) return errno = EIO, -1;
    size_t most = at < 0 ? 0 : devices[at].most;
    if (!size || !most || most > sizeof all->bytes) return next(fd, data, size);
    /* many pieces are read at once: a call of the system for each byte would take most of a run */
    if (all[at].begin == all[at].end) {
        ssize_t got = next(fd, all[at].bytes, sizeof all->bytes / most * most);
        if (got <= 0) return got;
        all[at].begin = 0, all[at].end = (size_t)got;
    }
    if (size > all[at].end - all[at].begin) size = all[at].end - all[at].begin;
    memcpy(data, all[at].bytes + all[at].begin, size);
    all[at].begin += size;
    return (ssize_t)size;
}

ssize_t write(int fd, const void *data, size_t size) {
    static ssize_t (*next)(int, const void *, size_t);
    if (!next) next = dlsym(RTLD_NEXT, "write");
    size_t wanted = size;
    if (fails(device_of(fd), &size)) return errno = ENOSPC, -1;
    if (wanted && !size) return 0;
    return next(fd, data, size);
}

static int noted(int fd) {
    for (int at = FIRST; fd >= 0 && at <= SECOND; at++)
        if (devices[at].fd < 0) return devices[at].fd = fd;
    return fd;
}

#define OPENS(name) \
    int name(const char *path, int flags, ...) { \
        static int (*next)(const char *, int, ...); \
        if (!next) next = (int (*)(const char *, int, ...))dlsym(RTLD_NEXT, #name); \
        va_list more; \
        va_start(more, flags); \
        int mode = va_arg(more, int); \
        va_end(more); \
        if (counts(OPEN)) return errno = ENOMEM, -1; \
        return noted(next(path, flags, mode)); \
    }
OPENS(open)
OPENS(open64)

static int refused(void) {
    return counts(GROWTH) && write((int)devices[GROWTH].most, "r", 1) == 1;
}

void *malloc(size_t size) { return refused() ? NULL : __libc_malloc(size); }
void *calloc(size_t items, size_t size) { return refused() ? NULL : __libc_calloc(items, size); }
void *realloc(void *old, size_t size) { return refused() ? NULL : __libc_realloc(old, size); }
