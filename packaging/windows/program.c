/* SPDX-License-Identifier: MIT OR Apache-2.0 */
/* What the program asks of Linux, for Windows: files, the words of the command line, numbers of errors. Texts are UTF-8, and files are
   read and written as they are. */
#define WIN32_LEAN_AND_MEAN
#include <errno.h>
#include <fcntl.h>
#include <io.h>
#include <stdint.h>
#include <string.h>
#include <sys/stat.h>
#include <wchar.h>
#include <windows.h>
#include <shellapi.h>

/* A function that is declared otherwise here goes by its name in Linux alone. */
#define LINUX(name) __asm__(#name)

/* As many bytes as a call takes at once. */
static unsigned at_once(size_t count) {
    return count < 1 << 30 ? (unsigned)count : 1 << 30;
}

int64_t linux_read(int file, void *buffer, size_t room) LINUX(read);
int64_t linux_read(int file, void *buffer, size_t room) {
    return _read(file, buffer, at_once(room));
}

int64_t linux_write(int file, const void *bytes, size_t count) LINUX(write);
int64_t linux_write(int file, const void *bytes, size_t count) {
    return _write(file, bytes, at_once(count));
}

int linux_close(int file) LINUX(close);
int linux_close(int file) {
    return _close(file);
}

/* The program opens files to read them, and the standard input by its name in Linux. */
int linux_open(const char *path, int flags, ...) LINUX(open);
int linux_open(const char *path, int flags, ...) {
    wchar_t wide[4096];
    (void)flags;
    if (!strcmp(path, "/dev/stdin")) return _dup(0);
    if (MultiByteToWideChar(CP_UTF8, MB_ERR_INVALID_CHARS, path, -1, wide, 4096)) return _wopen(wide, _O_RDONLY | _O_BINARY | _O_NOINHERIT);
    errno = ENOENT;
    return -1;
}

/* What a file is, which is all that the program asks of it: the field stx_mode. Its bits are those of Linux. */
int linux_statx(int folder, const char *path, int flags, unsigned mask, uint16_t *fields) LINUX(statx);
int linux_statx(int folder, const char *path, int flags, unsigned mask, uint16_t *fields) {
    wchar_t wide[4096];
    struct _stat64 found;
    (void)folder, (void)flags, (void)mask;
    errno = ENOENT;
    if (!MultiByteToWideChar(CP_UTF8, MB_ERR_INVALID_CHARS, path, -1, wide, 4096) || _wstat64(wide, &found)) return -1;
    fields[14] = found.st_mode;
    return 0;
}

/* No path of the program is told, so that the registry @ is only what LANGTAG_REGISTRY names. */
int64_t linux_readlink(const char *path, char *buffer, size_t room) LINUX(readlink);
int64_t linux_readlink(const char *path, char *buffer, size_t room) {
    (void)path, (void)buffer, (void)room;
    errno = ENOENT;
    return -1;
}

/* NUL is no terminal, though _isatty says so. */
int linux_isatty(int file) LINUX(isatty);
int linux_isatty(int file) {
    DWORD mode;
    return GetConsoleMode((HANDLE)_get_osfhandle(file), &mode) != 0;
}

/* As it starts, the program asks that a pipe without a reader is an error of a write, and no signal: so it is here. */
int64_t __sysv_signal(int number, int64_t handler);
int64_t __sysv_signal(int number, int64_t handler) {
    (void)number, (void)handler;
    return 0;
}

int rattle_errno(void);
int rattle_errno(void) {
    return errno;
}

void rattle_set_errno(int number);
void rattle_set_errno(int number) {
    errno = number;
}

int __xpg_strerror_r(int number, char *buffer, size_t room);
int __xpg_strerror_r(int number, char *buffer, size_t room) {
    return strerror_s(buffer, room, number);
}

/* The words, as Windows cuts the command line: no word is taken as a pattern of files. The first is the program's name alone. */
static wchar_t **words;
static int count;

static void take_words(void) {
    words = CommandLineToArgvW(GetCommandLineW(), &count);
    if (!words || !count) return;
    for (wchar_t *at = words[0]; *at; at++)
        if (wcschr(L"\\/:", *at)) words[0] = at + 1;
    wchar_t *end = wcsrchr(words[0], L'.');
    if (end) *end = 0;
}

size_t rattle_arg_count(void);
size_t rattle_arg_count(void) {
    return (size_t)count;
}

/* The length of a text, whose front is written; -1 where there is none, and -2 where it does not fit. */
static int64_t give(const wchar_t *text, char *buffer, size_t room) {
    char given[3 * 32768];
    int length = text ? WideCharToMultiByte(CP_UTF8, 0, text, -1, given, sizeof given, NULL, NULL) - 1 : -1;
    if (length < 0) return -1;
    memcpy(buffer, given, (size_t)length < room ? (size_t)length : room);
    return (size_t)length <= room ? length : -2;
}

int64_t rattle_arg(size_t i, char *buffer, size_t room);
int64_t rattle_arg(size_t i, char *buffer, size_t room) {
    return give(i < (size_t)count ? words[i] : NULL, buffer, room);
}

int64_t rattle_env(const char *name, char *buffer, size_t room);
int64_t rattle_env(const char *name, char *buffer, size_t room) {
    wchar_t wide[256];
    return give(MultiByteToWideChar(CP_UTF8, MB_ERR_INVALID_CHARS, name, -1, wide, 256) ? _wgetenv(wide) : NULL, buffer, room);
}

__attribute__((constructor)) static void begin(void) {
    take_words();
    for (int file = 0; file < 3; file++) _setmode(file, _O_BINARY);
    SetConsoleOutputCP(CP_UTF8);
}
