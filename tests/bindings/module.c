/* Two libraries of one name in a process stay apart. Without arguments of the compiler this is the host, whose own
   bcp47_canonical is seen by all; with MODULE it is a module over the static library, which the host loads; the host
   asks it for a canonical text. Arguments: the module, the sample registry. */
#include "support.h"
#include <dlfcn.h>

#ifdef MODULE
int ask(const char *path, char *buffer, size_t room);

int ask(const char *path, char *buffer, size_t room) {
    bcp47_registry *registry = opened(path);
    int status = bcp47_canonical(registry, "I-KLINGON", 9, buffer, room).status;
    bcp47_close(registry);
    return status;
}
#else
bcp47_outcome bcp47_open(bcp47_registry **registry, const void *bytes, size_t length, char *line, size_t room) {
    (void)registry, (void)bytes, (void)length, (void)line, (void)room;
    abort();
}

const char *bcp47_fault_name(int fault) {
    (void)fault;
    abort();
}

bcp47_outcome bcp47_canonical(const bcp47_registry *registry, const char *text, size_t length, char *buffer, size_t room) {
    (void)registry, (void)text, (void)length, (void)buffer, (void)room;
    abort();
}

int main(int count, char **words) {
    char buffer[64];
    if (count < 3) return 3;
    for (int global = 0; global < 2; global++) {
        void *module = dlopen(words[1], RTLD_NOW | (global ? RTLD_GLOBAL : RTLD_LOCAL));
        if (!module) return 4;
        int (*ask)(const char *, char *, size_t);
        *(void **)&ask = dlsym(module, "ask");
        CHECK(ask && !ask(words[2], buffer, sizeof buffer) && !strcmp(buffer, "tlh"));
        CHECK(!dlsym(module, "bcp47_handle_canonical"));
        dlclose(module);
    }
    return failures != 0;
}
#endif
