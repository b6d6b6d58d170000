/* Tells helgrind, or with DRD drd, what the atomic operations of bindings/c/bcp47.c order, which neither of them sees: what
   was done before a slot was given back was done before the slot was taken again. */
#ifdef DRD
#include <valgrind/drd.h>
#define IGNORE_FLAG(flag) DRD_IGNORE_VAR(flag)
#else
#include <valgrind/helgrind.h>
#define IGNORE_FLAG(flag) VALGRIND_HG_DISABLE_CHECKING(&(flag), sizeof(flag))
#endif
#define BCP47_SHARED(place) IGNORE_FLAG(*(place))
#define BCP47_TAKEN(slot) ANNOTATE_HAPPENS_AFTER(slot)
#define BCP47_GIVEN(slot)              \
    do {                               \
        IGNORE_FLAG((slot)->is_taken); \
        ANNOTATE_HAPPENS_BEFORE(slot); \
    } while (0)
