/* SPDX-License-Identifier: MIT OR Apache-2.0 */
/* The calls of bcp47.h over the proved ones of handles.h. What this file decides is which handle a call asks by, which
   arguments are answered by a status, where a zero follows a text, and which steps the lines of an explanation are; all else is
   theirs. There is no lock and no state but a registry's own. */
#define _POSIX_C_SOURCE 200809L
#include "handles.h"
#include <sched.h>
#include <stdatomic.h>
#include <stdbool.h>
#include <stdlib.h>
#include <string.h>
#include <time.h>

/* How many slots a registry is opened with, and how many more, from which a call that finds those taken makes one of its own. A call
   has one of these for moments only, but where a fork left it behind: another waits for it so many milliseconds. */
#ifndef BCP47_SLOTS
#define BCP47_SLOTS 64
#endif
#ifndef BCP47_WAIT
#define BCP47_WAIT 500
#endif
enum { SLOTS = BCP47_SLOTS, SEEDS = 8, KEPT = SLOTS + SEEDS };

/* Room for what is shown of most tags. */
enum { ROWS = 4096 };

/* What a registry that is open begins with, and a list of tags. */
#define OPEN 0x37345042u
#define LISTED 0x3734414Cu

/* What one call at a time asks by. It fills a line of a processor's cache, so that threads don't wait for each other. */
typedef struct slot {
    bcp47_handle handle;
    struct slot *next; /* of those that calls made */
    atomic_bool is_taken;
    char rest[64 - sizeof(bcp47_handle) - sizeof(struct slot *) - sizeof(atomic_bool)];
} slot;

/* Slots whose handles hold one registry. Those that calls made stay until it is closed: as many as calls were under way at once. */
typedef struct {
    slot kept[KEPT];
    _Atomic(slot *) made;
} slots;

/* For tools that see no atomic operations: tests/bindings/order.h. */
#ifndef BCP47_TAKEN
#define BCP47_TAKEN(slot) ((void)0)
#define BCP47_GIVEN(slot) ((void)0)
#define BCP47_SHARED(pointer) ((void)0)
#endif

struct bcp47_registry {
    atomic_uint mark;
    bcp47_info info; /* but for the digest, which is taken of the bytes when it is asked for */
    void *bytes;
    size_t length;
    slots asked;
    _Atomic(slots *) shown; /* those whose handles keep its records, too: made by the first bcp47_show */
};

struct bcp47_available {
    atomic_uint mark;
    slots asked; /* those whose handles keep the list, too */
};

/* ---- what is answered */

static bcp47_outcome ended(int status) {
    bcp47_outcome outcome = {status, 0, 0, 0, 0, 0};
    return outcome;
}

/* Puts a zero after a text that stands in a buffer, where there is room. */
static inline void end_text(const bcp47_outcome *outcome, char *buffer, size_t room) {
    if (outcome->status != BCP47_BUFFER_TOO_SMALL && outcome->length < room) buffer[outcome->length] = 0;
}

/* Copies the text of an outcome to a buffer where it fits. The status stays what it is where it does not. */
static void tell(const bcp47_outcome *outcome, const uint8_t *text, char *buffer, size_t room) {
    if (outcome->length && outcome->length <= room) memcpy(buffer, text, outcome->length);
    end_text(outcome, buffer, room);
}

/* ---- what is asked */

/* Whether so many items of a size can stand there: NULL is for none of them. */
static inline bool is_array(const void *items, size_t count, size_t size) {
    return items ? count <= PTRDIFF_MAX / size : count == 0;
}

static inline bool is_text(const void *bytes, size_t length) {
    return is_array(bytes, length, 1);
}

/* Whether a text and a buffer can stand there, and have no byte in common. */
static inline bool are_apart(const void *text, size_t length, const void *buffer, size_t room) {
    uintptr_t one = (uintptr_t)text, other = (uintptr_t)buffer;
    if (!is_text(text, length) || !is_text(buffer, room)) return false;
    return !length || !room || (other - one >= length && one - other >= room);
}

/* The proved calls take no null pointer: any other stands for no bytes. */
static const uint8_t *bytes_of(const void *bytes) {
    return bytes ? (const uint8_t *)bytes : (const uint8_t *)"";
}

static uint8_t *room_of(void *buffer, uint8_t *nowhere) {
    return buffer ? (uint8_t *)buffer : nowhere;
}

/* ---- handles */

static bool is_open(const bcp47_registry *registry) {
    return registry && atomic_load_explicit(&registry->mark, memory_order_relaxed) == OPEN;
}

/* Where a thread begins to look for a slot: stacks of threads lie apart. */
static size_t first_slot(void) {
    char here;
    uint64_t place = (uint64_t)(uintptr_t)&here >> 14;
    return (size_t)(place * UINT64_C(0x9E3779B97F4A7C15) >> 32) % SLOTS;
}

static inline bool takes(slot *s) {
    if (atomic_exchange_explicit(&s->is_taken, true, memory_order_acquire)) return false;
    BCP47_TAKEN(s);
    return true;
}

/* The same, with a look before: most that are looked at among many are taken. */
static bool takes_free(slot *s) {
    bool is_free = !atomic_load_explicit(&s->is_taken, memory_order_relaxed);
    if (is_free) is_free = takes(s);
    return is_free;
}

static int64_t milliseconds(void) {
    struct timespec now;
    clock_gettime(CLOCK_MONOTONIC, &now);
    return (int64_t)now.tv_sec * 1000 + now.tv_nsec / 1000000;
}

/* A slot that no other call has, of those that are kept from one on or that calls made; NULL where each is taken. */
static slot *take_free(slots *all, size_t first) {
    for (size_t i = 0; i < SLOTS; i++) {
        slot *s = &all->kept[(first + i) % SLOTS];
        if (takes_free(s)) return s;
    }
    BCP47_SHARED(&all->made);
    slot *s = atomic_load_explicit(&all->made, memory_order_acquire);
    while (s && !takes_free(s)) s = s->next;
    return s;
}

static inline void give(slot *s) {
    BCP47_GIVEN(s);
    atomic_store_explicit(&s->is_taken, false, memory_order_release);
}

/* Lets a handle hold what those of the slots do, by one that is kept for that; false where memory runs out. Where none of them is
   given back for a while, as in the child of a fork that left a thread in each, the bytes of the registry are read anew, if it is told. */
static bool holds(const bcp47_registry *registry, slots *all, bcp47_handle *handle) {
    uint8_t line[BCP47_LINE];
    int64_t begun = milliseconds();
    do {
        for (size_t i = SLOTS; i < KEPT; i++) {
            if (!takes(&all->kept[i])) continue;
            uint8_t status = bcp47_handle_share(&all->kept[i].handle, handle);
            give(&all->kept[i]);
            return !status;
        }
        sched_yield();
    } while (milliseconds() - begun < BCP47_WAIT);
    if (!registry || bcp47_handle_open(handle, registry->bytes, registry->length, line, sizeof line).status) return false;
    if (all == &registry->asked || !bcp47_handle_keep(handle, registry->bytes, registry->length)) return true;
    bcp47_handle_close(handle);
    return false;
}

/* A slot of a call's own, which other calls may have after it; NULL where memory runs out. */
static slot *make_slot(const bcp47_registry *registry, slots *all) {
    slot *made = calloc(1, sizeof *made);
    if (!made) return NULL;
    BCP47_SHARED(&made->next);
    BCP47_SHARED(&made->is_taken);
    atomic_init(&made->is_taken, true);
    made->next = atomic_load_explicit(&all->made, memory_order_relaxed);
    if (!holds(registry, all, &made->handle)) {
        free(made);
        return NULL;
    }
    while (!atomic_compare_exchange_weak_explicit(&all->made, &made->next, made, memory_order_release, memory_order_relaxed)) {}
    return made;
}

static slot *take_other(const bcp47_registry *registry, slots *all, size_t first) {
    slot *s = take_free(all, first);
    return s ? s : make_slot(registry, all);
}

/* A slot for a call; NULL where memory runs out. */
static inline slot *take_of(const bcp47_registry *registry, slots *all) {
    size_t first = first_slot();
    return takes(&all->kept[first]) ? &all->kept[first] : take_other(registry, all, first + 1);
}

static inline slot *take(const bcp47_registry *registry) {
    return take_of(registry, &((bcp47_registry *)(uintptr_t)registry)->asked);
}

/* ---- opening and closing */

/* The number that so many digits are; -1 where one is none. */
static int number_of(const uint8_t *bytes, size_t count) {
    int number = 0;
    for (size_t i = 0; i < count; i++) {
        if (bytes[i] < '0' || bytes[i] > '9') return -1;
        number = 10 * number + (bytes[i] - '0');
    }
    return number;
}

/* Whether ten bytes are a day, as 2025-05-15, and one of the calendar (RFC 3339, 5.6 and 5.7). */
static bool is_day(const uint8_t *bytes) {
    static const int longest[] = {31, 29, 31, 30, 31, 30, 31, 31, 30, 31, 30, 31};
    int year = number_of(bytes, 4), month = number_of(bytes + 5, 2), day = number_of(bytes + 8, 2);
    if (bytes[4] != '-' || bytes[7] != '-' || year < 1 || month < 1 || month > 12 || day < 1) return false;
    bool is_leap = year % 4 == 0 && (year % 100 != 0 || year % 400 == 0);
    return day <= longest[month - 1] && (day < 29 || month != 2 || is_leap);
}

/* The date of a header that begins the bytes, in the form of RFC 3339. Blanks may follow it. */
static void read_date(const uint8_t *bytes, size_t length, char date[11]) {
    static const char name[] = "File-Date: ";
    size_t begin = sizeof name - 1;
    date[0] = 0;
    if (length < begin + 10 || memcmp(bytes, name, begin) || !is_day(bytes + begin)) return;
    if (length > begin + 10 && bytes[begin + 10] > ' ') return;
    memcpy(date, bytes + begin, 10);
    date[10] = 0;
}

/* Lets the others hold what the first handle does, and gives them: how many hold it then, fewer than all where memory runs out. */
static size_t share_first(slots *all) {
    size_t count = 1;
    while (count < KEPT && !bcp47_handle_share(&all->kept[0].handle, &all->kept[count].handle)) count++;
    for (size_t i = 0; i < count; i++) give(&all->kept[i]);
    return count;
}

static void close_handles(slots *all, size_t count) {
    for (size_t i = 0; i < count; i++) bcp47_handle_close(&all->kept[i].handle);
}

/* Closes the handles that no call has: whether that is all. A slot that a call has stays: a call of a thread that a fork left
   behind in the parent never ends. */
static bool close_slots(slots *all) {
    bool is_whole = true;
    for (size_t i = 0; i < KEPT; i++) {
        if (takes(&all->kept[i])) bcp47_handle_close(&all->kept[i].handle);
        else is_whole = false;
    }
    for (slot *s = atomic_load_explicit(&all->made, memory_order_relaxed), *next; s; s = next) {
        next = s->next;
        if (!takes(s)) continue;
        bcp47_handle_close(&s->handle);
        free(s);
    }
    return is_whole;
}

/* Lets go of a registry that has so many handles. */
static void let_go(bcp47_registry *registry, size_t handles) {
    close_handles(&registry->asked, handles);
    free(registry->bytes);
    free(registry);
}

/* A registry without a handle, which keeps the bytes. */
static bcp47_registry *without_handles(const void *bytes, size_t length) {
    bcp47_registry *made = calloc(1, sizeof *made);
    if (!made) return NULL;
    made->length = length;
    made->bytes = malloc(length + 1);
    if (made->bytes) {
        memcpy(made->bytes, bytes_of(bytes), length);
        return made;
    }
    free(made);
    return NULL;
}

/* A refusal of a registry whose line is the name of the status. */
static bcp47_outcome refuse(int status, char *line, size_t room) {
    const char *name = bcp47_status_name(status);
    bcp47_outcome outcome = {status, 0, 0, strlen(name), 0, 0};
    tell(&outcome, (const uint8_t *)name, line, room);
    return outcome;
}

bcp47_outcome bcp47_open(bcp47_registry **registry, const void *bytes, size_t length, char *line, size_t room) {
    uint8_t said[BCP47_LINE];
    if (!registry) return ended(BCP47_BAD_CALL);
    *registry = NULL;
    if (!are_apart(bytes, length, line, room)) return ended(BCP47_BAD_CALL);
    bcp47_registry *opened = without_handles(bytes, length);
    if (!opened) return refuse(BCP47_OUT_OF_MEMORY, line, room);
    bcp47_handle *first = &opened->asked.kept[0].handle;
    bcp47_outcome outcome = bcp47_handle_open(first, opened->bytes, length, said, sizeof said);
    if (outcome.status != BCP47_DONE) {
        let_go(opened, 0);
        tell(&outcome, said, line, room);
        return outcome;
    }
    read_date(opened->bytes, length, opened->info.file_date);
    opened->info.entries = bcp47_handle_entries(first);
    size_t handles = opened->info.entries ? share_first(&opened->asked) : 1;
    if (handles < KEPT) {
        int status = opened->info.entries ? BCP47_OUT_OF_MEMORY : BCP47_NO_ENTRIES;
        let_go(opened, handles);
        return refuse(status, line, room);
    }
    atomic_init(&opened->mark, OPEN);
    *registry = opened;
    tell(&outcome, said, line, room);
    return outcome;
}

void bcp47_close(bcp47_registry *registry) {
    if (!is_open(registry)) return;
    atomic_store_explicit(&registry->mark, 0, memory_order_relaxed);
    slots *shown = atomic_load_explicit(&registry->shown, memory_order_relaxed);
    if (shown && close_slots(shown)) free(shown);
    if (close_slots(&registry->asked)) let_go(registry, 0);
}

bcp47_outcome bcp47_registry_info(const bcp47_registry *registry, bcp47_info *info) {
    if (!is_open(registry)) return ended(BCP47_NOT_OPEN);
    if (!info) return ended(BCP47_BAD_CALL);
    *info = registry->info;
    bcp47_digest(registry->bytes, registry->length, info->sha256, sizeof info->sha256);
    return ended(BCP47_DONE);
}

/* ---- calls that write the text of a tag */

/* A proved call that writes a text. */
typedef bcp47_outcome writer(bcp47_handle *, const uint8_t *, size_t, uint8_t *, size_t);

static inline __attribute__((always_inline)) bcp47_outcome write_text(writer *writes, const bcp47_registry *registry, const char *text, size_t length, char *buffer,
                                size_t room) {
    uint8_t nowhere;
    if (!is_open(registry)) return ended(BCP47_NOT_OPEN);
    if (!are_apart(text, length, buffer, room)) return ended(BCP47_BAD_CALL);
    slot *s = take(registry);
    if (!s) return ended(BCP47_BUSY);
    bcp47_outcome outcome = writes(&s->handle, bytes_of(text), length, room_of(buffer, &nowhere), room);
    give(s);
    end_text(&outcome, buffer, room);
    return outcome;
}

bcp47_outcome bcp47_canonical(const bcp47_registry *registry, const char *text, size_t length, char *buffer, size_t room) {
    return write_text(bcp47_handle_canonical, registry, text, length, buffer, room);
}

bcp47_outcome bcp47_extlang(const bcp47_registry *registry, const char *text, size_t length, char *buffer, size_t room) {
    return write_text(bcp47_handle_extlang, registry, text, length, buffer, room);
}

bcp47_outcome bcp47_explain(const bcp47_registry *registry, const char *text, size_t length, char *buffer, size_t room) {
    return write_text(bcp47_handle_explain, registry, text, length, buffer, room);
}

/* A proved call that writes a text, and needs no registry. */
static bcp47_outcome write_alone(bcp47_outcome (*writes)(const uint8_t *, size_t, uint8_t *, size_t), const char *text, size_t length,
                                 char *buffer, size_t room) {
    uint8_t nowhere;
    if (!are_apart(text, length, buffer, room)) return ended(BCP47_BAD_CALL);
    bcp47_outcome outcome = writes(bytes_of(text), length, room_of(buffer, &nowhere), room);
    end_text(&outcome, buffer, room);
    return outcome;
}

bcp47_outcome bcp47_classify(const bcp47_registry *registry, const char *text, size_t length, char *buffer, size_t room) {
    if (registry) return write_text(bcp47_handle_classify, registry, text, length, buffer, room);
    return write_alone(bcp47_classify_text, text, length, buffer, room);
}

bcp47_outcome bcp47_parts(const char *text, size_t length, char *buffer, size_t room, bcp47_part *parts, size_t count) {
    uint8_t nowhere;
    bcp47_part none;
    if (!is_array(parts, count, sizeof *parts) || !are_apart(text, length, buffer, room) ||
        !are_apart(text, length, parts, count * sizeof *parts) || !are_apart(buffer, room, parts, count * sizeof *parts))
        return ended(BCP47_BAD_CALL);
    bcp47_outcome outcome =
        bcp47_write_parts(bytes_of(text), length, room_of(buffer, &nowhere), room, parts ? parts : &none, count);
    end_text(&outcome, buffer, room);
    return outcome;
}

bcp47_outcome bcp47_parent(const char *text, size_t length, char *buffer, size_t room) {
    return write_alone(bcp47_write_parent, text, length, buffer, room);
}

bcp47_outcome bcp47_with(const char *tag, size_t length, int part, const char *value, size_t value_length, char *buffer, size_t room) {
    uint8_t nowhere;
    if (!are_apart(tag, length, buffer, room) || !are_apart(value, value_length, buffer, room)) return ended(BCP47_BAD_CALL);
    bcp47_outcome outcome = bcp47_write_with(bytes_of(tag), length, (uint32_t)part, bytes_of(value), value_length,
                                             room_of(buffer, &nowhere), room);
    end_text(&outcome, buffer, room);
    return outcome;
}

bcp47_outcome bcp47_posix(const char *name, size_t length, char *buffer, size_t room) {
    return write_alone(bcp47_write_posix, name, length, buffer, room);
}

/* ---- texts that are given whole */

/* A text that is written whole. Where it does not fit the room, it is written again. */
static bcp47_outcome write_whole(writer *writes, slot *s, const uint8_t *text, size_t length, size_t room, char **whole) {
    char *buffer = NULL, *more;
    bcp47_outcome outcome;
    do {
        more = realloc(buffer, room);
        outcome = more ? writes(&s->handle, text, length, (uint8_t *)more, room - 1) : ended(BCP47_OUT_OF_MEMORY);
        if (more) buffer = more;
        room = outcome.length + 1;
    } while (outcome.status == BCP47_BUFFER_TOO_SMALL);
    if (outcome.status != BCP47_DONE) {
        free(buffer);
        return outcome;
    }
    buffer[outcome.length] = 0;
    more = realloc(buffer, room);
    *whole = more ? more : buffer;
    return outcome;
}

/* The lines of so many steps. Each has about the length of the text, where replacements don't make tags longer. */
static bcp47_outcome write_lines(slot *s, const uint8_t *text, size_t length, size_t steps, char **lines) {
    return write_whole(bcp47_handle_explain, s, text, length, (steps + 1) * (length + 64), lines);
}

/* The lines of at most so many steps; the number of steps goes to *count, and the variant that would be repeated to 8 bytes. */
static bcp47_outcome explain(const bcp47_registry *registry, const char *text, size_t length, size_t most, char **lines, size_t *count,
                             uint8_t *variant) {
    if (!is_open(registry)) return ended(BCP47_NOT_OPEN);
    if (!is_text(text, length)) return ended(BCP47_BAD_CALL);
    slot *s = take(registry);
    if (!s) return ended(BCP47_BUSY);
    bcp47_outcome outcome = bcp47_handle_count_steps(&s->handle, bytes_of(text), length, variant, 8);
    *count = outcome.place;
    if (outcome.status == BCP47_DONE)
        outcome = *count > most ? ended(BCP47_TOO_MANY_STEPS) : write_lines(s, bytes_of(text), length, *count, lines);
    give(s);
    return outcome;
}

bcp47_outcome bcp47_explanation(const bcp47_registry *registry, const char *text, size_t length, size_t most, char **lines) {
    uint8_t variant[8];
    size_t count;
    if (!lines) return ended(BCP47_BAD_CALL);
    *lines = NULL;
    bcp47_outcome outcome = explain(registry, text, length, most, lines, &count, variant);
    if (outcome.status == BCP47_REPLACEMENT_REPEATS) outcome.length = 0;
    return outcome;
}

/* The next word of a text, which a byte ends, and its length; the text is what follows it then. */
static const char *next_word(const char **text, char end, size_t *length) {
    const char *word = *text;
    for (*length = 0; word[*length] != end;) ++*length;
    *text = word + *length + 1;
    return word;
}

/* The number that the next word of a text is. */
static uint32_t next_number(const char **text) {
    size_t length;
    const char *word = next_word(text, ' ', &length);
    return (uint32_t)number_of((const uint8_t *)word, length);
}

/* The number of the kind of step that has a name. */
static uint8_t kind_of(const char *name, size_t length) {
    uint8_t kind = BCP47_EXTLANG;
    while (strlen(bcp47_kind_name(kind)) != length || memcmp(bcp47_kind_name(kind), name, length)) kind++;
    return kind;
}

/* Takes so many lines of an explanation, and the last, apart: the tags go to memory for as many bytes as the lines have. */
static void read_lines(const char *lines, bcp47_step *steps, size_t count, char *tags) {
    for (size_t i = 0; i <= count; i++) {
        size_t length;
        const char *word = next_word(&lines, ' ', &length);
        if (i < count) steps[i] = (bcp47_step){kind_of(word, length), next_number(&lines), 0};
        if (i < count) steps[i].number = next_number(&lines);
        word = next_word(&lines, '\n', &length);
        memcpy(tags, word, length);
        tags[length] = 0;
        tags += length + 1;
    }
}

bcp47_outcome bcp47_steps(const bcp47_registry *registry, const char *text, size_t length, size_t most, bcp47_step **steps,
                          const char **tags) {
    uint8_t variant[8];
    size_t count = 0;
    char *lines = NULL;
    if (!steps || !tags) return ended(BCP47_BAD_CALL);
    *steps = NULL, *tags = NULL;
    bcp47_outcome outcome = explain(registry, text, length, most, &lines, &count, variant);
    if (outcome.status != BCP47_DONE && outcome.status != BCP47_REPLACEMENT_REPEATS) return outcome;
    bcp47_step *made = malloc(count * sizeof *made + outcome.length + 1);
    char *behind = made ? (char *)(made + count) : NULL;
    if (!made) outcome = ended(BCP47_OUT_OF_MEMORY);
    else if (lines) read_lines(lines, made, count, behind);
    else memcpy(behind, variant, outcome.length), behind[outcome.length] = 0;
    free(lines);
    *steps = made, *tags = behind;
    if (outcome.status == BCP47_DONE) outcome.place = count, outcome.length = 0;
    return outcome;
}

/* Slots whose handles share the registry of one, and keep the records of the bytes from which it was opened. */
static slots *keep_records(const bcp47_registry *registry, bcp47_handle *handle) {
    slots *made = calloc(1, sizeof *made);
    size_t handles = 0;
    if (!made) return NULL;
    bcp47_handle *first = &made->kept[0].handle;
    if (!bcp47_handle_share(handle, first)) handles = bcp47_handle_keep(first, registry->bytes, registry->length) ? 1 : share_first(made);
    if (handles == KEPT) return made;
    close_handles(made, handles);
    free(made);
    return NULL;
}

/* The slots whose handles keep the records: those that a call before, or another thread meanwhile, has made, or else new ones; NULL
   where memory runs out. */
static slots *find_shown(bcp47_registry *registry) {
    BCP47_SHARED(&registry->shown);
    slots *shown = atomic_load_explicit(&registry->shown, memory_order_acquire);
    slot *s = shown ? NULL : take(registry);
    if (!s) return shown;
    slots *made = keep_records(registry, &s->handle);
    give(s);
    if (!made || atomic_compare_exchange_strong_explicit(&registry->shown, &shown, made, memory_order_acq_rel, memory_order_acquire))
        return made;
    close_handles(made, KEPT);
    free(made);
    return shown;
}

/* A slot for a call that asks of records: the status is BCP47_DONE, or else why there is none. */
static int take_shown(const bcp47_registry *registry, slot **s) {
    if (!is_open(registry)) return BCP47_NOT_OPEN;
    slots *shown = find_shown((bcp47_registry *)(uintptr_t)registry);
    if (!shown) return BCP47_OUT_OF_MEMORY;
    *s = take_of(registry, shown);
    return *s ? BCP47_DONE : BCP47_BUSY;
}

bcp47_outcome bcp47_record(const bcp47_registry *registry, uint32_t number, bcp47_field **fields, const char **texts) {
    bcp47_field none;
    uint8_t nowhere;
    slot *s;
    if (!fields || !texts) return ended(BCP47_BAD_CALL);
    *fields = NULL, *texts = NULL;
    int status = take_shown(registry, &s);
    if (status) return ended(status);
    bcp47_outcome outcome = bcp47_handle_record(&s->handle, number, &nowhere, 0, &none, 0);
    bcp47_field *made = NULL;
    if (outcome.status != BCP47_OUT_OF_MEMORY) made = malloc(outcome.place * sizeof *made + outcome.length + 1);
    if (made) outcome = bcp47_handle_record(&s->handle, number, (uint8_t *)(made + outcome.place), outcome.length, made, outcome.place);
    give(s);
    if (!made || outcome.status != BCP47_DONE) {
        free(made);
        return ended(BCP47_OUT_OF_MEMORY);
    }
    *fields = made, *texts = (char *)(made + outcome.place);
    outcome.length = 0;
    return outcome;
}

bcp47_outcome bcp47_show(const bcp47_registry *registry, const char *text, size_t length, char **rows) {
    slot *s;
    if (!rows) return ended(BCP47_BAD_CALL);
    *rows = NULL;
    int status = is_text(text, length) ? take_shown(registry, &s) : is_open(registry) ? BCP47_BAD_CALL : BCP47_NOT_OPEN;
    if (status) return ended(status);
    bcp47_outcome outcome = write_whole(bcp47_handle_show, s, bytes_of(text), length, ROWS, rows);
    give(s);
    return outcome;
}

void bcp47_free(void *text) {
    free(text);
}

/* ---- calls that judge */

bcp47_outcome bcp47_validate(const bcp47_registry *registry, const char *text, size_t length) {
    if (!is_open(registry)) return ended(BCP47_NOT_OPEN);
    if (!is_text(text, length)) return ended(BCP47_BAD_CALL);
    slot *s = take(registry);
    if (!s) return ended(BCP47_BUSY);
    bcp47_outcome outcome = bcp47_handle_validate(&s->handle, bytes_of(text), length);
    give(s);
    return outcome;
}

/* Tells which of two texts is refused: the second only where the first is not. */
static void tell_text(bcp47_outcome *outcome, slot *s, const uint8_t *first, size_t length) {
    uint8_t variant[8];
    if (outcome->status < BCP47_NOT_A_TAG || BCP47_REPLACEMENT_REPEATS < outcome->status) return;
    bcp47_outcome alone = outcome->status == BCP47_NOT_A_TAG
                              ? bcp47_handle_classify(&s->handle, first, length, variant, sizeof variant)
                              : bcp47_handle_canonical(&s->handle, first, length, variant, sizeof variant);
    if (alone.status == BCP47_OUT_OF_MEMORY) *outcome = ended(BCP47_OUT_OF_MEMORY);
    else outcome->text = alone.status == outcome->status ? 1 : 2;
}

bcp47_outcome bcp47_equivalent(const bcp47_registry *registry, const char *first, size_t first_length, const char *second,
                          size_t second_length, char *buffer, size_t room) {
    uint8_t variant[8];
    if (!is_open(registry)) return ended(BCP47_NOT_OPEN);
    if (!are_apart(first, first_length, buffer, room) || !are_apart(second, second_length, buffer, room))
        return ended(BCP47_BAD_CALL);
    slot *s = take(registry);
    if (!s) return ended(BCP47_BUSY);
    bcp47_outcome outcome = bcp47_handle_equal(&s->handle, bytes_of(first), first_length, bytes_of(second), second_length,
                                               variant, sizeof variant);
    tell_text(&outcome, s, bytes_of(first), first_length);
    give(s);
    tell(&outcome, variant, buffer, room);
    return outcome;
}

bcp47_outcome bcp47_match(const bcp47_registry *registry, int scheme, const char *range, size_t range_length, const char *tag,
                          size_t tag_length, char *buffer, size_t room) {
    uint8_t variant[8];
    if (!is_open(registry)) return ended(BCP47_NOT_OPEN);
    if (!are_apart(range, range_length, buffer, room) || !are_apart(tag, tag_length, buffer, room)) return ended(BCP47_BAD_CALL);
    slot *s = take(registry);
    if (!s) return ended(BCP47_BUSY);
    bcp47_outcome outcome = bcp47_handle_match(&s->handle, (uint32_t)scheme, bytes_of(range), range_length, bytes_of(tag),
                                               tag_length, variant, sizeof variant);
    give(s);
    tell(&outcome, variant, buffer, room);
    return outcome;
}

/* ---- tags of which one is served */

static bool is_listed(const bcp47_available *available) {
    return available && atomic_load_explicit(&available->mark, memory_order_relaxed) == LISTED;
}

/* A list that one handle keeps, which shares the registry of another; NULL where memory runs out. */
static bcp47_available *share_registry(bcp47_handle *handle) {
    bcp47_available *made = calloc(1, sizeof *made);
    if (!made || !bcp47_handle_share(handle, &made->asked.kept[0].handle)) return made;
    free(made);
    return NULL;
}

/* Keeps tags with a handle: so many texts, which have so many bytes in all. */
static bcp47_outcome list_tags(bcp47_handle *handle, const char *const *tags, const size_t *lengths, size_t count, size_t length) {
    static const size_t none = 0;
    uint8_t *texts = malloc(length + 1), *end = texts;
    if (!texts) return ended(BCP47_OUT_OF_MEMORY);
    for (size_t i = 0; i < count; end += lengths[i++]) memcpy(end, bytes_of(tags[i]), lengths[i]);
    bcp47_outcome outcome = bcp47_handle_list(handle, texts, length, lengths ? lengths : &none, count);
    free(texts);
    return outcome;
}

/* Lets go of a list that has so many handles, and answers why it is refused. */
static bcp47_outcome refuse_list(bcp47_available *available, size_t handles, bcp47_outcome outcome) {
    close_handles(&available->asked, handles);
    free(available);
    return outcome;
}

bcp47_outcome bcp47_available_open(bcp47_available **available, bcp47_registry *registry, const char *const *tags,
                                   const size_t *lengths, size_t count) {
    if (!available) return ended(BCP47_BAD_CALL);
    *available = NULL;
    if (!is_open(registry)) return ended(BCP47_NOT_OPEN);
    if (!is_array(tags, count, sizeof *tags) || !is_array(lengths, count, sizeof *lengths)) return ended(BCP47_BAD_CALL);
    size_t texts = 0, length = 0; /* of those before the first that is no text */
    while (texts < count && is_text(tags[texts], lengths[texts]) && lengths[texts] <= PTRDIFF_MAX - length) length += lengths[texts++];
    slot *s = take(registry);
    if (!s) return ended(BCP47_BUSY);
    bcp47_available *made = share_registry(&s->handle);
    give(s);
    if (!made) return ended(BCP47_OUT_OF_MEMORY);
    bcp47_outcome outcome = list_tags(&made->asked.kept[0].handle, tags, lengths, texts, length);
    if (outcome.status != BCP47_DONE) return refuse_list(made, 1, outcome);
    if (texts < count) return refuse_list(made, 1, ended(BCP47_BAD_CALL));
    size_t handles = share_first(&made->asked);
    if (handles < KEPT) return refuse_list(made, handles, ended(BCP47_OUT_OF_MEMORY));
    atomic_init(&made->mark, LISTED);
    *available = made;
    return outcome;
}

void bcp47_available_close(bcp47_available *available) {
    if (!is_listed(available)) return;
    atomic_store_explicit(&available->mark, 0, memory_order_relaxed);
    if (close_slots(&available->asked)) free(available);
}

/* A slot for a call that asks a list: the status is BCP47_DONE, or else why there is none. */
static int take_listed(bcp47_available *available, const char *accept, size_t length, slot **s) {
    if (!is_listed(available)) return BCP47_NOT_OPEN;
    if (!is_text(accept, length)) return BCP47_BAD_CALL;
    *s = take_of(NULL, &available->asked);
    return *s ? BCP47_DONE : BCP47_BUSY;
}

bcp47_outcome bcp47_best(bcp47_available *available, const char *accept, size_t length) {
    slot *s;
    int status = take_listed(available, accept, length, &s);
    if (status) return ended(status);
    bcp47_outcome outcome = bcp47_handle_best(&s->handle, bytes_of(accept), length);
    give(s);
    if (outcome.status == BCP47_DONE) outcome.place += (size_t)outcome.detail, outcome.detail = 0;
    return outcome;
}

bcp47_outcome bcp47_filter(bcp47_available *available, const char *accept, size_t length, size_t *places, size_t room) {
    slot *s;
    size_t none;
    if (is_listed(available) && !is_array(places, room, sizeof *places)) return ended(BCP47_BAD_CALL);
    int status = take_listed(available, accept, length, &s);
    if (status) return ended(status);
    bcp47_outcome outcome = bcp47_handle_filter(&s->handle, bytes_of(accept), length, places ? places : &none, room);
    give(s);
    for (size_t i = 0; outcome.status == BCP47_DONE && i < outcome.place; i++) places[i]++;
    return outcome;
}

bcp47_outcome bcp47_verify(const bcp47_registry *registry, const char *text, size_t length, const bcp47_step *steps,
                           size_t count, const char *last, size_t last_length) {
    static const bcp47_step no_step = {0, 0, 0};
    if (!is_open(registry)) return ended(BCP47_NOT_OPEN);
    if (!is_text(text, length) || !is_array(steps, count, sizeof *steps) || !is_text(last, last_length))
        return ended(BCP47_BAD_CALL);
    slot *s = take(registry);
    if (!s) return ended(BCP47_BUSY);
    bcp47_outcome outcome = bcp47_handle_verify(&s->handle, bytes_of(text), length, steps ? steps : &no_step, count,
                                                bytes_of(last), last_length);
    tell_text(&outcome, s, bytes_of(text), length);
    give(s);
    return outcome;
}

bcp47_outcome bcp47_upgrade_check(const bcp47_registry *older, const bcp47_registry *newer) {
    if (!is_open(older) || !is_open(newer)) return ended(BCP47_NOT_OPEN);
    slot *s = take(older);
    if (!s) return ended(BCP47_BUSY);
    slot *other = take(newer);
    if (!other) {
        give(s);
        return ended(BCP47_BUSY);
    }
    bcp47_outcome outcome = bcp47_handle_upgrade_check(&s->handle, &other->handle);
    give(other);
    give(s);
    return outcome;
}
