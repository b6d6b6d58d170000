/* SPDX-License-Identifier: MIT OR Apache-2.0 */
/* The calls of bcp47.h as exports, for a host whose addresses and lengths have 32 bits: docs/WASM.md. Memory is at most 2 GiB, so
   that no address is a negative number to a host. */
#include <bcp47.h>
#include <stdlib.h>

/* CALL(type, name, (parameters), (their names)) begins an export. It has the whole stack: what a call held of it that was cut off, for
   example where the stack of JavaScript ended, would be lost for each call after it. The names in C are others, since bcp47.h has these. */
#ifdef __wasm__
__asm__(".globaltype __stack_pointer, i64");
#define EXPORT(name) __attribute__((export_name("bcp47_" #name)))
#define BEGIN() __asm__ volatile("local.get %0\n\tglobal.set __stack_pointer" : : "r"((uint64_t)STACK) : "memory")
#else
#define EXPORT(name)
#define BEGIN() (void)0
#endif
#define CALL(type, name, parameters, names) \
    static __attribute__((noinline)) type call_##name parameters; \
    EXPORT(name) type wasm_##name parameters { \
        BEGIN(); \
        return call_##name names; \
    } \
    static type call_##name parameters

/* An address, and a text with its length: as parameters, as their names, and as the library takes them. */
typedef uint32_t at;
#define TEXT(text) at text, uint32_t text##_length
#define BOTH(text) text, text##_length
#define TO(type, place) ((type *)(uintptr_t)(place))
#define CHARS(text) TO(char, text), text##_length
#define OF(place) ((at)(uintptr_t)(place))

/* The outcome of the last call. */
static bcp47_outcome last;

static int told(bcp47_outcome outcome) {
    last = outcome;
    return outcome.status;
}

CALL(at, outcome, (void), ()) {
    return OF(&last);
}

CALL(at, allocate, (uint32_t length), (length)) {
    return OF(malloc(length));
}

CALL(void, free, (at place), (place)) {
    free(TO(void, place));
}

CALL(at, open, (TEXT(bytes), TEXT(line)), (BOTH(bytes), BOTH(line))) {
    bcp47_registry *registry;
    told(bcp47_open(&registry, CHARS(bytes), CHARS(line)));
    return OF(registry);
}

CALL(void, close, (at registry), (registry)) {
    bcp47_close(TO(bcp47_registry, registry));
}

CALL(int, registry_info, (at registry, at info), (registry, info)) {
    return told(bcp47_registry_info(TO(bcp47_registry, registry), TO(bcp47_info, info)));
}

#define WRITER(name) \
    CALL(int, name, (at registry, TEXT(text), TEXT(buffer)), (registry, BOTH(text), BOTH(buffer))) { \
        return told(bcp47_##name(TO(bcp47_registry, registry), CHARS(text), CHARS(buffer))); \
    }
WRITER(canonical)
WRITER(extlang)
WRITER(classify)

CALL(int, parts, (TEXT(text), TEXT(buffer), at parts, uint32_t count), (BOTH(text), BOTH(buffer), parts, count)) {
    return told(bcp47_parts(CHARS(text), CHARS(buffer), TO(bcp47_part, parts), count));
}

CALL(int, parent, (TEXT(text), TEXT(buffer)), (BOTH(text), BOTH(buffer))) {
    return told(bcp47_parent(CHARS(text), CHARS(buffer)));
}

CALL(int, with, (TEXT(tag), int part, TEXT(value), TEXT(buffer)), (BOTH(tag), part, BOTH(value), BOTH(buffer))) {
    return told(bcp47_with(CHARS(tag), part, CHARS(value), CHARS(buffer)));
}

CALL(int, posix, (TEXT(name), TEXT(buffer)), (BOTH(name), BOTH(buffer))) {
    return told(bcp47_posix(CHARS(name), CHARS(buffer)));
}

/* Where the lengths of the fields are; their names and bodies stand behind as many as the outcome tells. */
CALL(at, record, (at registry, uint32_t number), (registry, number)) {
    bcp47_field *fields;
    const char *texts;
    told(bcp47_record(TO(bcp47_registry, registry), number, &fields, &texts));
    return OF(fields);
}

CALL(int, validate, (at registry, TEXT(text)), (registry, BOTH(text))) {
    return told(bcp47_validate(TO(bcp47_registry, registry), CHARS(text)));
}

CALL(int, equivalent, (at registry, TEXT(first), TEXT(second), TEXT(buffer)), (registry, BOTH(first), BOTH(second), BOTH(buffer))) {
    return told(bcp47_equivalent(TO(bcp47_registry, registry), CHARS(first), CHARS(second), CHARS(buffer)));
}

CALL(int, match, (at registry, int scheme, TEXT(range), TEXT(tag), TEXT(buffer)), (registry, scheme, BOTH(range), BOTH(tag), BOTH(buffer))) {
    return told(bcp47_match(TO(bcp47_registry, registry), scheme, CHARS(range), CHARS(tag), CHARS(buffer)));
}

/* Where the tags are prepared; the arrays have numbers of 64 bits. */
CALL(at, available_open, (at registry, at tags, at lengths, uint32_t count), (registry, tags, lengths, count)) {
    bcp47_available *available;
    told(bcp47_available_open(&available, TO(bcp47_registry, registry), TO(const char *const, tags), TO(const size_t, lengths), count));
    return OF(available);
}

CALL(void, available_close, (at available), (available)) {
    bcp47_available_close(TO(bcp47_available, available));
}

CALL(int, best, (at available, TEXT(accept)), (available, BOTH(accept))) {
    return told(bcp47_best(TO(bcp47_available, available), CHARS(accept)));
}

CALL(int, filter, (at available, TEXT(accept), at places, uint32_t room), (available, BOTH(accept), places, room)) {
    return told(bcp47_filter(TO(bcp47_available, available), CHARS(accept), TO(size_t, places), room));
}

/* Where the steps are; the tags to which they lead stand behind as many as the outcome tells. */
CALL(at, steps, (at registry, TEXT(text), uint32_t most), (registry, BOTH(text), most)) {
    bcp47_step *steps;
    const char *tags;
    told(bcp47_steps(TO(bcp47_registry, registry), CHARS(text), most, &steps, &tags));
    return OF(steps);
}

CALL(at, show, (at registry, TEXT(text)), (registry, BOTH(text))) {
    char *rows;
    told(bcp47_show(TO(bcp47_registry, registry), CHARS(text), &rows));
    return OF(rows);
}

CALL(int, verify, (at registry, TEXT(text), at steps, uint32_t count, TEXT(end)), (registry, BOTH(text), steps, count, BOTH(end))) {
    return told(bcp47_verify(TO(bcp47_registry, registry), CHARS(text), TO(bcp47_step, steps), count, CHARS(end)));
}

CALL(int, upgrade_check, (at older, at newer), (older, newer)) {
    return told(bcp47_upgrade_check(TO(bcp47_registry, older), TO(bcp47_registry, newer)));
}

#define NAME(name) \
    CALL(at, name, (int number), (number)) { \
        return OF(bcp47_##name(number)); \
    }
NAME(status_name)
NAME(fault_name)
NAME(kind_name)
NAME(part_kind_name)
NAME(status_help)
NAME(fault_help)

CALL(at, version, (void), ()) {
    return OF(bcp47_version());
}
