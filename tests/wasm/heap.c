/* SPDX-License-Identifier: MIT OR Apache-2.0 */
/* Tests the heap of WebAssembly and the exports on this machine, where each branch can be counted and each byte watched.
   Arguments: a registry and tags, for the exports; none for the heap. */
#include <bcp47.h>
#include <stdio.h>
#include <stdlib.h>
#include <string.h>

enum { PAGE = 65536, PAGES = 4096 };
_Alignas(16) unsigned char memory[(size_t)PAGES * PAGE];
size_t memory_pages, memory_most = PAGES, memory_asked;

/* As the instruction: all of it, or none. */
void memory_grow(size_t pages) {
    memory_asked++;
    if (pages <= memory_most - memory_pages) memory_pages += pages;
}

void *heap_malloc(size_t size);
void *heap_calloc(size_t count, size_t size);
void *heap_realloc(void *place, size_t size);
void heap_free(void *place);
int heap_memcmp(const void *one, const void *other, size_t count);
int heap_bcmp(const void *one, const void *other, size_t count);

typedef uint32_t address;
address wasm_outcome(void), wasm_allocate(uint32_t), wasm_version(void);
void wasm_free(address), wasm_close(address);
address wasm_open(address, uint32_t, address, uint32_t);
int wasm_registry_info(address, address);
int wasm_canonical(address, address, uint32_t, address, uint32_t), wasm_extlang(address, address, uint32_t, address, uint32_t);
int wasm_classify(address, address, uint32_t, address, uint32_t);
int wasm_parts(address, uint32_t, address, uint32_t, address, uint32_t);
int wasm_parent(address, uint32_t, address, uint32_t), wasm_validate(address, address, uint32_t);
int wasm_with(address, uint32_t, int, address, uint32_t, address, uint32_t), wasm_posix(address, uint32_t, address, uint32_t);
address wasm_record(address, uint32_t);
address wasm_available_open(address, address, address, uint32_t);
void wasm_available_close(address);
int wasm_best(address, address, uint32_t), wasm_filter(address, address, uint32_t, address, uint32_t);
int wasm_equivalent(address, address, uint32_t, address, uint32_t, address, uint32_t);
int wasm_match(address, int, address, uint32_t, address, uint32_t, address, uint32_t);
address wasm_steps(address, address, uint32_t, uint32_t), wasm_show(address, address, uint32_t);
int wasm_verify(address, address, uint32_t, address, uint32_t, address, uint32_t), wasm_upgrade_check(address, address);
address wasm_status_name(int), wasm_fault_name(int), wasm_kind_name(int), wasm_part_kind_name(int), wasm_status_help(int), wasm_fault_help(int);

#define CHECK(holds) \
    do { \
        if (!(holds)) { \
            printf("%s:%d: %s\n", __FILE__, __LINE__, #holds); \
            exit(1); \
        } \
    } while (0)
#define OF(place) ((address)(uintptr_t)(place))
#define AT(type, place) ((type *)(uintptr_t)(place))

static uint64_t seed = 1;
static size_t number(size_t below) {
    seed = seed * 6364136223846793005u + 1442695040888963407u;
    return (size_t)(seed >> 33) % below;
}

/* ---- the heap: blocks that don't overlap, are aligned, keep their bytes, and are had again */

enum { HELD = 400 };
static struct {
    unsigned char *place, fill;
    size_t size;
} held[HELD];

static void check_held(size_t i) {
    CHECK((uintptr_t)held[i].place % 16 == 0 && held[i].place >= memory + 8 && held[i].place + held[i].size <= memory + memory_pages * PAGE);
    for (size_t k = 0; k < held[i].size; k++) CHECK(held[i].place[k] == held[i].fill);
}

static void fill_held(size_t i, size_t size) {
    held[i].size = size, held[i].fill = (unsigned char)number(256);
    memset(held[i].place, held[i].fill, size);
}

static size_t any_size(size_t bits) {
    return number(3) ? number(200) : number((size_t)1 << number(bits));
}

/* Sizes of so many bits. */
static void use_heap(size_t turns, size_t bits) {
    size_t refused = 0;
    for (size_t turn = 0; turn < turns; turn++) {
        size_t i = number(HELD), size = any_size(bits);
        if (held[i].place) check_held(i);
        if (!held[i].place) {
            int is_zeroed = number(2) == 0;
            held[i].place = is_zeroed ? heap_calloc(1 + size / 8, 8) : heap_malloc(size);
            refused += !held[i].place;
            for (size_t k = 0; held[i].place && is_zeroed && k < size; k++) CHECK(!held[i].place[k]);
            if (held[i].place) fill_held(i, size);
        } else if (number(2)) {
            unsigned char *moved = heap_realloc(held[i].place, size);
            refused += !moved;
            if (!moved) continue; /* what it had stays */
            held[i].place = moved;
            if (size < held[i].size) held[i].size = size;
            check_held(i);
            fill_held(i, size);
        } else {
            heap_free(held[i].place);
            held[i].place = NULL;
        }
    }
    CHECK(memory_most == PAGES ? !refused : refused > 0);
}

static void test_heap(void) {
    /* nothing to give: each call is refused, and nothing is kept of it */
    memory_pages = memory_most = 1;
    CHECK(!heap_malloc(PAGE) && !heap_calloc(2, PAGE) && !heap_realloc(NULL, PAGE));
    unsigned char *first = heap_malloc(16);
    CHECK(first && OF(first) % 16 == 0 && first >= memory + 24 && first < memory + 64);
    memset(first, 7, 16);
    CHECK(!heap_realloc(first, PAGE) && first[15] == 7);
    CHECK(heap_realloc(first, 3) == first && heap_realloc(first, 0) == first);
    heap_free(first);
    heap_free(NULL);
    CHECK(heap_malloc(0) == first && heap_malloc(1) != first);
    /* a growth by what is wanted, where a sixteenth more is refused */
    memory_pages = 32, memory_most = 42;
    memory_asked = 0;
    CHECK(heap_malloc(40 * PAGE) && memory_pages == 41 && memory_asked == 2);
    CHECK(!heap_malloc(40 * PAGE) && memory_pages == 41 && memory_asked == 4);
    /* sizes that no memory has, and products that no number has */
    memory_most = PAGES;
    for (size_t size = SIZE_MAX; size > (size_t)1 << 30; size = size / 2 + ((size_t)1 << 29)) CHECK(!heap_malloc(size) && !heap_realloc(first, size));
    CHECK(!heap_malloc(((size_t)1 << 30) + 1) && !heap_malloc((size_t)1 << 30) && memory_pages == 41);
    CHECK(!heap_calloc(SIZE_MAX, 2) && !heap_calloc(SIZE_MAX / 2 + 1, 2) && heap_calloc(SIZE_MAX, 0) && heap_calloc(0, 8));
    /* each size up to 5,000, and those about a power of two: nothing lies over another, and all are had again */
    for (size_t size = 1; size < 5000; size++) {
        unsigned char *one = heap_malloc(size), *other = heap_malloc(size);
        CHECK(one && other && (one + size + 16 <= other || other + size + 16 <= one));
        heap_free(one);
        CHECK(heap_malloc(size) == one);
        heap_free(other), heap_free(one);
    }
    for (size_t size = 64; size <= (size_t)1 << 22; size *= 2)
        for (size_t near = size - 2; near <= size + 2; near++) {
            unsigned char *one = heap_malloc(near);
            CHECK(one && one + near <= memory + memory_pages * PAGE);
            memset(one, 1, near);
            heap_free(one);
        }
    CHECK(heap_memcmp("ab", "ac", 1) == 0 && heap_memcmp("ab", "ac", 2) < 0 && heap_bcmp("b", "a", 1) > 0 && heap_memcmp("\xff", "a", 1) > 0);
    use_heap(100000, 18);
    /* with no more than there is */
    memory_most = memory_pages;
    use_heap(20000, 22);
    memory_most = PAGES;
    use_heap(100000, 18);
    for (size_t i = 0; i < HELD; i++) heap_free(held[i].place);
}

/* ---- the exports, beside the calls that they stand for */

static char *buffer, *given, *wanted_text;
static bcp47_outcome *told;

/* A sum over what is answered (FNV-1a), which exports.mjs makes of the exports themselves. */
static uint32_t sum;
static void add(const void *bytes, size_t count) {
    for (const unsigned char *at = bytes; count--; at++) sum = (sum ^ *at) * 16777619;
}

static int is_told(int status, bcp47_outcome wanted) {
    add(told, offsetof(bcp47_outcome, text) + sizeof told->text);
    return status == wanted.status && told->status == wanted.status && told->detail == wanted.detail && told->place == wanted.place &&
           told->length == wanted.length && told->text == wanted.text;
}

#define SAME(status, wanted) CHECK(is_told(status, wanted))
#define SAME_TEXT(status, wanted) \
    do { \
        bcp47_outcome of_c = wanted; \
        SAME(status, of_c); \
        CHECK(!memcmp(buffer, wanted_text, of_c.length)); \
        add(buffer, of_c.length); \
    } while (0)

/* A text that a call gave in the place of another, by C. */
static void test_given(address said, char *lines) {
    CHECK(!said == !lines && (!said || !strcmp(AT(char, said), lines)));
    if (said) add(lines, strlen(lines));
    wasm_free(said), bcp47_free(lines);
}

/* Tags of which one is served. */
static void test_available(address registry) {
    static const char *const headers[] = {"de-CH, de;q=0.8, en;q=0.5", "zh", "fr", "*", "", "en, de;q=2"};
    const char **tags = (const char **)(void *)(given + 1024);
    size_t *lengths = (size_t *)(void *)(given + 1048), *places = (size_t *)(void *)(given + 1072), by_c[3];
    bcp47_available *available;
    tags[0] = memcpy(given, "en-GBzh-yuede", 13), tags[1] = given + 5, tags[2] = given + 11;
    lengths[0] = 5, lengths[1] = 6, lengths[2] = 2;
    lengths[0] = 0;
    CHECK(!wasm_available_open(registry, OF(tags), OF(lengths), 3) && told->status == BCP47_NOT_A_TAG && told->text == 1);
    lengths[0] = 5;
    address at = wasm_available_open(registry, OF(tags), OF(lengths), 3);
    SAME(told->status, bcp47_available_open(&available, AT(bcp47_registry, registry), tags, lengths, 3));
    for (size_t i = 0; i < sizeof headers / sizeof *headers; i++) {
        uint32_t length = (uint32_t)strlen(strcpy(given + 2048, headers[i]));
        SAME(wasm_best(at, OF(given + 2048), length), bcp47_best(available, headers[i], length));
        SAME(wasm_filter(at, OF(given + 2048), length, OF(places), 3), bcp47_filter(available, headers[i], length, by_c, 3));
        size_t found = told->status == BCP47_DONE ? told->place : 0;
        CHECK(!memcmp(places, by_c, found * sizeof *places));
        add(places, found * sizeof *places);
    }
    wasm_available_close(at), bcp47_available_close(available);
    CHECK(wasm_best(at, OF(given), 1) == BCP47_NOT_OPEN);
}

static void test_tag(address at, const char *text, uint32_t length) {
    bcp47_registry *registry = AT(bcp47_registry, at);
    address tag = OF(given), to = OF(buffer);
    memcpy(given, text, length);
    SAME_TEXT(wasm_canonical(at, tag, length, to, 4096), bcp47_canonical(registry, text, length, wanted_text, 4096));
    SAME_TEXT(wasm_extlang(at, tag, length, to, 4096), bcp47_extlang(registry, text, length, wanted_text, 4096));
    SAME_TEXT(wasm_classify(0, tag, length, to, 4096), bcp47_classify(NULL, text, length, wanted_text, 4096));
    SAME_TEXT(wasm_classify(at, tag, length, to, 4096), bcp47_classify(registry, text, length, wanted_text, 4096));
    static const bcp47_step steps[] = {{BCP47_REGION, 2, 27}, {BCP47_WHOLE, 1, 44}};
    for (uint32_t two = 0; two < 3; two += 2)
        SAME(wasm_verify(at, tag, length, OF(steps), two, tag, length), bcp47_verify(registry, text, length, steps, two, text, length));
    SAME_TEXT(wasm_parent(tag, length, to, 4096), bcp47_parent(text, length, wanted_text, 4096));
    address value = OF(memcpy(given + 2048, "gsw-x-own", 9));
    SAME_TEXT(wasm_with(tag, length, BCP47_PART_LANGUAGE, value, 3, to, 4096), bcp47_with(text, length, BCP47_PART_LANGUAGE, "gsw", 3, wanted_text, 4096));
    SAME_TEXT(wasm_with(tag, length, 0, value, 3, to, 4096), bcp47_with(text, length, 0, "gsw", 3, wanted_text, 4096));
    SAME_TEXT(wasm_posix(tag, length, to, 4096), bcp47_posix(text, length, wanted_text, 4096));
    SAME(wasm_validate(at, tag, length), bcp47_validate(registry, text, length));
    SAME(wasm_equivalent(at, tag, length, OF(memcpy(given + 2048, "zh-yue", 6)), 6, to, 4096), bcp47_equivalent(registry, text, length, "zh-yue", 6, wanted_text, 4096));
    for (int scheme = 0; scheme < 4; scheme++)
        SAME(wasm_match(at, scheme, OF(given + 2048), 2, tag, length, to, 4096), bcp47_match(registry, scheme, "zh", 2, text, length, wanted_text, 4096));
    static bcp47_part parts[BCP47_PARTS], by_c[BCP47_PARTS];
    SAME_TEXT(wasm_parts(tag, length, to, 4096, OF(parts), BCP47_PARTS), bcp47_parts(text, length, wanted_text, 4096, by_c, BCP47_PARTS));
    for (size_t i = 0; told->status == BCP47_DONE && i < told->place; i++) {
        CHECK(parts[i].kind == by_c[i].kind && parts[i].start == by_c[i].start && parts[i].length == by_c[i].length);
        add(&parts[i].kind, 1), add(&parts[i].start, 16);
    }
    char *lines;
    bcp47_step *list;
    const char *leads;
    address said = wasm_steps(at, tag, length, 3);
    SAME((int)told->status, bcp47_steps(registry, text, length, 3, &list, &leads));
    CHECK(!said == !list);
    size_t count = told->status ? 0 : told->place;
    const char *behind = AT(char, said) + count * sizeof *list;
    for (size_t i = 0; list && i < count; i++) {
        const bcp47_step *step = AT(bcp47_step, said) + i;
        CHECK(step->kind == list[i].kind && step->place == list[i].place && step->number == list[i].number);
        add(&step->kind, 1), add(&step->place, 8);
    }
    for (size_t i = 0; list && i <= count; i++, behind += strlen(behind) + 1, leads += strlen(leads) + 1) {
        CHECK(!strcmp(behind, leads));
        add(leads, strlen(leads));
    }
    wasm_free(said), bcp47_free(list);
    said = wasm_show(at, tag, length);
    SAME((int)told->status, bcp47_show(registry, text, length, &lines));
    test_given(said, lines);
}

static char *file_of(const char *path, size_t *length) {
    FILE *file = fopen(path, "rb");
    CHECK(file);
    char *bytes = malloc(1 << 24);
    CHECK(bytes);
    *length = fread(bytes, 1, (1 << 24) - 1, file);
    bytes[*length] = 0;
    fclose(file);
    return bytes;
}

int main(int count, char **words) {
    size_t length, size;
    if (count < 3) {
        test_heap();
        return 0;
    }
    char *file = file_of(words[1], &length), *tags = file_of(words[2], &size);
    memory_pages = 1; /* what is before the heap lies in memory */
    told = AT(bcp47_outcome, wasm_outcome());
    buffer = AT(char, wasm_allocate(4096)), given = AT(char, wasm_allocate(4096));
    wanted_text = malloc(4096);
    address bytes = wasm_allocate((uint32_t)length), room = OF(buffer);
    memcpy(AT(char, bytes), file, length);
    CHECK(!wasm_open(bytes, 9, room, 4096) && told->status == BCP47_BAD_FILE && !memcmp(buffer, "jar ", 4));
    /* each growth refused in turn */
    address registry = 0;
    size_t tries = 0;
    for (memory_most = memory_pages; !registry; memory_most++, tries++) {
        registry = wasm_open(bytes, (uint32_t)length, room, 4096);
        CHECK(!registry == (told->status == BCP47_OUT_OF_MEMORY));
    }
    CHECK(tries > 10);
    memory_most = PAGES;
    printf("heap.c: opened after %zu refusals\n", tries - 1);
    wasm_free(bytes);
    bcp47_info info, by_c;
    CHECK(wasm_registry_info(0, OF(&info)) == BCP47_NOT_OPEN && wasm_canonical(0, room, 0, room, 1) == BCP47_NOT_OPEN);
    static bcp47_info shared;
    SAME(wasm_registry_info(registry, OF(&shared)), bcp47_registry_info(AT(bcp47_registry, registry), &by_c));
    CHECK(shared.entries == by_c.entries && !memcmp(shared.sha256, by_c.sha256, 32) && !strcmp(shared.file_date, by_c.file_date));
    const char *others[] = {"", "ja-Latn-hepburn-alalc97-heploc", "sgn-dd", "en_US", "i-klingon", "x-own", "xx", "de-x-1", "zh-yue"};
    for (size_t i = 0; i < sizeof others / sizeof *others; i++) test_tag(registry, others[i], (uint32_t)strlen(others[i]));
    size_t tested = 0;
    sum = 2166136261;
    for (char *tag = tags, *end; (end = strchr(tag, '\n')); tag = end + 1, tested++) {
        CHECK(end - tag < 2000);
        test_tag(registry, tag, (uint32_t)(end - tag));
    }
    for (uint32_t number = 0; number < 10000; number++) {
        bcp47_field *fields;
        const char *texts;
        address said = wasm_record(registry, number);
        SAME((int)told->status, bcp47_record(AT(bcp47_registry, registry), number, &fields, &texts));
        CHECK(!said == !fields);
        size_t whole = told->place * sizeof *fields;
        for (size_t i = 0; i < told->place; i++) whole += fields[i].name + fields[i].body + 2;
        CHECK(!whole || !memcmp(AT(char, said), fields, whole));
        add(fields, whole);
        wasm_free(said), bcp47_free(fields);
    }
    test_available(registry);
    SAME(wasm_upgrade_check(registry, registry), bcp47_upgrade_check(AT(bcp47_registry, registry), AT(bcp47_registry, registry)));
    for (int i = -1; i < 70; i++) {
        const char *const names[] = {bcp47_status_name(i), bcp47_fault_name(i), bcp47_kind_name(i), bcp47_part_kind_name(i), bcp47_status_help(i), bcp47_fault_help(i)};
        for (size_t k = 0; k < sizeof names / sizeof *names; k++) add(names[k], strlen(names[k]));
        CHECK(wasm_status_name(i) == OF(bcp47_status_name(i)) && wasm_fault_name(i) == OF(bcp47_fault_name(i)));
        CHECK(wasm_kind_name(i) == OF(bcp47_kind_name(i)) && wasm_part_kind_name(i) == OF(bcp47_part_kind_name(i)));
        CHECK(wasm_status_help(i) == OF(bcp47_status_help(i)) && wasm_fault_help(i) == OF(bcp47_fault_help(i)));
    }
    CHECK(!strcmp(AT(char, wasm_version()), BCP47_VERSION));
    wasm_close(registry);
    CHECK(wasm_validate(registry, room, 0) == BCP47_NOT_OPEN && wasm_upgrade_check(registry, 0) == BCP47_NOT_OPEN);
    printf("%zu tags, %08x\n", tested, (unsigned)sum);
}
