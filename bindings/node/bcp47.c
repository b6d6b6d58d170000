/* SPDX-License-Identifier: MIT OR Apache-2.0 */
/* The calls of bcp47.h for Node.js, by Node-API: index.js makes classes and exceptions of them. A call answers what it gives, or
   where it refuses a number: ((place * 256 + fault) * 4 + which of two tags) * 32 + status. */
#define NAPI_VERSION 8
#include <bcp47.h>
#include <node_api.h>
#include <stdlib.h>
#include <string.h>

/* Room for the text of any tag, and for its canonical text; a longer one is no tag, which the library says of its front. A range
   may have any length. A registry takes about BYTES_OF_ONE bytes for one of its file, and its list keeps most of them. */
enum { ROOM = 4096, BYTES_OF_ONE = 4 };

/* A registry, or so many tags of which one is served, which a value holds until it is closed or collected, and how many bytes of it
   the collector was told. */
typedef struct {
    bcp47_registry *registry;
    bcp47_available *available;
    size_t count;
    int64_t bytes;
} holder;

/* Tells the collector that so many bytes are held in place of what it was told before. */
static void tell_bytes(napi_env env, holder *it, int64_t bytes) {
    int64_t all;
    napi_adjust_external_memory(env, bytes - it->bytes, &all);
    it->bytes = bytes;
}

static void release(napi_env env, holder *it) {
    bcp47_available_close(it->available);
    bcp47_close(it->registry);
    it->available = NULL, it->registry = NULL;
    tell_bytes(env, it, 0);
}

static void finalize(napi_env env, void *data, void *hint) {
    (void)hint;
    release(env, data);
    free(data);
}

/* The holder of what open() gave; NULL for any other, with a TypeError. */
static holder *held(napi_env env, napi_value value) {
    void *data;
    if (napi_get_value_external(env, value, &data) == napi_ok) return data;
    napi_throw_type_error(env, NULL, "a Registry is wanted");
    return NULL;
}

/* A value that holds so many bytes. */
static napi_value value_of(napi_env env, holder *it, int64_t bytes) {
    napi_value made = NULL;
    if (napi_create_external(env, it, finalize, NULL, &made) == napi_ok) tell_bytes(env, it, bytes);
    else finalize(env, it, NULL);
    return made;
}

static const bcp47_outcome no_memory = {BCP47_OUT_OF_MEMORY, 0, 0, 0, 0, 0};

/* The bytes of a string, or where there is no room how many they are; false, with a TypeError, where it is none. */
static bool text_of(napi_env env, napi_value value, char *text, size_t *length) {
    if (napi_get_value_string_utf8(env, value, text, ROOM, length) == napi_ok) return true;
    napi_throw_type_error(env, NULL, "a tag is a string or a Tag");
    return false;
}

/* The bytes of a string of any length, for free(); NULL, with an error, where it is none or memory runs out. */
static char *whole_text_of(napi_env env, napi_value value, size_t *length) {
    if (!text_of(env, value, NULL, length)) return NULL;
    char *text = malloc(*length + 1);
    if (text) napi_get_value_string_utf8(env, value, text, *length + 1, length);
    else napi_throw_error(env, NULL, "OutOfMemory");
    return text;
}

static napi_value string_of(napi_env env, const char *text, size_t length) {
    napi_value made = NULL;
    napi_create_string_latin1(env, text, length, &made);
    return made;
}

static napi_value number_of(napi_env env, double number) {
    napi_value made = NULL;
    napi_create_double(env, number, &made);
    return made;
}

static napi_value refusal(napi_env env, bcp47_outcome outcome) {
    return number_of(env, (((double)outcome.place * 256 + outcome.detail) * 4 + outcome.text) * 32 + outcome.status);
}

/* The arguments of a call, as many as it has, and what it was made with. */
static bool takes(napi_env env, napi_callback_info info, size_t count, napi_value *values, const void **with) {
    return napi_get_cb_info(env, info, &count, values, NULL, (void **)(uintptr_t)with) == napi_ok;
}

/* The arguments of a call that begin with what holds a registry, which is given: NULL, with a TypeError, where it is another. */
static holder *takes_held(napi_env env, napi_callback_info info, size_t count, napi_value *values, const void **with) {
    return takes(env, info, count, values, with) ? held(env, values[0]) : NULL;
}

/* open(bytes): what holds a registry, or an array of the refusal and its line */
static napi_value open_registry(napi_env env, napi_callback_info info) {
    napi_value bytes, made;
    napi_typedarray_type kind;
    char line[BCP47_LINE];
    void *data;
    size_t length;
    if (!takes(env, info, 1, &bytes, NULL)) return NULL;
    if (napi_get_typedarray_info(env, bytes, &kind, &length, &data, NULL, NULL) != napi_ok || kind != napi_uint8_array) {
        napi_throw_type_error(env, NULL, "a registry is read from a Uint8Array");
        return NULL;
    }
    holder *it = calloc(1, sizeof *it);
    bcp47_outcome outcome = no_memory;
    if (it) outcome = bcp47_open(&it->registry, data, length, line, sizeof line);
    if (outcome.status != BCP47_DONE) {
        free(it);
        napi_create_array(env, &made);
        napi_set_element(env, made, 0, refusal(env, outcome));
        napi_set_element(env, made, 1, string_of(env, line, outcome.length));
        return made;
    }
    return value_of(env, it, BYTES_OF_ONE * (int64_t)length);
}

static napi_value close_registry(napi_env env, napi_callback_info info) {
    napi_value object;
    holder *it = takes_held(env, info, 1, &object, NULL);
    if (it) release(env, it);
    return NULL;
}

/* What a call writes, by a registry or by none, where it ends with a status. */
typedef struct {
    bcp47_outcome (*writes)(const bcp47_registry *, const char *, size_t, char *, size_t);
    bcp47_outcome (*writes_alone)(const char *, size_t, char *, size_t);
    int status;
} source;

/* The text of a tag in conventional case, a point, and a character for each part: the number of its kind and 64. */
static bcp47_outcome parts(const char *text, size_t length, char *buffer, size_t room) {
    bcp47_part found[BCP47_PARTS];
    bcp47_outcome outcome = bcp47_parts(text, length, buffer, room - BCP47_PARTS, found, BCP47_PARTS);
    if (outcome.status != BCP47_DONE) return outcome;
    buffer[outcome.length++] = '.';
    for (size_t i = 0; i < outcome.place; i++) buffer[outcome.length++] = (char)(64 + found[i].kind);
    return outcome;
}

static const source of_canonical = {bcp47_canonical, NULL, BCP47_DONE}, of_variant = {bcp47_canonical, NULL, BCP47_REPLACEMENT_REPEATS},
                    of_extlang = {bcp47_extlang, NULL, BCP47_DONE}, of_parent = {NULL, bcp47_parent, BCP47_DONE},
                    of_parts = {NULL, parts, BCP47_DONE};

/* (registry, tag) or, for what asks no registry, (tag): a text */
static napi_value text_by(napi_env env, napi_callback_info info) {
    napi_value values[2];
    char text[ROOM], buffer[ROOM];
    size_t length;
    const void *with;
    if (!takes(env, info, 2, values, &with)) return NULL;
    const source *of = with;
    holder *it = of->writes ? held(env, values[0]) : NULL;
    if ((of->writes && !it) || !text_of(env, values[it != NULL], text, &length)) return NULL;
    bcp47_outcome outcome = it ? of->writes(it->registry, text, length, buffer, sizeof buffer)
                               : of->writes_alone(text, length, buffer, sizeof buffer);
    return outcome.status == of->status ? string_of(env, buffer, outcome.length) : refusal(env, outcome);
}

/* An array of the number of the kind, the place, the record and the tag of each step, in turn, and last the text behind these tags. */
static napi_value steps_of(napi_env env, const bcp47_step *steps, size_t count, const char *tags) {
    napi_value made = NULL;
    uint32_t at = 0;
    napi_create_array(env, &made);
    for (size_t i = 0; i < count; tags += strlen(tags) + 1, i++) {
        const uint32_t numbers[] = {steps[i].kind, steps[i].place, steps[i].number};
        for (int k = 0; k < 3; k++) napi_set_element(env, made, at++, number_of(env, numbers[k]));
        napi_set_element(env, made, at++, string_of(env, tags, NAPI_AUTO_LENGTH));
    }
    napi_set_element(env, made, at, string_of(env, tags, NAPI_AUTO_LENGTH));
    return made;
}

/* show(registry, tag) and explain(registry, tag, most): the rows that the program prints, as JSON, and the steps and the canonical text */
static napi_value given(napi_env env, napi_callback_info info) {
    napi_value values[3], made = NULL;
    char text[ROOM], *rows = NULL;
    size_t length;
    uint32_t most;
    bcp47_step *steps = NULL;
    const char *tags;
    holder *it = takes_held(env, info, 3, values, NULL);
    if (!it || !text_of(env, values[1], text, &length)) return NULL;
    bcp47_outcome outcome = napi_get_value_uint32(env, values[2], &most) == napi_ok
                                ? bcp47_steps(it->registry, text, length, most, &steps, &tags)
                                : bcp47_show(it->registry, text, length, &rows);
    if (outcome.status != BCP47_DONE) made = refusal(env, outcome);
    else if (rows) napi_create_string_utf8(env, rows, outcome.length, &made);
    else made = steps_of(env, steps, outcome.place, tags);
    bcp47_free(rows), bcp47_free(steps);
    return made;
}

/* record(registry, number): an array of the names and bodies of its fields, in turn */
static napi_value record(napi_env env, napi_callback_info info) {
    napi_value values[2], made, text;
    uint32_t number = 0;
    bcp47_field *fields;
    const char *at;
    holder *it = takes_held(env, info, 2, values, NULL);
    if (!it) return NULL;
    napi_get_value_uint32(env, values[1], &number);
    bcp47_outcome outcome = bcp47_record(it->registry, number, &fields, &at);
    if (outcome.status != BCP47_DONE) return refusal(env, outcome);
    napi_create_array(env, &made);
    for (uint32_t i = 0; i < 2 * outcome.place; i++) {
        size_t length = i % 2 ? fields[i / 2].body : fields[i / 2].name;
        napi_create_string_utf8(env, at, length, &text);
        napi_set_element(env, made, i, text);
        at += length + 1;
    }
    bcp47_free(fields);
    return made;
}

/* validate(registry, tag): nothing */
static napi_value validate(napi_env env, napi_callback_info info) {
    napi_value values[2];
    char text[ROOM];
    size_t length;
    holder *it = takes_held(env, info, 2, values, NULL);
    if (!it || !text_of(env, values[1], text, &length)) return NULL;
    bcp47_outcome outcome = bcp47_validate(it->registry, text, length);
    return outcome.status == BCP47_DONE ? NULL : refusal(env, outcome);
}

/* match(registry, range, tag, scheme): whether the range matches the tag; by the scheme 0, whether two tags are equivalent */
static napi_value match(napi_env env, napi_callback_info info) {
    napi_value values[4], made = NULL;
    char tag[ROOM];
    size_t length, tag_length;
    int32_t scheme = 0;
    holder *it = takes_held(env, info, 4, values, NULL);
    char *range = it ? whole_text_of(env, values[1], &length) : NULL;
    if (!range || !text_of(env, values[2], tag, &tag_length)) {
        free(range);
        return NULL;
    }
    napi_get_value_int32(env, values[3], &scheme);
    bcp47_outcome outcome = scheme ? bcp47_match(it->registry, scheme, range, length, tag, tag_length, NULL, 0)
                                   : bcp47_equivalent(it->registry, range, length, tag, tag_length, NULL, 0);
    free(range);
    if (outcome.status != BCP47_DONE && outcome.status != BCP47_DIFFERENT) return refusal(env, outcome);
    napi_get_boolean(env, outcome.status == BCP47_DONE, &made);
    return made;
}

/* available(registry, tags): what holds the tags of an array, or a refusal */
static napi_value available(napi_env env, napi_callback_info info) {
    napi_value values[2], one;
    uint32_t count = 0, i = 0;
    holder *it = takes_held(env, info, 2, values, NULL);
    if (!it || napi_get_array_length(env, values[1], &count) != napi_ok) return NULL;
    holder *made = calloc(1, sizeof *made);
    char **tags = calloc(count + 1u, sizeof *tags);
    size_t *lengths = calloc(count + 1u, sizeof *lengths);
    bool has_room = made && tags && lengths;
    bcp47_outcome outcome = no_memory;
    while (has_room && i < count && napi_get_element(env, values[1], i, &one) == napi_ok && (tags[i] = whole_text_of(env, one, &lengths[i]))) i++;
    if (has_room && i == count) outcome = bcp47_available_open(&made->available, it->registry, (const char *const *)tags, lengths, count);
    while (i) free(tags[--i]);
    free(tags), free(lengths);
    if (outcome.status == BCP47_DONE) {
        made->count = count;
        return value_of(env, made, it->bytes);
    }
    free(made);
    outcome.text = 0;
    return refusal(env, outcome);
}

/* best(available, accept) and filter(available, accept): an array of numbers of tags, from 1 on */
static napi_value served(napi_env env, napi_callback_info info) {
    napi_value values[2], made;
    const void *is_filter;
    size_t length;
    holder *it = takes_held(env, info, 2, values, &is_filter);
    char *accept = it ? whole_text_of(env, values[1], &length) : NULL;
    if (!accept) return NULL;
    size_t *places = calloc(it->count + 1, sizeof *places);
    bcp47_outcome outcome = !places     ? no_memory
                            : is_filter ? bcp47_filter(it->available, accept, length, places, it->count)
                                        : bcp47_best(it->available, accept, length);
    if (outcome.status != BCP47_DONE) {
        made = refusal(env, outcome);
    } else {
        napi_create_array(env, &made);
        if (!is_filter) *places = outcome.place, outcome.place = outcome.place > 0;
        for (uint32_t i = 0; i < outcome.place; i++) napi_set_element(env, made, i, number_of(env, (double)places[i]));
    }
    free(places), free(accept);
    return made;
}

/* posix(name): the tag of the name of a POSIX locale, which may have any length */
static napi_value posix(napi_env env, napi_callback_info info) {
    napi_value value;
    char buffer[ROOM];
    size_t length;
    char *name = takes(env, info, 1, &value, NULL) ? whole_text_of(env, value, &length) : NULL;
    if (!name) return NULL;
    bcp47_outcome outcome = bcp47_posix(name, length, buffer, sizeof buffer);
    free(name);
    return outcome.status == BCP47_DONE ? string_of(env, buffer, outcome.length) : refusal(env, outcome);
}

/* with(tag, part, value): a tag with another part */
static napi_value with(napi_env env, napi_callback_info info) {
    napi_value values[3];
    char tag[ROOM], value[ROOM], buffer[ROOM];
    size_t length, value_length;
    int32_t part = 0;
    if (!takes(env, info, 3, values, NULL) || !text_of(env, values[0], tag, &length) || !text_of(env, values[2], value, &value_length)) return NULL;
    napi_get_value_int32(env, values[1], &part);
    bcp47_outcome outcome = bcp47_with(tag, length, part, value, value_length, buffer, sizeof buffer);
    return outcome.status == BCP47_DONE ? string_of(env, buffer, outcome.length) : refusal(env, outcome);
}

/* facts(registry): an array of the File-Date, the number of entries, and the SHA-256 as a buffer */
static napi_value facts(napi_env env, napi_callback_info info) {
    napi_value object, made, digest;
    bcp47_info of;
    holder *it = takes_held(env, info, 1, &object, NULL);
    if (!it) return NULL;
    bcp47_outcome outcome = bcp47_registry_info(it->registry, &of);
    if (outcome.status != BCP47_DONE) return refusal(env, outcome);
    napi_create_array(env, &made);
    napi_set_element(env, made, 0, string_of(env, of.file_date, NAPI_AUTO_LENGTH));
    napi_set_element(env, made, 1, number_of(env, (double)of.entries));
    napi_create_buffer_copy(env, sizeof of.sha256, of.sha256, NULL, &digest);
    napi_set_element(env, made, 2, digest);
    return made;
}

/* names(which): an array of the names of the numbers from 1 on, or of what they mean */
static napi_value names(napi_env env, napi_callback_info info) {
    static const char *(*const all[])(int) = {bcp47_status_name, bcp47_status_help, bcp47_fault_name, bcp47_fault_help,
                                              bcp47_part_kind_name, bcp47_kind_name};
    napi_value value, made = NULL;
    uint32_t which = 0;
    if (!takes(env, info, 1, &value, NULL)) return NULL;
    napi_get_value_uint32(env, value, &which);
    napi_create_array(env, &made);
    const char *name;
    for (uint32_t number = 1; *(name = all[which % 6]((int)number)); number++)
        napi_set_element(env, made, number, string_of(env, name, NAPI_AUTO_LENGTH));
    return made;
}

NAPI_MODULE_INIT() {
    static const struct {
        const char *name;
        napi_callback calls;
        const void *with;
    } functions[] = {
        {"open", open_registry, NULL},       {"close", close_registry, NULL},   {"canonical", text_by, &of_canonical},
        {"variant", text_by, &of_variant},   {"extlang", text_by, &of_extlang}, {"parent", text_by, &of_parent},
        {"posix", posix, NULL},              {"parts", text_by, &of_parts},     {"explain", given, NULL},
        {"show", given, NULL},               {"record", record, NULL},          {"validate", validate, NULL},
        {"match", match, NULL},              {"facts", facts, NULL},            {"names", names, NULL},
        {"available", available, NULL},      {"best", served, NULL},            {"filter", served, &no_memory},
        {"with", with, NULL},
    };
    for (size_t i = 0; i < sizeof functions / sizeof *functions; i++) {
        napi_value made = NULL;
        napi_create_function(env, functions[i].name, NAPI_AUTO_LENGTH, functions[i].calls, (void *)(uintptr_t)functions[i].with, &made);
        napi_set_named_property(env, exports, functions[i].name, made);
    }
    napi_set_named_property(env, exports, "version", string_of(env, bcp47_version(), NAPI_AUTO_LENGTH));
    return exports;
}
