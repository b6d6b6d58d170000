/* SPDX-License-Identifier: MIT OR Apache-2.0 */
/* The calls of bcp47.h for Java: Native.java has their signatures. How a call ended that is not done goes to an array of numbers. */
#include <bcp47.h>
#include <jni.h>
#include <stdlib.h>
#include <string.h>

/* Room for the text of any tag and for its canonical text. */
enum { ROOM = 4096 };

/* The calls of `text`, which Native.java numbers alike. */
enum { CANONICAL, EXTLANG, VALIDATE, MATCH, PARTS, PARENT, WITH, POSIX };

#define NATIVE(kind, name) JNIEXPORT kind JNICALL Java_bcp47_Native_##name

_Static_assert(sizeof(jlong) == sizeof(size_t), "arrays of long are those of lengths and places");

/* The bytes of an array, which may have any length; none of null. */
typedef struct {
    size_t length;
    char *at, own[ROOM];
} text;

/* Whether there was memory for them. */
static int is_read(JNIEnv *env, jbyteArray bytes, text *to) {
    to->length = bytes ? (size_t)(*env)->GetArrayLength(env, bytes) : 0;
    to->at = to->length <= ROOM ? to->own : malloc(to->length);
    if (to->length && to->at) (*env)->GetByteArrayRegion(env, bytes, 0, (jsize)to->length, (jbyte *)to->at);
    return to->at != NULL;
}

static void let_go(text *of) {
    if (of->at != of->own) free(of->at);
}

static bcp47_registry *registry_of(jlong address) {
    return (bcp47_registry *)(intptr_t)address;
}

/* Whether a call is done; else its status, fault, place and which of two texts are told. */
static int is_done(JNIEnv *env, jlongArray ended, bcp47_outcome outcome) {
    jlong numbers[] = {outcome.status, outcome.detail, (jlong)outcome.place, outcome.text};
    if (outcome.status != BCP47_DONE) (*env)->SetLongArrayRegion(env, ended, 0, 4, numbers);
    return outcome.status == BCP47_DONE;
}

/* What was opened, in the place after that. */
static void tell_opened(JNIEnv *env, jlongArray ended, void *opened) {
    jlong number = (jlong)(intptr_t)opened;
    (*env)->SetLongArrayRegion(env, ended, 4, 1, &number);
}

/* A text that a call wrote, with a zero after it; null where it wrote none. */
static jstring written(JNIEnv *env, bcp47_outcome outcome, const char *text) {
    return outcome.length ? (*env)->NewStringUTF(env, text) : NULL;
}

/* The text of a tag, a point, and a character for each part: the number of its kind and 64. */
static bcp47_outcome parts_of(const text *tag, char buffer[ROOM]) {
    bcp47_part parts[BCP47_PARTS];
    bcp47_outcome outcome = bcp47_parts(tag->at, tag->length, buffer, BCP47_TEXT, parts, BCP47_PARTS);
    if (outcome.status != BCP47_DONE) return outcome;
    buffer[outcome.length++] = '.';
    for (size_t i = 0; i < outcome.place; i++) buffer[outcome.length++] = (char)(64 + parts[i].kind);
    buffer[outcome.length] = 0;
    return outcome;
}

NATIVE(jstring, version)(JNIEnv *env, jclass self) {
    return (*env)->NewStringUTF(env, bcp47_version());
}

NATIVE(jstring, name)(JNIEnv *env, jclass self, jint which, jint number) {
    static const char *(*const names[])(int) = {bcp47_status_name, bcp47_status_help, bcp47_fault_name, bcp47_fault_help, bcp47_part_kind_name,
                                               bcp47_kind_name};
    return (*env)->NewStringUTF(env, names[which](number));
}

NATIVE(jstring, open)(JNIEnv *env, jclass self, jbyteArray bytes, jlongArray ended) {
    bcp47_registry *opened;
    char line[BCP47_LINE];
    jbyte *copy = (*env)->GetByteArrayElements(env, bytes, NULL);
    if (!copy) return NULL;
    bcp47_outcome outcome = bcp47_open(&opened, copy, (size_t)(*env)->GetArrayLength(env, bytes), line, sizeof line);
    (*env)->ReleaseByteArrayElements(env, bytes, copy, JNI_ABORT);
    if (!is_done(env, ended, outcome)) return written(env, outcome, line);
    tell_opened(env, ended, opened);
    return NULL;
}

NATIVE(void, close)(JNIEnv *env, jclass self, jlong registry) {
    bcp47_close(registry_of(registry));
}

NATIVE(jstring, text)(JNIEnv *env, jclass self, jint call, jlong address, jint number, jbyteArray one, jbyteArray two, jlongArray ended) {
    const bcp47_registry *by = registry_of(address);
    text first, second;
    char buffer[ROOM];
    bcp47_outcome outcome = {.status = BCP47_OUT_OF_MEMORY};
    int are_read = is_read(env, one, &first) & is_read(env, two, &second);
    const char *at = first.at, *other = second.at;
    size_t length = first.length, other_length = second.length;
    if (are_read) switch (call) {
        case CANONICAL: outcome = bcp47_canonical(by, at, length, buffer, ROOM); break;
        case EXTLANG: outcome = bcp47_extlang(by, at, length, buffer, ROOM); break;
        case VALIDATE: outcome = bcp47_validate(by, at, length); break;
        case MATCH:
            outcome = number ? bcp47_match(by, number, at, length, other, other_length, buffer, ROOM)
                             : bcp47_equivalent(by, at, length, other, other_length, buffer, ROOM);
            break;
        case PARTS: outcome = parts_of(&first, buffer); break;
        case PARENT: outcome = bcp47_parent(at, length, buffer, ROOM); break;
        case WITH: outcome = bcp47_with(at, length, number, other, other_length, buffer, ROOM); break;
        case POSIX: outcome = bcp47_posix(at, length, buffer, ROOM); break;
    }
    int is_same = is_done(env, ended, outcome) && outcome.length == length && !memcmp(at, buffer, length);
    let_go(&first), let_go(&second);
    return is_same ? NULL : written(env, outcome, buffer);
}

NATIVE(jbyteArray, record)(JNIEnv *env, jclass self, jlong registry, jint number, jlongArray ended, jobjectArray lengths) {
    bcp47_field *fields;
    const char *texts;
    size_t length = 0;
    bcp47_outcome outcome = bcp47_record(registry_of(registry), (uint32_t)number, &fields, &texts);
    size_t count = is_done(env, ended, outcome) ? outcome.place : 0;
    jintArray each = (*env)->NewIntArray(env, (jsize)(2 * count));
    for (size_t i = 0; each && i < count; i++) {
        jint both[] = {(jint)fields[i].name, (jint)fields[i].body};
        (*env)->SetIntArrayRegion(env, each, (jsize)(2 * i), 2, both);
        length += fields[i].name + fields[i].body + 2;
    }
    if (each) (*env)->SetObjectArrayElement(env, lengths, 0, each);
    jbyteArray made = each ? (*env)->NewByteArray(env, (jsize)length) : NULL;
    if (made) (*env)->SetByteArrayRegion(env, made, 0, (jsize)length, (const jbyte *)texts);
    bcp47_free(fields);
    return made;
}

/* The tags to which steps lead, and last the canonical one, with a line feed after each but that; or a variant. The kinds, places and
   numbers of the steps go to the front of an array. */
NATIVE(jstring, explain)(JNIEnv *env, jclass self, jlong registry, jbyteArray tag, jlong most, jlongArray ended, jobjectArray numbers) {
    text of;
    bcp47_step *steps = NULL;
    const char *tags = NULL;
    bcp47_outcome outcome = {.status = BCP47_OUT_OF_MEMORY};
    if (is_read(env, tag, &of)) outcome = bcp47_steps(registry_of(registry), of.at, of.length, (size_t)most, &steps, &tags);
    let_go(&of);
    size_t count = is_done(env, ended, outcome) ? outcome.place : 0;
    jintArray made = (*env)->NewIntArray(env, (jsize)(3 * count));
    char *at = (char *)tags;
    for (size_t i = 0; made && i < count; i++, *at++ = '\n') {
        jint step[] = {steps[i].kind, (jint)steps[i].place, (jint)steps[i].number};
        (*env)->SetIntArrayRegion(env, made, (jsize)(3 * i), 3, step);
        at += strlen(at);
    }
    if (made) (*env)->SetObjectArrayElement(env, numbers, 0, made);
    jstring all = made && tags ? (*env)->NewStringUTF(env, tags) : NULL;
    bcp47_free(steps);
    return all;
}

NATIVE(jlong, info)(JNIEnv *env, jclass self, jlong registry, jbyteArray date, jbyteArray sha256) {
    bcp47_info info = {0};
    bcp47_registry_info(registry_of(registry), &info);
    (*env)->SetByteArrayRegion(env, date, 0, sizeof info.file_date, (const jbyte *)info.file_date);
    (*env)->SetByteArrayRegion(env, sha256, 0, sizeof info.sha256, (const jbyte *)info.sha256);
    return (jlong)info.entries;
}

NATIVE(void, openAvailable)(JNIEnv *env, jclass self, jlong registry, jbyteArray tags, jlongArray lengths, jlongArray ended) {
    text all;
    size_t count = (size_t)(*env)->GetArrayLength(env, lengths), *sizes = malloc(count * (sizeof *sizes + sizeof(char *)) + 1);
    bcp47_available *opened = NULL;
    bcp47_outcome outcome = {.status = BCP47_OUT_OF_MEMORY};
    if (is_read(env, tags, &all) && sizes) {
        const char **each = (const char **)(sizes + count), *at = all.at;
        (*env)->GetLongArrayRegion(env, lengths, 0, (jsize)count, (jlong *)sizes);
        for (size_t i = 0; i < count; at += sizes[i++]) each[i] = at;
        outcome = bcp47_available_open(&opened, registry_of(registry), each, sizes, count);
    }
    free(sizes);
    let_go(&all);
    if (is_done(env, ended, outcome)) tell_opened(env, ended, opened);
}

NATIVE(void, closeAvailable)(JNIEnv *env, jclass self, jlong available) {
    bcp47_available_close((bcp47_available *)(intptr_t)available);
}

NATIVE(jint, best)(JNIEnv *env, jclass self, jlong available, jbyteArray accept, jlongArray places, jlongArray ended) {
    bcp47_available *of = (bcp47_available *)(intptr_t)available;
    text header;
    jlong *found = places ? (*env)->GetLongArrayElements(env, places, NULL) : NULL;
    if (places && !found) return 0;
    bcp47_outcome outcome = {.status = BCP47_OUT_OF_MEMORY};
    if (is_read(env, accept, &header))
        outcome = places ? bcp47_filter(of, header.at, header.length, (size_t *)found, (size_t)(*env)->GetArrayLength(env, places))
                         : bcp47_best(of, header.at, header.length);
    if (found) (*env)->ReleaseLongArrayElements(env, places, found, 0);
    let_go(&header);
    return is_done(env, ended, outcome) ? (jint)outcome.place : 0;
}
