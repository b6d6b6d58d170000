/* SPDX-License-Identifier: MIT OR Apache-2.0 */
/* The calls of bcp47.h for the package bcp47, by the limited API of Python 3.9. An answer is copied to Python before any code
   of Python runs, and no buffer outlives a call. A call that may take long lets go of the interpreter's lock, and the registry
   stays until it ends, whoever closes it. */
#define PY_SSIZE_T_CLEAN
#define Py_LIMITED_API 0x03090000
#include <Python.h>

#include <bcp47.h>
#include <stdlib.h>
#include <string.h>

/* Python 3.9 has it too, but not yet in its limited API. */
#if Py_LIMITED_API < 0x030A0000
PyAPI_FUNC(const char *) PyUnicode_AsUTF8AndSize(PyObject *, Py_ssize_t *);
#endif

/* Room for any text that a call writes: a tag of 1,024 bytes can have 204 variants of 4, each of which becomes one of 8. */
#define ROOM 2048

/* How many texts are answered between two looks at signals, and room for what is written of them. */
#define CHUNK 2048
#define CHUNK_ROOM (32 * CHUNK + ROOM)

/* The name under which each interpreter of the process keeps what its package gives, and what that is, in this order: types of
   exceptions, and what makes one of them; the types of a tag that was read and of a registry; the words of refusals that were made. */
#define GIVEN "bcp47.given"
enum { REFUSED_TAG, REFUSED_REGISTRY, REFUSED_UPGRADE, REFUSED_TRACE, TAG, REGISTRY, WORDS, COUNT };

typedef struct {
    PyObject_HEAD
    bcp47_registry *registry;
    size_t calls;     /* those that are under way without the interpreter's lock */
    int is_to_close;  /* the last of them closes the registry */
} registry_object;

/* ---- what the package gives */

/* What the package of this interpreter gave: borrowed. */
static PyObject *given(Py_ssize_t which) {
    PyObject *all = PyInterpreterState_GetDict(PyInterpreterState_Get()), *key = all ? PyUnicode_FromString(GIVEN) : NULL;
    PyObject *it = key ? PyDict_GetItemWithError(all, key) : NULL;
    Py_XDECREF(key);
    if (!it && !PyErr_Occurred()) PyErr_SetString(PyExc_RuntimeError, "import bcp47 first");
    return it ? PyTuple_GetItem(it, which) : NULL;
}

/* Whether an object has one of the types that the package gave, whatever it says of itself; -1 where that can't be told. */
static int is_of(PyObject *object, Py_ssize_t which) {
    PyObject *type = given(which);
    return type ? PyObject_TypeCheck(object, (PyTypeObject *)type) : -1;
}

/* ---- texts */

static PyObject *same(PyObject *object) {
    Py_INCREF(object);
    return object;
}

/* The name of an object's type: a new reference. */
static PyObject *type_name_of(PyObject *object) {
    return PyObject_GetAttrString((PyObject *)Py_TYPE(object), "__name__");
}

/* The str of a tag, a str or a Tag, which is an item of a list where the index is not below 0: a new reference. */
static PyObject *str_of(PyObject *tag, Py_ssize_t index) {
    if (PyUnicode_Check(tag)) return same(tag);
    int is_tag = is_of(tag, TAG);
    if (is_tag > 0) return PyObject_Str(tag);
    PyObject *name = is_tag ? NULL : type_name_of(tag);
    if (name && index < 0) PyErr_Format(PyExc_TypeError, "expected str or Tag, not %U", name);
    if (name && index >= 0) PyErr_Format(PyExc_TypeError, "item %zd: expected str or Tag, not %U", index, name);
    Py_XDECREF(name);
    return NULL;
}

/* A text in UTF-8, and what holds it: a str, or the bytes of one that has lone surrogates, which is no tag. */
typedef struct {
    PyObject *holder;
    const char *bytes;
    size_t length;
} text;

/* Whether a tag has a text, which end_text() then lets go of. The index is that of str_of(). */
static int item_has_text(PyObject *tag, text *it, Py_ssize_t index) {
    Py_ssize_t length;
    it->holder = str_of(tag, index);
    it->bytes = it->holder ? PyUnicode_AsUTF8AndSize(it->holder, &length) : NULL;
    if (it->holder && !it->bytes && PyErr_ExceptionMatches(PyExc_UnicodeEncodeError)) {
        PyErr_Clear();
        PyObject *str = it->holder;
        it->holder = PyUnicode_AsEncodedString(str, "utf-8", "surrogatepass");
        Py_DECREF(str);
        if (it->holder) PyBytes_AsStringAndSize(it->holder, (char **)&it->bytes, &length);
    }
    if (it->bytes) it->length = (size_t)length;
    else Py_XDECREF(it->holder);
    return it->bytes != NULL;
}

static int has_text(PyObject *tag, text *it) {
    return item_has_text(tag, it, -1);
}

static void end_text(text *it) {
    Py_DECREF(it->holder);
}

/* What was written for a text: the str itself where it is the same. */
static inline PyObject *answered(const text *it, const char *answer, size_t length) {
    if (length == it->length && !memcmp(it->bytes, answer, length) && PyUnicode_CheckExact(it->holder)) return same(it->holder);
    return PyUnicode_FromStringAndSize(answer, (Py_ssize_t)length);
}

/* ---- refusals */

/* The name of the fault of an outcome or, where there is none, of the status, and what it means. */
static const char *name_of(bcp47_outcome outcome) {
    return outcome.detail ? bcp47_fault_name(outcome.detail) : bcp47_status_name(outcome.status);
}

static const char *help_of(bcp47_outcome outcome) {
    return outcome.detail ? bcp47_fault_help(outcome.detail) : bcp47_status_help(outcome.status);
}

/* The words of a refusal: its line, or else `line`, which gets the reference, and status, fault, place and help. */
static PyObject *make_words(bcp47_outcome outcome, PyObject *line) {
    unsigned long long place = outcome.place;
    if (!line) line = place || outcome.detail ? PyUnicode_FromFormat("%s %llu", name_of(outcome), place) : PyUnicode_FromString(name_of(outcome));
    return line ? Py_BuildValue("NssKs", line, bcp47_status_name(outcome.status), name_of(outcome), place, help_of(outcome)) : NULL;
}

/* The same of what has no text: they are made once for each place of each fault, and kept, since a table has many. A header may have any
   number of places, so those of far ones are not kept. */
static PyObject *kept_words(bcp47_outcome outcome) {
    if (outcome.place > 99) return make_words(outcome, NULL);
    PyObject *all = given(WORDS), *words = NULL;
    PyObject *key = all ? PyLong_FromUnsignedLongLong((outcome.place * 64 + (size_t)outcome.detail) * 32 + (size_t)outcome.status) : NULL;
    if (key && (words = PyDict_GetItemWithError(all, key))) Py_INCREF(words);
    else if (key && !PyErr_Occurred() && (words = make_words(outcome, NULL)) && PyDict_SetItem(all, key, words)) Py_CLEAR(words);
    Py_XDECREF(key);
    return words;
}

static int ran_out(bcp47_outcome outcome) {
    return outcome.status == BCP47_OUT_OF_MEMORY || outcome.status == BCP47_BUSY;
}

/* The words of a refusal, with a text: the line of a registry, or the variant that replacements would repeat. A new reference. */
static PyObject *words_of(bcp47_outcome outcome, const char *text) {
    if (ran_out(outcome)) return PyErr_NoMemory();
    if (!text || !outcome.length) return kept_words(outcome);
    PyObject *line = PyUnicode_FromStringAndSize(text, (Py_ssize_t)outcome.length), *variant = line;
    if (line && outcome.status == BCP47_REPLACEMENT_REPEATS) {
        line = PyUnicode_FromFormat("%s %U", name_of(outcome), variant);
        Py_DECREF(variant);
    }
    return line ? make_words(outcome, line) : NULL;
}

/* The words of a refusal, which it takes, and the tag that a text's holder has. */
static PyObject *with_tag(PyObject *words, PyObject *holder) {
    PyObject *tag = !words                    ? NULL
                    : PyUnicode_Check(holder) ? PyUnicode_FromObject(holder)
                                              : PyUnicode_FromEncodedObject(holder, "utf-8", "surrogatepass");
    PyObject *last = tag ? PyTuple_Pack(1, tag) : NULL, *all = last ? PySequence_Concat(words, last) : NULL;
    Py_XDECREF(words);
    Py_XDECREF(tag);
    Py_XDECREF(last);
    return all;
}

/* The exception for an outcome: one of the package's, or one of Python's, which is raised. A new reference. */
static PyObject *refusal(Py_ssize_t type, bcp47_outcome outcome, const char *text, PyObject *holder) {
    PyObject *words = words_of(outcome, text);
    if (type == REFUSED_TAG) words = with_tag(words, holder);
    PyObject *maker = words ? given(type) : NULL, *made = maker ? PyObject_CallObject(maker, words) : NULL;
    Py_XDECREF(words);
    return made;
}

static PyObject *raise_refusal(Py_ssize_t type, bcp47_outcome outcome, const char *text, PyObject *holder) {
    PyObject *made = refusal(type, outcome, text, holder);
    if (made) PyErr_SetObject((PyObject *)Py_TYPE(made), made);
    Py_XDECREF(made);
    return NULL;
}

/* ---- registries that are open */

static registry_object *opened(PyObject *self) {
    registry_object *it = (registry_object *)self;
    if (it->registry && !it->is_to_close) return it;
    PyErr_SetString(PyExc_ValueError, "the registry is closed");
    return NULL;
}

static void close_now(registry_object *it) {
    bcp47_registry *registry = it->registry;
    it->registry = NULL;
    bcp47_close(registry);
}

static void end_call(registry_object *it) {
    it->calls--;
    if (!it->calls && it->is_to_close) close_now(it);
}

static PyObject *registry_new(PyTypeObject *type, PyObject *arguments, PyObject *words) {
    (void)type, (void)arguments, (void)words;
    PyErr_SetString(PyExc_TypeError, "use Registry.from_file or Registry.from_bytes");
    return NULL;
}

/* open(bytes), of a type: an object of it, which holds the registry. */
static PyObject *registry_open(PyObject *type, PyObject *content) {
    char line[BCP47_LINE], *bytes;
    Py_ssize_t length;
    if (PyBytes_AsStringAndSize(content, &bytes, &length)) return NULL;
    allocfunc allocate = (allocfunc)PyType_GetSlot((PyTypeObject *)type, Py_tp_alloc);
    registry_object *it = (registry_object *)allocate((PyTypeObject *)type, 0);
    if (!it) return NULL;
    bcp47_outcome outcome;
    bcp47_registry *registry;
    Py_BEGIN_ALLOW_THREADS
    outcome = bcp47_open(&registry, bytes, (size_t)length, line, sizeof line);
    Py_END_ALLOW_THREADS
    it->registry = registry;
    if (outcome.status == BCP47_DONE) return (PyObject *)it;
    Py_DECREF(it);
    return raise_refusal(REFUSED_REGISTRY, outcome, line, NULL);
}

static PyObject *registry_close(PyObject *self, PyObject *none) {
    registry_object *it = (registry_object *)self;
    (void)none;
    if (it->calls) it->is_to_close = 1;
    else close_now(it);
    Py_RETURN_NONE;
}

static void registry_free(PyObject *self) {
    PyTypeObject *type = Py_TYPE(self);
    close_now((registry_object *)self);
    ((freefunc)PyType_GetSlot(type, Py_tp_free))(self);
    Py_DECREF(type);
}

static PyObject *registry_is_closed(PyObject *self, void *closure) {
    registry_object *it = (registry_object *)self;
    (void)closure;
    return PyBool_FromLong(!it->registry || it->is_to_close);
}

/* File-Date, number of entries and SHA-256. */
static PyObject *registry_facts(PyObject *self, PyObject *none) {
    bcp47_info info;
    registry_object *it = opened(self);
    (void)none;
    if (!it) return NULL;
    bcp47_registry_info(it->registry, &info);
    return Py_BuildValue("sny#", info.file_date, (Py_ssize_t)info.entries, (const char *)info.sha256,
                         (Py_ssize_t)sizeof info.sha256);
}

/* ---- one text */

typedef bcp47_outcome writer(const bcp47_registry *, const char *, size_t, char *, size_t);

/* What was written for a tag, as a str, or else its refusal. The text is let go of. */
static inline PyObject *written(text *it, bcp47_outcome outcome, const char *buffer) {
    PyObject *made = outcome.status == BCP47_DONE ? answered(it, buffer, outcome.length) : raise_refusal(REFUSED_TAG, outcome, buffer, it->holder);
    end_text(it);
    return made;
}

/* The one argument of a call, by its place or its name: borrowed. */
static inline PyObject *tag_of(PyObject *const *arguments, Py_ssize_t count, PyObject *names) {
    Py_ssize_t named = names ? PyTuple_Size(names) : 0;
    if (count + named == 1 && (!named || !PyUnicode_CompareWithASCIIString(PyTuple_GetItem(names, 0), "tag"))) return arguments[0];
    PyErr_SetString(PyExc_TypeError, "expected one argument: tag");
    return NULL;
}

/* What a call writes for a tag. */
static inline PyObject *text_by(writer *writes, PyObject *self, PyObject *tag) {
    char buffer[ROOM];
    text it;
    if (!tag || !has_text(tag, &it)) return NULL;
    registry_object *registry = opened(self);
    if (registry) return written(&it, writes(registry->registry, it.bytes, it.length, buffer, sizeof buffer), buffer);
    end_text(&it);
    return NULL;
}

static PyObject *registry_canonical(PyObject *self, PyObject *const *arguments, Py_ssize_t count, PyObject *names) {
    return text_by(bcp47_canonical, self, tag_of(arguments, count, names));
}

static PyObject *registry_extlang(PyObject *self, PyObject *const *arguments, Py_ssize_t count, PyObject *names) {
    return text_by(bcp47_extlang, self, tag_of(arguments, count, names));
}

/* What a call writes for a text by no registry. */
static PyObject *text_alone(bcp47_outcome (*writes)(const char *, size_t, char *, size_t), PyObject *tag) {
    char buffer[ROOM];
    text it;
    return has_text(tag, &it) ? written(&it, writes(it.bytes, it.length, buffer, sizeof buffer), buffer) : NULL;
}

/* posix(name): the tag of a locale of POSIX. */
static PyObject *module_posix(PyObject *module, PyObject *name) {
    (void)module;
    return text_alone(bcp47_posix, name);
}

/* parent(tag): no text where nothing is left. */
static PyObject *module_parent(PyObject *module, PyObject *tag) {
    (void)module;
    return text_alone(bcp47_parent, tag);
}

/* read(tag): its text in conventional case, and the number of the kind of each part, by no registry. */
static PyObject *module_read(PyObject *module, PyObject *tag) {
    bcp47_part parts[BCP47_PARTS];
    char buffer[BCP47_TEXT], kinds[BCP47_PARTS];
    text it;
    (void)module;
    if (!has_text(tag, &it)) return NULL;
    bcp47_outcome outcome = bcp47_parts(it.bytes, it.length, buffer, sizeof buffer, parts, BCP47_PARTS);
    PyObject *shown = written(&it, outcome, buffer);
    for (size_t i = 0; shown && i < outcome.place; i++) kinds[i] = (char)parts[i].kind;
    return shown ? Py_BuildValue("Ny#", shown, kinds, (Py_ssize_t)outcome.place) : NULL;
}

/* Asks whether a tag is valid, which is told as True or False, or else as None or a refusal. */
static PyObject *ask_validity(PyObject *self, PyObject *tag, int is_told) {
    text it;
    PyObject *made = NULL;
    if (!tag || !has_text(tag, &it)) return NULL;
    registry_object *registry = opened(self);
    if (registry) {
        bcp47_outcome outcome = bcp47_validate(registry->registry, it.bytes, it.length);
        made = is_told && !ran_out(outcome)   ? PyBool_FromLong(outcome.status == BCP47_DONE)
               : outcome.status == BCP47_DONE ? same(Py_None)
                                              : raise_refusal(REFUSED_TAG, outcome, NULL, it.holder);
    }
    end_text(&it);
    return made;
}

static PyObject *registry_validate(PyObject *self, PyObject *const *arguments, Py_ssize_t count, PyObject *names) {
    return ask_validity(self, tag_of(arguments, count, names), 0);
}

static PyObject *registry_is_valid(PyObject *self, PyObject *const *arguments, Py_ssize_t count, PyObject *names) {
    return ask_validity(self, tag_of(arguments, count, names), 1);
}

/* Puts an object into a list, which takes the reference. */
static int put(PyObject *list, Py_ssize_t index, PyObject *object) {
    return object && !PyList_SetItem(list, index, object);
}

/* A list of steps, each its kind, place and number and the tag to which it leads, and the text behind these tags. */
static PyObject *steps_of(const bcp47_step *steps, size_t count, const char *tags) {
    PyObject *list = PyList_New((Py_ssize_t)count);
    for (size_t i = 0; list && i < count; tags += strlen(tags) + 1, i++)
        if (!put(list, (Py_ssize_t)i, Py_BuildValue("sIIs", bcp47_kind_name(steps[i].kind), steps[i].place, steps[i].number, tags)))
            Py_CLEAR(list);
    return list ? Py_BuildValue("Ns", list, tags) : NULL;
}

/* given(tag, most): its steps, at most so many, and its canonical text; below 0 what the records say of it, as JSON, for which the first
   call reads them. */
static PyObject *registry_given(PyObject *self, PyObject *arguments) {
    char *rows = NULL;
    bcp47_step *steps = NULL;
    const char *tags = NULL;
    PyObject *tag, *made = NULL;
    Py_ssize_t most;
    text it;
    if (!PyArg_ParseTuple(arguments, "On", &tag, &most) || !has_text(tag, &it)) return NULL;
    registry_object *registry = opened(self);
    if (registry) {
        bcp47_outcome outcome;
        registry->calls++;
        Py_BEGIN_ALLOW_THREADS
        outcome = most < 0 ? bcp47_show(registry->registry, it.bytes, it.length, &rows)
                           : bcp47_steps(registry->registry, it.bytes, it.length, (size_t)most, &steps, &tags);
        Py_END_ALLOW_THREADS
        end_call(registry);
        made = outcome.status != BCP47_DONE ? raise_refusal(REFUSED_TAG, outcome, tags, it.holder)
               : rows                       ? PyUnicode_FromStringAndSize(rows, (Py_ssize_t)outcome.length)
                                            : steps_of(steps, outcome.place, tags);
        bcp47_free(rows), bcp47_free(steps);
    }
    end_text(&it);
    return made;
}

/* record(number): a list of the fields, each its name and its body. The first call reads the records. */
static PyObject *registry_record(PyObject *self, PyObject *argument) {
    int overflow;
    long long number = PyLong_AsLongLongAndOverflow(argument, &overflow);
    bcp47_field *fields;
    const char *at;
    registry_object *registry = PyErr_Occurred() ? NULL : opened(self);
    if (!registry) return NULL;
    bcp47_outcome outcome;
    registry->calls++;
    Py_BEGIN_ALLOW_THREADS
    outcome = bcp47_record(registry->registry, number < 0 || number > UINT32_MAX ? 0 : (uint32_t)number, &fields, &at);
    Py_END_ALLOW_THREADS
    end_call(registry);
    if (outcome.status != BCP47_DONE) return PyErr_NoMemory();
    PyObject *list = PyList_New((Py_ssize_t)outcome.place);
    for (size_t i = 0; list && i < outcome.place; at += fields[i].name + fields[i].body + 2, i++)
        if (!put(list, (Py_ssize_t)i, Py_BuildValue("s#s#", at, (Py_ssize_t)fields[i].name, at + fields[i].name + 1, (Py_ssize_t)fields[i].body)))
            Py_CLEAR(list);
    bcp47_free(fields);
    return list;
}

/* ---- two texts */

/* Whether two tags have texts, both of which end_text() then lets go of. */
static int have_texts(PyObject *one, PyObject *other, text *first, text *second) {
    if (!has_text(one, first)) return 0;
    if (has_text(other, second)) return 1;
    end_text(first);
    return 0;
}

/* replaced(tag, part, value): a tag with another part, by no registry. */
static PyObject *module_replaced(PyObject *module, PyObject *arguments) {
    char buffer[ROOM];
    int part;
    PyObject *one, *other;
    text tag, value;
    (void)module;
    if (!PyArg_ParseTuple(arguments, "OiO", &one, &part, &other) || !have_texts(one, other, &tag, &value)) return NULL;
    bcp47_outcome outcome = bcp47_with(tag.bytes, tag.length, part, value.bytes, value.length, buffer, sizeof buffer);
    end_text(outcome.text == 2 ? &tag : &value);
    return written(outcome.text == 2 ? &value : &tag, outcome, buffer);
}

/* Asks of two tags, or of a range and a tag by a scheme. */
static PyObject *ask_of_two(PyObject *self, int scheme, PyObject *one, PyObject *other) {
    char variant[BCP47_LINE];
    PyObject *made = NULL;
    text first, second;
    if (!have_texts(one, other, &first, &second)) return NULL;
    registry_object *registry = opened(self);
    if (registry) {
        bcp47_outcome outcome =
            scheme ? bcp47_match(registry->registry, scheme, first.bytes, first.length, second.bytes, second.length, variant, sizeof variant)
                   : bcp47_equivalent(registry->registry, first.bytes, first.length, second.bytes, second.length, variant, sizeof variant);
        made = outcome.status == BCP47_DONE || outcome.status == BCP47_DIFFERENT
                   ? PyBool_FromLong(outcome.status == BCP47_DONE)
                   : raise_refusal(REFUSED_TAG, outcome, variant, outcome.text == 2 ? second.holder : first.holder);
    }
    end_text(&first);
    end_text(&second);
    return made;
}

static PyObject *registry_equivalent(PyObject *self, PyObject *arguments, PyObject *words) {
    static char *names[] = {"first", "second", NULL};
    PyObject *one, *other;
    return PyArg_ParseTupleAndKeywords(arguments, words, "OO", names, &one, &other) ? ask_of_two(self, 0, one, other) : NULL;
}

/* match(scheme, range, tag) */
static PyObject *registry_match(PyObject *self, PyObject *arguments) {
    int scheme;
    PyObject *range, *tag;
    return PyArg_ParseTuple(arguments, "iOO", &scheme, &range, &tag) ? ask_of_two(self, scheme, range, tag) : NULL;
}

/* verify_steps(tag, steps, last): the steps are the bytes of an array of bcp47_step. */
static PyObject *registry_verify_steps(PyObject *self, PyObject *arguments) {
    PyObject *tag, *last, *made = NULL;
    Py_ssize_t size;
    const char *steps;
    text it, end;
    if (!PyArg_ParseTuple(arguments, "Oy#O", &tag, &steps, &size, &last)) return NULL;
    if (size % sizeof(bcp47_step)) return PyErr_Format(PyExc_TypeError, "the last step is cut");
    if (!have_texts(tag, last, &it, &end)) return NULL;
    registry_object *registry = opened(self);
    if (registry) {
        bcp47_outcome outcome;
        registry->calls++;
        Py_BEGIN_ALLOW_THREADS
        outcome = bcp47_verify(registry->registry, it.bytes, it.length, (const bcp47_step *)(const void *)steps, (size_t)size / sizeof(bcp47_step),
                               end.bytes, end.length);
        Py_END_ALLOW_THREADS
        end_call(registry);
        if (outcome.status == BCP47_DONE)
            made = same(Py_None);
        else if (outcome.status == BCP47_NO_SUCH_STEP || outcome.status == BCP47_WRONG_END)
            made = raise_refusal(REFUSED_TRACE, outcome, NULL, NULL);
        else
            made = raise_refusal(REFUSED_TAG, outcome, NULL, outcome.text == 2 ? end.holder : it.holder);
    }
    end_text(&it);
    end_text(&end);
    return made;
}

static PyObject *registry_upgrade_to(PyObject *self, PyObject *other) {
    bcp47_outcome outcome;
    int is_registry = is_of(other, REGISTRY);
    PyObject *name = is_registry ? NULL : type_name_of(other);
    if (name) PyErr_Format(PyExc_TypeError, "expected Registry, not %U", name);
    Py_XDECREF(name);
    registry_object *it = is_registry > 0 ? opened(self) : NULL, *newer = it ? opened(other) : NULL;
    if (!newer) return NULL;
    it->calls++, newer->calls++;
    Py_BEGIN_ALLOW_THREADS
    outcome = bcp47_upgrade_check(it->registry, newer->registry);
    Py_END_ALLOW_THREADS
    end_call(newer);
    end_call(it);
    return outcome.status == BCP47_DONE ? same(Py_None) : raise_refusal(REFUSED_UPGRADE, outcome, NULL, NULL);
}

/* ---- tags of which one is served */

#define AVAILABLE "bcp47.available"

static void close_available(PyObject *capsule) {
    bcp47_available_close(PyCapsule_GetPointer(capsule, AVAILABLE));
}

/* available(tags): a capsule that holds the tags of a tuple. */
static PyObject *registry_available(PyObject *self, PyObject *tags) {
    registry_object *registry = opened(self);
    Py_ssize_t count = registry ? PyTuple_Size(tags) : -1, i = 0;
    if (count < 0) return NULL;
    text *texts = calloc((size_t)count + 1, sizeof *texts);
    const char **bytes = calloc((size_t)count + 1, sizeof *bytes);
    size_t *lengths = calloc((size_t)count + 1, sizeof *lengths);
    bcp47_available *available = NULL;
    bcp47_outcome outcome = {.status = BCP47_OUT_OF_MEMORY};
    for (; texts && bytes && lengths && i < count && item_has_text(PyTuple_GetItem(tags, i), texts + i, i); i++)
        bytes[i] = texts[i].bytes, lengths[i] = texts[i].length;
    if (texts && bytes && lengths && i == count && opened(self))
        outcome = bcp47_available_open(&available, registry->registry, bytes, lengths, (size_t)count);
    while (i) end_text(texts + --i);
    free(texts), free(bytes), free(lengths);
    PyObject *made = available            ? PyCapsule_New(available, AVAILABLE, close_available)
                     : PyErr_Occurred() ? NULL
                     : outcome.text     ? text_by(bcp47_canonical, self, PyTuple_GetItem(tags, outcome.text - 1)) /* which refuses it */
                                        : PyErr_NoMemory();
    if (!made) bcp47_available_close(available);
    return made;
}

/* served(available, accept, count): the numbers of the tags of a list, as many as the count, that the header accepts; of 0 the best. */
static PyObject *module_served(PyObject *module, PyObject *arguments) {
    PyObject *capsule, *accept, *made = NULL;
    Py_ssize_t count;
    text it;
    (void)module;
    if (!PyArg_ParseTuple(arguments, "OOn", &capsule, &accept, &count) || !has_text(accept, &it)) return NULL;
    bcp47_available *available = PyCapsule_GetPointer(capsule, AVAILABLE);
    size_t *places = available ? calloc((size_t)count + 1, sizeof *places) : NULL;
    if (available && !places) PyErr_NoMemory();
    if (places) {
        bcp47_outcome outcome = count ? bcp47_filter(available, it.bytes, it.length, places, (size_t)count)
                                      : bcp47_best(available, it.bytes, it.length);
        if (!count) *places = outcome.place;
        size_t found = outcome.status != BCP47_DONE ? 0 : count ? outcome.place : outcome.place > 0;
        made = outcome.status == BCP47_DONE ? PyList_New((Py_ssize_t)found) : raise_refusal(REFUSED_TAG, outcome, NULL, it.holder);
        for (size_t i = 0; made && i < found; i++)
            if (!put(made, (Py_ssize_t)i, PyLong_FromSize_t(places[i]))) Py_CLEAR(made);
    }
    free(places);
    end_text(&it);
    return made;
}

/* ---- many texts */

/* Texts whose holders a list has, those that are missing NULL, and their answers, which follow one another in the buffer. */
typedef struct {
    text texts[CHUNK];
    bcp47_outcome outcomes[CHUNK];
    size_t count;
    char buffer[CHUNK_ROOM];
} chunk;

/* Whether an object stands for a value that is missing: None, NA of pandas, or what is not equal to itself, as a NaN or NaT. */
static int is_missing(PyObject *object) {
    if (PyUnicode_CheckExact(object)) return 0;
    if (object == Py_None) return 1;
    PyObject *differs = PyObject_RichCompare(object, object, Py_NE);
    int is_one = differs ? PyObject_IsTrue(differs) : -1;
    Py_XDECREF(differs);
    if (is_one >= 0 || !(PyErr_ExceptionMatches(PyExc_TypeError) || PyErr_ExceptionMatches(PyExc_ValueError))) return is_one;
    /* NA is neither, and an array is both */
    PyErr_Clear();
    PyObject *name = type_name_of(object);
    is_one = name ? !PyUnicode_CompareWithASCIIString(name, "NAType") : -1;
    Py_XDECREF(name);
    return is_one;
}

/* Takes the texts of a list from a place on. The list has what holds each, from here on in place of a Tag. */
static int take(chunk *it, PyObject *tags, Py_ssize_t first) {
    Py_ssize_t count = PyList_Size(tags);
    for (it->count = 0; it->count < CHUNK && first < count; it->count++, first++) {
        text *one = &it->texts[it->count];
        PyObject *tag = PyList_GetItem(tags, first);
        int missing = is_missing(tag);
        one->bytes = NULL;
        if (missing < 0 || (!missing && !item_has_text(tag, one, first))) return 0;
        if (missing) continue;
        if (one->holder == tag) end_text(one);
        else if (PyList_SetItem(tags, first, one->holder)) return 0;
    }
    return 1;
}

/* Answers the texts that were taken, as many as there is room for. */
static void answer(chunk *it, registry_object *registry) {
    size_t used = 0, i;
    registry->calls++;
    Py_BEGIN_ALLOW_THREADS
    for (i = 0; i < it->count && CHUNK_ROOM - used >= ROOM; i++) {
        const text *one = &it->texts[i];
        if (!one->bytes) continue;
        it->outcomes[i] = bcp47_canonical(registry->registry, one->bytes, one->length, it->buffer + used, CHUNK_ROOM - used);
        used += it->outcomes[i].length;
    }
    Py_END_ALLOW_THREADS
    it->count = i;
    end_call(registry);
}

/* The line of a refusal: a new reference. */
static PyObject *line_of(bcp47_outcome outcome, const char *variant) {
    PyObject *words = words_of(outcome, variant), *line = words ? PyTuple_GetItem(words, 0) : NULL;
    Py_XINCREF(line);
    Py_XDECREF(words);
    return line;
}

/* Puts what was answered in place of the texts. Another list, if there is one, gets the lines of the refusals, and else None. */
static int put_all(const chunk *it, Py_ssize_t first, PyObject *missing, PyObject *list, PyObject *faults) {
    const char *answer = it->buffer;
    for (size_t i = 0; i < it->count; i++) {
        Py_ssize_t at = first + (Py_ssize_t)i;
        const text *one = &it->texts[i];
        bcp47_outcome outcome = {0};
        if (one->bytes) outcome = it->outcomes[i];
        int is_refused = outcome.status != BCP47_DONE;
        if (faults && !put(faults, at, is_refused ? line_of(outcome, answer) : same(Py_None))) return 0;
        PyObject *made = is_refused && !faults ? refusal(REFUSED_TAG, outcome, answer, one->holder)
                         : is_refused || !one->bytes ? same(missing) : answered(one, answer, outcome.length);
        if (!put(list, at, made)) return 0;
        answer += outcome.length;
    }
    return 1;
}

/* Answers the tags of a list in their places. */
static int answer_all(registry_object *registry, PyObject *list, PyObject *missing, PyObject *faults) {
    Py_ssize_t count = PyList_Size(list), first = 0;
    chunk *it = malloc(sizeof *it);
    int well = it || PyErr_NoMemory();
    while (well && first < count) {
        well = take(it, list, first) && opened((PyObject *)registry);
        if (!well) break;
        answer(it, registry);
        well = put_all(it, first, missing, list, faults) && !PyErr_CheckSignals();
        first += (Py_ssize_t)it->count;
    }
    free(it);
    return well;
}

/* answer_many(tags, missing, is_in_columns): a list of texts and exceptions, or a list of texts and one of lines. */
static PyObject *registry_answer_many(PyObject *self, PyObject *arguments) {
    PyObject *tags, *missing, *made = NULL;
    int is_in_columns;
    if (!PyArg_ParseTuple(arguments, "OOp", &tags, &missing, &is_in_columns) || !opened(self)) return NULL;
    /* lists of its own: no code of Python can change them */
    PyObject *list = PySequence_List(tags), *faults = list && is_in_columns ? PySequence_List(list) : NULL;
    if (list && (faults || !is_in_columns) && answer_all((registry_object *)self, list, missing, faults))
        made = is_in_columns ? PyTuple_Pack(2, list, faults) : same(list);
    Py_XDECREF(list);
    Py_XDECREF(faults);
    return made;
}

/* ---- the module */

/* setup(given): a tuple of what the package gives. */
static PyObject *module_setup(PyObject *module, PyObject *all) {
    PyObject *kept = PyInterpreterState_GetDict(PyInterpreterState_Get());
    (void)module;
    if (!PyTuple_Check(all) || PyTuple_Size(all) != COUNT) return PyErr_Format(PyExc_TypeError, "it is a tuple of %d", COUNT);
    if (!kept) return PyErr_NoMemory();
    return PyDict_SetItemString(kept, GIVEN, all) ? NULL : same(Py_None);
}

/* A call whose arguments have names. One that is made for each tag gets them in place, not in a tuple: each Python from 3.7 on knows
   this way, and the limited API from 3.10 on. */
#ifndef METH_FASTCALL
#define METH_FASTCALL 0x0080
#endif
#define NAMED(call) (PyCFunction)(void (*)(void))call, METH_VARARGS | METH_KEYWORDS
#define QUICK(call) (PyCFunction)(void (*)(void))call, METH_FASTCALL | METH_KEYWORDS

static PyMethodDef registry_methods[] = {
    {"canonical", QUICK(registry_canonical),
     "canonical($self, tag)\n--\n\nThe canonical text of a tag (RFC 5646, 4.5). Raises RefusedTag."},
    {"extlang", QUICK(registry_extlang),
     "extlang($self, tag)\n--\n\nThe canonical text of a tag with its extlang prefix. Raises RefusedTag."},
    {"validate", QUICK(registry_validate),
     "validate($self, tag)\n--\n\nReturns where a tag is valid (RFC 5646, 2.2.9). Raises RefusedTag where it is not."},
    {"is_valid", QUICK(registry_is_valid),
     "is_valid($self, tag)\n--\n\nWhether a text is a tag that is valid (RFC 5646, 2.2.9)."},
    {"equivalent", NAMED(registry_equivalent),
     "equivalent($self, first, second)\n--\n\nWhether two tags are equivalent. Raises RefusedTag for the first tag, or else "
     "for the second."},
    {"close", registry_close, METH_NOARGS,
     "close($self, /)\n--\n\nFrees the registry, once the calls of other threads have ended. No call but this one may follow."},
    {"_open", registry_open, METH_O | METH_CLASS, NULL},
    {"_match", registry_match, METH_VARARGS, NULL},
    {"_given", registry_given, METH_VARARGS, NULL},
    {"_available", registry_available, METH_O, NULL},
    {"_record", registry_record, METH_O, NULL},
    {"_verify_steps", registry_verify_steps, METH_VARARGS, NULL},
    {"_upgrade_to", registry_upgrade_to, METH_O, NULL},
    {"_answer_many", registry_answer_many, METH_VARARGS, NULL},
    {"_facts", registry_facts, METH_NOARGS, NULL},
    {NULL, NULL, 0, NULL},
};

static PyGetSetDef registry_fields[] = {
    {"closed", registry_is_closed, NULL, "Whether the registry is closed.", NULL},
    {NULL, NULL, NULL, NULL, NULL},
};

static PyType_Slot registry_slots[] = {
    {Py_tp_new, registry_new},         {Py_tp_dealloc, registry_free}, {Py_tp_methods, registry_methods},
    {Py_tp_getset, registry_fields},   {0, NULL},
};

static PyType_Spec registry_spec = {
    "bcp47._bcp47.Registry", sizeof(registry_object), 0, Py_TPFLAGS_DEFAULT | Py_TPFLAGS_BASETYPE, registry_slots,
};

static PyMethodDef module_methods[] = {
    {"setup", module_setup, METH_O, NULL},              {"read", module_read, METH_O, NULL},
    {"parent", module_parent, METH_O, NULL},            {"posix", module_posix, METH_O, NULL},
    {"replaced", module_replaced, METH_VARARGS, NULL},  {"served", module_served, METH_VARARGS, NULL},
    {NULL, NULL, 0, NULL},
};

/* Makes what a module of an interpreter has. It has no state of its own. */
static int fill(PyObject *module) {
    PyObject *type = PyType_FromSpec(&registry_spec);
    int is_added = type && !PyModule_AddObject(module, "Registry", type);
    if (!is_added) Py_XDECREF(type);
    return is_added ? PyModule_AddStringConstant(module, "version", bcp47_version()) : -1;
}

/* From 3.12 on, Python asks whether a module serves interpreters with a lock of their own; it would not know the slot before. */
static PyModuleDef_Slot slots[] = {{Py_mod_exec, fill}, {0, NULL}}, slots_of_312[] = {{Py_mod_exec, fill}, {3, (void *)2}, {0, NULL}};
static struct PyModuleDef module = {PyModuleDef_HEAD_INIT, "_bcp47", NULL, 0, module_methods, slots, NULL, NULL, NULL};
static struct PyModuleDef module_of_312 = {PyModuleDef_HEAD_INIT, "_bcp47", NULL, 0, module_methods, slots_of_312, NULL, NULL, NULL};

PyMODINIT_FUNC PyInit__bcp47(void) {
    int minor = atoi(Py_GetVersion() + 2);
    return PyModuleDef_Init(minor < 12 ? &module : &module_of_312);
}
