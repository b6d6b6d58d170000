/* SPDX-License-Identifier: MIT OR Apache-2.0 */
/* BCP 47 language tags by a registry of language subtags. docs/C.md describes each call, and what a caller owes. */
#ifndef BCP47_H
#define BCP47_H

#include <stddef.h>
#include <stdint.h>

#ifdef __cplusplus
extern "C" {
#endif

/* The version of this header; bcp47_version() tells that of the library. */
#define BCP47_VERSION "1.1.0"

/* A registry that is open. Any number of threads may ask it at once; bcp47_close comes after all of their calls. */
typedef struct bcp47_registry bcp47_registry;

/* The tags of which a service serves one, prepared. Any number of threads may ask it at once; bcp47_available_close comes after
   all of their calls. */
typedef struct bcp47_available bcp47_available;

/* What a call answers beside the text that it writes. */
typedef struct {
    int status;    /* how the call ended: BCP47_DONE and so on, which bcp47_status_name names */
    int detail;    /* the fault: BCP47_FAULT_BAD_BYTE and so on; for bcp47_classify the class; else 0 */
    size_t place;  /* of a fault: the subtag, the line, the record, the step or the list element, counted from 1; of parts: how many;
                      of bcp47_best: the tag; else 0 */
    size_t length; /* the bytes of the text, also where it does not fit the buffer */
    int text;      /* where bcp47_equivalent, bcp47_match, bcp47_verify or bcp47_with refuses one of its two texts: which, 1 or 2;
                      where bcp47_available_open refuses a tag: which, from 1; else 0 */
    int reserved;  /* 0 */
} bcp47_outcome;

/* How a call ended. */
enum {
    BCP47_DONE = 0,
    BCP47_NOT_A_TAG = 1,
    BCP47_INVALID = 2,
    BCP47_REPLACEMENT_REPEATS = 3, /* the text is the variant that would be repeated */
    BCP47_OUT_OF_MEMORY = 4,
    BCP47_BUFFER_TOO_SMALL = 5,    /* nothing was written: make room for `length` bytes, and call again */
    BCP47_DIFFERENT = 6,           /* of bcp47_equivalent and bcp47_match */
    BCP47_BAD_FILE = 7,            /* of bcp47_open, with the line that the program prints, as the two below */
    BCP47_BAD_RECORD = 8,
    BCP47_REJECTED = 9,
    BCP47_NO_UPGRADE = 10,         /* of bcp47_upgrade_check */
    BCP47_NO_SUCH_STEP = 11,       /* of bcp47_verify: the step at `place` does not lead on */
    BCP47_WRONG_END = 12,          /* of bcp47_verify: the steps lead to another tag than the last */
    BCP47_NOT_OPEN = 13,           /* the registry is NULL, or no registry that is open */
    BCP47_BAD_CALL = 14,           /* NULL where something is needed, a length that no text has, a buffer over a text, or no scheme or part */
    BCP47_BUSY = 15,               /* 64 calls and more are under way, and no memory was left for this one: call again */
    BCP47_TOO_MANY_STEPS = 16,     /* of bcp47_explanation and bcp47_steps: more than the steps that were allowed */
    BCP47_NO_ENTRIES = 17,         /* of bcp47_open: the bytes have no record but a header, so that each tag would be refused */
    BCP47_BAD_HEADER = 18          /* of bcp47_best and bcp47_filter: no Accept-Language header, with the list element at `place` */
};

/* The classes of a tag, in `detail` of bcp47_classify. */
enum { BCP47_LANGTAG = 1, BCP47_PRIVATE_USE = 2, BCP47_GRANDFATHERED = 3 };

/* The schemes of matching, as bcp47_match takes them (RFC 4647, 3.3.1, 3.3.2 and 3.4). */
enum { BCP47_BASIC = 1, BCP47_EXTENDED = 2, BCP47_LOOKUP = 3 };

/* A step, as bcp47_steps gives it and bcp47_verify takes it. */
typedef struct {
    uint8_t kind;    /* BCP47_EXTLANG and so on, which bcp47_kind_name names */
    uint32_t place;  /* the subtag that changes, counted from 1 */
    uint32_t number; /* the record that the step uses, counted from 1; 0 where it uses none */
} bcp47_step;

/* The kinds of step. */
enum {
    BCP47_EXTLANG = 1,
    BCP47_LANGUAGE = 2,
    BCP47_SCRIPT = 3,
    BCP47_REGION = 4,
    BCP47_VARIANT = 5,
    BCP47_VARIANT_LANGUAGE = 6,
    BCP47_WHOLE = 7,
    BCP47_SWAP_EXTENSIONS = 8,
    BCP47_DROP_ATTRIBUTE = 9,
    BCP47_SWAP_ATTRIBUTES = 10,
    BCP47_DROP_KEYWORD = 11,
    BCP47_SWAP_KEYWORDS = 12,
    BCP47_DROP_TRUE = 13,
    BCP47_SWAP_FIELDS = 14
};

/* A part of a tag: its kind, BCP47_PART_LANGUAGE and so on, and where it is in the text of the tag. */
typedef struct {
    uint8_t kind;  /* which bcp47_part_kind_name names */
    size_t start;  /* its first byte, counted from 0 */
    size_t length; /* how many bytes it has */
} bcp47_part;

/* The kinds of part (RFC 5646, 2.1; RFC 6067, 2.1; RFC 6497, 2.2). */
enum {
    BCP47_PART_LANGUAGE = 1,
    BCP47_PART_EXTLANG = 2,
    BCP47_PART_SCRIPT = 3,
    BCP47_PART_REGION = 4,
    BCP47_PART_VARIANT = 5,
    BCP47_PART_SINGLETON = 6,         /* that begins an extension */
    BCP47_PART_EXTENSION_SUBTAG = 7,  /* of another extension than u and t, or of a t extension without its form */
    BCP47_PART_ATTRIBUTE = 8,         /* of a u extension, as the next two */
    BCP47_PART_KEY = 9,
    BCP47_PART_TYPE = 10,
    BCP47_PART_SOURCE_LANGUAGE = 11,  /* of a t extension with its form, as the next six */
    BCP47_PART_SOURCE_EXTLANG = 12,
    BCP47_PART_SOURCE_SCRIPT = 13,
    BCP47_PART_SOURCE_REGION = 14,
    BCP47_PART_SOURCE_VARIANT = 15,
    BCP47_PART_SEPARATOR = 16,        /* of a field */
    BCP47_PART_VALUE = 17,
    BCP47_PART_PRIVATE_USE_SINGLETON = 18,
    BCP47_PART_PRIVATE_USE = 19,
    BCP47_PART_GRANDFATHERED = 20     /* the whole of the tag */
};

/* A field of a record: how many bytes its name has, for example Description, and its body. */
typedef struct {
    size_t name;
    size_t body;
} bcp47_field;

/* The faults, in `detail`, which bcp47_fault_name names. Written by tools/describe.py of bindings/c/names.c. */
enum {
    BCP47_FAULT_TOO_LONG = 1,
    BCP47_FAULT_EMPTY_SUBTAG = 2,
    BCP47_FAULT_BAD_BYTE = 3,
    BCP47_FAULT_LONG_SUBTAG = 4,
    BCP47_FAULT_BAD_LANGUAGE = 5,
    BCP47_FAULT_MISPLACED = 6,
    BCP47_FAULT_UNFINISHED = 7,
    BCP47_FAULT_UNKNOWN_LANGUAGE = 8,
    BCP47_FAULT_UNKNOWN_EXTLANG = 9,
    BCP47_FAULT_EXTLANG_PREFIX = 10,
    BCP47_FAULT_TOO_MANY_EXTLANGS = 11,
    BCP47_FAULT_UNKNOWN_SCRIPT = 12,
    BCP47_FAULT_UNKNOWN_REGION = 13,
    BCP47_FAULT_UNKNOWN_VARIANT = 14,
    BCP47_FAULT_DUPLICATE_VARIANT = 15,
    BCP47_FAULT_DUPLICATE_SINGLETON = 16,
    BCP47_FAULT_BAD_TRANSFORM = 17,
    BCP47_FAULT_LINE_TOO_LONG = 18,
    BCP47_FAULT_NOT_UTF8 = 19,
    BCP47_FAULT_LEADING_CONTINUATION = 20,
    BCP47_FAULT_BAD_LINE = 21,
    BCP47_FAULT_TOO_MANY_RECORDS = 22,
    BCP47_FAULT_READ = 23,
    BCP47_FAULT_TOO_MANY_TURNS = 24,
    BCP47_FAULT_FAILED = 25,
    BCP47_FAULT_REPEATED_FIELD = 26,
    BCP47_FAULT_MISSING_TYPE = 27,
    BCP47_FAULT_UNKNOWN_TYPE = 28,
    BCP47_FAULT_MISSING_NAME = 29,
    BCP47_FAULT_BAD_RANGE = 30,
    BCP47_FAULT_BAD_SUBTAG = 31,
    BCP47_FAULT_BAD_TAG = 32,
    BCP47_FAULT_BAD_PREFERRED = 33,
    BCP47_FAULT_BAD_PREFIX = 34,
    BCP47_FAULT_C1 = 35,
    BCP47_FAULT_C2 = 36,
    BCP47_FAULT_C3 = 37,
    BCP47_FAULT_C4 = 38,
    BCP47_FAULT_C5 = 39,
    BCP47_FAULT_C6 = 40,
    BCP47_FAULT_C7 = 41,
    BCP47_FAULT_C8 = 42,
    BCP47_FAULT_C9 = 43,
    BCP47_FAULT_C10 = 44,
    BCP47_FAULT_C11 = 45,
    BCP47_FAULT_C12 = 46,
    BCP47_FAULT_U1 = 47,
    BCP47_FAULT_U2 = 48,
    BCP47_FAULT_U3 = 49,
    BCP47_FAULT_U4 = 50,
    BCP47_FAULT_U5 = 51,
    BCP47_FAULT_U6 = 52,
    BCP47_FAULT_BAD_FIRST = 53,
    BCP47_FAULT_EXTENDED_RANGE = 54,
    BCP47_FAULT_BAD_WEIGHT = 55
};

/* Room for the parts of any tag, and for its text with a zero. */
#define BCP47_PARTS 512
#define BCP47_TEXT 1025

/* What a registry is. */
typedef struct {
    size_t entries;     /* how many there are: one for each record but the header */
    uint8_t sha256[32]; /* the SHA-256 of the bytes that were read (FIPS 180-4) */
    char file_date[11]; /* the File-Date of the header, as "2025-05-15"; "" where there is none of that form, or no such day */
} bcp47_info;

/* Room for the line of any registry that is refused, and for any name, with a zero after it. */
#define BCP47_LINE 80

/* The version of the library: the same text as BCP47_VERSION of the header that it was built with. */
const char *bcp47_version(void);

/* Opens the registry whose text the bytes are: *registry points to it then. Where it is refused, *registry is NULL, and
   the line that the program prints is written, as "jar BadLine line 1", if it fits. What *registry was before is not
   read, and the bytes are not needed after the call. */
bcp47_outcome bcp47_open(bcp47_registry **registry, const void *bytes, size_t length, char *line, size_t room);

/* Closes a registry, as free() lets go of memory: no call is under way, and none comes after. NULL does nothing. */
void bcp47_close(bcp47_registry *registry);

/* File-Date, number of entries and digest of a registry. The digest is taken anew at each call, of the bytes that were
   read: some milliseconds for a registry of IANA's size. */
bcp47_outcome bcp47_registry_info(const bcp47_registry *registry, bcp47_info *info);

/* Calls that write the text of a tag: its canonical text, the same with the extlang prefix, and the tag in conventional
   case, for which the registry may be NULL. A zero follows the text where the buffer has room for it. */
bcp47_outcome bcp47_canonical(const bcp47_registry *registry, const char *text, size_t length, char *buffer, size_t room);
bcp47_outcome bcp47_extlang(const bcp47_registry *registry, const char *text, size_t length, char *buffer, size_t room);
bcp47_outcome bcp47_classify(const bcp47_registry *registry, const char *text, size_t length, char *buffer, size_t room);

/* The text of a tag in conventional case, as bcp47_classify writes it, and its parts, in their order: one for each subtag, or one
   for a whole grandfathered tag. Joined by hyphens they are the text. It asks no registry. `place` is how many parts there are. Where
   they or the text do not fit, neither is written, and the status is BCP47_BUFFER_TOO_SMALL. */
bcp47_outcome bcp47_parts(const char *text, size_t length, char *buffer, size_t room, bcp47_part *parts, size_t count);

/* The parent of a tag, to which lookup falls back (RFC 4647, 3.4): without its last subtag, and without the singletons that then
   end it. The text is empty where nothing is left, as of a grandfathered tag, which is one part. */
bcp47_outcome bcp47_parent(const char *text, size_t length, char *buffer, size_t room);

/* A tag with one of its parts replaced: "zh-Hant-TW" for "zh-TW", BCP47_PART_SCRIPT and "Hant". The part is BCP47_PART_LANGUAGE (with
   extlangs), _SCRIPT, _REGION, _VARIANT (all of them: "rozaj-biske"), _SINGLETON (all extensions: "t-it-u-co-phonebk") or
   _PRIVATE_USE_SINGLETON ("x-a"). An empty value takes the part away; a language can't be taken away. It asks no registry: a tag is
   built by one call after another, from its language on, and bcp47_validate tells whether it is valid. Of BCP47_NOT_A_TAG `text` is 1
   where the tag is refused, which may be no grandfathered tag and no private use alone, 2 where the value has not the form of the part,
   and 0 where what they make has more than 1,024 bytes. */
bcp47_outcome bcp47_with(const char *tag, size_t length, int part, const char *value, size_t value_length, char *buffer, size_t room);

/* The tag that the name of a POSIX locale stands for: "sr-Latn-RS" for "sr_RS.UTF-8@latin", and "en-US-u-va-posix" for "C". It asks no
   registry. BCP47_NOT_A_TAG with the fault BadByte at 0 says that the modifier, what is behind the @, is not known. */
bcp47_outcome bcp47_posix(const char *name, size_t length, char *buffer, size_t room);

/* Whether a tag is valid. */
bcp47_outcome bcp47_validate(const bcp47_registry *registry, const char *text, size_t length);

/* Whether two tags are equivalent: BCP47_DONE, or BCP47_DIFFERENT. The buffer, which may be NULL, gets the variant of
   BCP47_REPLACEMENT_REPEATS, if it fits: 9 bytes are room for each, with a zero. */
bcp47_outcome bcp47_equivalent(const bcp47_registry *registry, const char *first, size_t first_length, const char *second,
                          size_t second_length, char *buffer, size_t room);

/* Whether a language range matches a tag by a scheme: BCP47_DONE, or BCP47_DIFFERENT; by BCP47_LOOKUP, whether the range, cut
   from its end, is the tag. Both are matched in each of their spellings: the extlang form, and the whole tags of records that have
   the same canonical form. So "zh" and "zh-yue" match "yue-HK", and "no" matches "nb", which is "no-bok". Of a range that is no
   valid tag, for example "yue-*", the first subtag is matched in its extlang form, where it alone is a valid tag. The range is
   text 1: BCP47_NOT_A_TAG says of it that it is neither a valid tag nor a range, and the place is 0. The buffer is that of bcp47_equivalent. */
bcp47_outcome bcp47_match(const bcp47_registry *registry, int scheme, const char *range, size_t range_length, const char *tag,
                          size_t tag_length, char *buffer, size_t room);

/* Prepares tags of which a service serves one: *available points to them then. It is refused at the first tag that bcp47_canonical
   refuses, with its status, detail and place, and with the number of the tag, from 1, as `text`; *available is NULL then. Neither
   the texts nor the registry are needed after the call: a list keeps its registry until it is closed, also where that is closed
   before. `lengths` has the bytes of each text. */
bcp47_outcome bcp47_available_open(bcp47_available **available, bcp47_registry *registry, const char *const *tags,
                                   const size_t *lengths, size_t count);

/* The tag to serve to the reader of an Accept-Language header (RFC 9110, 12.5.4): BCP47_DONE, and its number, from 1, as `place`;
   0 where no range of the header serves a tag, so that the caller takes a default. The ranges have their turn from the greatest
   weight to the least, `*` after all others, and the first that serves a tag decides: the longest tag to which it falls back
   (RFC 4647, 3.4), so that "de-CH" serves "de"; else the first that it matches by basic filtering (3.3.1), so that "de" serves
   "de-CH". No tag is served whose weight is 0. Ranges and tags are matched in each of their spellings, as by bcp47_match.

   BCP47_BAD_HEADER says that the text is no such header, with the fault as `detail` and the number of the list element at fault,
   from 1, as `place`; BCP47_REPLACEMENT_REPEATS that replacements would repeat a variant of one of its ranges. */
bcp47_outcome bcp47_best(bcp47_available *available, const char *accept, size_t length);

/* The numbers, from 1, of all tags that the header accepts, from the greatest weight to the least, written to `places`; `place` is
   how many there are. Where there is no room for so many, none is written, and the status is BCP47_BUFFER_TOO_SMALL. */
bcp47_outcome bcp47_filter(bcp47_available *available, const char *accept, size_t length, size_t *places, size_t room);

/* Closes a list, as bcp47_close closes a registry. NULL does nothing. */
void bcp47_available_close(bcp47_available *available);

/* The lines that `langtag explain` prints for a tag, written to a buffer. */
bcp47_outcome bcp47_explain(const bcp47_registry *registry, const char *text, size_t length, char *buffer, size_t room);

/* The same lines, with a zero after them, in memory that bcp47_free lets go of: *lines points to it then. Where there
   are more than `most` steps, the status is BCP47_TOO_MANY_STEPS. Where it is not BCP47_DONE, *lines is NULL. */
bcp47_outcome bcp47_explanation(const bcp47_registry *registry, const char *text, size_t length, size_t most, char **lines);

/* What the registry says of a tag, which need not be valid: the array `rows` that `langtag show --json` prints, with a zero after
   it, in memory that bcp47_free lets go of. It has an object for each part, in order, and before those one for the whole of a
   tag that is registered as redundant: `place`, `kind` (that of the part by name, or "Whole"), `text`, `listing` ("Record",
   "Unregistered" or, where no registry lists parts of the kind, "Unlisted"), `record`, its number or null, and `fields`: each
   Description, Deprecated, Preferred-Value, Prefix, Suppress-Script, Macrolanguage, Scope and Comments of the record, with `name`
   and `body`. Where the status is not BCP47_DONE, *rows is NULL. The first call reads the records, some milliseconds; they stay until
   the registry is closed, some MB for a registry of IANA's size. */
bcp47_outcome bcp47_show(const bcp47_registry *registry, const char *text, size_t length, char **rows);

/* The steps that lead from a tag to its canonical tag: *steps points to them then, in memory that bcp47_free lets go of, and `place`
   is how many there are. *tags, in the same memory, points to the tag to which each of them leads, and last to the canonical tag, with
   a zero after each. Where there are more than `most` steps, the status is BCP47_TOO_MANY_STEPS. With BCP47_REPLACEMENT_REPEATS there
   are no steps, and *tags points to the variant, in memory to which *steps points. Else both are NULL. */
bcp47_outcome bcp47_steps(const bcp47_registry *registry, const char *text, size_t length, size_t most, bcp47_step **steps,
                          const char **tags);

/* The fields of a record of the registry, by its number from 1 on, with the header counted: *fields points to them then, in memory that
   bcp47_free lets go of, and `place` is how many there are; 0 where there is no such record. *texts, in the same memory, points to
   their names and bodies in turn, with a zero after each. The first call reads the records, as that of bcp47_show does. */
bcp47_outcome bcp47_record(const bcp47_registry *registry, uint32_t number, bcp47_field **fields, const char **texts);

/* Lets go of what bcp47_explanation, bcp47_steps, bcp47_show or bcp47_record gave. NULL does nothing. */
void bcp47_free(void *text);

/* Whether steps lead from a valid tag, one after another, to another tag, which is then equivalent to it. */
bcp47_outcome bcp47_verify(const bcp47_registry *registry, const char *text, size_t length, const bcp47_step *steps,
                           size_t count, const char *last, size_t last_length);

/* Whether a newer registry keeps valid tags valid and equivalent tags equivalent. Both may be the same. */
bcp47_outcome bcp47_upgrade_check(const bcp47_registry *older, const bcp47_registry *newer);

/* The name of a number, as "NotATag", "BadByte" and "Extlang", which is "" where the number has none. */
const char *bcp47_status_name(int status);
const char *bcp47_fault_name(int fault);
const char *bcp47_kind_name(int kind);
const char *bcp47_part_kind_name(int kind);

/* What a status or a fault means, and what to do, in a sentence; "" where the number has none. */
const char *bcp47_status_help(int status);
const char *bcp47_fault_help(int fault);

#ifdef __cplusplus
}
#endif
#endif
