/* SPDX-License-Identifier: MIT OR Apache-2.0 */
/* The proved calls of crates/bcp47_c. They are seen in the library alone: a call of the header bcp47.h stands before each. */
#ifndef BCP47_HANDLES_H
#define BCP47_HANDLES_H

#include "bcp47.h"

/* What holds a registry, and what is kept with it, for one call at a time; zeros hold nothing. */
typedef struct {
    void *place;
} bcp47_handle;

/* Each takes no null pointer. But for bcp47_handle_open, and the second of bcp47_handle_share, each needs a handle that
   holds a registry, and those two one that holds nothing. */
bcp47_outcome bcp47_handle_open(bcp47_handle *handle, const uint8_t *bytes, size_t length, uint8_t *line, size_t room);
uint8_t bcp47_handle_share(bcp47_handle *handle, bcp47_handle *other);
/* Keeps the records of the bytes with the registry. */
uint8_t bcp47_handle_keep(bcp47_handle *handle, const uint8_t *bytes, size_t length);
/* Keeps the list of so many tags with the registry. The texts stand one after another; `text` is the number of the one that is refused. */
bcp47_outcome bcp47_handle_list(bcp47_handle *handle, const uint8_t *texts, size_t length, const size_t *lengths, size_t count);
void bcp47_handle_close(bcp47_handle *handle);
bcp47_outcome bcp47_handle_canonical(bcp47_handle *handle, const uint8_t *text, size_t length, uint8_t *buffer, size_t room);
bcp47_outcome bcp47_handle_extlang(bcp47_handle *handle, const uint8_t *text, size_t length, uint8_t *buffer, size_t room);
bcp47_outcome bcp47_handle_classify(bcp47_handle *handle, const uint8_t *text, size_t length, uint8_t *buffer, size_t room);
bcp47_outcome bcp47_handle_explain(bcp47_handle *handle, const uint8_t *text, size_t length, uint8_t *buffer, size_t room);
bcp47_outcome bcp47_handle_show(bcp47_handle *handle, const uint8_t *text, size_t length, uint8_t *buffer, size_t room);
bcp47_outcome bcp47_handle_verify(bcp47_handle *handle, const uint8_t *text, size_t length, const bcp47_step *steps,
                                 size_t count, const uint8_t *last, size_t last_length);
bcp47_outcome bcp47_handle_validate(bcp47_handle *handle, const uint8_t *text, size_t length);
bcp47_outcome bcp47_handle_equal(bcp47_handle *handle, const uint8_t *first, size_t first_length, const uint8_t *second,
                                size_t second_length, uint8_t *buffer, size_t room);
bcp47_outcome bcp47_handle_match(bcp47_handle *handle, uint32_t scheme, const uint8_t *range, size_t range_length,
                                const uint8_t *tag, size_t tag_length, uint8_t *buffer, size_t room);
/* `detail` is 1 where a tag of the list is served, and `place` is its place, from 0. */
bcp47_outcome bcp47_handle_best(bcp47_handle *handle, const uint8_t *header, size_t length);
/* `place` is how many places, from 0, are written. */
bcp47_outcome bcp47_handle_filter(bcp47_handle *handle, const uint8_t *header, size_t length, size_t *places, size_t room);
bcp47_outcome bcp47_handle_upgrade_check(bcp47_handle *older, bcp47_handle *newer);
size_t bcp47_handle_entries(bcp47_handle *handle);
/* `place` is how many steps the explanation has. */
bcp47_outcome bcp47_handle_count_steps(bcp47_handle *handle, const uint8_t *text, size_t length, uint8_t *buffer, size_t room);

/* The fields of a record that is kept: their lengths, and in the buffer each name and body with a zero after it; `place` is how many. */
bcp47_outcome bcp47_handle_record(bcp47_handle *handle, uint32_t number, uint8_t *buffer, size_t room, bcp47_field *fields, size_t count);

/* These need no registry. The digest is the SHA-256 of the bytes, of 32 bytes. */
bcp47_outcome bcp47_classify_text(const uint8_t *text, size_t length, uint8_t *buffer, size_t room);
bcp47_outcome bcp47_write_parts(const uint8_t *text, size_t length, uint8_t *buffer, size_t room, bcp47_part *parts, size_t count);
bcp47_outcome bcp47_write_parent(const uint8_t *text, size_t length, uint8_t *buffer, size_t room);
bcp47_outcome bcp47_write_with(const uint8_t *text, size_t length, uint32_t part, const uint8_t *value, size_t value_length,
                               uint8_t *buffer, size_t room);
bcp47_outcome bcp47_write_posix(const uint8_t *name, size_t length, uint8_t *buffer, size_t room);
bcp47_outcome bcp47_digest(const uint8_t *bytes, size_t length, uint8_t *buffer, size_t room);

/* The names that names.c has too: tests/bindings.sh compares them. */
bcp47_outcome bcp47_write_status_name(uint8_t status, uint8_t *buffer, size_t room);
bcp47_outcome bcp47_write_fault_name(uint8_t fault, uint8_t *buffer, size_t room);
bcp47_outcome bcp47_write_kind_name(uint8_t kind, uint8_t *buffer, size_t room);
bcp47_outcome bcp47_write_part_kind_name(uint8_t kind, uint8_t *buffer, size_t room);

#endif
