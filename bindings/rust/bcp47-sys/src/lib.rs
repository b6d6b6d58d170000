// SPDX-License-Identifier: MIT OR Apache-2.0
//! The calls of `bcp47.h`, which says what each does. The crate `bcp47` is the safe way to them.
// Written by tools/describe.py of bindings/c/bcp47.h.
#![no_std]
#![allow(non_camel_case_types)]

use core::ffi::{c_char, c_int, c_void};

#[repr(C)]
pub struct bcp47_registry {
    _opaque: [u8; 0],
}

#[repr(C)]
pub struct bcp47_available {
    _opaque: [u8; 0],
}

#[repr(C)]
#[derive(Clone, Copy, Debug, Default, PartialEq, Eq)]
pub struct bcp47_outcome {
    pub status: c_int,
    pub detail: c_int,
    pub place: usize,
    pub length: usize,
    pub text: c_int,
    pub reserved: c_int,
}

#[repr(C)]
#[derive(Clone, Copy, Debug, Default, PartialEq, Eq)]
pub struct bcp47_step {
    pub kind: u8,
    pub place: u32,
    pub number: u32,
}

#[repr(C)]
#[derive(Clone, Copy, Debug, Default, PartialEq, Eq)]
pub struct bcp47_part {
    pub kind: u8,
    pub start: usize,
    pub length: usize,
}

#[repr(C)]
#[derive(Clone, Copy, Debug, Default, PartialEq, Eq)]
pub struct bcp47_field {
    pub name: usize,
    pub body: usize,
}

#[repr(C)]
#[derive(Clone, Copy, Debug, Default, PartialEq, Eq)]
pub struct bcp47_info {
    pub entries: usize,
    pub sha256: [u8; 32],
    pub file_date: [c_char; 11],
}

pub const BCP47_DONE: c_int = 0;
pub const BCP47_NOT_A_TAG: c_int = 1;
pub const BCP47_INVALID: c_int = 2;
pub const BCP47_REPLACEMENT_REPEATS: c_int = 3;
pub const BCP47_OUT_OF_MEMORY: c_int = 4;
pub const BCP47_BUFFER_TOO_SMALL: c_int = 5;
pub const BCP47_DIFFERENT: c_int = 6;
pub const BCP47_BAD_FILE: c_int = 7;
pub const BCP47_BAD_RECORD: c_int = 8;
pub const BCP47_REJECTED: c_int = 9;
pub const BCP47_NO_UPGRADE: c_int = 10;
pub const BCP47_NO_SUCH_STEP: c_int = 11;
pub const BCP47_WRONG_END: c_int = 12;
pub const BCP47_NOT_OPEN: c_int = 13;
pub const BCP47_BAD_CALL: c_int = 14;
pub const BCP47_BUSY: c_int = 15;
pub const BCP47_TOO_MANY_STEPS: c_int = 16;
pub const BCP47_NO_ENTRIES: c_int = 17;
pub const BCP47_BAD_HEADER: c_int = 18;
pub const BCP47_LANGTAG: c_int = 1;
pub const BCP47_PRIVATE_USE: c_int = 2;
pub const BCP47_GRANDFATHERED: c_int = 3;
pub const BCP47_BASIC: c_int = 1;
pub const BCP47_EXTENDED: c_int = 2;
pub const BCP47_LOOKUP: c_int = 3;
pub const BCP47_EXTLANG: c_int = 1;
pub const BCP47_LANGUAGE: c_int = 2;
pub const BCP47_SCRIPT: c_int = 3;
pub const BCP47_REGION: c_int = 4;
pub const BCP47_VARIANT: c_int = 5;
pub const BCP47_VARIANT_LANGUAGE: c_int = 6;
pub const BCP47_WHOLE: c_int = 7;
pub const BCP47_SWAP_EXTENSIONS: c_int = 8;
pub const BCP47_DROP_ATTRIBUTE: c_int = 9;
pub const BCP47_SWAP_ATTRIBUTES: c_int = 10;
pub const BCP47_DROP_KEYWORD: c_int = 11;
pub const BCP47_SWAP_KEYWORDS: c_int = 12;
pub const BCP47_DROP_TRUE: c_int = 13;
pub const BCP47_SWAP_FIELDS: c_int = 14;
pub const BCP47_PART_LANGUAGE: c_int = 1;
pub const BCP47_PART_EXTLANG: c_int = 2;
pub const BCP47_PART_SCRIPT: c_int = 3;
pub const BCP47_PART_REGION: c_int = 4;
pub const BCP47_PART_VARIANT: c_int = 5;
pub const BCP47_PART_SINGLETON: c_int = 6;
pub const BCP47_PART_EXTENSION_SUBTAG: c_int = 7;
pub const BCP47_PART_ATTRIBUTE: c_int = 8;
pub const BCP47_PART_KEY: c_int = 9;
pub const BCP47_PART_TYPE: c_int = 10;
pub const BCP47_PART_SOURCE_LANGUAGE: c_int = 11;
pub const BCP47_PART_SOURCE_EXTLANG: c_int = 12;
pub const BCP47_PART_SOURCE_SCRIPT: c_int = 13;
pub const BCP47_PART_SOURCE_REGION: c_int = 14;
pub const BCP47_PART_SOURCE_VARIANT: c_int = 15;
pub const BCP47_PART_SEPARATOR: c_int = 16;
pub const BCP47_PART_VALUE: c_int = 17;
pub const BCP47_PART_PRIVATE_USE_SINGLETON: c_int = 18;
pub const BCP47_PART_PRIVATE_USE: c_int = 19;
pub const BCP47_PART_GRANDFATHERED: c_int = 20;
pub const BCP47_PARTS: usize = 512;
pub const BCP47_TEXT: usize = 1025;
pub const BCP47_LINE: usize = 80;

extern "C" {
    pub fn bcp47_version() -> *const c_char;
    pub fn bcp47_open(
        registry: *mut *mut bcp47_registry,
        bytes: *const c_void,
        length: usize,
        line: *mut c_char,
        room: usize,
    ) -> bcp47_outcome;
    pub fn bcp47_close(registry: *mut bcp47_registry);
    pub fn bcp47_registry_info(registry: *const bcp47_registry, info: *mut bcp47_info) -> bcp47_outcome;
    pub fn bcp47_canonical(
        registry: *const bcp47_registry,
        text: *const c_char,
        length: usize,
        buffer: *mut c_char,
        room: usize,
    ) -> bcp47_outcome;
    pub fn bcp47_extlang(
        registry: *const bcp47_registry,
        text: *const c_char,
        length: usize,
        buffer: *mut c_char,
        room: usize,
    ) -> bcp47_outcome;
    pub fn bcp47_classify(
        registry: *const bcp47_registry,
        text: *const c_char,
        length: usize,
        buffer: *mut c_char,
        room: usize,
    ) -> bcp47_outcome;
    pub fn bcp47_parts(
        text: *const c_char,
        length: usize,
        buffer: *mut c_char,
        room: usize,
        parts: *mut bcp47_part,
        count: usize,
    ) -> bcp47_outcome;
    pub fn bcp47_parent(text: *const c_char, length: usize, buffer: *mut c_char, room: usize) -> bcp47_outcome;
    pub fn bcp47_with(
        tag: *const c_char,
        length: usize,
        part: c_int,
        value: *const c_char,
        value_length: usize,
        buffer: *mut c_char,
        room: usize,
    ) -> bcp47_outcome;
    pub fn bcp47_posix(name: *const c_char, length: usize, buffer: *mut c_char, room: usize) -> bcp47_outcome;
    pub fn bcp47_validate(registry: *const bcp47_registry, text: *const c_char, length: usize) -> bcp47_outcome;
    pub fn bcp47_equivalent(
        registry: *const bcp47_registry,
        first: *const c_char,
        first_length: usize,
        second: *const c_char,
        second_length: usize,
        buffer: *mut c_char,
        room: usize,
    ) -> bcp47_outcome;
    pub fn bcp47_match(
        registry: *const bcp47_registry,
        scheme: c_int,
        range: *const c_char,
        range_length: usize,
        tag: *const c_char,
        tag_length: usize,
        buffer: *mut c_char,
        room: usize,
    ) -> bcp47_outcome;
    pub fn bcp47_available_open(
        available: *mut *mut bcp47_available,
        registry: *mut bcp47_registry,
        tags: *const *const c_char,
        lengths: *const usize,
        count: usize,
    ) -> bcp47_outcome;
    pub fn bcp47_best(available: *mut bcp47_available, accept: *const c_char, length: usize) -> bcp47_outcome;
    pub fn bcp47_filter(
        available: *mut bcp47_available,
        accept: *const c_char,
        length: usize,
        places: *mut usize,
        room: usize,
    ) -> bcp47_outcome;
    pub fn bcp47_available_close(available: *mut bcp47_available);
    pub fn bcp47_explain(
        registry: *const bcp47_registry,
        text: *const c_char,
        length: usize,
        buffer: *mut c_char,
        room: usize,
    ) -> bcp47_outcome;
    pub fn bcp47_explanation(
        registry: *const bcp47_registry,
        text: *const c_char,
        length: usize,
        most: usize,
        lines: *mut *mut c_char,
    ) -> bcp47_outcome;
    pub fn bcp47_show(
        registry: *const bcp47_registry,
        text: *const c_char,
        length: usize,
        rows: *mut *mut c_char,
    ) -> bcp47_outcome;
    pub fn bcp47_steps(
        registry: *const bcp47_registry,
        text: *const c_char,
        length: usize,
        most: usize,
        steps: *mut *mut bcp47_step,
        tags: *mut *const c_char,
    ) -> bcp47_outcome;
    pub fn bcp47_record(
        registry: *const bcp47_registry,
        number: u32,
        fields: *mut *mut bcp47_field,
        texts: *mut *const c_char,
    ) -> bcp47_outcome;
    pub fn bcp47_free(text: *mut c_void);
    pub fn bcp47_verify(
        registry: *const bcp47_registry,
        text: *const c_char,
        length: usize,
        steps: *const bcp47_step,
        count: usize,
        last: *const c_char,
        last_length: usize,
    ) -> bcp47_outcome;
    pub fn bcp47_upgrade_check(older: *const bcp47_registry, newer: *const bcp47_registry) -> bcp47_outcome;
    pub fn bcp47_status_name(status: c_int) -> *const c_char;
    pub fn bcp47_fault_name(fault: c_int) -> *const c_char;
    pub fn bcp47_kind_name(kind: c_int) -> *const c_char;
    pub fn bcp47_part_kind_name(kind: c_int) -> *const c_char;
    pub fn bcp47_status_help(status: c_int) -> *const c_char;
    pub fn bcp47_fault_help(fault: c_int) -> *const c_char;
}
