//! The constants and types of `c/hdt.h`, by their names there.
#![forbid(unsafe_code)]
#![allow(non_camel_case_types)]

pub(crate) const HDT_VERSION_MAJOR: u32 = 1;
pub(crate) const HDT_VERSION_MINOR: u32 = 4;

pub(crate) const HDT_DONE: u32 = 0;
pub(crate) const HDT_NOT_A_TERM: u32 = 250;
pub(crate) const HDT_NO_TRIPLES: u32 = 251;
pub(crate) const HDT_BAD_OPTIONS: u32 = 252;
pub(crate) const HDT_IS_CLOSED: u32 = 253;
pub(crate) const HDT_IS_OPEN: u32 = 254;
pub(crate) const HDT_OUT_OF_MEMORY: u32 = 255;

pub(crate) const HDT_ABSENT: u64 = u64::MAX;
pub(crate) const HDT_NO_MEMORY: u64 = u64::MAX - 1;
pub(crate) const HDT_CLOSED: u64 = u64::MAX - 2;

pub(crate) const HDT_FILE_TRUNCATED: u32 = 1;
pub(crate) const HDT_FILE_OVERLONG_NUMBER: u32 = 2;
pub(crate) const HDT_FILE_NUMBER_TOO_LARGE: u32 = 3;
pub(crate) const HDT_FILE_NOT_HDT: u32 = 4;
pub(crate) const HDT_FILE_WRONG_KIND: u32 = 5;
pub(crate) const HDT_FILE_CHECK16: u32 = 6;
pub(crate) const HDT_FILE_WRONG_FORMAT: u32 = 7;
pub(crate) const HDT_FILE_HEADER_LENGTH: u32 = 8;
pub(crate) const HDT_FILE_TRIPLE_ORDER: u32 = 9;
pub(crate) const HDT_FILE_CHECK8: u32 = 10;
pub(crate) const HDT_FILE_CHECK32: u32 = 11;
pub(crate) const HDT_FILE_SEQUENCE_KIND: u32 = 12;
pub(crate) const HDT_FILE_WIDTH: u32 = 13;
pub(crate) const HDT_FILE_BITS_KIND: u32 = 14;
pub(crate) const HDT_FILE_SECTION_KIND: u32 = 15;
pub(crate) const HDT_FILE_BLOCK_SIZE: u32 = 16;
pub(crate) const HDT_FILE_BLOCK_COUNT: u32 = 17;
pub(crate) const HDT_FILE_BLOCK_PLACE: u32 = 18;
pub(crate) const HDT_FILE_PREFIX_TOO_LONG: u32 = 19;
pub(crate) const HDT_FILE_PACKED_LENGTH: u32 = 20;
pub(crate) const HDT_FILE_NOT_UTF8: u32 = 21;
pub(crate) const HDT_FILE_STRINGS_NOT_ASCENDING: u32 = 22;
pub(crate) const HDT_FILE_SECTIONS_OVERLAP: u32 = 23;
pub(crate) const HDT_FILE_NO_TRIPLES: u32 = 24;
pub(crate) const HDT_FILE_LENGTHS_DIFFER: u32 = 25;
pub(crate) const HDT_FILE_LAST_MARK: u32 = 26;
pub(crate) const HDT_FILE_MARK_COUNT: u32 = 27;
pub(crate) const HDT_FILE_SUBJECT_RANGE: u32 = 28;
pub(crate) const HDT_FILE_PREDICATE_RANGE: u32 = 29;
pub(crate) const HDT_FILE_OBJECT_RANGE: u32 = 30;
pub(crate) const HDT_FILE_PREDICATES_NOT_ASCENDING: u32 = 31;
pub(crate) const HDT_FILE_OBJECTS_NOT_ASCENDING: u32 = 32;
pub(crate) const HDT_FILE_TRAILING_BYTES: u32 = 33;
pub(crate) const HDT_FILE_UNUSED: u32 = 34;

pub(crate) const HDT_TEXT_SYNTAX: u32 = 1;
pub(crate) const HDT_TEXT_NOT_UTF8: u32 = 2;
pub(crate) const HDT_TEXT_BAD_ESCAPE: u32 = 3;
pub(crate) const HDT_TEXT_RELATIVE_IRI: u32 = 4;
pub(crate) const HDT_TEXT_IRI_CHARACTER: u32 = 5;
pub(crate) const HDT_TEXT_ZERO_CHARACTER: u32 = 6;
pub(crate) const HDT_TEXT_READ: u32 = 7;
pub(crate) const HDT_TEXT_OUT_OF_MEMORY: u32 = 8;
pub(crate) const HDT_TEXT_TOO_LONG: u32 = 9;

pub(crate) const HDT_SUBJECT: u32 = 0;
pub(crate) const HDT_PREDICATE: u32 = 1;
pub(crate) const HDT_OBJECT: u32 = 2;

pub(crate) const HDT_BLANK_NODES_ONE: u32 = 0;
pub(crate) const HDT_BLANK_NODES_APART: u32 = 1;

pub(crate) const HDT_ANY: u32 = 0;
pub(crate) const HDT_ID: u32 = 1;
pub(crate) const HDT_STRING: u32 = 2;

pub(crate) const HDT_NO_TERM: u32 = 0;
pub(crate) const HDT_IRI: u32 = 1;
pub(crate) const HDT_BLANK: u32 = 2;
pub(crate) const HDT_LITERAL: u32 = 3;
pub(crate) const HDT_TAGGED: u32 = 4;
pub(crate) const HDT_TYPED: u32 = 5;

#[cfg(test)]
pub(crate) const HDT_NAME_ROOM: usize = 32;

#[repr(C)]
#[derive(Default)]
pub(crate) struct hdt_verdict {
    pub(crate) reason: u32,
    pub(crate) place: u64,
    pub(crate) counts: [u64; 5],
}

#[repr(C)]
#[derive(Default)]
pub(crate) struct hdt_report {
    pub(crate) reason: u32,
    pub(crate) line: u64,
    pub(crate) column: u64,
    pub(crate) counts: [u64; 5],
}

#[repr(C)]
#[derive(Default)]
pub(crate) struct hdt_split_report {
    pub(crate) reason: u32,
    pub(crate) has_blank_nodes: u32,
    pub(crate) line: u64,
    pub(crate) column: u64,
    pub(crate) lines: u64,
    pub(crate) triples: u64,
}

#[repr(C)]
#[derive(Default)]
pub(crate) struct hdt_text_result {
    pub(crate) reason: u32,
    pub(crate) role: u32,
    pub(crate) number: u64,
}

#[repr(C)]
pub(crate) struct hdt_graph {
    pub(crate) state: u64,
    pub(crate) at: *mut u8,
}

#[repr(C)]
pub(crate) struct hdt_bytes {
    pub(crate) at: *const u8,
    pub(crate) len: u64,
    pub(crate) state: u64,
    pub(crate) kept: *mut u8,
}

#[repr(C)]
pub(crate) struct hdt_part {
    pub(crate) kind: u32,
    pub(crate) id: u64,
    pub(crate) string: *const u8,
    pub(crate) len: usize,
}

#[repr(C)]
pub(crate) struct hdt_pattern {
    pub(crate) s: hdt_part,
    pub(crate) p: hdt_part,
    pub(crate) o: hdt_part,
}

#[repr(C)]
#[derive(Default)]
pub(crate) struct hdt_term_parts {
    pub(crate) kind: u32,
    pub(crate) at: u64,
    pub(crate) len: u64,
    pub(crate) suffix_at: u64,
    pub(crate) suffix_len: u64,
}

#[repr(C)]
#[derive(Default)]
pub(crate) struct hdt_ranges {
    pub(crate) first: [u64; 2],
    pub(crate) second: [u64; 2],
}
