//! The calls of `c/hdt.h`, and safe functions over them: the only module with `unsafe`.
//!
//! Each block relies on this, of what the header asks for: a slice's pointer is not null, also if it is empty; shared
//! and mutable slices don't overlap; a `&mut` of a handle or of bytes is that of one call at a time; they begin as
//! zeros, and only the library writes their fields. A moved handle is no copy: the old one can't be used, and the
//! library keeps no address of it. Handles of one graph may be used at the same time, and closed in any order.

use std::fmt;
use std::marker::PhantomData;
use std::ops::Deref;
use std::ptr;
use std::slice;
use std::sync::{Arc, Mutex, PoisonError};

pub(crate) use crate::header::*;
use crate::pattern::{Part, Pattern};
use crate::pool::{Pool, Share};

#[rustfmt::skip]
extern "C" {
    fn hdt_verify(bytes: *const u8, len: usize, verdict: *mut hdt_verdict);
    fn hdt_verify_tight(bytes: *const u8, len: usize, verdict: *mut hdt_verdict);
    fn hdt_open(bytes: *const u8, len: usize, graph: *mut hdt_graph, verdict: *mut hdt_verdict);
    fn hdt_close(graph: *mut hdt_graph);
    fn hdt_share(graph: *mut hdt_graph, other: *mut hdt_graph) -> u32;
    fn hdt_len(graph: *mut hdt_graph) -> u64;
    fn hdt_count(graph: *mut hdt_graph, role: u32) -> u64;
    fn hdt_number(graph: *mut hdt_graph, role: u32, string: *const u8, len: usize) -> u64;
    fn hdt_string(graph: *mut hdt_graph, role: u32, number: u64, out: *mut u8, room: usize) -> u64;
    fn hdt_strings(graph: *mut hdt_graph, role: u32, numbers: *const u64, count: usize, out: *mut hdt_bytes,
                   ends: *mut u64, room: usize) -> u64;
    fn hdt_header(graph: *mut hdt_graph, out: *mut u8, room: usize) -> u64;
    fn hdt_prefix(graph: *mut hdt_graph, role: u32, prefix: *const u8, len: usize, ranges: *mut hdt_ranges) -> u64;
    fn hdt_predicates(graph: *mut hdt_graph, counts: *mut u64, room: usize) -> u64;
    fn hdt_pattern_find(graph: *mut hdt_graph, pattern: *const hdt_pattern, skip: u64, out: *mut [u64; 3],
                        room: usize) -> u64;
    fn hdt_pattern_matching(graph: *mut hdt_graph, pattern: *const hdt_pattern) -> u64;
    fn hdt_pattern_text(graph: *mut hdt_graph, pattern: *const hdt_pattern, out: *mut hdt_bytes,
                        outcome: *mut hdt_text_result);
    fn hdt_page(graph: *mut hdt_graph, pattern: *const hdt_pattern, from: u64, out: *mut [u64; 3], room: usize,
                next: *mut u64) -> u64;
    fn hdt_page_text(graph: *mut hdt_graph, pattern: *const hdt_pattern, from: u64, most: u64, out: *mut hdt_bytes,
                     next: *mut u64, outcome: *mut hdt_text_result);
    fn hdt_build(text: *const u8, len: usize, base: *const u8, base_len: usize, block_size: u32, out: *mut hdt_bytes,
                 report: *mut hdt_report);
    fn hdt_merge_with(graphs: *mut hdt_graph, count: usize, blank_nodes: u32, base: *const u8, base_len: usize,
                      block_size: u32, out: *mut hdt_bytes, report: *mut hdt_report);
    fn hdt_split(text: *const u8, len: usize, parts: u32, prefix: *const u8, prefix_len: usize, out: *mut hdt_bytes,
                 ends: *mut u64, room: usize, report: *mut hdt_split_report);
    fn hdt_rewrite(bytes: *const u8, len: usize, block_size: u32, out: *mut hdt_bytes, verdict: *mut hdt_verdict);
    fn hdt_with_header(bytes: *const u8, len: usize, header: *const u8, header_len: usize, out: *mut hdt_bytes,
                       verdict: *mut hdt_verdict, report: *mut hdt_report);
    fn hdt_term(string: *const u8, len: usize, parts: *mut hdt_term_parts) -> u32;
    fn hdt_term_string(kind: u32, text: *const u8, len: usize, suffix: *const u8, suffix_len: usize, out: *mut u8,
                       room: usize) -> u64;
    fn hdt_version() -> u32;
    #[cfg(test)]
    fn hdt_reason_name(reason: u32, out: *mut u8, room: usize) -> u64;
    #[cfg(test)]
    fn hdt_text_reason_name(reason: u32, out: *mut u8, room: usize) -> u64;
    fn hdt_free(bytes: *mut hdt_bytes);
}

// SAFETY: the header lets a handle go to another thread behind a lock, also if other threads use other handles of its
// graph. The bytes of its file are only read, and `&[u8]` is Send.
unsafe impl Send for hdt_graph {}

impl hdt_graph {
    fn closed() -> hdt_graph {
        hdt_graph { state: 0, at: ptr::null_mut() }
    }
}

impl hdt_part {
    /// A part that gives no string has a pointer to no bytes, since that may not be null.
    fn of(part: Part<'_>) -> hdt_part {
        let (kind, id, string) = match part {
            Part::Any => (HDT_ANY, 0, ""),
            Part::Id(id) => (HDT_ID, id, ""),
            Part::String(string) => (HDT_STRING, 0, string),
        };
        hdt_part { kind, id, string: string.as_ptr(), len: string.len() }
    }
}

impl hdt_pattern {
    /// The pattern, which points to the strings that are borrowed.
    fn of(pattern: &Pattern<'_>) -> hdt_pattern {
        let [s, p, o] = pattern.parts.map(hdt_part::of);
        hdt_pattern { s, p, o }
    }
}

/// Bytes that the library made: a file or a text. They are freed when this is dropped.
pub struct Bytes {
    made: hdt_bytes,
}

// SAFETY: it owns its bytes, and `hdt_free` may be called by any thread. Nothing in the library belongs to a thread.
unsafe impl Send for Bytes {}
// SAFETY: a shared reference only reads the bytes, which don't change until they are freed.
unsafe impl Sync for Bytes {}

impl Bytes {
    fn new() -> Bytes {
        let (at, kept) = (ptr::null(), ptr::null_mut());
        Bytes { made: hdt_bytes { at, len: 0, state: 0, kept } }
    }
}

impl Deref for Bytes {
    type Target = [u8];

    fn deref(&self) -> &[u8] {
        if self.made.len == 0 {
            return &[];
        }
        // SAFETY: the library has `len` bytes at `at`, which stay unchanged until `hdt_free`, that is until the drop.
        unsafe { slice::from_raw_parts(self.made.at, size(self.made.len)) }
    }
}

impl AsRef<[u8]> for Bytes {
    fn as_ref(&self) -> &[u8] {
        self
    }
}

impl fmt::Debug for Bytes {
    fn fmt(&self, f: &mut fmt::Formatter<'_>) -> fmt::Result {
        f.debug_struct("Bytes").field("len", &self.len()).finish_non_exhaustive()
    }
}

impl Drop for Bytes {
    fn drop(&mut self) {
        // SAFETY: the bytes are the library's or none, and no reference to them outlives this value.
        unsafe { hdt_free(&mut self.made) }
    }
}

/// What owns the bytes of a file. Nothing looks at it until it is dropped, so it need not be `Sync`, as the lock tells the
/// compiler. An `Arc` never moves what it has.
type Owner = Arc<Mutex<dyn Send>>;

/// A handle, which is closed when this is dropped; then its share of the owner of the bytes is dropped.
struct Opened {
    graph: hdt_graph,
    owner: Option<Owner>,
}

impl Opened {
    fn closed(owner: Option<Owner>) -> Opened {
        Opened { graph: hdt_graph::closed(), owner }
    }
}

impl Share for Opened {
    fn share(&mut self) -> Option<Opened> {
        let mut other = Opened::closed(self.owner.clone());
        // SAFETY: it has both handles alone.
        let reason = unsafe { hdt_share(&mut self.graph, &mut other.graph) };
        assert!(reason == HDT_DONE || reason == HDT_OUT_OF_MEMORY, "a handle is open until it is dropped");
        (reason == HDT_DONE).then_some(other)
    }
}

impl Drop for Opened {
    fn drop(&mut self) {
        // SAFETY: it has the handle alone, and nothing uses it after this.
        unsafe { hdt_close(&mut self.graph) }
    }
}

/// The handles of an open graph, over bytes that are borrowed or have an owner.
pub(crate) struct Handles<'bytes> {
    pool: Pool<Opened>,
    bytes: PhantomData<&'bytes [u8]>,
}

impl Drop for Handles<'_> {
    /// Does nothing, but tells the compiler that the bytes have to outlive the fields, whose drops close the handles.
    fn drop(&mut self) {}
}

impl<'bytes> Handles<'bytes> {
    /// Opens a file; there are handles if the verdict is `HDT_DONE`.
    pub(crate) fn open(bytes: &'bytes [u8]) -> (Option<Handles<'bytes>>, hdt_verdict) {
        // SAFETY: the bytes are borrowed for 'bytes, which the handles don't outlive.
        unsafe { Handles::open_with(bytes, None) }
    }

    /// Opens the file whose bytes a value has, and keeps that.
    pub(crate) fn open_owned(owner: impl AsRef<[u8]> + Send + 'static) -> (Option<Handles<'static>>, hdt_verdict) {
        let kept = Arc::new(Mutex::new(owner));
        let owner: Owner = kept.clone();
        let seen = kept.lock().unwrap_or_else(PoisonError::into_inner);
        // SAFETY: `as_ref` borrows the owner, so the bytes stay where they are, unchanged, until that is moved, changed or
        // dropped. It is in an `Arc`, nothing looks at it after this call, and each handle keeps it.
        unsafe { Handles::open_with((*seen).as_ref(), Some(owner)) }
    }

    /// Opens a file.
    ///
    /// # Safety
    ///
    /// The bytes have to stay where they are, unchanged, until the handles are closed, or until the owner is dropped.
    unsafe fn open_with(bytes: &[u8], owner: Option<Owner>) -> (Option<Handles<'bytes>>, hdt_verdict) {
        let (mut first, mut verdict) = (Opened::closed(owner), hdt_verdict::default());
        // SAFETY: the caller sees to it that the bytes stay, and it has `first` and `verdict` alone.
        unsafe { hdt_open(bytes.as_ptr(), bytes.len(), &mut first.graph, &mut verdict) };
        let is_open = verdict.reason == HDT_DONE;
        (is_open.then(|| Handles { pool: Pool::new(first), bytes: PhantomData }), verdict)
    }

    /// The answer of a call, which has a handle for itself.
    fn ask(&self, call: impl FnOnce(&mut hdt_graph) -> u64) -> u64 {
        let answer = self.pool.with(|opened| call(&mut opened.graph));
        assert_ne!(answer, HDT_CLOSED, "a handle is open until it is dropped");
        answer
    }

    pub(crate) fn len(&self) -> u64 {
        // SAFETY: it has its handle alone.
        self.ask(|graph| unsafe { hdt_len(graph) })
    }

    pub(crate) fn count(&self, role: u32) -> u64 {
        // SAFETY: it has its handle alone.
        self.ask(|graph| unsafe { hdt_count(graph, role) })
    }

    pub(crate) fn number(&self, role: u32, string: &str) -> u64 {
        // SAFETY: it has its handle alone, and `string` has as many bytes as it says.
        self.ask(|graph| unsafe { hdt_number(graph, role, string.as_ptr(), string.len()) })
    }

    pub(crate) fn string(&self, role: u32, number: u64, out: &mut [u8]) -> u64 {
        // SAFETY: it has its handle alone, and `out` has room for as many bytes as it says.
        self.ask(|graph| unsafe { hdt_string(graph, role, number, out.as_mut_ptr(), out.len()) })
    }

    /// The strings of these numbers, one after another, and where each of them ends; and the call's answer.
    pub(crate) fn strings(&self, role: u32, numbers: &[u64]) -> (Bytes, Vec<u64>, u64) {
        let (mut out, mut ends) = (Bytes::new(), vec![0; numbers.len()]);
        let (at, count) = (numbers.as_ptr(), numbers.len());
        // SAFETY: it has its handle and `out` alone; there are `count` numbers, and `ends` has room for as many.
        let answer =
            self.ask(|graph| unsafe { hdt_strings(graph, role, at, count, &mut out.made, ends.as_mut_ptr(), count) });
        (out, ends, answer)
    }

    pub(crate) fn header(&self, out: &mut [u8]) -> u64 {
        // SAFETY: it has its handle alone, and `out` has room for as many bytes as it says.
        self.ask(|graph| unsafe { hdt_header(graph, out.as_mut_ptr(), out.len()) })
    }

    pub(crate) fn prefix(&self, role: u32, prefix: &[u8]) -> hdt_ranges {
        let mut ranges = hdt_ranges::default();
        // SAFETY: it has its handle and `ranges` alone, and `prefix` has as many bytes as it says.
        self.ask(|graph| unsafe { hdt_prefix(graph, role, prefix.as_ptr(), prefix.len(), &mut ranges) });
        ranges
    }

    /// Writes the counts of the first predicates, as many as there is room for.
    pub(crate) fn predicates(&self, counts: &mut [u64]) {
        // SAFETY: it has its handle alone, and `counts` has room for as many numbers as it says.
        self.ask(|graph| unsafe { hdt_predicates(graph, counts.as_mut_ptr(), counts.len()) });
    }

    /// Writes matches to `out`, without the first `skip`, and returns how many.
    pub(crate) fn find(&self, pattern: &Pattern<'_>, skip: u64, out: &mut [[u64; 3]]) -> usize {
        let given = hdt_pattern::of(pattern);
        // SAFETY: it has its handle alone; the strings outlive the call, and `out` has room for its length.
        size(self.ask(|graph| unsafe { hdt_pattern_find(graph, &given, skip, out.as_mut_ptr(), out.len()) }))
    }

    pub(crate) fn matching(&self, pattern: &Pattern<'_>) -> u64 {
        let given = hdt_pattern::of(pattern);
        // SAFETY: it has its handle alone, and the strings outlive the call.
        self.ask(|graph| unsafe { hdt_pattern_matching(graph, &given) })
    }

    /// Writes the matches from triple `from` on to `out`. Returns the call's result, and the index of the next match.
    pub(crate) fn page(&self, pattern: &Pattern<'_>, from: u64, out: &mut [[u64; 3]]) -> (u64, u64) {
        let (given, mut next) = (hdt_pattern::of(pattern), HDT_ABSENT);
        let (at, room) = (out.as_mut_ptr(), out.len());
        // SAFETY: it has its handle and `next` alone; the strings outlive the call, and `out` has room for its length.
        let answer = self.ask(|graph| unsafe { hdt_page(graph, &given, from, at, room, &mut next) });
        (answer, next)
    }

    pub(crate) fn text(&self, pattern: &Pattern<'_>) -> (Bytes, hdt_text_result) {
        let (given, mut out, mut outcome) = (hdt_pattern::of(pattern), Bytes::new(), hdt_text_result::default());
        self.ask(|graph| {
            // SAFETY: it has its handle, `out` and `outcome` alone, and the strings outlive the call.
            unsafe { hdt_pattern_text(graph, &given, &mut out.made, &mut outcome) };
            0
        });
        (out, outcome)
    }

    /// The text of the matches from triple `from` on, and the index of the next match.
    pub(crate) fn page_text(&self, pattern: &Pattern<'_>, from: u64, most: u64) -> (Bytes, u64, hdt_text_result) {
        let (given, mut out, mut outcome) = (hdt_pattern::of(pattern), Bytes::new(), hdt_text_result::default());
        let mut next = HDT_ABSENT;
        self.ask(|graph| {
            // SAFETY: it has its handle, `out`, `next` and `outcome` alone, and the strings outlive the call.
            unsafe { hdt_page_text(graph, &given, from, most, &mut out.made, &mut next, &mut outcome) };
            0
        });
        (out, next, outcome)
    }
}

pub(crate) fn verify(bytes: &[u8]) -> hdt_verdict {
    let mut verdict = hdt_verdict::default();
    // SAFETY: there are as many bytes as it says.
    unsafe { hdt_verify(bytes.as_ptr(), bytes.len(), &mut verdict) };
    verdict
}

pub(crate) fn verify_tight(bytes: &[u8]) -> hdt_verdict {
    let mut verdict = hdt_verdict::default();
    // SAFETY: there are as many bytes as it says.
    unsafe { hdt_verify_tight(bytes.as_ptr(), bytes.len(), &mut verdict) };
    verdict
}

pub(crate) fn build(text: &[u8], base: &str, block_size: u16) -> (Bytes, hdt_report) {
    let (mut out, mut report) = (Bytes::new(), hdt_report::default());
    let (at, len, name, name_len) = (text.as_ptr(), text.len(), base.as_ptr(), base.len());
    // SAFETY: text and base have as many bytes as they say, and it has `out` and `report` alone.
    unsafe { hdt_build(at, len, name, name_len, block_size.into(), &mut out.made, &mut report) };
    (out, report)
}

/// Handles side by side, as `hdt_merge_with` takes them, which are closed when this is dropped.
struct Row(Vec<hdt_graph>);

impl Drop for Row {
    fn drop(&mut self) {
        for graph in &mut self.0 {
            // SAFETY: it has the handle alone, and nothing uses it after this. A handle may be closed already.
            unsafe { hdt_close(graph) }
        }
    }
}

/// The file of the triples of all graphs, each of which has one more handle meanwhile. `blank_nodes` is one of the
/// constants of this name.
pub(crate) fn merge<'a, 'bytes: 'a>(
    graphs: impl Iterator<Item = &'a Handles<'bytes>>,
    blank_nodes: u32,
    base: &str,
    block_size: u16,
) -> (Bytes, hdt_report) {
    let (mut out, mut report) = (Bytes::new(), hdt_report::default());
    let mut row = Row(Vec::new());
    for handles in graphs {
        let mut other = hdt_graph::closed();
        // SAFETY: it has both handles alone.
        let reason = handles.pool.with(|opened| unsafe { hdt_share(&mut opened.graph, &mut other) });
        row.0.push(other);
        if reason != HDT_DONE {
            report.reason = reason;
            return (out, report);
        }
    }
    let (at, count, name, name_len) = (row.0.as_mut_ptr(), row.0.len(), base.as_ptr(), base.len());
    // SAFETY: there are `count` handles, which it has alone, as `out` and `report`; the graphs outlive the call, with the
    // bytes of their files; and the base has as many bytes as it says.
    unsafe { hdt_merge_with(at, count, blank_nodes, name, name_len, block_size.into(), &mut out.made, &mut report) };
    (out, report)
}

/// The texts of the parts, one after another, and where each of them ends, if there is room for all; and the report.
pub(crate) fn split(text: &[u8], parts: u32, prefix: &str, room: usize) -> (Bytes, Vec<u64>, hdt_split_report) {
    let (mut out, mut ends, mut report) = (Bytes::new(), vec![0; room], hdt_split_report::default());
    let (at, len, prefix_at, prefix_len) = (text.as_ptr(), text.len(), prefix.as_ptr(), prefix.len());
    let ends_at = ends.as_mut_ptr();
    // SAFETY: text and prefix have as many bytes as they say, `ends` has its room, and it has all three results alone.
    unsafe { hdt_split(at, len, parts, prefix_at, prefix_len, &mut out.made, ends_at, room, &mut report) };
    (out, ends, report)
}

pub(crate) fn rewrite(bytes: &[u8], block_size: u16) -> (Bytes, hdt_verdict) {
    let (mut out, mut verdict) = (Bytes::new(), hdt_verdict::default());
    // SAFETY: there are as many bytes as it says, and it has `out` and `verdict` alone.
    unsafe { hdt_rewrite(bytes.as_ptr(), bytes.len(), block_size.into(), &mut out.made, &mut verdict) };
    (out, verdict)
}

pub(crate) fn with_header(bytes: &[u8], header: &[u8]) -> (Bytes, hdt_verdict, hdt_report) {
    let (mut out, mut verdict, mut report) = (Bytes::new(), hdt_verdict::default(), hdt_report::default());
    let (at, len, header_at, header_len) = (bytes.as_ptr(), bytes.len(), header.as_ptr(), header.len());
    // SAFETY: both have as many bytes as they say, and it has all three results alone.
    unsafe { hdt_with_header(at, len, header_at, header_len, &mut out.made, &mut verdict, &mut report) };
    (out, verdict, report)
}

/// The call's reason, and the parts of the term.
pub(crate) fn term(string: &str) -> (u32, hdt_term_parts) {
    let mut parts = hdt_term_parts::default();
    // SAFETY: `string` has as many bytes as it says.
    let reason = unsafe { hdt_term(string.as_ptr(), string.len(), &mut parts) };
    (reason, parts)
}

pub(crate) fn term_string(kind: u32, text: &str, suffix: &str, out: &mut [u8]) -> u64 {
    let (at, len, suffix_at, suffix_len) = (text.as_ptr(), text.len(), suffix.as_ptr(), suffix.len());
    // SAFETY: both strings have as many bytes as they say, and `out` has room for its length.
    unsafe { hdt_term_string(kind, at, len, suffix_at, suffix_len, out.as_mut_ptr(), out.len()) }
}

pub(crate) fn version() -> u32 {
    // SAFETY: the call has no parameters.
    unsafe { hdt_version() }
}

#[cfg(test)]
pub(crate) fn reason_name(reason: u32, out: &mut [u8]) -> u64 {
    // SAFETY: `out` has room for its length.
    unsafe { hdt_reason_name(reason, out.as_mut_ptr(), out.len()) }
}

#[cfg(test)]
pub(crate) fn text_reason_name(reason: u32, out: &mut [u8]) -> u64 {
    // SAFETY: `out` has room for its length.
    unsafe { hdt_text_reason_name(reason, out.as_mut_ptr(), out.len()) }
}

/// A count of what is in memory.
pub(crate) fn size(count: u64) -> usize {
    usize::try_from(count).expect("what is in memory is counted by usize")
}
