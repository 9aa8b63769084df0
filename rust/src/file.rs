//! Whole files: their validity, and making them.
#![forbid(unsafe_code)]

use crate::error::Error;
use crate::ffi::{self, Bytes};
use crate::graph::Graph;

/// The usual block size of [`build`] and [`rewrite`].
pub const BLOCK_SIZE: u16 = 16;

/// What a file has, in numbers.
#[derive(Debug, Clone, Copy, PartialEq, Eq, Hash)]
#[non_exhaustive]
pub struct Counts {
    /// Triples.
    pub triples: u64,
    /// Strings that are both subjects and objects.
    pub shared: u64,
    /// Strings that are subjects and not objects.
    pub subjects: u64,
    /// Predicates.
    pub predicates: u64,
    /// Strings that are objects and not subjects.
    pub objects: u64,
}

impl Counts {
    pub(crate) fn of(counts: [u64; 5]) -> Counts {
        let [triples, shared, subjects, predicates, objects] = counts;
        Counts { triples, shared, subjects, predicates, objects }
    }
}

/// Checks a whole file, and returns its counts. Takes linear time.
///
/// # Errors
///
/// [`Error::File`] has the first error of the file; [`Error::OutOfMemory`].
///
/// ```
/// use tickmarl_hdt::{verify, Error, FileError, FileReason};
///
/// let error = FileError { reason: FileReason::NotHdt, offset: 0 };
/// assert_eq!(verify(b"no HDT file"), Err(Error::File(error)));
/// ```
pub fn verify(bytes: &[u8]) -> Result<Counts, Error> {
    counts_of(&ffi::verify(bytes))
}

/// Checks a whole file as [`verify`] does, and that triples use each string in the role of its section.
///
/// Takes linear time, and memory in proportion to the triples and strings.
///
/// # Errors
///
/// [`Error::File`] has the first error of the file. It has [`FileReason::Unused`](crate::FileReason::Unused), at the
/// offset of the first such string, only if there is no other error; [`Error::OutOfMemory`].
///
/// ```
/// use tickmarl_hdt::{build, verify, verify_tight, BLOCK_SIZE};
///
/// # fn main() -> Result<(), tickmarl_hdt::Error> {
/// let (file, counts) = build(b"<u:a> <u:p> \"x\" .\n", "http://example.org/", BLOCK_SIZE)?;
/// assert_eq!(verify_tight(&file), Ok(counts));
/// assert_eq!(verify_tight(&file[1..]), verify(&file[1..]));
/// # Ok(())
/// # }
/// ```
pub fn verify_tight(bytes: &[u8]) -> Result<Counts, Error> {
    counts_of(&ffi::verify_tight(bytes))
}

/// Builds the canonical file of the graph of an N-Triples text, and returns the file and its counts.
///
/// `base` is the absolute IRI that names the file in its header. `block_size` is the number of strings in a block of
/// the dictionary, at least 1; [`BLOCK_SIZE`] is usual. Time is linear in the text, except for sorting.
///
/// # Errors
///
/// [`Error::BadOptions`], before it reads the text; [`Error::Text`] has the first error of the text;
/// [`Error::NoTriples`]; [`Error::OutOfMemory`].
///
/// ```
/// use tickmarl_hdt::{build, Error, TextReason, BLOCK_SIZE};
///
/// # fn main() -> Result<(), Error> {
/// let (file, counts) = build(b"<u:a> <u:p> \"x\" .\n", "http://example.org/", BLOCK_SIZE)?;
/// assert_eq!((counts.triples, counts.subjects, counts.objects), (1, 1, 1));
/// assert!(file.starts_with(b"$HDT"));
///
/// let failed = build(b"<u:a> <u:p> \"x\"\n", "http://example.org/", BLOCK_SIZE);
/// let Err(Error::Text(error)) = failed else { panic!() };
/// assert_eq!((error.reason, error.line, error.column), (TextReason::Syntax, 1, 16));
/// # Ok(())
/// # }
/// ```
pub fn build(text: &[u8], base: &str, block_size: u16) -> Result<(Bytes, Counts), Error> {
    let (file, report) = ffi::build(text, base, block_size);
    match report.reason {
        ffi::HDT_DONE => Ok((file, Counts::of(report.counts))),
        reason => Err(Error::of_text(reason, report.line, report.column)),
    }
}

/// Merges graphs: makes the canonical file of all their triples, each once, and returns that and its counts.
///
/// The order of the graphs makes no difference. A blank node label in two graphs is one node, as in one text;
/// [`merge_apart`] makes it two. `base` and `block_size` are those of [`build`]. Time is linear in the graphs, with their
/// strings decoded, except for sorting. Memory: the strings of each graph, front-coded, with 24 bytes each, and once more
/// the distinct ones; 5 to 9 bytes for each triple of each graph, and as much for sorting, with 24 MB; and the file.
///
/// # Errors
///
/// [`Error::NoTriples`] if there are no graphs; [`Error::BadOptions`]; [`Error::OutOfMemory`].
///
/// ```
/// use tickmarl_hdt::{build, merge, Graph, BLOCK_SIZE};
///
/// # fn main() -> Result<(), tickmarl_hdt::Error> {
/// let base = "http://example.org/";
/// let (old, _) = build(b"<u:a> <u:p> <u:b> .\n<u:b> <u:p> <u:c> .\n", base, BLOCK_SIZE)?;
/// let (new, _) = build(b"<u:b> <u:p> <u:c> .\n<u:c> <u:p> \"x\" .\n", base, BLOCK_SIZE)?;
/// let graphs = [Graph::open(&old)?, Graph::open(&new)?];
/// let (merged, counts) = merge(&graphs, base, BLOCK_SIZE)?;
/// assert_eq!(counts.triples, 3);
/// assert_eq!(Graph::open(&merged)?.counts(), counts);
/// # Ok(())
/// # }
/// ```
pub fn merge<'a, 'bytes: 'a>(
    graphs: impl IntoIterator<Item = &'a Graph<'bytes>>,
    base: &str,
    block_size: u16,
) -> Result<(Bytes, Counts), Error> {
    merge_with(graphs, ffi::HDT_BLANK_NODES_ONE, base, block_size)
}

/// Merges graphs as [`merge`] does, but keeps their blank nodes apart: no blank node of one is one of another.
///
/// The labels of the first graph get the prefix `f0_`, those of the second one `f1_`, and so on, as by
/// `hdt merge --blank-nodes apart`. So the order of the graphs makes a difference.
///
/// # Errors
///
/// Those of [`merge`].
///
/// ```
/// use tickmarl_hdt::{build, merge_apart, Graph, Role, BLOCK_SIZE};
///
/// # fn main() -> Result<(), tickmarl_hdt::Error> {
/// let base = "http://example.org/";
/// let (file, _) = build(b"_:b <u:p> <u:o> .\n", base, BLOCK_SIZE)?;
/// let graph = Graph::open(&file)?;
/// let (merged, counts) = merge_apart([&graph, &graph], base, BLOCK_SIZE)?;
/// assert_eq!(counts.triples, 2);
/// assert_eq!(Graph::open(&merged)?.string(Role::Subject, 2)?.as_deref(), Some("_:f1_b"));
/// # Ok(())
/// # }
/// ```
pub fn merge_apart<'a, 'bytes: 'a>(
    graphs: impl IntoIterator<Item = &'a Graph<'bytes>>,
    base: &str,
    block_size: u16,
) -> Result<(Bytes, Counts), Error> {
    merge_with(graphs, ffi::HDT_BLANK_NODES_APART, base, block_size)
}

fn merge_with<'a, 'bytes: 'a>(
    graphs: impl IntoIterator<Item = &'a Graph<'bytes>>,
    blank_nodes: u32,
    base: &str,
    block_size: u16,
) -> Result<(Bytes, Counts), Error> {
    let handles = graphs.into_iter().map(|graph| &*graph.handles);
    let (file, report) = ffi::merge(handles, blank_nodes, base, block_size);
    match report.reason {
        ffi::HDT_DONE => Ok((file, Counts::of(report.counts))),
        reason => Err(Error::of_text(reason, report.line, report.column)),
    }
}

/// Rewrites a file as the canonical file of its triples, and returns that and its counts.
///
/// The header stays, unused strings are left out, and blocks have `block_size` strings, at least 1. Time is linear in
/// the file, except for sorting if IDs change their order.
///
/// # Errors
///
/// [`Error::File`] has the first error of the file; [`Error::BadOptions`]; [`Error::OutOfMemory`].
///
/// ```
/// use tickmarl_hdt::{build, rewrite, BLOCK_SIZE};
///
/// # fn main() -> Result<(), tickmarl_hdt::Error> {
/// let (file, counts) = build(b"<u:a> <u:p> \"x\" .\n", "http://example.org/", BLOCK_SIZE)?;
/// let (small, same) = rewrite(&file, 64)?;
/// assert_eq!(same, counts);
/// assert_ne!(small[..], file[..]);
/// # Ok(())
/// # }
/// ```
pub fn rewrite(bytes: &[u8], block_size: u16) -> Result<(Bytes, Counts), Error> {
    let (file, verdict) = ffi::rewrite(bytes, block_size);
    Ok((file, counts_of(&verdict)?))
}

/// Replaces the header of a file by N-Triples about its graph, and returns the new file and its counts.
///
/// The header is written as it is, and may be empty. All other bytes stay, but the header's length and the CRC over it:
/// nothing is encoded again. [`Graph::header`](crate::Graph::header) reads it. Time is linear.
///
/// # Errors
///
/// [`Error::File`] has the first error of the file; else [`Error::Text`] that of the header; [`Error::OutOfMemory`].
///
/// ```
/// use tickmarl_hdt::{build, with_header, BLOCK_SIZE};
///
/// # fn main() -> Result<(), tickmarl_hdt::Error> {
/// let (file, counts) = build(b"<u:a> <u:p> \"x\" .\n", "http://example.org/", BLOCK_SIZE)?;
/// let (described, same) = with_header(&file, b"<http://example.org/> <http://purl.org/dc/terms/title> \"X\" .\n")?;
/// assert_eq!(same, counts);
/// # Ok(())
/// # }
/// ```
pub fn with_header(bytes: &[u8], header: &[u8]) -> Result<(Bytes, Counts), Error> {
    let (file, verdict, report) = ffi::with_header(bytes, header);
    counts_of(&verdict)?;
    match report.reason {
        ffi::HDT_DONE => Ok((file, Counts::of(report.counts))),
        reason => Err(Error::of_text(reason, report.line, report.column)),
    }
}

/// The counts of a verdict that is done, else its error.
pub(crate) fn counts_of(verdict: &ffi::hdt_verdict) -> Result<Counts, Error> {
    match verdict.reason {
        ffi::HDT_DONE => Ok(Counts::of(verdict.counts)),
        reason => Err(Error::of_file(reason, verdict.place)),
    }
}
