//! Verifies, searches, builds and rewrites RDF HDT files, by the proved library libhdt.
//!
//! ```
//! use tickmarl_hdt::{build, Graph, Pattern, Role, BLOCK_SIZE};
//!
//! # fn main() -> Result<(), tickmarl_hdt::Error> {
//! let text = b"<u:a> <u:p> <u:b> .\n<u:a> <u:q> \"x\" .\n";
//! let (file, counts) = build(text, "http://example.org/graph", BLOCK_SIZE)?;
//! assert_eq!(counts.triples, 2);
//! let graph = Graph::open(&file)?;
//! for [subject, _, object] in graph.find(Pattern::any().predicate("u:p")) {
//!     assert_eq!(graph.string(Role::Subject, subject)?.as_deref(), Some("u:a"));
//!     assert_eq!(graph.string(Role::Object, object)?.as_deref(), Some("u:b"));
//! }
//! # Ok(())
//! # }
//! ```
//!
//! All files are bytes in memory. A [`Graph`] borrows those of its file, so they stay unchanged while it is open; or it has
//! them: [`Graph::open_path`] and [`Graph::from_bytes`]. The standard library maps no files; with a crate that does, a
//! mapped file that is cut or overwritten in place ends the process (SIGBUS), so replace a file in use by rename, as
//! [`build_path`] and [`rewrite_path`] do.
//!
//! Threads may share a graph, or have a clone each: their calls run at the same time.
//!
//! A string is a dictionary string everywhere: an IRI without brackets (`http://a/b`), a blank node with its label
//! (`_:b`), or a literal with its quotes and without escapes, followed by nothing, a language tag or a datatype
//! (`"x"`, `"x"@en`, `"1"^^<http://www.w3.org/2001/XMLSchema#integer>`). [`Term`] converts from and to them. The
//! strings of a [`Role`] have IDs from 1.
//!
//! Errors are values of [`Error`]; no call panics on any input. Memory of the library comes from `malloc`; if it runs
//! out there, a call returns [`Error::OutOfMemory`]. If memory for a `Vec` or a `String` runs out, the process aborts,
//! as in any Rust program; so it does in calls of [`Term`] and in [`Matches`] if the library has none for the term or
//! the page that they return. No call may be made in a signal handler, or in the child of a `fork` of a process with
//! threads.

#![deny(missing_docs)]
#![deny(unsafe_code)]

mod error;
#[allow(unsafe_code)]
mod ffi;
mod file;
mod graph;
mod header;
mod matches;
mod paths;
mod pattern;
mod pool;
mod replace;
mod split;
mod strings;
mod term;

pub use error::{Cause, Error, FileError, FileReason, PathError, TextError, TextReason};
pub use ffi::Bytes;
pub use file::{build, merge, merge_apart, rewrite, verify, verify_tight, with_header, Counts, BLOCK_SIZE};
pub use graph::Graph;
pub use matches::{Matches, Page};
pub use paths::{build_path, merge_paths, rewrite_path};
pub use pattern::{Pattern, Role};
pub use split::{split, Split};
pub use strings::Strings;
pub use term::{InvalidTerm, LiteralKind, Term};

/// The major and the minor version of the C interface (`c/hdt.h`) that this crate is written for.
pub const HEADER_VERSION: (u32, u32) = (ffi::HDT_VERSION_MAJOR, ffi::HDT_VERSION_MINOR);

/// The major and the minor version of the library that is linked. A greater minor version has more calls.
///
/// ```
/// use tickmarl_hdt::{library_version, HEADER_VERSION};
///
/// let (major, minor) = library_version();
/// assert!(major == HEADER_VERSION.0 && minor >= HEADER_VERSION.1);
/// ```
pub fn library_version() -> (u32, u32) {
    let version = ffi::version();
    (version >> 16, version & 0xFFFF)
}
