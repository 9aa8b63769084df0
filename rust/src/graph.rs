//! Open graphs: look-ups and searches.
#![forbid(unsafe_code)]

use std::fmt;
use std::ops::Range;
use std::path::Path;
use std::sync::Arc;

use crate::error::{Error, PathError};
use crate::ffi::{self, Bytes, Handles};
use crate::file::{counts_of, Counts};
use crate::matches::{index, Matches, Page};
use crate::paths::read;
use crate::pattern::{Pattern, Role};
use crate::strings::{present, put, Strings};

/// The room for a string that is looked up; it grows if one needs more.
const FIRST_BYTES: usize = 256;

/// An open file, whose bytes it borrows, or has if it is a `Graph<'static>`.
///
/// Threads may share it, or have a clone each: a clone takes no memory and is the same graph. Calls of different threads
/// run at the same time. The bytes stay, and the memory of the indexes, until the last clone is dropped.
///
/// ```
/// use std::thread;
/// use tickmarl_hdt::{build, Graph, Pattern, Role, BLOCK_SIZE};
///
/// # fn main() -> Result<(), tickmarl_hdt::Error> {
/// let (file, _) = build(b"<u:a> <u:p> <u:b> .\n<u:a> <u:p> \"x\" .\n", "http://example.org/", BLOCK_SIZE)?;
/// let graph = Graph::open(&file)?;
/// assert_eq!((graph.len(), graph.count(Role::Object)), (2, 2));
/// assert_eq!(graph.id(Role::Object, "\"x\""), Some(1));
/// assert_eq!(graph.string(Role::Object, 2)?.as_deref(), Some("u:b"));
/// assert_eq!(graph.matching(Pattern::any().subject("u:a")), 2);
/// assert_eq!(&graph.text(Pattern::any().object("u:b"))?[..], b"<u:a> <u:p> <u:b> .\n");
///
/// thread::scope(|scope| {
///     scope.spawn(|| assert_eq!(graph.find(Pattern::any()).count(), 2));
///     scope.spawn(|| assert_eq!(graph.matching(Pattern::any().object("\"x\"")), 1));
/// });
/// # Ok(())
/// # }
/// ```
///
/// Threads that may outlive the caller need a graph that has its bytes:
///
/// ```
/// # use std::thread;
/// # use tickmarl_hdt::{build, Graph, Pattern, BLOCK_SIZE};
/// # fn main() -> Result<(), tickmarl_hdt::Error> {
/// # let (file, _) = build(b"<u:a> <u:p> <u:b> .\n<u:a> <u:p> \"x\" .\n", "http://example.org/", BLOCK_SIZE)?;
/// let graph = Graph::from_bytes(file)?;
/// let clone = graph.clone();
/// let counting = thread::spawn(move || clone.find(Pattern::any()).count() as u64);
/// assert_eq!(counting.join().unwrap(), graph.len());
/// # Ok(())
/// # }
/// ```
///
/// Bytes that it borrows stay borrowed while it or a clone is open:
///
/// ```compile_fail,E0505
/// # let file = tickmarl_hdt::build(b"<u:a> <u:p> <u:b> .\n", "http://example.org/", 16).unwrap().0.to_vec();
/// let graph = tickmarl_hdt::Graph::open(&file).unwrap().clone();
/// drop(file);
/// graph.len();
/// ```
///
/// ```compile_fail,E0597
/// let graph;
/// let file = tickmarl_hdt::build(b"<u:a> <u:p> <u:b> .\n", "http://example.org/", 16).unwrap().0.to_vec();
/// graph = tickmarl_hdt::Graph::open(&file).unwrap(); // (it would be dropped after the bytes)
/// ```
///
/// Bytes that it has are sent with it, so they may not borrow anything, nor be tied to a thread:
///
/// ```compile_fail,E0597
/// let file = tickmarl_hdt::build(b"<u:a> <u:p> <u:b> .\n", "http://example.org/", 16).unwrap().0.to_vec();
/// tickmarl_hdt::Graph::from_bytes(&file).unwrap();
/// ```
///
/// ```compile_fail,E0277
/// tickmarl_hdt::Graph::from_bytes(std::rc::Rc::<[u8]>::from([0])).unwrap();
/// ```
#[derive(Clone)]
pub struct Graph<'bytes> {
    pub(crate) handles: Arc<Handles<'bytes>>,
    counts: Counts,
}

impl Graph<'static> {
    /// Checks a whole file, as [`verify`](crate::verify) does, and opens it. The graph has the bytes, which are dropped
    /// with its last clone, or at once on an error. They are any value that never changes its bytes, as a `Vec<u8>`,
    /// [`Bytes`], an array, an `Arc<[u8]>` or a mapped file.
    ///
    /// # Errors
    ///
    /// Those of [`open`](Graph::open).
    pub fn from_bytes(bytes: impl AsRef<[u8]> + Send + 'static) -> Result<Graph<'static>, Error> {
        Graph::opened(Handles::open_owned(bytes))
    }

    /// Reads the file at a path, and opens it as [`from_bytes`](Graph::from_bytes) does.
    ///
    /// The file may be replaced or changed afterwards.
    ///
    /// # Errors
    ///
    /// [`PathError`] has the path, with the error of reading or that of [`open`](Graph::open).
    ///
    /// ```
    /// use tickmarl_hdt::Graph;
    ///
    /// let error = Graph::open_path("missing.hdt").unwrap_err();
    /// assert_eq!(error.to_string(), "missing.hdt: No such file or directory (os error 2)");
    /// ```
    pub fn open_path(path: impl AsRef<Path>) -> Result<Graph<'static>, PathError> {
        let path = path.as_ref();
        Graph::from_bytes(read(path)?).map_err(|error| PathError::new(path, error))
    }
}

impl<'bytes> Graph<'bytes> {
    /// Checks a whole file, as [`verify`](crate::verify) does, and opens it. Takes linear time, and memory for the
    /// indexes.
    ///
    /// # Errors
    ///
    /// [`Error::File`] has the first error of the file; [`Error::OutOfMemory`].
    pub fn open(bytes: &'bytes [u8]) -> Result<Graph<'bytes>, Error> {
        Graph::opened(Handles::open(bytes))
    }

    fn opened((handles, verdict): (Option<Handles<'bytes>>, ffi::hdt_verdict)) -> Result<Graph<'bytes>, Error> {
        let counts = counts_of(&verdict)?;
        let handles = handles.expect("a graph is open where the verdict is done");
        Ok(Graph { handles: Arc::new(handles), counts })
    }

    /// The counts of the file.
    pub fn counts(&self) -> Counts {
        self.counts
    }

    /// The number of triples, at least 1.
    #[allow(clippy::len_without_is_empty)] // (a file without triples is invalid)
    pub fn len(&self) -> u64 {
        self.handles.len()
    }

    /// The number of strings that a role has; their IDs are 1 to this.
    pub fn count(&self, role: Role) -> u64 {
        self.handles.count(role as u32)
    }

    /// The ID of a dictionary string in a role, if it has that.
    pub fn id(&self, role: Role, string: &str) -> Option<u64> {
        let answer = self.handles.number(role as u32, string);
        Some(answer).filter(|id| *id != ffi::HDT_ABSENT)
    }

    /// The dictionary string with an ID in a role, or `None` if that is not 1 to [`count`](Graph::count).
    ///
    /// Each call decodes a part of a block; [`strings`](Graph::strings) is for many.
    ///
    /// # Errors
    ///
    /// [`Error::OutOfMemory`].
    pub fn string(&self, role: Role, id: u64) -> Result<Option<String>, Error> {
        let call = |out: &mut [u8]| self.handles.string(role as u32, id, out);
        let Some(bytes) = put(FIRST_BYTES, call)? else {
            return Ok(None);
        };
        Ok(Some(String::from_utf8(bytes).expect("the strings of a valid file are UTF-8")))
    }

    /// The dictionary strings with these IDs in a role, or `None` if one of them is not 1 to [`count`](Graph::count).
    ///
    /// IDs that ascend take time in proportion to the strings up to the last one, at most; in another order each may
    /// decode its block, so sort them.
    ///
    /// # Errors
    ///
    /// [`Error::OutOfMemory`].
    ///
    /// ```
    /// # use tickmarl_hdt::{build, Graph, Role, BLOCK_SIZE};
    /// # fn main() -> Result<(), tickmarl_hdt::Error> {
    /// # let (file, _) = build(b"<u:a> <u:p> <u:b> .\n<u:a> <u:p> \"x\" .\n", "http://example.org/", BLOCK_SIZE)?;
    /// let graph = Graph::open(&file)?;
    /// let strings = graph.strings(Role::Object, &[1, 2])?.expect("there are two objects");
    /// assert_eq!(strings.iter().collect::<Vec<&str>>(), ["\"x\"", "u:b"]);
    /// # Ok(())
    /// # }
    /// ```
    pub fn strings(&self, role: Role, ids: &[u64]) -> Result<Option<Strings>, Error> {
        let (text, ends, answer) = self.handles.strings(role as u32, ids);
        Ok(present(answer)?.map(|_| Strings { text, ends }))
    }

    /// The header of the file: N-Triples as a rule, but nothing checks it.
    ///
    /// # Errors
    ///
    /// [`Error::OutOfMemory`].
    pub fn header(&self) -> Result<Vec<u8>, Error> {
        let call = |out: &mut [u8]| self.handles.header(out);
        Ok(put(FIRST_BYTES, call)?.unwrap_or_default())
    }

    /// The IDs of the strings of a role that begin with a prefix, as two ranges.
    ///
    /// First those of strings that are both subjects and objects, or of predicates, then those of other subjects or
    /// objects. Each range may be empty. Takes at most twice the time of [`id`](Graph::id).
    ///
    /// ```
    /// # use tickmarl_hdt::{build, Graph, Role, BLOCK_SIZE};
    /// # fn main() -> Result<(), tickmarl_hdt::Error> {
    /// # let (file, _) = build(b"<u:a> <u:p> <u:b> .\n<u:a> <u:p> \"x\" .\n", "http://example.org/", BLOCK_SIZE)?;
    /// let graph = Graph::open(&file)?;
    /// let ids = graph.ids_with_prefix(Role::Object, "u:");
    /// assert_eq!(ids.into_iter().flatten().collect::<Vec<u64>>(), [2]);
    /// # Ok(())
    /// # }
    /// ```
    pub fn ids_with_prefix(&self, role: Role, prefix: impl AsRef<[u8]>) -> [Range<u64>; 2] {
        let prefix = prefix.as_ref();
        let ranges = self.handles.prefix(role as u32, prefix);
        [ranges.first, ranges.second].map(|[first, end]| first..end)
    }

    /// The number of triples of each predicate, in the order of their IDs, from 1.
    ///
    /// Takes time in proportion to the pairs of a subject and a predicate, times the logarithm of their number.
    ///
    /// ```
    /// # use tickmarl_hdt::{build, Graph, BLOCK_SIZE};
    /// # fn main() -> Result<(), tickmarl_hdt::Error> {
    /// # let (file, _) = build(b"<u:a> <u:p> <u:b> .\n<u:a> <u:p> \"x\" .\n", "http://example.org/", BLOCK_SIZE)?;
    /// assert_eq!(Graph::open(&file)?.predicate_counts(), [2]);
    /// # Ok(())
    /// # }
    /// ```
    pub fn predicate_counts(&self) -> Vec<u64> {
        let mut counts = vec![0; ffi::size(self.counts.predicates)];
        self.handles.predicates(&mut counts);
        counts
    }

    /// The triples that match, in the order of the file, by subject, predicate and object.
    ///
    /// The first triples come at once, and all take linear time. It keeps a page of at most 16,384 triples, 24 bytes
    /// each, and the library as much while it makes the page.
    pub fn find<'a>(&'a self, pattern: Pattern<'a>) -> Matches<'a> {
        Matches::new(self, pattern)
    }

    /// A range of the triples of [`find`](Graph::find), of which the first one has the index 0.
    ///
    /// Matches are counted, and those before the range are scanned, unless the given parts are the first ones (none, the
    /// subject, the subject and the predicate, or all): then a range takes the same time wherever it is. It takes 24 bytes
    /// for each of its triples.
    ///
    /// ```
    /// # use tickmarl_hdt::{build, Graph, Pattern, BLOCK_SIZE};
    /// # fn main() -> Result<(), tickmarl_hdt::Error> {
    /// # let (file, _) = build(b"<u:a> <u:p> <u:b> .\n<u:a> <u:p> \"x\" .\n", "http://example.org/", BLOCK_SIZE)?;
    /// let graph = Graph::open(&file)?;
    /// assert_eq!(graph.find_range(Pattern::any(), 1..10), [[1, 1, 2]]);
    /// # Ok(())
    /// # }
    /// ```
    pub fn find_range(&self, pattern: Pattern<'_>, range: Range<u64>) -> Vec<[u64; 3]> {
        let end = range.end.min(self.matching(pattern));
        let mut triples = vec![[0; 3]; ffi::size(end.saturating_sub(range.start))];
        let found = self.handles.find(&pattern, range.start, &mut triples);
        triples.truncate(found);
        triples
    }

    /// The matches from triple `from` of the file on, at most `limit`, and the index of the next one.
    ///
    /// Triples are numbered from 0, whatever the pattern is; `from` may be any number. A page is found by binary
    /// search, so it takes the same time wherever it is, and needs nothing but a number to go on from.
    ///
    /// # Errors
    ///
    /// [`Error::OutOfMemory`].
    ///
    /// ```
    /// # use tickmarl_hdt::{build, Graph, Pattern, BLOCK_SIZE};
    /// # fn main() -> Result<(), tickmarl_hdt::Error> {
    /// # let (file, _) = build(b"<u:a> <u:p> <u:b> .\n<u:a> <u:p> \"x\" .\n", "http://example.org/", BLOCK_SIZE)?;
    /// let graph = Graph::open(&file)?;
    /// let page = graph.page(Pattern::any().predicate_id(1), 0, 1)?;
    /// assert_eq!((page.triples, page.next), (vec![[1, 1, 1]], Some(1)));
    /// let page = graph.page(Pattern::any().predicate_id(1), 1, 1)?;
    /// assert_eq!((page.triples, page.next), (vec![[1, 1, 2]], None));
    /// # Ok(())
    /// # }
    /// ```
    pub fn page(&self, pattern: Pattern<'_>, from: u64, limit: usize) -> Result<Page, Error> {
        let mut triples = vec![[0; 3]; self.room(limit, from)];
        let (found, next) = self.handles.page(&pattern, from, &mut triples);
        if found == ffi::HDT_NO_MEMORY {
            return Err(Error::OutOfMemory);
        }
        triples.truncate(ffi::size(found));
        Ok(Page { triples, next: index(next) })
    }

    /// As many triples as there are from an index on, or the limit.
    pub(crate) fn room(&self, limit: usize, from: u64) -> usize {
        limit.min(ffi::size(self.counts.triples.saturating_sub(from)))
    }

    /// The number of triples that match. Takes at most the time to find them, and less where they can be counted.
    pub fn matching(&self, pattern: Pattern<'_>) -> u64 {
        self.handles.matching(&pattern)
    }

    /// The triples that match as N-Triples, which is UTF-8, one per line, in the order of the file. Linear time.
    ///
    /// # Errors
    ///
    /// [`Error::NotATerm`] is the first string that can't be written; [`Error::OutOfMemory`].
    pub fn text(&self, pattern: Pattern<'_>) -> Result<Bytes, Error> {
        let (text, outcome) = self.handles.text(&pattern);
        checked(&outcome).map(|()| text)
    }

    /// The triples of [`page`](Graph::page) as N-Triples, at most `most`, and the index of the next match.
    ///
    /// # Errors
    ///
    /// Those of [`text`](Graph::text), for strings of this page alone.
    ///
    /// ```
    /// # use tickmarl_hdt::{build, Graph, Pattern, BLOCK_SIZE};
    /// # fn main() -> Result<(), tickmarl_hdt::Error> {
    /// # let (file, _) = build(b"<u:a> <u:p> <u:b> .\n<u:a> <u:p> \"x\" .\n", "http://example.org/", BLOCK_SIZE)?;
    /// let graph = Graph::open(&file)?;
    /// let (text, next) = graph.page_text(Pattern::any(), 1, 10)?;
    /// assert_eq!((&text[..], next), (&b"<u:a> <u:p> <u:b> .\n"[..], None));
    /// # Ok(())
    /// # }
    /// ```
    pub fn page_text(&self, pattern: Pattern<'_>, from: u64, most: u64) -> Result<(Bytes, Option<u64>), Error> {
        let (text, next, outcome) = self.handles.page_text(&pattern, from, most);
        checked(&outcome).map(|()| (text, index(next)))
    }
}

/// The error of a call that makes a text, if there is one.
fn checked(outcome: &ffi::hdt_text_result) -> Result<(), Error> {
    match outcome.reason {
        ffi::HDT_DONE => Ok(()),
        ffi::HDT_NOT_A_TERM => Err(Error::NotATerm { role: Role::of(outcome.role), id: outcome.number }),
        reason => Err(Error::other(reason)),
    }
}

impl fmt::Debug for Graph<'_> {
    fn fmt(&self, f: &mut fmt::Formatter<'_>) -> fmt::Result {
        f.debug_struct("Graph").field("counts", &self.counts).finish_non_exhaustive()
    }
}
