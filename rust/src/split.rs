//! Splitting a text by subject.
#![forbid(unsafe_code)]

use crate::error::Error;
use crate::ffi::{self, Bytes};
use crate::strings::piece;

const MOST_PARTS: u32 = 65_536;

/// A text that was split by subject: the result of [`split`].
#[derive(Debug)]
#[non_exhaustive]
pub struct Split {
    /// The lines of the text, with those without a triple.
    pub lines: u64,
    /// The lines with a triple.
    pub triples: u64,
    /// Whether the subject or the object of a triple is a blank node.
    pub has_blank_nodes: bool,
    text: Bytes,
    ends: Vec<u64>,
}

impl Split {
    /// The texts of the parts, from part 0 on. A part without triples is empty.
    pub fn parts(&self) -> impl DoubleEndedIterator<Item = &[u8]> + ExactSizeIterator {
        (0..self.ends.len()).map(|at| piece(&self.text, &self.ends, at))
    }
}

/// Splits an N-Triples text by subject, so that all triples of a subject are in one part, which [`build`] can take.
///
/// The part of a triple is the CRC-32 (that of gzip) of its subject's dictionary string, modulo `parts`, which is 1 to
/// 65,536. A part has its lines as they are and with their ends, in their order; a last line without an end gets a line
/// feed. Lines without a triple are left out. `prefix`, which may be empty, is put before each label of a blank node,
/// before its part is computed: texts whose labels are not the same nodes need different ones. Nothing checks that it
/// may be in a label. Takes linear time, and memory of some three times the size of the result.
///
/// # Errors
///
/// [`Error::BadOptions`] for the number of parts; [`Error::Text`] has the first error of the text;
/// [`Error::OutOfMemory`].
///
/// ```
/// use tickmarl_hdt::{build, split, BLOCK_SIZE};
///
/// # fn main() -> Result<(), tickmarl_hdt::Error> {
/// let text = b"<u:a> <u:p> _:x .\n<u:b> <u:p> \"x\" .\n<u:a> <u:q> <u:b> .\n";
/// let found = split(text, 3, "f0_")?;
/// let texts: Vec<&[u8]> = found.parts().collect();
/// assert_eq!(texts[1], b"<u:b> <u:p> \"x\" .\n");
/// assert_eq!(texts[2], b"<u:a> <u:p> _:f0_x .\n<u:a> <u:q> <u:b> .\n");
/// let (_, counts) = build(texts[2], "http://example.org/graph#part-2-of-3", BLOCK_SIZE)?;
/// assert_eq!((found.triples, counts.triples, found.has_blank_nodes), (3, 2, true));
/// # Ok(())
/// # }
/// ```
///
/// [`build`]: crate::build
pub fn split(text: &[u8], parts: u32, prefix: &str) -> Result<Split, Error> {
    let room = parts.min(MOST_PARTS) as usize; // (more parts are an error, which needs no room)
    let (text, ends, report) = ffi::split(text, parts, prefix, room);
    match report.reason {
        ffi::HDT_DONE => {
            let (lines, triples, has_blank_nodes) = (report.lines, report.triples, report.has_blank_nodes != 0);
            Ok(Split { lines, triples, has_blank_nodes, text, ends })
        }
        reason => Err(Error::of_text(reason, report.line, report.column)),
    }
}
