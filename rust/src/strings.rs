//! Strings that the library returns, and how calls return what may be missing.
#![forbid(unsafe_code)]

use std::str;

use crate::error::Error;
use crate::ffi::{self, Bytes};

/// Strings that were looked up together: the result of [`Graph::strings`](crate::Graph::strings).
#[derive(Debug)]
pub struct Strings {
    pub(crate) text: Bytes,
    pub(crate) ends: Vec<u64>,
}

impl Strings {
    /// The strings, in the order of their IDs in the call.
    pub fn iter(&self) -> impl DoubleEndedIterator<Item = &str> + ExactSizeIterator {
        (0..self.ends.len()).map(|at| self.string(at))
    }

    fn string(&self, at: usize) -> &str {
        str::from_utf8(piece(&self.text, &self.ends, at)).expect("the strings of a valid file are UTF-8")
    }
}

/// The piece with this index, of those that end at these places.
pub(crate) fn piece<'text>(text: &'text [u8], ends: &[u64], at: usize) -> &'text [u8] {
    let start = if at == 0 { 0 } else { ends[at - 1] };
    &text[ffi::size(start)..ffi::size(ends[at])]
}

/// The answer of a call, or `None` if there is none.
pub(crate) fn present(answer: u64) -> Result<Option<u64>, Error> {
    match answer {
        ffi::HDT_ABSENT => Ok(None),
        ffi::HDT_NO_MEMORY => Err(Error::OutOfMemory),
        answer => Ok(Some(answer)),
    }
}

/// The bytes that a call writes into a buffer, which is enlarged once if the call needs more.
pub(crate) fn put(room: usize, call: impl Fn(&mut [u8]) -> u64) -> Result<Option<Vec<u8>>, Error> {
    let mut out = vec![0; room];
    let Some(len) = present(call(&mut out))?.map(ffi::size) else {
        return Ok(None);
    };
    if len > room {
        out = vec![0; len];
        present(call(&mut out))?;
    }
    out.truncate(len);
    Ok(Some(out))
}
