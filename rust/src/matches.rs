//! The triples that match a pattern: pages of them, and an iterator.
#![forbid(unsafe_code)]

use std::iter::FusedIterator;

use crate::error::abort_without_memory;
use crate::ffi;
use crate::graph::Graph;
use crate::pattern::Pattern;

/// The triples of the first page of a search; each page has four times as many as the one before,
const FIRST_MATCHES: usize = 64;
/// up to this.
const MOST_MATCHES: usize = 16_384;

/// A page of the triples that match a pattern: the result of [`Graph::page`].
#[derive(Debug, Clone, PartialEq, Eq)]
#[non_exhaustive]
pub struct Page {
    /// Each triple as the IDs of subject, predicate and object.
    pub triples: Vec<[u64; 3]>,
    /// The index in the file of the next match, from which the next page goes on; `None` if there is none.
    pub next: Option<u64>,
}

/// An iterator over the triples that match a pattern, each as the IDs of subject, predicate and object: the result of
/// [`Graph::find`].
#[derive(Debug)]
#[must_use]
pub struct Matches<'a> {
    graph: &'a Graph<'a>,
    pattern: Pattern<'a>,
    page: Vec<[u64; 3]>,
    /// The index in the page of the next triple.
    at: usize,
    /// The index in the file of the first match after the page.
    next: Option<u64>,
}

impl<'a> Matches<'a> {
    pub(crate) fn new(graph: &'a Graph<'a>, pattern: Pattern<'a>) -> Matches<'a> {
        Matches { graph, pattern, page: Vec::new(), at: 0, next: Some(0) }
    }

    fn turn(&mut self, from: u64) {
        let room = self.graph.room((4 * self.page.len()).clamp(FIRST_MATCHES, MOST_MATCHES), from);
        self.page.resize(room, [0; 3]);
        let (found, next) = self.graph.handles.page(&self.pattern, from, &mut self.page);
        if found == ffi::HDT_NO_MEMORY {
            abort_without_memory(room * size_of::<[u64; 3]>());
        }
        self.page.truncate(ffi::size(found));
        (self.at, self.next) = (0, index(next));
    }
}

impl Iterator for Matches<'_> {
    type Item = [u64; 3];

    fn next(&mut self) -> Option<[u64; 3]> {
        if self.at == self.page.len() {
            self.turn(self.next?);
        }
        let triple = self.page.get(self.at).copied()?;
        self.at += 1;
        Some(triple)
    }
}

impl FusedIterator for Matches<'_> {}

/// The index of the next match, if there is one.
pub(crate) fn index(next: u64) -> Option<u64> {
    Some(next).filter(|next| *next != ffi::HDT_ABSENT)
}

#[cfg(test)]
mod tests {
    use crate::file::build;
    use crate::graph::Graph;
    use crate::pattern::Pattern;

    #[test]
    fn pages_grow_up_to_a_bound() {
        let text: String = (0..50_000).map(|n| format!("<u:s{n}> <u:p> <u:o> .\n")).collect();
        let (file, _) = build(text.as_bytes(), "u:b", 16).unwrap();
        let graph = Graph::open(&file).unwrap();
        let mut matches = graph.find(Pattern::any());
        let mut pages = Vec::new();
        while matches.next().is_some() {
            if matches.at == 1 {
                pages.push(matches.page.len());
            }
        }
        assert_eq!(pages, [64, 256, 1_024, 4_096, 16_384, 16_384, 11_792]);
        assert!(matches.page.capacity() <= 16_384);
        assert_eq!(matches.next(), None);
    }
}
