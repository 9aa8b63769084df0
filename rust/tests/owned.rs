//! Graphs that have their bytes: these stay in place until the last clone is dropped, and are dropped then.

use std::cell::Cell;
use std::sync::atomic::{AtomicUsize, Ordering};
use std::sync::Arc;
use std::thread;

use tickmarl_hdt::{Error, FileReason, Graph, Pattern};

const THREE: &[u8; 457] = include_bytes!("../../samples/three.hdt");
const TEXT: &[u8] = b"<u:a> <u:p> <u:b> .\n<u:a> <u:q> \"x\" .\n<u:b> <u:p> <u:a> .\n";

/// Bytes that count how often they are dropped, and overwrite themselves then.
struct Watched {
    bytes: Vec<u8>,
    dropped: Arc<AtomicUsize>,
}

impl AsRef<[u8]> for Watched {
    fn as_ref(&self) -> &[u8] {
        &self.bytes
    }
}

impl Drop for Watched {
    fn drop(&mut self) {
        self.bytes.fill(0xFF);
        self.dropped.fetch_add(1, Ordering::SeqCst);
    }
}

/// Bytes that are watched, and how often they were dropped.
fn watched(bytes: &[u8]) -> (Watched, Arc<AtomicUsize>) {
    let dropped = Arc::new(AtomicUsize::new(0));
    (Watched { bytes: bytes.to_vec(), dropped: dropped.clone() }, dropped)
}

fn check(graph: &Graph<'_>) {
    assert_eq!(graph.text(Pattern::any()).unwrap()[..], *TEXT);
}

#[test]
fn any_owner_of_bytes() {
    check(&Graph::from_bytes(THREE.to_vec()).unwrap());
    check(&Graph::from_bytes(Box::<[u8]>::from(&THREE[..])).unwrap());
    check(&Graph::from_bytes(Arc::<[u8]>::from(&THREE[..])).unwrap());
    check(&Graph::from_bytes(THREE).unwrap());
    check(&Graph::from_bytes(&THREE[..]).unwrap());
}

#[test]
fn bytes_of_an_array_stay_in_place() {
    let graph = Graph::from_bytes(*THREE).unwrap();
    let mut graphs = vec![graph.clone()];
    graphs.extend([graph.clone(), graph]); // (which moves the first one)
    let last = Box::new(graphs.pop().unwrap());
    check(&last);
    drop(graphs);
    check(&last);
}

/// Bytes that are a file only when they are asked for the first time. (A `Cell` is not `Sync`.)
struct Once(Cell<bool>);

impl AsRef<[u8]> for Once {
    fn as_ref(&self) -> &[u8] {
        if self.0.replace(true) {
            b""
        } else {
            THREE
        }
    }
}

#[test]
fn the_owner_is_asked_once() {
    let graph = Graph::from_bytes(Once(Cell::new(false))).unwrap();
    thread::scope(|scope| {
        for _ in 0..4 {
            scope.spawn(|| check(&graph));
        }
    });
    let clone = graph.clone();
    drop(graph);
    thread::spawn(move || check(&clone)).join().unwrap();
}

#[test]
fn bytes_are_dropped_with_the_last_clone() {
    for order in [[0, 1, 2], [0, 2, 1], [1, 0, 2], [1, 2, 0], [2, 0, 1], [2, 1, 0]] {
        let (bytes, dropped) = watched(THREE);
        let graph = Graph::from_bytes(bytes).unwrap();
        let clone = graph.clone();
        let mut graphs = [Some(graph), Some(clone.clone()), Some(clone)];
        for at in order {
            assert_eq!(dropped.load(Ordering::SeqCst), 0);
            check(graphs[at].as_ref().unwrap());
            graphs[at] = None;
        }
        assert_eq!(dropped.load(Ordering::SeqCst), 1);
    }
}

#[test]
fn clones_are_dropped_by_many_threads() {
    for _ in 0..50 {
        let (bytes, dropped) = watched(THREE);
        let graph = Graph::from_bytes(bytes).unwrap();
        let threads: Vec<_> = (0..8).map(|_| graph.clone()).map(|graph| thread::spawn(move || check(&graph))).collect();
        drop(graph);
        threads.into_iter().for_each(|thread| thread.join().unwrap());
        assert_eq!(dropped.load(Ordering::SeqCst), 1);
    }
}

#[test]
fn bytes_that_are_no_file_are_dropped_at_once() {
    let (bytes, dropped) = watched(&THREE[..456]);
    let Err(Error::File(error)) = Graph::from_bytes(bytes) else { panic!("it was opened") };
    assert_eq!((error.reason, dropped.load(Ordering::SeqCst)), (FileReason::Truncated, 1));
}

#[test]
fn matches_borrow_the_graph_alone() {
    let graph = Graph::from_bytes(THREE.to_vec()).unwrap();
    let mut matches = graph.find(Pattern::any());
    let clone = graph.clone();
    assert_eq!((matches.next(), clone.find(Pattern::any()).count()), (Some([1, 1, 2]), 3));
    assert_eq!(matches.count(), 2);
}
