//! Graphs and what they return may be sent to threads and shared by them.

use std::panic::{RefUnwindSafe, UnwindSafe};
use std::sync::{Arc, RwLock};
use std::thread;

use tickmarl_hdt::{build, Bytes, Error, Graph, Matches, PathError, Pattern, Role, Strings, Term, BLOCK_SIZE};

fn is_send_and_sync<T: Send + Sync>() {}

fn is_unwind_safe<T: UnwindSafe + RefUnwindSafe>() {}

#[test]
fn types_are_send_and_sync() {
    is_send_and_sync::<Graph<'_>>();
    is_send_and_sync::<Matches<'_>>();
    is_send_and_sync::<Bytes>();
    is_send_and_sync::<Strings>();
    is_send_and_sync::<Error>();
    is_send_and_sync::<PathError>();
    is_send_and_sync::<Term>();
    is_unwind_safe::<Graph<'_>>();
}

#[test]
fn a_graph_may_be_used_where_a_shorter_lifetime_is_wanted() {
    fn shorter<'a>(graph: Graph<'static>, _until: &'a u8) -> Graph<'a> {
        graph
    }
    assert_eq!(shorter(Graph::from_bytes(triples(3)).unwrap(), &0).len(), 3);
}

/// A file of so many triples; subject `n` has the ID `n + 1`.
fn triples(count: u64) -> Bytes {
    let text: String = (0..count).map(|n| format!("<u:s{n:05}> <u:p{}> \"{n}\" .\n", n % 3)).collect();
    build(text.as_bytes(), "http://a/", BLOCK_SIZE).unwrap().0
}

/// Makes every call on a graph of 2,000 triples; which ones and when depends on the thread.
fn search(graph: &Graph<'_>, thread: u64) {
    let all: Vec<[u64; 3]> = graph.find(Pattern::any()).collect();
    assert_eq!((all.len() as u64, graph.len(), graph.count(Role::Predicate)), (2_000, 2_000, 3));
    for n in (thread..2_000).step_by(8) {
        let subject = graph.string(Role::Subject, n + 1).unwrap().unwrap();
        assert_eq!(subject, format!("u:s{n:05}"));
        assert_eq!(graph.id(Role::Subject, &subject), Some(n + 1));
        let pattern = Pattern::any().subject(&subject);
        assert_eq!(graph.matching(pattern), 1);
        let page = graph.page(Pattern::any(), n, 2).unwrap();
        assert_eq!((page.triples[0], page.next), (all[n as usize], (n + 2 < 2_000).then_some(n + 2)));
        assert_eq!(graph.find_range(Pattern::any(), n..n + 1), [all[n as usize]]);
        let line = format!("<{subject}> <u:p{}> \"{n}\" .\n", n % 3);
        assert_eq!(graph.page_text(pattern, 0, 9).unwrap().0[..], *line.as_bytes());
        assert_eq!(graph.text(pattern).unwrap()[..], *line.as_bytes());
        let strings = graph.strings(Role::Subject, &[n + 1, 1]).unwrap().unwrap();
        assert_eq!(strings.iter().collect::<Vec<_>>(), [&subject, "u:s00000"]);
        assert_eq!(graph.ids_with_prefix(Role::Subject, &subject).map(|it| it.count()), [0, 1]);
    }
    assert_eq!(graph.predicate_counts(), [667, 667, 666]);
    assert!(graph.header().unwrap().starts_with(b"<http://a/> "));
}

#[test]
fn threads_share_a_graph() {
    let file = triples(2_000);
    let graph = Graph::open(&file).unwrap();
    thread::scope(|scope| {
        for thread in 0..8 {
            let graph = &graph;
            scope.spawn(move || search(graph, thread));
        }
    });
}

#[test]
fn threads_have_a_clone_each() {
    let file = triples(2_000);
    let graph = Graph::open(&file).unwrap();
    thread::scope(|scope| {
        for thread in 0..8 {
            let graph = graph.clone();
            scope.spawn(move || search(&graph, thread));
        }
        drop(graph);
    });
}

#[test]
fn threads_outlive_who_opened_the_graph() {
    let graph = Arc::new(Graph::from_bytes(triples(2_000)).unwrap());
    let sharing = (0..4).map(|thread| {
        let graph = graph.clone();
        thread::spawn(move || search(&graph, thread))
    });
    let having = (4..8).map(|thread| {
        let graph = Graph::clone(&graph);
        thread::spawn(move || search(&graph, thread))
    });
    let threads: Vec<_> = sharing.chain(having).collect();
    drop(graph);
    threads.into_iter().for_each(|thread| thread.join().unwrap());
}

#[test]
fn more_threads_than_handles_that_are_kept() {
    let graph = Graph::from_bytes(triples(2_000)).unwrap();
    thread::scope(|scope| {
        for thread in 0..100 {
            let graph = &graph;
            scope.spawn(move || search(graph, thread * 19));
        }
    });
}

#[test]
fn a_graph_is_replaced_while_threads_search() {
    let current = RwLock::new(Graph::from_bytes(triples(1)).unwrap());
    thread::scope(|scope| {
        for _ in 0..4 {
            scope.spawn(|| loop {
                let graph = current.read().unwrap().clone();
                assert_eq!(graph.find(Pattern::any()).count() as u64, graph.len());
                if graph.len() == 200 {
                    break;
                }
            });
        }
        (2..=200).for_each(|count| *current.write().unwrap() = Graph::from_bytes(triples(count)).unwrap());
    });
}

#[test]
fn a_graph_moves_to_a_thread() {
    let file = triples(100);
    let graph = Graph::open(&file).unwrap();
    let text = thread::scope(|scope| scope.spawn(move || graph.text(Pattern::any()).unwrap()).join().unwrap());
    assert_eq!(text.split(|byte| *byte == b'\n').count(), 101);
    let moved = thread::spawn(move || Graph::open(&file).unwrap().len());
    assert_eq!(moved.join().unwrap(), 100);
}
