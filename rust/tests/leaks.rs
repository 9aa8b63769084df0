//! Memory of the library is freed when graphs and bytes are dropped.

use std::fs;

use tickmarl_hdt::{build, merge, rewrite, split, Graph, Pattern, Role, BLOCK_SIZE};

/// The resident memory of this process in pages of 4 KiB.
fn resident() -> i64 {
    let counts = fs::read_to_string("/proc/self/statm").unwrap();
    counts.split(' ').nth(1).unwrap().parse().unwrap()
}

#[test]
fn memory_is_freed() {
    let text: String = (0..4_000).map(|n| format!("<u:s{n}> <u:p> \"{n:0100}\" .\n")).collect();
    let all = |file: &[u8]| {
        (0..10).for_each(|_| drop(Graph::open(file).unwrap()));
        for _ in 0..5 {
            let graph = Graph::open(file).unwrap();
            assert!(merge([&graph, &graph], "u:b", BLOCK_SIZE).unwrap().0.starts_with(b"$HDT"));
        }
        let graph = Graph::open(file).unwrap();
        let ids: Vec<u64> = (1..=graph.count(Role::Object)).collect();
        assert!(graph.strings(Role::Object, &ids).unwrap().is_some());
        assert!(graph.text(Pattern::any()).unwrap().len() >= 400_000);
        assert!(rewrite(file, BLOCK_SIZE).unwrap().0.starts_with(b"$HDT"));
    };
    let round = || {
        assert_eq!(split(text.as_bytes(), 3, "").unwrap().triples, 4_000);
        all(&build(text.as_bytes(), "u:b", 1).unwrap().0)
    };
    round();
    let before = resident();
    (0..100).for_each(|_| round());
    let grown = (resident() - before) / 256;
    assert!(grown < 16, "it has grown by {grown} MiB");
}
