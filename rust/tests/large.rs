//! Large graphs: each call whose result grows with them.

use std::collections::BTreeSet;

use tickmarl_hdt::{build, rewrite, split, verify, verify_tight, Graph, Pattern, Role, Term, BLOCK_SIZE};

const COUNT: u64 = 150_000;

fn line(n: u64) -> String {
    format!("<http://example.org/subject/{:06}> <u:p{}> \"value {n:06}\"@en .\n", n / 3, n % 3)
}

#[test]
fn a_large_graph_goes_through_every_call() {
    let lines: BTreeSet<String> = (0..COUNT).map(line).collect();
    let shuffled: String = (0..COUNT).map(|n| line(n * 7_919 % COUNT)).collect();
    let (file, counts) = build(shuffled.as_bytes(), "http://example.org/graph", BLOCK_SIZE).unwrap();
    let text: String = lines.into_iter().collect();
    assert_eq!((counts.triples, counts.predicates, counts.objects), (COUNT, 3, COUNT));

    let graph = Graph::open(&file).unwrap();
    assert!(graph.text(Pattern::any()).unwrap()[..] == *text.as_bytes());

    let all: Vec<[u64; 3]> = graph.find(Pattern::any()).collect();
    assert_eq!(all.len() as u64, COUNT);
    assert!(all.windows(2).all(|pair| pair[0] < pair[1]));
    let of_predicate: Vec<[u64; 3]> = graph.find(Pattern::any().predicate("u:p1")).collect();
    assert!(of_predicate.iter().eq(all.iter().filter(|triple| triple[1] == 2)));
    assert_eq!(graph.matching(Pattern::any().predicate("u:p1")), of_predicate.len() as u64);

    let ids: Vec<u64> = (1..=graph.count(Role::Object)).collect();
    let strings = graph.strings(Role::Object, &ids).unwrap().unwrap();
    assert_eq!(strings.iter().len() as u64, COUNT);
    for (n, string) in strings.iter().enumerate() {
        assert_eq!(string, format!("\"value {n:06}\"@en"));
    }

    let parts = split(shuffled.as_bytes(), 7, "").unwrap();
    assert_eq!((parts.lines, parts.triples, parts.has_blank_nodes), (COUNT, COUNT, false));
    let counts = parts.parts().map(|part| build(part, "http://example.org/graph", BLOCK_SIZE).unwrap().1);
    let sums = counts.fold((0, 0), |(triples, subjects), it| (triples + it.triples, subjects + it.subjects));
    assert_eq!(sums, (COUNT, graph.count(Role::Subject)));

    let (other, _) = rewrite(&file, 3).unwrap();
    assert!(rewrite(&other, BLOCK_SIZE).unwrap().0[..] == file[..]);
}

#[test]
fn pages_end_where_the_matches_end() {
    for count in [1, 63, 64, 65, 191, 192, 193, 448] {
        let text: String = (0..count).map(line).collect();
        let (file, _) = build(text.as_bytes(), "http://example.org/graph", BLOCK_SIZE).unwrap();
        let graph = Graph::open(&file).unwrap();
        let mut matches = graph.find(Pattern::any());
        assert_eq!(matches.by_ref().count() as u64, count);
        assert_eq!((matches.next(), matches.next()), (None, None));
    }
}

/// More than 2^20, by more than a page.
const MANY: u64 = 1_120_000;
const ROLES: [Role; 3] = [Role::Subject, Role::Predicate, Role::Object];

/// A pattern with each number below `MANY`, in seven digits in place of `#`.
fn many(pattern: &str) -> String {
    let block: String = (0..1_000).map(|low| pattern.replace('#', &format!("@{low:03}"))).collect();
    (0..MANY / 1_000).map(|high| block.replace('@', &format!("{high:04}"))).collect()
}

/// Every call on a graph whose triple `n` has the string of the number `n` in each role whose string has a `#`, else the
/// only string.
fn goes_through_every_call(strings: [&str; 3]) {
    let [s, p, o] = strings.map(|string| if string.starts_with('"') { string.into() } else { format!("<{string}>") });
    let text = many(&format!("{s} {p} {o} .\n"));
    let (file, counts) = build(text.as_bytes(), "http://example.org/graph", BLOCK_SIZE).unwrap();
    assert_eq!((counts.triples, verify(&file), verify_tight(&file)), (MANY, Ok(counts), Ok(counts)));
    let (other, _) = rewrite(&file, 65_535).unwrap();
    assert!(rewrite(&other, BLOCK_SIZE).unwrap().0[..] == file[..]);
    let parts = split(text.as_bytes(), 1, "").unwrap();
    assert!(parts.lines == MANY && parts.triples == MANY && parts.parts().eq([text.as_bytes()]));
    let graph = Graph::open(&file).unwrap();
    assert_eq!(graph.len(), MANY);
    for (role, string) in ROLES.into_iter().zip(strings) {
        has_strings(&graph, role, string);
    }
    has_triples(&graph, strings.map(|string| string.contains('#')), &text);
}

/// The strings of a role, all at once and the last one.
fn has_strings(graph: &Graph<'_>, role: Role, string: &str) {
    let (count, last) = (graph.count(role), string.replace('#', &format!("{:07}", MANY - 1)));
    assert_eq!(count, if string.contains('#') { MANY } else { 1 });
    assert_eq!((graph.id(role, &last), graph.string(role, count).unwrap()), (Some(count), Some(last)));
    let ids: Vec<u64> = (1..=count).collect();
    let strings = graph.strings(role, &ids).unwrap().unwrap();
    let lines = if count == 1 { format!("{string}\n") } else { many(&format!("{string}\n")) };
    assert!(strings.iter().eq(lines.lines()));
    let [shared, own] = graph.ids_with_prefix(role, string.split('#').next().unwrap());
    assert_eq!(shared.count() + own.count(), count as usize);
}

/// The triples, as IDs and as a text, of patterns that all match and of those that the last one matches.
fn has_triples(graph: &Graph<'_>, large: [bool; 3], text: &str) {
    let triple = |n: u64| large.map(|large| if large { n + 1 } else { 1 });
    let (all, last): (Vec<[u64; 3]>, _) = ((0..MANY).map(triple).collect(), triple(MANY - 1));
    let line = text.len() / MANY as usize;
    for given in 0..8 {
        let given = [0, 1, 2].map(|role| given >> role & 1 == 1);
        let pattern = given[0].then_some(last[0]).into_iter().fold(Pattern::any(), Pattern::subject_id);
        let pattern = given[1].then_some(last[1]).into_iter().fold(pattern, Pattern::predicate_id);
        let pattern = given[2].then_some(last[2]).into_iter().fold(pattern, Pattern::object_id);
        let first = if (0..3).any(|role| large[role] && given[role]) { MANY - 1 } else { 0 };
        let wanted = &all[first as usize..];
        assert_eq!(graph.matching(pattern), MANY - first);
        assert!(graph.find(pattern).eq(wanted.iter().copied()));
        assert!(graph.find_range(pattern, 0..u64::MAX) == wanted);
        assert!(graph.find_range(pattern, MANY - first - 1..MANY) == all[all.len() - 1..]);
        let page = graph.page(pattern, 0, usize::MAX).unwrap();
        assert!(page.triples == wanted && page.next.is_none());
        let page = graph.page(pattern, MANY - 5, 10).unwrap();
        assert!(page.triples == wanted[wanted.len().saturating_sub(5)..] && page.next.is_none());
        assert!(graph.text(pattern).unwrap()[..] == text.as_bytes()[first as usize * line..]);
        let (page, next) = graph.page_text(pattern, 0, MANY).unwrap();
        assert!(page[..] == text.as_bytes()[first as usize * line..] && next.is_none());
    }
    let counts = graph.predicate_counts();
    assert!(if large[1] { counts == vec![1; MANY as usize] } else { counts == [MANY] });
}

#[test]
fn more_than_2_to_the_20_subjects() {
    goes_through_every_call(["u:#", "u:p", "u:o"]);
}

#[test]
fn more_than_2_to_the_20_predicates() {
    goes_through_every_call(["u:s", "u:#", "u:o"]);
}

#[test]
fn more_than_2_to_the_20_objects() {
    goes_through_every_call(["u:s", "u:p", "\"#\""]);
}

#[test]
fn more_than_2_to_the_20_shared_strings() {
    goes_through_every_call(["u:#", "u:p", "u:#"]);
}

#[test]
fn a_literal_of_17_mebibytes() {
    let string = format!("\"{}\"@en", "x".repeat(17 << 20));
    let text = format!("<u:s> <u:p> {string} .\n");
    let (file, _) = build(text.as_bytes(), "u:b", BLOCK_SIZE).unwrap();
    assert!(rewrite(&rewrite(&file, 1).unwrap().0, BLOCK_SIZE).unwrap().0[..] == file[..]);
    assert!(split(text.as_bytes(), 1, "").unwrap().parts().eq([text.as_bytes()]));
    let graph = Graph::open(&file).unwrap();
    assert!(graph.string(Role::Object, 1).unwrap().unwrap() == string);
    assert!(graph.strings(Role::Object, &[1]).unwrap().unwrap().iter().eq([&string[..]]));
    assert_eq!((graph.id(Role::Object, &string), graph.matching(Pattern::any().object(&string))), (Some(1), 1));
    assert!(graph.text(Pattern::any().object(&string)).unwrap()[..] == *text.as_bytes());
    assert!(graph.page_text(Pattern::any(), 0, 1).unwrap().0[..] == *text.as_bytes());
    let term = Term::from_dictionary(&string).unwrap();
    assert!(term.to_dictionary() == string && term.to_string() == string);
}
