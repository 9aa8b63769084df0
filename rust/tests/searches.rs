//! Searches by IDs, pages, ranges, prefixes and counts, against a plain filter of all triples.

use tickmarl_hdt::{build, Graph, Pattern, Role, BLOCK_SIZE};

const ROLES: [Role; 3] = [Role::Subject, Role::Predicate, Role::Object];

/// A file of 120 triples; each subject is an object, too.
fn file() -> Vec<u8> {
    let line = |n: u64| format!("<u:s{}> <u:p{}> <u:s{}> .\n<u:s{}> <u:q> \"{n}\" .\n", n / 5, n % 3, n % 7, n % 12);
    let text: String = (0..60).map(line).collect();
    build(text.as_bytes(), "u:b", BLOCK_SIZE).unwrap().0.to_vec()
}

/// The pattern of the parts that are given, by IDs.
fn by_ids(ids: [Option<u64>; 3]) -> Pattern<'static> {
    let [s, p, o] = ids;
    let pattern = s.into_iter().fold(Pattern::any(), Pattern::subject_id);
    let pattern = p.into_iter().fold(pattern, Pattern::predicate_id);
    o.into_iter().fold(pattern, Pattern::object_id)
}

/// The eight patterns of a triple, by IDs.
fn patterns_of(triple: [u64; 3]) -> impl Iterator<Item = [Option<u64>; 3]> {
    (0..8).map(move |given| [0, 1, 2].map(|role| (given >> role & 1 == 1).then_some(triple[role])))
}

fn matches(triple: &[u64; 3], ids: &[Option<u64>; 3]) -> bool {
    triple.iter().zip(ids).all(|(id, given)| given.is_none_or(|given| given == *id))
}

#[test]
fn patterns_by_ids_find_what_those_by_strings_find() {
    let file = file();
    let graph = Graph::open(&file).unwrap();
    let all: Vec<[u64; 3]> = graph.find(Pattern::any()).collect();
    for triple in &all {
        let [s, p, o] = [0, 1, 2].map(|role| graph.string(ROLES[role], triple[role]).unwrap().unwrap());
        for ids in patterns_of(*triple) {
            let wanted: Vec<[u64; 3]> = all.iter().filter(|triple| matches(triple, &ids)).copied().collect();
            let strings = ids[0].iter().fold(Pattern::any(), |pattern, _| pattern.subject(&s));
            let strings = ids[1].iter().fold(strings, |pattern, _| pattern.predicate(&p));
            let strings = ids[2].iter().fold(strings, |pattern, _| pattern.object(&o));
            for pattern in [by_ids(ids), strings] {
                assert_eq!(graph.find(pattern).collect::<Vec<_>>(), wanted);
                assert_eq!(graph.matching(pattern), wanted.len() as u64);
            }
            assert_eq!(graph.text(by_ids(ids)).unwrap()[..], graph.text(strings).unwrap()[..]);
        }
    }
}

#[test]
fn ids_of_no_string_match_nothing() {
    let file = file();
    let graph = Graph::open(&file).unwrap();
    for (role, count) in ROLES.map(|role| graph.count(role)).into_iter().enumerate() {
        for id in [0, count + 1, (1 << 32) + 1, u64::MAX] {
            let mut ids = [None; 3];
            ids[role] = Some(id);
            assert_eq!((graph.matching(by_ids(ids)), graph.find(by_ids(ids)).next()), (0, None));
            let page = graph.page(by_ids(ids), 0, 10).unwrap();
            assert_eq!((page.triples, page.next), (vec![], None));
        }
    }
}

#[test]
fn pages_one_after_another_are_all_matches() {
    let file = file();
    let graph = Graph::open(&file).unwrap();
    let all: Vec<[u64; 3]> = graph.find(Pattern::any()).collect();
    for ids in patterns_of(all[all.len() / 2]) {
        for limit in [1, 2, 7, 1_000, usize::MAX] {
            let (mut found, mut texts, mut from) = (Vec::new(), Vec::new(), Some(0));
            while let Some(start) = from {
                let page = graph.page(by_ids(ids), start, limit).unwrap();
                assert!(page.triples.len() <= limit);
                let (text, next) = graph.page_text(by_ids(ids), start, limit as u64).unwrap();
                assert_eq!(next, page.next);
                texts.extend_from_slice(&text);
                found.extend(page.triples);
                from = page.next;
                assert!(from.is_none_or(|next| matches(&all[next as usize], &ids) && next > start));
            }
            assert_eq!(found, graph.find(by_ids(ids)).collect::<Vec<_>>());
            assert_eq!(texts, graph.text(by_ids(ids)).unwrap()[..]);
        }
    }
    for from in [graph.len() - 1, graph.len(), graph.len() + 1, 1 << 32, u64::MAX] {
        let page = graph.page(Pattern::any(), from, usize::MAX).unwrap();
        let left = graph.len().saturating_sub(from) as usize;
        assert_eq!((&page.triples[..], page.next), (&all[all.len() - left..], None));
        assert_eq!(page.triples.capacity(), left);
    }
    let page = graph.page(Pattern::any(), 3, 0).unwrap();
    assert_eq!((page.triples, page.next), (vec![], Some(3)));
}

#[test]
fn ranges_are_parts_of_all_matches() {
    let file = file();
    let graph = Graph::open(&file).unwrap();
    let triple = graph.find(Pattern::any()).nth(50).unwrap();
    for ids in patterns_of(triple) {
        let all: Vec<[u64; 3]> = graph.find(by_ids(ids)).collect();
        for (start, end) in [(0, 1), (0, 1_000), (1, 3), (2, u64::MAX), (3, 2), (1_000, 2_000), (u64::MAX, u64::MAX)] {
            let taken = end.saturating_sub(start) as usize;
            let wanted: Vec<[u64; 3]> = all.iter().skip(start as usize).take(taken).copied().collect();
            assert_eq!(graph.find_range(by_ids(ids), start..end), wanted);
        }
    }
}

#[test]
fn prefixes_have_the_ids_of_their_strings() {
    let file = file();
    let graph = Graph::open(&file).unwrap();
    for role in ROLES {
        let strings: Vec<(u64, String)> =
            (1..=graph.count(role)).map(|id| (id, graph.string(role, id).unwrap().unwrap())).collect();
        for prefix in ["", "u:", "u:s", "u:s1", "u:p2", "\"", "\"4", "x", "u:s1x"] {
            let wanted: Vec<u64> = strings.iter().filter(|(_, it)| it.starts_with(prefix)).map(|(id, _)| *id).collect();
            let found = graph.ids_with_prefix(role, prefix);
            assert!(found[0].end <= found[1].start.max(found[0].end));
            assert_eq!(found.into_iter().flatten().collect::<Vec<u64>>(), wanted);
        }
        assert_eq!(graph.ids_with_prefix(role, [0xFF]).into_iter().flatten().count(), 0);
    }
}

#[test]
fn predicates_have_the_counts_of_their_triples() {
    let file = file();
    let graph = Graph::open(&file).unwrap();
    let counts = graph.predicate_counts();
    assert_eq!(counts.len() as u64, graph.counts().predicates);
    for (id, count) in (1..).zip(counts) {
        assert_eq!(count, graph.matching(Pattern::any().predicate_id(id)));
    }
}
