//! Each call on small files: what it returns, and its errors.

use std::error::Error as _;
use std::io::Write;

use tickmarl_hdt::{
    build, rewrite, split, verify, verify_tight, Error, FileError, FileReason, Graph, Matches, Pattern, Role, Split,
    Strings, TextError, TextReason, BLOCK_SIZE,
};

const BASE: &str = "http://a/";
const THREE: &[u8] = include_bytes!("../../samples/three.hdt");
const THREE_TEXT: &[u8] = include_bytes!("../../samples/three.nt");
const HEAD: &[u8] = include_bytes!("../../samples/v1-head.hdt");
const ROLES: [Role; 3] = [Role::Subject, Role::Predicate, Role::Object];

fn file_error(reason: FileReason, offset: u64) -> Error {
    Error::File(FileError { reason, offset })
}

fn text_error(reason: TextReason, line: u64, column: u64) -> Error {
    Error::Text(TextError { reason, line, column })
}

#[test]
fn verify_returns_the_counts() {
    let counts = verify(THREE).unwrap();
    let found = (counts.triples, counts.shared, counts.subjects, counts.predicates, counts.objects);
    assert_eq!(found, (3, 2, 0, 2, 1));
}

#[test]
fn invalid_files_have_a_reason_and_an_offset() {
    let trailing = [THREE, b"x"].concat();
    let mut crc = THREE.to_vec();
    crc[38] ^= 1;
    let invalid = [
        (HEAD, file_error(FileReason::Truncated, 218)),
        (b"", file_error(FileReason::Truncated, 0)),
        (b"<u:a> <u:p> <u:b> .", file_error(FileReason::NotHdt, 0)),
        (&trailing, file_error(FileReason::TrailingBytes, THREE.len() as u64)),
        (&crc, file_error(FileReason::Check16, 38)),
    ];
    for (bytes, error) in invalid {
        assert_eq!(verify(bytes), Err(error));
        assert_eq!(verify_tight(bytes), Err(error));
        assert_eq!(Graph::open(bytes).unwrap_err(), error);
        assert_eq!(rewrite(bytes, BLOCK_SIZE).unwrap_err(), error);
    }
}

#[test]
fn build_returns_the_canonical_file() {
    let (file, counts) = build(THREE_TEXT, BASE, BLOCK_SIZE).unwrap();
    assert_eq!(&file[..], THREE);
    assert_eq!(file.as_ref(), THREE);
    assert_eq!(Ok(counts), verify(THREE));
    assert_eq!(format!("{file:?}"), "Bytes { len: 457, .. }");
}

#[test]
fn build_has_errors_of_texts_and_options() {
    let line = b"<u:a> <u:p> <u:b> .\n";
    let wrong: [(&[u8], &str, u16, Error); 8] = [
        (line, "a", 16, Error::BadOptions),
        (line, "", 16, Error::BadOptions),
        (line, BASE, 0, Error::BadOptions),
        (b"x", "a", 16, Error::BadOptions),
        (b"", BASE, 16, Error::NoTriples),
        (b"# none\n", BASE, 16, Error::NoTriples),
        (b"<u:a> <u:p> <u:b> .\n<u:a> <p> <u:b> .\n", BASE, 16, text_error(TextReason::RelativeIri, 2, 7)),
        (b"# \xFF", BASE, 16, text_error(TextReason::NotUtf8, 1, 3)),
    ];
    for (text, base, block_size, error) in wrong {
        assert_eq!(build(text, base, block_size).unwrap_err(), error);
    }
    for block_size in [1, u16::MAX] {
        assert!(build(line, BASE, block_size).is_ok());
    }
}

#[test]
fn split_returns_the_lines_of_each_part() {
    let texts = |found: &Split| found.parts().map(|text| String::from_utf8_lossy(text).into()).collect::<Vec<String>>();
    let text = b"_:a <u:p> <u:o> .\r\n# none\n\n<u:b> <u:p> _:a .\r<u:\\u0062> <u:q> <u:o> . # <u:a>";
    let found = split(text, 7, "").unwrap();
    // (the CRC-32 of `_:a` is 0 modulo 7, that of `u:b` 6)
    let of_b = "<u:b> <u:p> _:a .\r<u:\\u0062> <u:q> <u:o> . # <u:a>\n";
    assert_eq!(texts(&found), ["_:a <u:p> <u:o> .\r\n", "", "", "", "", "", of_b]);
    assert_eq!((found.lines, found.triples, found.has_blank_nodes), (5, 3, true));
    assert_eq!((found.parts().len(), found.parts().next_back().map(<[u8]>::len)), (7, Some(of_b.len())));
    let prefixed = split(text, 1, "f0_").unwrap();
    assert_eq!(texts(&prefixed), ["_:f0_a <u:p> <u:o> .\r\n<u:b> <u:p> _:f0_a .\r<u:\\u0062> <u:q> <u:o> . # <u:a>\n"]);
    let empty = split(b"", 65_536, "").unwrap();
    assert!(empty.parts().len() == 65_536 && empty.parts().all(<[u8]>::is_empty));
    assert_eq!((empty.lines, empty.triples, empty.has_blank_nodes), (0, 0, false));
}

#[test]
fn split_has_errors_of_texts_and_options() {
    for parts in [0, 65_537, u32::MAX] {
        assert_eq!(split(b"x", parts, "").unwrap_err(), Error::BadOptions);
    }
    let wrong = b"<u:a> <u:p> <u:b> .\n<u:a> <p> <u:b> .\nx\n";
    assert_eq!(split(wrong, 2, "f0_").unwrap_err(), text_error(TextReason::RelativeIri, 2, 7));
}

#[test]
fn rewrite_returns_the_canonical_file() {
    let (other, _) = build(THREE_TEXT, BASE, 1).unwrap();
    assert_ne!(&other[..], THREE);
    let (file, counts) = rewrite(&other, BLOCK_SIZE).unwrap();
    assert_eq!(&file[..], THREE);
    assert_eq!(counts.triples, 3);
    assert_eq!(rewrite(THREE, 0).unwrap_err(), Error::BadOptions);
}

#[test]
fn open_graphs_have_counts() {
    let graph = Graph::open(THREE).unwrap();
    assert_eq!(Ok(graph.counts()), verify(THREE));
    assert_eq!(graph.len(), 3);
    assert_eq!(ROLES.map(|role| graph.count(role)), [2, 2, 3]);
    assert!(format!("{graph:?}").starts_with("Graph { counts: Counts { triples: 3,"));
}

#[test]
fn ids_and_strings_are_inverse() {
    let graph = Graph::open(THREE).unwrap();
    for role in ROLES {
        for id in 1..=graph.count(role) {
            let string = graph.string(role, id).unwrap().unwrap();
            assert_eq!(graph.id(role, &string), Some(id));
        }
        for id in [0, graph.count(role) + 1, u64::MAX] {
            assert_eq!(graph.string(role, id), Ok(None));
        }
        for absent in ["", "u:z", "<u:a>"] {
            assert_eq!(graph.id(role, absent), None);
        }
    }
    assert_eq!(graph.id(Role::Object, "\"x\""), Some(3));
    assert_eq!(graph.id(Role::Subject, "\"x\""), None);
}

#[test]
fn strings_are_in_the_order_of_the_ids() {
    let graph = Graph::open(THREE).unwrap();
    let collected = |strings: &Strings| strings.iter().map(String::from).collect::<Vec<String>>();
    let strings = graph.strings(Role::Object, &[3, 1, 1, 2]).unwrap().unwrap();
    assert_eq!(collected(&strings), ["\"x\"", "u:a", "u:a", "u:b"]);
    assert_eq!(strings.iter().len(), 4);
    assert_eq!(strings.iter().next_back(), Some("u:b"));
    assert_eq!(graph.strings(Role::Object, &[]).unwrap().unwrap().iter().len(), 0);
    for absent in [[0, 1], [1, 4], [u64::MAX, 1]] {
        assert!(graph.strings(Role::Object, &absent).unwrap().is_none());
    }
}

#[test]
fn header_is_that_of_the_file() {
    let header = Graph::open(THREE).unwrap().header().unwrap();
    assert!(header.starts_with(b"<http://a/> <http://www.w3.org/1999/02/22-rdf-syntax-ns#type> "));
    let base = format!("http://a/{}", "b".repeat(1000));
    let (file, _) = build(THREE_TEXT, &base, BLOCK_SIZE).unwrap();
    let long = Graph::open(&file).unwrap().header().unwrap();
    assert_eq!(long.len(), header.len() + 2000);
    assert!(long.ends_with(b"\"3\" .\n"));
}

#[test]
fn long_strings_come_whole() {
    for length in [252, 253, 254, 255, 256, 257, 100_000] {
        let string = format!("u:{}", "a".repeat(length));
        let text = format!("<{string}> <u:p> \"\" .\n");
        let (file, _) = build(text.as_bytes(), BASE, BLOCK_SIZE).unwrap();
        let graph = Graph::open(&file).unwrap();
        assert_eq!(graph.string(Role::Subject, 1), Ok(Some(string)));
    }
}

#[test]
fn each_pattern_has_its_matches() {
    let graph = Graph::open(THREE).unwrap();
    let all: Vec<[u64; 3]> = graph.find(Pattern::any()).collect();
    assert_eq!(all, [[1, 1, 2], [1, 2, 3], [2, 1, 1]]);
    for [s, p, o] in &all {
        let strings = [(Role::Subject, *s), (Role::Predicate, *p), (Role::Object, *o)];
        let [s, p, o] = strings.map(|(role, id)| graph.string(role, id).unwrap().unwrap());
        for given in 0..8 {
            let mut pattern = Pattern::any();
            let matches = |triple: &&[u64; 3]| {
                let same = |role, id, string: &str| graph.string(role, id).unwrap().unwrap() == string;
                (given & 1 == 0 || same(Role::Subject, triple[0], &s))
                    && (given & 2 == 0 || same(Role::Predicate, triple[1], &p))
                    && (given & 4 == 0 || same(Role::Object, triple[2], &o))
            };
            if given & 1 != 0 {
                pattern = pattern.subject(&s);
            }
            if given & 2 != 0 {
                pattern = pattern.predicate(&p);
            }
            if given & 4 != 0 {
                pattern = pattern.object(&o);
            }
            let expected: Vec<[u64; 3]> = all.iter().filter(matches).copied().collect();
            assert_eq!(graph.find(pattern).collect::<Vec<_>>(), expected);
            assert_eq!(graph.matching(pattern), expected.len() as u64);
            let lines = graph.text(pattern).unwrap().split(|byte| *byte == b'\n').count() - 1;
            assert_eq!(lines, expected.len());
        }
    }
}

#[test]
fn no_matches_are_no_error() {
    let graph = Graph::open(THREE).unwrap();
    let pattern = Pattern::any().subject("u:z");
    let mut matches = graph.find(pattern);
    assert_eq!((matches.next(), matches.next()), (None, None));
    assert_eq!(graph.matching(pattern), 0);
    assert_eq!(&graph.text(pattern).unwrap()[..], b"");
    assert_eq!(graph.matching(Pattern::any().subject("")), 0);
}

#[test]
fn text_is_n_triples() {
    let graph = Graph::open(THREE).unwrap();
    let text = graph.text(Pattern::any()).unwrap();
    assert_eq!(&text[..], b"<u:a> <u:p> <u:b> .\n<u:a> <u:q> \"x\" .\n<u:b> <u:p> <u:a> .\n");
    let mut written = Vec::new();
    written.write_all(&text).unwrap();
    assert_eq!(build(&written, BASE, BLOCK_SIZE).unwrap().0[..], *THREE);
}

#[test]
fn matches_may_outlive_the_pattern_of_a_call() {
    fn of_subject<'a>(graph: &'a Graph<'_>, string: &'a str) -> Matches<'a> {
        graph.find(Pattern::any().subject(string))
    }
    let graph = Graph::open(THREE).unwrap();
    assert_eq!(of_subject(&graph, "u:a").count(), 2);
}

#[test]
fn errors_are_errors() {
    let error: Box<dyn std::error::Error + Send + Sync> = Box::new(Error::OutOfMemory);
    assert_eq!(error.to_string(), "out of memory");
    assert!(Error::NoTriples.source().is_none());
    assert_eq!(Error::NotATerm { role: Role::Object, id: 3 }.to_string(), "object 3 is not a term of N-Triples");
}
