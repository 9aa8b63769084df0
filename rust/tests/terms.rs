//! Terms from and to dictionary strings, and as N-Triples.

use tickmarl_hdt::{build, Graph, InvalidTerm, LiteralKind, Pattern, Role, Term, BLOCK_SIZE};

const TERMS: [(&str, &str); 16] = [
    ("u:a", "<u:a>"),
    ("http://a/\u{e9}", "<http://a/\u{e9}>"),
    ("A+-.9:", "<A+-.9:>"),
    ("u:a b<>\"{}|^`\\", "<u:a\\u0020b\\u003C\\u003E\\u0022\\u007B\\u007D\\u007C\\u005E\\u0060\\u005C>"),
    ("_:b", "_:b"),
    ("_:0.:-\u{b7}.a", "_:0.:-\u{b7}.a"),
    ("\"\"", "\"\""),
    ("\"x\"", "\"x\""),
    ("\"x\"@en", "\"x\"@en"),
    ("\"x\"@en-GB-9", "\"x\"@en-GB-9"),
    ("\"x\"^^<u:t>", "\"x\"^^<u:t>"),
    ("\"1\"^^<http://www.w3.org/2001/XMLSchema#string>", "\"1\"^^<http://www.w3.org/2001/XMLSchema#string>"),
    ("\"a\"b\\c\nd\re\tf\"", "\"a\\\"b\\\\c\\nd\\re\tf\""),
    ("\"\"\"", "\"\\\"\""),
    ("\"\"@en\"@de", "\"\\\"@en\"@de"),
    ("\"\u{1f600}\u{7f}\"", "\"\u{1f600}\u{7f}\""),
];
const INVALID: [&str; 25] = [
    "",
    "a",
    ":a",
    "1:a",
    "<u:a>",
    "u",
    "\u{e9}:a",
    "_",
    "_:",
    "_:.",
    "_:-a",
    "_:a.",
    "_:a b",
    "\"",
    "\"x",
    "\"x\"y",
    "\"x\"@",
    "\"x\"@-",
    "\"x\"@en-",
    "\"x\"@1",
    "\"x\"^^u:t",
    "\"x\"^^<t>",
    "\"x\"^^<u:t> ",
    "\"x\"^^<u: >",
    "u:\0",
];

#[test]
fn terms_have_a_string_and_a_spelling() {
    for (string, spelling) in TERMS {
        let term = Term::from_dictionary(string).unwrap();
        assert_eq!(term.to_dictionary(), string);
        assert_eq!(term.try_to_dictionary().as_deref(), Ok(string));
        assert_eq!(term.to_string(), spelling);
    }
}

#[test]
fn other_strings_are_no_terms() {
    for string in INVALID {
        assert_eq!(Term::from_dictionary(string), Err(InvalidTerm), "{string:?}");
    }
    assert_eq!(InvalidTerm.to_string(), "the string is not a term of N-Triples");
}

#[test]
fn parts_of_terms() {
    let literal = |text: &str, kind| Term::Literal { text: text.into(), kind };
    let terms = [
        ("u:a", Term::Iri("u:a".into())),
        ("_:b", Term::Blank("b".into())),
        ("\"x\"", literal("x", LiteralKind::Plain)),
        ("\"x\"@en", literal("x", LiteralKind::Language("en".into()))),
        ("\"x\"^^<u:t>", literal("x", LiteralKind::Datatype("u:t".into()))),
    ];
    for (string, term) in terms {
        assert_eq!(Term::from_dictionary(string), Ok(term));
    }
}

#[test]
fn parts_of_no_term_have_no_string() {
    let literal = |kind| Term::Literal { text: "x".into(), kind };
    let invalid = [
        Term::Iri("a".into()),
        Term::Iri("_:b".into()),
        Term::Iri("\"x\"".into()),
        Term::Blank("a b".into()),
        Term::Blank("".into()),
        literal(LiteralKind::Language("e n".into())),
        literal(LiteralKind::Language("".into())),
        literal(LiteralKind::Datatype("t".into())),
        literal(LiteralKind::Datatype("u: ".into())),
        Term::Literal { text: "\0".into(), kind: LiteralKind::Plain },
    ];
    for term in invalid {
        assert_eq!(term.try_to_dictionary(), Err(InvalidTerm), "{term:?}");
    }
}

#[test]
fn long_terms_come_whole() {
    let long = "a".repeat(1_000_000);
    for string in [format!("u:{long}"), format!("\"{long}\"^^<u:{long}>")] {
        assert_eq!(Term::from_dictionary(&string).unwrap().try_to_dictionary(), Ok(string));
    }
}

/// The text of a graph is what its strings are as terms.
#[test]
fn spellings_are_those_of_the_library() {
    let spellings = TERMS.iter().filter(|(string, _)| !string.contains("u:a b") && !string.contains("#string"));
    let text: String = spellings.map(|(_, spelling)| format!("<u:s> <u:p> {spelling} .\n")).collect();
    let (file, counts) = build(text.as_bytes(), "http://a/", BLOCK_SIZE).unwrap();
    assert_eq!(counts.triples, 14);
    let graph = Graph::open(&file).unwrap();
    let term = |role, id| Term::from_dictionary(&graph.string(role, id).unwrap().unwrap()).unwrap();
    let lines: String = graph
        .find(Pattern::any())
        .map(|[s, p, o]| {
            format!("{} {} {} .\n", term(Role::Subject, s), term(Role::Predicate, p), term(Role::Object, o))
        })
        .collect();
    assert_eq!(graph.text(Pattern::any()).unwrap()[..], *lines.as_bytes());
}
