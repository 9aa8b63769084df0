//! What the crate `tickmarl-hdt` returns, printed for tests/test_rust.py. Bytes are hexadecimal.
//!
//! `calls file PATH..` prints the counts or the error of each file, then the error of `verify_tight` if there is one, the
//! strings of each triple, the counts of the predicates, and the file's text or the string that is no term. `calls terms`
//! reads strings, one per line, and prints their terms. `calls memory PATH` prints the errors of calls that need more memory
//! than there is, and the length of a string; `calls abort` needs more for a term. `calls refused DOCUMENT` prints a line for
//! each call that may run out of memory, which begins with its name: what it returns, or its error. `calls build IN OUT` and
//! `calls rewrite IN OUT` make a file of another by their paths, and fail with the error.

use std::env;
use std::error::Error;
use std::fmt::Debug;
use std::fs;
use std::io::{self, BufWriter, Write};

use tickmarl_hdt::{build, build_path, rewrite, rewrite_path, split, verify, verify_tight, Error as HdtError};
use tickmarl_hdt::{Counts, Graph, LiteralKind, PathError, Pattern, Role, Term};

fn main() -> Result<(), Box<dyn Error>> {
    let arguments: Vec<String> = env::args().skip(1).collect();
    let mut out = BufWriter::new(io::stdout().lock());
    match arguments[0].as_str() {
        "terms" => io::stdin().lines().try_for_each(|line| print_term(&mut out, &String::from_utf8(unhex(&line?))?)),
        "memory" => print_memory(&mut out, &fs::read(&arguments[1])?),
        "refused" => print_refused(&mut out, &fs::read(&arguments[1])?),
        "build" => print_counts(&mut out, build_path(&arguments[1], &arguments[2], "http://a/", 16)),
        "rewrite" => print_counts(&mut out, rewrite_path(&arguments[1], &arguments[2], 16)),
        "abort" => Ok(writeln!(out, "{:?}", Term::from_dictionary(&"u:".repeat(10_000_000)))?),
        _ => arguments[1..].iter().try_for_each(|path| print_file(&mut out, &fs::read(path)?)),
    }
}

fn print_file(out: &mut impl Write, bytes: &[u8]) -> Result<(), Box<dyn Error>> {
    let graph = match Graph::open(bytes) {
        Ok(graph) => graph,
        Err(HdtError::File(error)) => {
            return Ok(writeln!(out, "fault {} {} at {}", error.reason.number(), error.reason, error.offset)?)
        }
        Err(error) => return Err(error.into()),
    };
    let counts = graph.counts();
    let strings = [counts.shared, counts.subjects, counts.predicates, counts.objects].map(|count| count.to_string());
    writeln!(out, "ok {} {}", counts.triples, strings.join(" "))?;
    match verify_tight(bytes) {
        Ok(tight) => assert_eq!(tight, counts),
        Err(HdtError::File(error)) => writeln!(out, "fault {} {} at {}", error.reason.number(), error.reason, error.offset)?,
        Err(error) => return Err(error.into()),
    }
    for [s, p, o] in graph.find(Pattern::any()) {
        let ids = [(Role::Subject, s), (Role::Predicate, p), (Role::Object, o)];
        for (role, id) in ids {
            let string = graph.string(role, id)?.ok_or("an ID without a string")?;
            assert_eq!(graph.id(role, &string), Some(id));
            write!(out, "{}.", hex(string.as_bytes()))?;
        }
        writeln!(out)?;
    }
    writeln!(out, "predicates {:?}", graph.predicate_counts())?;
    match graph.text(Pattern::any()) {
        Ok(text) => writeln!(out, "text {}", hex(&text))?,
        Err(HdtError::NotATerm { role, id }) => writeln!(out, "no term {role} {id}")?,
        Err(error) => return Err(error.into()),
    }
    Ok(())
}

fn print_counts(out: &mut impl Write, made: Result<Counts, PathError>) -> Result<(), Box<dyn Error>> {
    Ok(writeln!(out, "{} triples", made?.triples)?)
}

fn print_memory(out: &mut impl Write, bytes: &[u8]) -> Result<(), Box<dyn Error>> {
    let graph = Graph::open(bytes)?;
    let ids: Vec<u64> = (1..=graph.count(Role::Subject)).collect();
    let text = graph.text(Pattern::any()).err().ok_or("there was memory for the text")?;
    let strings = graph.strings(Role::Subject, &ids).err().ok_or("there was memory for the strings")?;
    let string = graph.string(Role::Subject, 1)?.unwrap_or_default();
    Ok(writeln!(out, "{text}, {strings}, {}", string.len())?)
}

/// Prints what a call returns at once, so that what was printed before an allocation is known.
fn print_line(out: &mut impl Write, name: &str, returned: &impl Debug) -> Result<(), Box<dyn Error>> {
    writeln!(out, "{name} {returned:?}")?;
    Ok(out.flush()?)
}

/// Prints the result of a call, and returns that of a second one if memory ran out in the first one.
fn again<T: Debug>(out: &mut impl Write, name: &str, call: impl Fn() -> Result<T, HdtError>) -> Result<T, Box<dyn Error>> {
    let first = call();
    print_line(out, name, &first.as_ref().map(|_| ()))?;
    Ok(if first.is_ok() { first? } else { call()? })
}

fn print_refused(out: &mut impl Write, text: &[u8]) -> Result<(), Box<dyn Error>> {
    print_line(out, "document", &text.len())?;
    let (file, _) = again(out, "build", || build(text, "http://example.org/", 16))?;
    print_line(out, "verify", &verify(&file))?;
    print_line(out, "verify_tight", &verify_tight(&file))?;
    print_line(out, "rewrite", &rewrite(&file, 3).map(|(bytes, counts)| (bytes.to_vec(), counts)))?;
    print_line(out, "split", &split(text, 3, "").map(|parts| parts.parts().map(<[u8]>::to_vec).collect::<Vec<_>>()))?;
    let graph = again(out, "open", || Graph::open(&file))?;
    let owned = again(out, "from_bytes", || Graph::from_bytes(file.to_vec()))?;
    print_line(out, "clone", &owned.clone().text(Pattern::any()).map(|text| text.to_vec()))?;
    let pattern = Pattern::any().predicate("u:p1");
    let ids: Vec<u64> = (1..=graph.count(Role::Object)).collect();
    print_line(out, "id", &graph.id(Role::Object, "u:s3"))?;
    print_line(out, "string", &graph.string(Role::Object, 2))?;
    let strings = graph.strings(Role::Object, &ids);
    print_line(out, "strings", &strings.map(|found| found.map(|it| it.iter().map(str::to_owned).collect::<Vec<_>>())))?;
    print_line(out, "header", &graph.header())?;
    print_line(out, "ids_with_prefix", &graph.ids_with_prefix(Role::Subject, "u:"))?;
    print_line(out, "predicate_counts", &graph.predicate_counts())?;
    print_line(out, "matching", &graph.matching(pattern))?;
    print_line(out, "find", &graph.find(pattern).collect::<Vec<_>>())?;
    print_line(out, "find_range", &graph.find_range(pattern, 1..9))?;
    print_line(out, "page", &graph.page(pattern, 3, 7))?;
    print_line(out, "text", &graph.text(pattern).map(|text| text.to_vec()))?;
    print_line(out, "page_text", &graph.page_text(pattern, 3, 7).map(|(text, next)| (text.to_vec(), next)))?;
    print_line(out, "term", &Term::from_dictionary("\"x\"@en"))?;
    print_line(out, "dictionary", &Term::Iri("u:a".into()).try_to_dictionary())
}

fn print_term(out: &mut impl Write, string: &str) -> Result<(), Box<dyn Error>> {
    let Ok(term) = Term::from_dictionary(string) else {
        return Ok(writeln!(out, "no term")?);
    };
    assert_eq!(term.to_dictionary(), string);
    assert_eq!(term.try_to_dictionary().as_deref(), Ok(string));
    let written = hex(term.to_string().as_bytes());
    let parts = match term {
        Term::Iri(iri) => vec!["iri".into(), hex(iri.as_bytes())],
        Term::Blank(label) => vec!["blank".into(), hex(label.as_bytes())],
        Term::Literal { text, kind } => {
            let (kind, suffix) = match kind {
                LiteralKind::Plain => ("plain", None),
                LiteralKind::Language(tag) => ("tag", Some(tag)),
                LiteralKind::Datatype(iri) => ("datatype", Some(iri)),
            };
            let mut parts = vec!["literal".into(), hex(text.as_bytes()), kind.into()];
            parts.extend(suffix.map(|suffix| hex(suffix.as_bytes())));
            parts
        }
    };
    Ok(writeln!(out, "{} {written}", parts.join(" "))?)
}

fn hex(bytes: &[u8]) -> String {
    bytes.iter().map(|byte| format!("{byte:02x}")).collect()
}

fn unhex(digits: &str) -> Vec<u8> {
    let digit = |at: usize| u8::from_str_radix(&digits[at..at + 2], 16).expect("hexadecimal digits");
    (0..digits.len()).step_by(2).map(digit).collect()
}
