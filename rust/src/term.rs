//! RDF terms, from and to dictionary strings.
#![forbid(unsafe_code)]

use std::error;
use std::fmt::{self, Write};

use crate::error::abort_without_memory;
use crate::ffi;
use crate::strings::put;

/// An RDF term. `Display` writes it as N-Triples.
///
/// Its parts are not checked if it is made by hand: `Term::from_dictionary(&term.to_dictionary())` checks it.
///
/// ```
/// use tickmarl_hdt::{LiteralKind, Term};
///
/// # fn main() -> Result<(), tickmarl_hdt::InvalidTerm> {
/// let term = Term::from_dictionary("\"say \"hi\"\"@en")?;
/// let kind = LiteralKind::Language("en".into());
/// assert_eq!(term, Term::Literal { text: "say \"hi\"".into(), kind });
/// assert_eq!(term.to_string(), r#""say \"hi\""@en"#);
/// assert_eq!(term.to_dictionary(), "\"say \"hi\"\"@en");
/// assert_eq!(Term::Iri("http://a/b".into()).to_string(), "<http://a/b>");
/// # Ok(())
/// # }
/// ```
#[derive(Debug, Clone, PartialEq, Eq, PartialOrd, Ord, Hash)]
pub enum Term {
    /// An absolute IRI, without `<` and `>`.
    Iri(String),
    /// The label of a blank node, without `_:`.
    Blank(String),
    /// A literal.
    Literal {
        /// The text, without quotes and escapes.
        text: String,
        /// What follows the text.
        kind: LiteralKind,
    },
}

/// What follows the text of a literal.
#[derive(Debug, Clone, PartialEq, Eq, PartialOrd, Ord, Hash)]
pub enum LiteralKind {
    /// Nothing: a literal of the datatype `http://www.w3.org/2001/XMLSchema#string`.
    Plain,
    /// A language tag, without `@`.
    Language(String),
    /// The absolute IRI of a datatype, without `<` and `>`.
    Datatype(String),
}

/// The bytes of `""^^<>`, the most that a dictionary string has besides its parts.
const MOST_DELIMITERS: usize = 6;

/// A string is not the dictionary string of a term. Files may have such strings.
#[derive(Debug, Clone, Copy, PartialEq, Eq, Hash)]
pub struct InvalidTerm;

impl fmt::Display for InvalidTerm {
    fn fmt(&self, f: &mut fmt::Formatter<'_>) -> fmt::Result {
        f.write_str("the string is not a term of N-Triples")
    }
}

impl error::Error for InvalidTerm {}

impl Term {
    /// The term of a dictionary string (`docs/NTRIPLES.md`, "Dictionary strings"). Linear time.
    ///
    /// # Errors
    ///
    /// [`InvalidTerm`] if the string is that of no term.
    pub fn from_dictionary(string: &str) -> Result<Term, InvalidTerm> {
        let (reason, parts) = ffi::term(string);
        if reason == ffi::HDT_OUT_OF_MEMORY {
            abort_without_memory(string.len());
        }
        let part = |at: u64, len: u64| string[ffi::size(at)..ffi::size(at + len)].to_owned();
        let (text, suffix) = (part(parts.at, parts.len), part(parts.suffix_at, parts.suffix_len));
        match parts.kind {
            ffi::HDT_IRI => Ok(Term::Iri(text)),
            ffi::HDT_BLANK => Ok(Term::Blank(text)),
            ffi::HDT_LITERAL => Ok(Term::Literal { text, kind: LiteralKind::Plain }),
            ffi::HDT_TAGGED => Ok(Term::Literal { text, kind: LiteralKind::Language(suffix) }),
            ffi::HDT_TYPED => Ok(Term::Literal { text, kind: LiteralKind::Datatype(suffix) }),
            ffi::HDT_NO_TERM => Err(InvalidTerm),
            kind => unreachable!("libhdt is newer than this crate: it has a kind of term {kind}"),
        }
    }

    /// The dictionary string of the term, whose parts are not checked. Linear time.
    pub fn to_dictionary(&self) -> String {
        match self {
            Term::Iri(iri) => iri.clone(),
            Term::Blank(label) => format!("_:{label}"),
            Term::Literal { text, kind: LiteralKind::Plain } => format!("\"{text}\""),
            Term::Literal { text, kind: LiteralKind::Language(tag) } => format!("\"{text}\"@{tag}"),
            Term::Literal { text, kind: LiteralKind::Datatype(iri) } => format!("\"{text}\"^^<{iri}>"),
        }
    }

    /// The dictionary string of the term if its parts are those of a term: the inverse of
    /// [`from_dictionary`](Term::from_dictionary). Linear time.
    ///
    /// # Errors
    ///
    /// [`InvalidTerm`] if a part is not of its kind, as a relative IRI or a language tag with a space.
    ///
    /// ```
    /// use tickmarl_hdt::{InvalidTerm, Term};
    ///
    /// assert_eq!(Term::Blank("b".into()).try_to_dictionary().as_deref(), Ok("_:b"));
    /// assert_eq!(Term::Iri("relative".into()).try_to_dictionary(), Err(InvalidTerm));
    /// ```
    pub fn try_to_dictionary(&self) -> Result<String, InvalidTerm> {
        let (kind, text, suffix) = match self {
            Term::Iri(iri) => (ffi::HDT_IRI, iri, ""),
            Term::Blank(label) => (ffi::HDT_BLANK, label, ""),
            Term::Literal { text, kind: LiteralKind::Plain } => (ffi::HDT_LITERAL, text, ""),
            Term::Literal { text, kind: LiteralKind::Language(tag) } => (ffi::HDT_TAGGED, text, tag.as_str()),
            Term::Literal { text, kind: LiteralKind::Datatype(iri) } => (ffi::HDT_TYPED, text, iri.as_str()),
        };
        let room = text.len() + suffix.len() + MOST_DELIMITERS;
        let string = put(room, |out| ffi::term_string(kind, text, suffix, out));
        let Some(bytes) = string.unwrap_or_else(|_| abort_without_memory(room)) else {
            return Err(InvalidTerm);
        };
        Ok(String::from_utf8(bytes).expect("parts that are UTF-8 make a string that is UTF-8"))
    }
}

impl fmt::Display for Term {
    fn fmt(&self, f: &mut fmt::Formatter<'_>) -> fmt::Result {
        match self {
            Term::Iri(iri) => write_iri(f, iri),
            Term::Blank(label) => write!(f, "_:{label}"),
            Term::Literal { text, kind } => {
                write_text(f, text)?;
                match kind {
                    LiteralKind::Plain => Ok(()),
                    LiteralKind::Language(tag) => write!(f, "@{tag}"),
                    LiteralKind::Datatype(iri) => {
                        f.write_str("^^")?;
                        write_iri(f, iri)
                    }
                }
            }
        }
    }
}

/// Writes an IRI in brackets, with escapes for the characters that it excludes.
fn write_iri(f: &mut fmt::Formatter<'_>, iri: &str) -> fmt::Result {
    f.write_char('<')?;
    for character in iri.chars() {
        if is_excluded(character) {
            write!(f, "\\u{:04X}", u32::from(character))?;
        } else {
            f.write_char(character)?;
        }
    }
    f.write_char('>')
}

/// Writes the text of a literal in quotes, with the four escapes that it needs.
fn write_text(f: &mut fmt::Formatter<'_>, text: &str) -> fmt::Result {
    f.write_char('"')?;
    for character in text.chars() {
        match character {
            '\\' => f.write_str("\\\\")?,
            '"' => f.write_str("\\\"")?,
            '\n' => f.write_str("\\n")?,
            '\r' => f.write_str("\\r")?,
            _ => f.write_char(character)?,
        }
    }
    f.write_char('"')
}

/// Whether an IRI excludes a character.
fn is_excluded(character: char) -> bool {
    character <= ' ' || "<>\"{}|^`\\".contains(character)
}
