//! Triple patterns, and the roles of terms in a triple.
#![forbid(unsafe_code)]

use std::fmt;

use crate::ffi;

/// A position in a triple.
#[derive(Debug, Clone, Copy, PartialEq, Eq, PartialOrd, Ord, Hash)]
#[repr(u32)]
pub enum Role {
    /// The first position.
    Subject = ffi::HDT_SUBJECT,
    /// The second position.
    Predicate = ffi::HDT_PREDICATE,
    /// The third position.
    Object = ffi::HDT_OBJECT,
}

impl Role {
    pub(crate) fn of(number: u32) -> Role {
        match number {
            ffi::HDT_SUBJECT => Role::Subject,
            ffi::HDT_PREDICATE => Role::Predicate,
            _ => Role::Object,
        }
    }
}

impl fmt::Display for Role {
    fn fmt(&self, f: &mut fmt::Formatter<'_>) -> fmt::Result {
        f.pad(match self {
            Role::Subject => "subject",
            Role::Predicate => "predicate",
            Role::Object => "object",
        })
    }
}

/// What a pattern gives in one role.
#[derive(Debug, Clone, Copy, Default, PartialEq, Eq, Hash)]
pub(crate) enum Part<'a> {
    #[default]
    Any,
    Id(u64),
    String(&'a str),
}

/// What triples to search for: those that have each given term in its role.
///
/// A term is given by its dictionary string or by its ID. An ID is not looked up, so a join goes over the IDs that
/// [`Graph::find`](crate::Graph::find) returns. A string or an ID that the role does not have matches nothing.
///
/// ```
/// use tickmarl_hdt::Pattern;
///
/// let pattern = Pattern::any().subject("http://a/b").object("\"x\"@en");
/// assert_ne!(pattern, Pattern::any());
/// assert_ne!(Pattern::any().subject_id(1), Pattern::any().object_id(1));
/// ```
#[derive(Debug, Clone, Copy, Default, PartialEq, Eq, Hash)]
#[must_use]
pub struct Pattern<'a> {
    pub(crate) parts: [Part<'a>; 3],
}

impl<'a> Pattern<'a> {
    /// The pattern of all triples.
    pub const fn any() -> Pattern<'a> {
        Pattern { parts: [Part::Any; 3] }
    }

    /// This pattern with a subject.
    pub const fn subject(self, string: &'a str) -> Pattern<'a> {
        self.with(Role::Subject, Part::String(string))
    }

    /// This pattern with a predicate.
    pub const fn predicate(self, string: &'a str) -> Pattern<'a> {
        self.with(Role::Predicate, Part::String(string))
    }

    /// This pattern with an object.
    pub const fn object(self, string: &'a str) -> Pattern<'a> {
        self.with(Role::Object, Part::String(string))
    }

    /// This pattern with the subject that has an ID.
    pub const fn subject_id(self, id: u64) -> Pattern<'a> {
        self.with(Role::Subject, Part::Id(id))
    }

    /// This pattern with the predicate that has an ID.
    pub const fn predicate_id(self, id: u64) -> Pattern<'a> {
        self.with(Role::Predicate, Part::Id(id))
    }

    /// This pattern with the object that has an ID.
    pub const fn object_id(self, id: u64) -> Pattern<'a> {
        self.with(Role::Object, Part::Id(id))
    }

    const fn with(mut self, role: Role, part: Part<'a>) -> Pattern<'a> {
        self.parts[role as usize] = part;
        self
    }
}
