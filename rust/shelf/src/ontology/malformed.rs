//! A document that is damaged, and where.

use std::fmt;

/// What is wrong with a document.
#[derive(Clone, Copy, Debug, PartialEq, Eq)]
#[non_exhaustive]
pub enum Damage {
    /// A quoted text that isn't ended; the place is its quote.
    UnendedText,
    /// A full IRI that isn't ended before white space; the place is its `<`.
    UnendedIri,
    /// A bracket that isn't closed.
    UnclosedBracket,
    /// A byte that begins nothing.
    StrayByte,
    /// A carriage return in a comment without its line feed: some readers end
    /// the comment there and some don't.
    LoneReturn,
    /// A `#` directly behind a name or another word: some readers begin a comment
    /// there and some go on with the name.
    HashInWord,
    /// Something else is due there than what stands there, or than the end.
    Due(&'static str),
    /// A name whose prefix is not declared.
    UndeclaredPrefix,
    /// A prefix that was declared before, for another IRI.
    PrefixTwice,
}

impl Damage {
    pub(super) fn at(self, place: usize) -> Malformed {
        Malformed {
            damage: self,
            place,
        }
    }
}

impl fmt::Display for Damage {
    fn fmt(&self, out: &mut fmt::Formatter<'_>) -> fmt::Result {
        match self {
            Damage::UnendedText => write!(out, "this text has no closing quote"),
            Damage::UnendedIri => write!(out, "this IRI has no closing >"),
            Damage::UnclosedBracket => write!(out, "this bracket is not closed"),
            Damage::StrayByte => write!(out, "no part of a document begins with this byte"),
            Damage::LoneReturn => write!(out, "a carriage return without its line feed"),
            Damage::HashInWord => write!(
                out,
                "a # in a name: before a comment there is to be white space"
            ),
            Damage::Due(what) => write!(out, "{what} is due here"),
            Damage::UndeclaredPrefix => write!(out, "the prefix of this name is not declared"),
            Damage::PrefixTwice => write!(out, "this prefix was declared for another IRI"),
        }
    }
}

/// A damaged document: no ontology can be read from it.
#[derive(Clone, Copy, Debug, PartialEq, Eq)]
pub struct Malformed {
    /// What is wrong.
    pub damage: Damage,
    /// The offset in the document.
    pub place: usize,
}
