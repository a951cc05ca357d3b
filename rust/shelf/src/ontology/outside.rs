//! What a document says that no book can: where, and why.

use super::lines::Lines;
use crate::limits::WORD_BYTES;
use std::fmt;

/// Something that the ontology says and no run of axioms can.
#[derive(Clone, Debug, PartialEq, Eq)]
pub struct Outside {
    /// The offset in the document of the first byte that can't be there: of an
    /// axiom of another kind its keyword.
    pub place: usize,
    /// Why it can't.
    pub why: Why,
}

/// Why something is outside the fragment.
#[derive(Clone, Debug, PartialEq, Eq)]
#[non_exhaustive]
pub enum Why {
    /// An import: what it brings in is not read.
    Import,
    /// An axiom of another kind than SubClassOf, with its keyword.
    OtherAxiom(String),
    /// A keyword that is none of the fragment's, as `ObjectUnionOf`.
    OtherKeyword(String),
    /// An annotation that isn't the comment "usual", or a second one.
    OtherAnnotation,
    /// A name that isn't under the base, as it is written.
    OtherBase(String),
    /// A name under the base that is no word, as it is written.
    NoWord(String),
    /// Something that the fragment has, but not there.
    Misplaced(String),
}

impl fmt::Display for Why {
    fn fmt(&self, out: &mut fmt::Formatter<'_>) -> fmt::Result {
        match self {
            Why::Import => write!(out, "what an import brings in is not read"),
            Why::OtherAxiom(keyword) => write!(out, "{keyword} is not SubClassOf"),
            Why::OtherKeyword(keyword) => write!(out, "no class has {keyword}"),
            Why::OtherAnnotation => {
                write!(
                    out,
                    "an annotation other than one rdfs:comment that says \"usual\""
                )
            }
            Why::OtherBase(name) => write!(out, "the name {name} is not under the base"),
            Why::NoWord(name) => write!(
                out,
                "the name {name} is not 1 to {WORD_BYTES} bytes from a-z and 0-9"
            ),
            Why::Misplaced(what) => write!(out, "{what} can't stand here"),
        }
    }
}

/// A line for each, in words, with its line and column in the document.
///
/// ```
/// use shelf::ontology::{convert, list, Options};
///
/// let document = b"Prefix(:=<urn:x:>)\nOntology(\nSubClassOf(:a ObjectUnionOf(:b :c))\n)";
/// let options = Options { skip_others: true, ..Options::default() };
/// let skipped = convert(document, &options).unwrap().skipped;
/// assert_eq!(list(&skipped, document), "line 3, column 21: no class has ObjectUnionOf\n");
/// ```
pub fn list(others: &[Outside], document: &[u8]) -> String {
    let lines = Lines::new(document);
    let shown = |outside: &Outside| format!("{}: {}\n", lines.position(outside.place), outside.why);
    others.iter().map(shown).collect()
}
