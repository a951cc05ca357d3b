//! Books from whole ontology documents.
//!
//! What an ontology editor saves in OWL 2 functional-style syntax has more than
//! a run of axioms: prefixes, declarations, comments, names in full. [`convert`]
//! takes such a document, picks out its SubClassOf axioms over one base, writes
//! each name under it as `:name`, and hands that run to the proved converter,
//! [`crate::convert`]. What is said of a place is said of the document.
//!
//! ```
//! use shelf::ontology::{convert, Options};
//!
//! let document = br#"
//! Prefix(ex:=<http://example.org/games#>)
//! Ontology(<http://example.org/games>
//!   Declaration(Class(ex:clone)) # a copy (of a game)
//!   SubClassOf(ex:clone ex:set)
//!   SubClassOf(Annotation(rdfs:comment "usual") <http://example.org/games#set> ex:shown)
//! )"#;
//! let converted = convert(document, &Options::default()).unwrap();
//! assert_eq!(converted.book, b"S clone set\nU set shown\n");
//! ```
//!
//! # What is read
//!
//! - The converter alone judges which axioms a book can have: each SubClassOf
//!   axiom is tried by itself, and one that it refuses is [`Outside`]. So is an
//!   axiom of another kind, and an import, since what it brings in is not read.
//!   They are an error, or left out and listed where [`Options::skip_others`] is
//!   set.
//! - Declarations, and all that only annotates, are passed over: they make no
//!   rule.
//! - Names are compared as IRIs, however they are written. `owl:Thing`,
//!   `owl:Nothing` and `rdfs:comment` are known by theirs, also in full and under
//!   another prefix. The prefixes owl, rdf, rdfs and xsd need no declaration, and
//!   a document that declares one otherwise is taken at its word.
//! - [`Names`] says which base is meant. A name that isn't under it is outside.
//! - `"usual"^^xsd:string` is `"usual"`, as OWL has it. Any other annotation of an
//!   axiom, and a second one, is outside.
//! - The run has one space where one is needed and no other, so that a document
//!   may be longer than what the converter takes.

mod axioms;
mod base;
mod document;
mod lines;
mod malformed;
mod names;
mod outside;
mod picking;
mod run;
mod tokens;
mod unconverted;

pub use base::BaseUse;
pub use malformed::{Damage, Malformed};
pub use outside::{list, Outside, Why};
pub use unconverted::Unconverted;

use crate::Refused;
use document::Document;

/// How a document is read.
#[derive(Clone, Debug, Default, PartialEq, Eq)]
pub struct Options {
    /// Which names are words of the book.
    pub names: Names,
    /// Leave out what is outside the fragment, and don't fail. The base of
    /// [`Names::OneBase`] is then that of the axioms which can be converted.
    pub skip_others: bool,
}

/// Which names are words of the book: what stands behind the base in their
/// IRI.
#[derive(Clone, Debug, Default, PartialEq, Eq)]
pub enum Names {
    /// Those under the one base that all names in the SubClassOf axioms have,
    /// OWL's own aside. The base of `ex:name` is what ex is declared for, that
    /// of a full IRI ends with its last `#` or `/`, or else its last colon.
    ///
    /// With [`Options::skip_others`] only those axioms count that can be
    /// converted, each over the one base of its names. Where there is none, all
    /// do.
    #[default]
    OneBase,
    /// Those under what the document declares for this prefix, which is given
    /// with its colon or without.
    Prefix(String),
    /// Those under this IRI.
    Base(String),
}

/// A document's book.
#[derive(Clone, Debug, PartialEq, Eq)]
pub struct Converted {
    /// A line for each axiom that is in the fragment, in the document's order.
    pub book: Vec<u8>,
    /// What was left out, in order.
    pub skipped: Vec<Outside>,
}

/// Converts a whole document to its book.
///
/// The limits of a book apply when it is compiled, as with [`crate::convert`].
///
/// # Errors
/// What is wrong with the document, which of its axioms are outside the
/// fragment, or refusal 24 where the run of all that are inside is too long, at
/// the axiom that is the first too many.
///
/// ```
/// use shelf::ontology::{convert, Options, Unconverted, Why};
///
/// let document = b"Prefix(:=<urn:x:>) Ontology(SubClassOf(:a :b) DisjointClasses(:a :c))";
/// let mut options = Options::default();
/// let Err(Unconverted::Outside(others)) = convert(document, &options) else {
///     panic!("one axiom is outside");
/// };
/// assert_eq!(others[0].why, Why::OtherAxiom("DisjointClasses".to_owned()));
/// assert_eq!(others[0].place, 46);
///
/// options.skip_others = true;
/// assert_eq!(convert(document, &options).unwrap().book, b"S a b\n");
/// ```
pub fn convert(document: &[u8], options: &Options) -> Result<Converted, Unconverted> {
    let document = Document::read(document)?;
    let base = base::choose(&document, options)?;
    let (run, skipped) = picking::pick(&document, base.as_deref())?;
    if !options.skip_others && !skipped.is_empty() {
        return Err(Unconverted::Outside(skipped));
    }
    match crate::convert(&run.text) {
        Ok(book) => Ok(Converted { book, skipped }),
        Err(refused) => Err(Unconverted::Refused(Refused {
            place: document.axiom_of(run.find(refused.place).token),
            ..refused
        })),
    }
}
