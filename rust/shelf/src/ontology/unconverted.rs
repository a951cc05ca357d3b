//! Why a document has no book.

use super::base::BaseUse;
use super::lines::Lines;
use super::malformed::Malformed;
use super::outside::{list, Outside};
use crate::limits::TEXT_BYTES;
use crate::Refused;
use std::fmt;

/// Why a document was not converted. Every place is an offset in it.
#[derive(Clone, Debug, PartialEq, Eq)]
#[non_exhaustive]
pub enum Unconverted {
    /// It is damaged.
    Malformed(Malformed),
    /// It doesn't declare the prefix that was asked for.
    NoSuchPrefix(String),
    /// Its names are under several bases, and none was chosen.
    SeveralBases(Vec<BaseUse>),
    /// It says what no book can.
    Outside(Vec<Outside>),
    /// The converter refused the run of the axioms that were picked out, for its
    /// length. The place is that of the axiom with which it is too long.
    Refused(Refused),
}

impl From<Malformed> for Unconverted {
    fn from(malformed: Malformed) -> Unconverted {
        Unconverted::Malformed(malformed)
    }
}

impl Unconverted {
    /// In words, with the line and column of each place in the document.
    ///
    /// ```
    /// use shelf::ontology::{convert, Options};
    ///
    /// let document = b"Ontology(\n  SubClassOf(ex:a ex:b)\n)";
    /// let unconverted = convert(document, &Options::default()).unwrap_err();
    /// assert_eq!(
    ///     unconverted.show(document),
    ///     "the prefix of this name is not declared\n\
    ///      line 2, column 14\n\
    ///      \x20 SubClassOf(ex:a ex:b)\n\
    ///      \x20            ^"
    /// );
    /// ```
    pub fn show(&self, document: &[u8]) -> String {
        match self {
            Unconverted::Malformed(malformed) => show_malformed(*malformed, document),
            Unconverted::NoSuchPrefix(_) => self.to_string(),
            Unconverted::SeveralBases(uses) => format!("{self}:\n{}", list_uses(uses, document)),
            Unconverted::Outside(others) => format!("{self}:\n{}", list(others, document)),
            Unconverted::Refused(refused) => {
                let position = Lines::new(document).position(refused.place);
                format!("{self}\n{}", position.show(document))
            }
        }
        .trim_end()
        .to_owned()
    }
}

impl fmt::Display for Unconverted {
    fn fmt(&self, out: &mut fmt::Formatter<'_>) -> fmt::Result {
        match self {
            Unconverted::Malformed(malformed) => {
                write!(out, "at byte {}: {}", malformed.place, malformed.damage)
            }
            Unconverted::NoSuchPrefix(prefix) => {
                write!(out, "the document doesn't declare the prefix {prefix}")
            }
            Unconverted::SeveralBases(_) => {
                write!(
                    out,
                    "the names are under several bases, of which a book has one"
                )
            }
            Unconverted::Outside(_) => write!(out, "the document says what no book can"),
            Unconverted::Refused(refused) => {
                let (number, place) = (refused.refusal.number(), refused.place);
                write!(
                    out,
                    "refused {number} {place}: with this axiom the run of those that are \
                     picked out is over {TEXT_BYTES} bytes"
                )
            }
        }
    }
}

impl std::error::Error for Unconverted {}

fn show_malformed(malformed: Malformed, document: &[u8]) -> String {
    let position = Lines::new(document).position(malformed.place);
    format!("{}\n{}", malformed.damage, position.show(document))
}

/// A line for each base.
fn list_uses(uses: &[BaseUse], document: &[u8]) -> String {
    let lines = Lines::new(document);
    let shown = |it: &BaseUse| format!("<{}>, first at {}\n", it.base, lines.position(it.place));
    uses.iter().map(shown).collect()
}
