//! A plain second shelf engine.
//!
//! It reads a book of strict and usual inclusions, compiles it to a deck, and
//! settles books and decks by rational closure for the description logic EL
//! with bottom. It is written from the scope's definitions alone and meant to
//! be obviously right: whatever it decides, it decides by building the least
//! model and looking at it. Books are settled as nested concepts, with no
//! normal form; a deck's rows become concepts over numbers and go through the
//! same code. The score sheets of a class are marked by the replies of a book,
//! and axioms of an ontology editor are converted to one.
//!
//! ```
//! let book = b"S clone set\nU set art\nQ clone art\n";
//! let printed = shelf_reference::shelf(book);
//! assert_eq!(printed, "1 S\n2 U 0\n3 Q yes 0\nlevels 1 passes 1 yes 1\n");
//!
//! let sizes = shelf_reference::compile(book)?.sizes;
//! assert_eq!((sizes.numbers, sizes.roles, sizes.rows), (5, 0, 3));
//! assert_eq!(shelf_reference::find_name(book, 4), b"art");
//!
//! let totals = shelf_reference::mark(book, b"y\ny\nn\n")?.totals;
//! assert_eq!((totals.right, totals.wrong), (2, 1));
//!
//! let converted = shelf_reference::convert(b"SubClassOf(:clone :set)")?;
//! assert_eq!(converted, b"S clone set\n");
//! # Ok::<(), shelf_reference::Refused>(())
//! ```
//!
//! - [`limits`]: every limit by name
//! - [`refusal`]: the refusals, their numbers and places
//! - [`concept`]: concepts, inclusions and lines
//! - [`bytes`]: what a byte is to a book
//! - [`tokens`]: the grammar, with words and levels of any size
//! - [`reader`]: text to lines, and which refusal comes first
//! - [`finder`]: a number's word in the text
//! - [`deck`]: rows, packed and apart, and what they say
//! - [`compile`](mod@compile): lines to rows
//! - [`interpretation`]: finite interpretations and what holds in them
//! - [`model`]: the least model of a concept, which answers every question
//! - [`closure`]: passes, levels, ranks and replies
//! - [`settle`]: a book or a deck to its results, strict table and order
//! - [`report`]: the printed form
//! - [`marking`]: the sheets of a class to their scores
//! - [`axioms`]: axioms of an ontology editor, and reading a run of them
//! - [`conversion`]: a run of axioms to its book
//! - [`lent`]: the calls on lent slices

#![forbid(unsafe_code)]
#![warn(missing_docs)]

pub mod axioms;
pub mod bytes;
pub mod closure;
pub mod compile;
pub mod concept;
pub mod conversion;
pub mod deck;
pub mod finder;
pub mod interpretation;
pub mod lent;
pub mod limits;
pub mod marking;
pub mod model;
pub mod reader;
pub mod refusal;
pub mod report;
pub mod settle;
pub mod tokens;

pub use axioms::{read_run, Axiom, Class};
pub use closure::{Answer, Rank};
pub use compile::{compile, compile_lent, Compiled, Sizes};
pub use concept::{Concept, Inclusion, Kind, Line};
pub use conversion::{convert, convert_lent};
pub use finder::find_name;
pub use interpretation::Interpretation;
pub use marking::{mark, mark_lent, Marked, Score, Totals};
pub use reader::read;
pub use refusal::{Refusal, Refused};
pub use report::{shelf, shelf_by_deck};
pub use settle::{classify, classify_lent, evaluate, evaluate_lent};
pub use settle::{settle_lines, settle_text, Classified, Counts, Evaluated, Settled};
