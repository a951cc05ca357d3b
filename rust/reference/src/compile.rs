//! Compiling: the lines of a book become the rows of a deck.

use crate::concept::{Concept, Line};
use crate::deck::{row_kind, Row, BOTH_WITHIN, BOTTOM, SOME_WITHIN, TOP, WITHIN, WITHIN_SOME};
use crate::limits;
use crate::reader::read;
use crate::refusal::{Refusal, Refused};
use std::collections::BTreeMap;

/// The counts of a compiled book.
///
/// Not exhaustive, because a later format counts more, as the games that a book
/// names.
#[derive(Clone, Copy, Debug, PartialEq, Eq)]
#[non_exhaustive]
pub struct Sizes {
    /// The lines of the book.
    pub lines: usize,
    /// The rows of the deck.
    pub rows: usize,
    /// The numbers, counting 0 and 1.
    pub numbers: usize,
    /// The roles.
    pub roles: usize,
}

/// A compiled book: its counts and its deck.
#[derive(Clone, Debug, PartialEq, Eq)]
pub struct Compiled {
    /// Lines, rows, numbers and roles.
    pub sizes: Sizes,
    /// The rows.
    pub deck: Vec<u64>,
}

/// Compiles a book.
///
/// # Errors
/// Refusals 1 and 3 to 8.
pub fn compile(text: &[u8]) -> Result<Compiled, Refused> {
    Ok(compile_lines(&read(text)?))
}

/// Compiles a book for a lent deck of a given length.
///
/// # Errors
/// Refusals 1 to 8.
pub fn compile_lent(text: &[u8], deck_len: usize) -> Result<Compiled, Refused> {
    check_lent(text, &[(deck_len, limits::ROWS)])?;
    compile(text)
}

/// The refusals that come before reading: the text's length, then each
/// buffer's, given with its least.
pub(crate) fn check_lent(text: &[u8], lengths: &[(usize, usize)]) -> Result<(), Refused> {
    if text.len() > limits::TEXT_BYTES {
        return Err(Refusal::TextTooLong.at(0));
    }
    if lengths.iter().any(|(length, least)| length < least) {
        return Err(Refusal::BufferTooShort.at(0));
    }
    Ok(())
}

/// The numbers and roles given so far, and the definition rows by number.
struct Numbering {
    next: u16,
    names: BTreeMap<String, u16>,
    roles: BTreeMap<String, u16>,
    /// Numbers are given in the order of first bytes, so the rows of the
    /// definitions in the order of their numbers are in the scope's order.
    definitions: BTreeMap<u16, Vec<Row>>,
}

fn compile_lines(lines: &[Line<String>]) -> Compiled {
    let mut numbering = Numbering {
        next: BOTTOM + 1,
        names: BTreeMap::new(),
        roles: BTreeMap::new(),
        definitions: BTreeMap::new(),
    };
    let mut rows = Vec::new();
    for line in lines {
        let left = numbering.number(&line.inclusion.left);
        let right = numbering.number(&line.inclusion.right);
        rows.push(Row::sides(row_kind(line.kind), left, right));
    }
    rows.extend(numbering.definitions.values().flatten());
    Compiled {
        sizes: Sizes {
            lines: lines.len(),
            rows: rows.len(),
            numbers: usize::from(numbering.next),
            roles: numbering.roles.len(),
        },
        deck: rows.into_iter().map(Row::pack).collect(),
    }
}

impl Numbering {
    /// The number of a concept. A conjunction or an existential takes its own
    /// number before its sides do.
    fn number(&mut self, concept: &Concept<String>) -> u16 {
        match concept {
            Concept::Top => TOP,
            Concept::Bottom => BOTTOM,
            Concept::Name(word) => self.name(word),
            Concept::And(left, right) => {
                let x = self.fresh();
                let y = self.number(left);
                let z = self.number(right);
                self.define_and(x, y, z);
                x
            }
            Concept::Exists(word, filler) => {
                let x = self.fresh();
                let role = self.role(word);
                let y = self.number(filler);
                self.define_exists(x, role, y);
                x
            }
        }
    }

    fn fresh(&mut self) -> u16 {
        self.next += 1;
        self.next - 1
    }

    fn name(&mut self, word: &str) -> u16 {
        if let Some(number) = self.names.get(word) {
            return *number;
        }
        let number = self.fresh();
        self.names.insert(word.to_owned(), number);
        number
    }

    fn role(&mut self, word: &str) -> u16 {
        let next = self.roles.len() as u16;
        *self.roles.entry(word.to_owned()).or_insert(next)
    }

    /// x within y, x within z, y and z within x.
    fn define_and(&mut self, x: u16, y: u16, z: u16) {
        let both = Row {
            b: z,
            ..Row::sides(BOTH_WITHIN, y, x)
        };
        let rows = vec![Row::sides(WITHIN, x, y), Row::sides(WITHIN, x, z), both];
        self.definitions.insert(x, rows);
    }

    /// x within some r y, some r y within x.
    fn define_exists(&mut self, x: u16, role: u16, y: u16) {
        let into = Row {
            role,
            ..Row::sides(WITHIN_SOME, x, y)
        };
        let back = Row {
            role,
            ..Row::sides(SOME_WITHIN, y, x)
        };
        self.definitions.insert(x, vec![into, back]);
    }
}
