//! What the operations give: counts, and the buffers with all the rest.

use crate::limits::{SCORE_NUMBERS, SET_WORDS};

/// The bits of a word of the table.
const WORD_BITS: usize = u64::BITS as usize;
/// The bit of a result that says yes.
const YES: u16 = 1 << 15;
/// The rank field of an infinite rank.
const INFINITE: u16 = YES - 1;

/// Kind 1: a within c.
const WITHIN: u8 = 1;
/// Kind 5: an a is usually c.
const DEFEASIBLE: u8 = 5;
/// Kind 6: is an a usually c?
const QUERY: u8 = 6;
/// Kind 7: is every a a c?
const STRICT_QUERY: u8 = 7;

/// The kind of a row: its four most significant bits.
fn kind(row: &u64) -> u8 {
    (row >> 60) as u8
}

/// Whether a row of this kind is a question.
fn asks(kind: u8) -> bool {
    matches!(kind, QUERY | STRICT_QUERY)
}

/// The counts of a compiled book.
///
/// Not exhaustive, because a later engine will count more, as the games that a
/// book names.
#[derive(Clone, Copy, Debug, PartialEq, Eq, Hash)]
#[non_exhaustive]
pub struct Sizes {
    /// How many lines the book has.
    pub lines: usize,
    /// How many rows its deck has: one a line, in order, then the definitions
    /// of its `&` and `/`.
    pub rows: usize,
    /// How many numbers it takes, counting 0 (everything) and 1 (nothing).
    pub numbers: usize,
    /// How many roles it takes.
    pub roles: usize,
}

/// The counts of a settled deck.
///
/// Not exhaustive, because a later engine will count more, as the replies of
/// yes for each examiner.
#[derive(Clone, Copy, Debug, PartialEq, Eq, Hash)]
#[non_exhaustive]
pub struct Counts {
    /// How many levels the last pass has.
    pub levels: usize,
    /// How many passes ran, the last one included.
    pub passes: usize,
    /// How many questions (kinds 6 and 7) were answered by yes.
    pub yes: usize,
}

/// The counts of a book that was compiled and then settled.
///
/// Not exhaustive, as those that it holds.
#[derive(Clone, Copy, Debug, PartialEq, Eq, Hash)]
#[non_exhaustive]
pub struct EvaluationCounts {
    /// Lines, rows, numbers and roles.
    pub sizes: Sizes,
    /// Levels, passes and the count of yes.
    pub counts: Counts,
}

/// How exceptional the left of a row is.
#[derive(Clone, Copy, Debug, PartialEq, Eq, PartialOrd, Ord, Hash)]
pub enum Rank {
    /// The least level at which the left isn't exceptional.
    Finite(u16),
    /// The left is exceptional at every level.
    Infinite,
}

/// A compiled book: its counts and its deck.
#[derive(Clone, Debug, PartialEq, Eq)]
pub struct Compiled {
    /// Lines, rows, numbers and roles.
    pub sizes: Sizes,
    /// The rows.
    pub deck: Vec<u64>,
}

impl Compiled {
    /// The deck cut to the rows that were written.
    pub(crate) fn new(sizes: Sizes, mut deck: Vec<u64>) -> Compiled {
        deck.truncate(sizes.rows);
        Compiled { sizes, deck }
    }
}

/// A settled deck: its counts, and what the engine wrote.
#[derive(Clone, Debug, PartialEq, Eq)]
pub struct Classified {
    /// Levels, passes and the count of yes.
    pub counts: Counts,
    /// The strict table: [`SET_WORDS`] words a number, see
    /// [`Classified::is_within`].
    pub table: Vec<u64>,
    /// One 16-bit result a row: a yes bit, then 15 bits of rank.
    pub results: Vec<u16>,
    /// The index of each usual row (kind 5) once: by rank, infinite last, and
    /// within a rank as in the deck.
    pub order: Vec<u16>,
    /// The kind of each row.
    kinds: Vec<u8>,
}

/// A book that was compiled and then settled. Row i is line i's, lines counted
/// from 0; the rows beyond the lines are definitions.
#[derive(Clone, Debug, PartialEq, Eq)]
pub struct Evaluated {
    /// The book's deck, with its counts.
    pub compiled: Compiled,
    /// What it settles to.
    pub classified: Classified,
}

impl Evaluated {
    /// The letter of a line, lines counted from 0: S, U, Q or K. None beyond
    /// the book.
    pub fn letter(&self, line: usize) -> Option<char> {
        let Compiled { sizes, deck } = &self.compiled;
        match kind(deck.iter().take(sizes.lines).nth(line)?) {
            WITHIN => Some('S'),
            DEFEASIBLE => Some('U'),
            QUERY => Some('Q'),
            STRICT_QUERY => Some('K'),
            _ => None,
        }
    }
}

impl Classified {
    /// The buffers cut to what was written for these rows and numbers.
    pub(crate) fn new(
        rows: &[u64],
        numbers: usize,
        counts: Counts,
        mut table: Vec<u64>,
        mut results: Vec<u16>,
        mut order: Vec<u16>,
    ) -> Classified {
        let kinds: Vec<u8> = rows.iter().map(kind).collect();
        table.truncate(SET_WORDS * numbers);
        results.truncate(rows.len());
        order.truncate(kinds.iter().filter(|kind| **kind == DEFEASIBLE).count());
        Classified {
            counts,
            table,
            results,
            order,
            kinds,
        }
    }

    /// The reply to a question: of kind 6 whether its left usually is its
    /// right, of kind 7 whether it strictly is. None for a row that asks
    /// nothing, and beyond the deck.
    pub fn reply(&self, row: usize) -> Option<bool> {
        let asks = asks(*self.kinds.get(row)?);
        let result = self.results.get(row)?;
        asks.then_some(result & YES != 0)
    }

    /// The rank of the left of a usual row or question (kinds 5 and 6). None
    /// for every other row, and beyond the deck.
    pub fn rank(&self, row: usize) -> Option<Rank> {
        if !matches!(*self.kinds.get(row)?, DEFEASIBLE | QUERY) {
            return None;
        }
        Some(match self.results.get(row)? & !YES {
            INFINITE => Rank::Infinite,
            level => Rank::Finite(level),
        })
    }

    /// How many rows are questions (kinds 6 and 7): a sheet of a class has a
    /// byte for each.
    pub fn questions(&self) -> usize {
        self.kinds.iter().filter(|kind| asks(**kind)).count()
    }

    /// How many numbers the deck has.
    pub fn numbers(&self) -> usize {
        self.table.len() / SET_WORDS
    }

    /// Whether every a is a b once the passes are through: number b is bit
    /// 63 - (b mod 64), counted from the least, of word b div 64 of the words
    /// of a.
    ///
    /// # Panics
    /// If a or b is not under the count of numbers.
    pub fn is_within(&self, a: usize, b: usize) -> bool {
        let numbers = self.numbers();
        assert!(a < numbers && b < numbers, "there are {numbers} numbers");
        let word = self.table[SET_WORDS * a + b / WORD_BITS];
        word >> (WORD_BITS - 1 - b % WORD_BITS) & 1 == 1
    }
}

/// The score of one sheet. Right and wrong add up to the book's questions.
#[derive(Clone, Copy, Debug, PartialEq, Eq, Hash)]
pub struct Score {
    /// How many of its bytes say the reply, y for yes and n for no.
    pub right: u16,
    /// How many say the other one.
    pub wrong: u16,
    /// The whole percent right, an exact half going up.
    pub percent: u16,
}

/// The sums over all sheets of a class.
#[derive(Clone, Copy, Debug, PartialEq, Eq, Hash)]
pub struct Totals {
    /// Of what is right.
    pub right: u64,
    /// Of what is wrong.
    pub wrong: u64,
}

/// The marks of a class.
#[derive(Clone, Debug, PartialEq, Eq)]
pub struct Marks {
    /// The score of each sheet, in order.
    pub scores: Vec<Score>,
    /// The sums of the scores.
    pub totals: Totals,
}

impl Marks {
    /// The scores of the first so many sheets of a report.
    pub(crate) fn new(sheets: usize, report: &[u16], totals: Totals) -> Marks {
        let score = |numbers: &[u16]| Score {
            right: numbers[0],
            wrong: numbers[1],
            percent: numbers[2],
        };
        let numbers = report.chunks_exact(SCORE_NUMBERS).take(sheets);
        Marks {
            scores: numbers.map(score).collect(),
            totals,
        }
    }
}
