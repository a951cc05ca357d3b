//! What the test files share: decks, books, classes and axioms, lent buffers with
//! guards around them, the comparison with the plain engine, and what a run has met.

pub mod benched;
pub mod books;
pub mod classes;
pub mod conversions;
pub mod decks;
pub mod hard;
pub mod large_runs;
pub mod met;
#[path = "../../../../reference/tests/suite/common/no_runs.rs"]
pub mod no_runs;
pub mod one_hash;
pub mod relay;
#[path = "../../../../reference/tests/suite/common/runs.rs"]
pub mod runs;
pub mod texts;

use books::Words;
use decks::{Deck, Random};
use shelf::ffi;
use shelf::limits::{ANSWER_WORDS, SET_WORDS};
use shelf_reference::lent;
use std::fmt;
use std::hint::black_box;

/// The numbers before and behind each lent slice.
const GUARD: usize = 6;

/// A lent slice inside a longer buffer, so that a write before or behind it
/// is seen.
#[derive(Clone, PartialEq, Eq, Debug)]
pub struct Guarded<T> {
    all: Vec<T>,
}

impl<T> Guarded<T> {
    fn new(length: usize, fill: impl FnMut() -> T) -> Guarded<T> {
        let all = std::iter::repeat_with(fill);
        Guarded {
            all: all.take(length + 2 * GUARD).collect(),
        }
    }

    /// What is lent.
    pub fn lent(&self) -> &[T] {
        &self.all[GUARD..self.all.len() - GUARD]
    }

    pub fn lent_mut(&mut self) -> &mut [T] {
        let end = self.all.len() - GUARD;
        &mut self.all[GUARD..end]
    }
}

/// One call: a deck, and how much is lent.
#[derive(Clone)]
pub struct Case {
    pub rows: Vec<u64>,
    pub numbers: usize,
    pub roles: usize,
    pub table: usize,
    pub results: usize,
    pub order: usize,
    pub answer: usize,
}

impl Case {
    /// A call that lends just what is asked for.
    pub fn new(deck: Deck) -> Case {
        let rows = deck.rows.len();
        Case {
            table: SET_WORDS * deck.numbers,
            results: rows,
            order: rows,
            answer: ANSWER_WORDS,
            numbers: deck.numbers,
            roles: deck.roles,
            rows: deck.rows,
        }
    }

    /// Each buffer some numbers longer than before, or as long.
    pub fn with_spare(mut self, random: &mut Random) -> Case {
        self.table += random.below(6);
        self.results += random.below(6);
        self.order += random.below(6);
        self.answer += random.below(6);
        self
    }

    /// The indices of the usual rows.
    pub fn usual(&self) -> Vec<u16> {
        usual(&self.rows)
    }
}

impl fmt::Debug for Case {
    fn fmt(&self, out: &mut fmt::Formatter<'_>) -> fmt::Result {
        let Case { numbers, roles, .. } = self;
        write!(out, "{numbers} numbers, {roles} roles; lent ")?;
        let Case { table, results, .. } = self;
        let Case { order, answer, .. } = self;
        write!(out, "{table}, {results}, {order}, {answer}; rows")?;
        self.rows.iter().try_for_each(|row| write!(out, " {row:x}"))
    }
}

/// Everything that is lent to one call. The rows are only read.
#[derive(Clone, PartialEq, Eq, Debug)]
pub struct Lent {
    pub rows: Guarded<u64>,
    pub table: Guarded<u64>,
    pub results: Guarded<u16>,
    pub order: Guarded<u16>,
    pub answer: Guarded<u64>,
}

impl Lent {
    /// Buffers for a call, of bits from the source.
    fn from(case: &Case, mut bits: impl FnMut() -> u64) -> Lent {
        let mut rows = Guarded::new(case.rows.len(), &mut bits);
        rows.lent_mut().copy_from_slice(&case.rows);
        Lent {
            rows,
            table: Guarded::new(case.table, &mut bits),
            results: Guarded::new(case.results, || bits() as u16),
            order: Guarded::new(case.order, || bits() as u16),
            answer: Guarded::new(case.answer, &mut bits),
        }
    }

    /// Buffers for a call that hold random leftovers.
    pub fn leftovers(case: &Case, random: &mut Random) -> Lent {
        Lent::from(case, || random.next())
    }

    /// Buffers for a call that hold one and the same bits throughout.
    pub fn filled(case: &Case, bits: u64) -> Lent {
        Lent::from(case, || bits)
    }

    /// Calls the proved engine.
    pub fn call(&mut self, case: &Case) -> u64 {
        let number = ffi::classify(
            self.rows.lent(),
            case.numbers,
            case.roles,
            self.table.lent_mut(),
            self.results.lent_mut(),
            self.order.lent_mut(),
            self.answer.lent_mut(),
        );
        black_box(self);
        number
    }

    /// Calls the plain engine.
    pub fn call_plain(&mut self, case: &Case) -> u64 {
        lent::classify(
            self.rows.lent(),
            case.numbers,
            case.roles,
            self.table.lent_mut(),
            self.results.lent_mut(),
            self.order.lent_mut(),
            self.answer.lent_mut(),
        )
    }
}

/// What both engines said of a call, and what ours left in the buffers.
pub struct Compared {
    pub number: u64,
    pub lent: Lent,
}

impl Compared {
    /// The refusal's number and its place.
    pub fn refused(&self) -> (u64, usize) {
        assert_ne!(self.number, 0, "the call is refused");
        (self.number, self.lent.answer.lent()[0] as usize)
    }

    /// Levels, passes, yes of an accepted call.
    pub fn counts(&self) -> [usize; 3] {
        assert_eq!(self.number, 0, "the call is accepted");
        std::array::from_fn(|index| self.lent.answer.lent()[index] as usize)
    }
}

/// Calls both engines on buffers with the same random leftovers and compares
/// all that is lent, guards included.
pub fn compare(case: &Case, random: &mut Random) -> Compared {
    let before = Lent::leftovers(case, random);
    let mut ours = before.clone();
    let mut plain = before.clone();
    let number = ours.call(case);
    let expected = plain.call_plain(case);
    assert_eq!(number, expected, "the returned number: {case:?}");
    if number != 0 {
        let mut kept = before;
        if case.answer >= ANSWER_WORDS {
            kept.answer.lent_mut()[0] = ours.answer.lent()[0];
        }
        assert_same(case, &ours, &kept);
    }
    assert_same(case, &ours, &plain);
    Compared { number, lent: ours }
}

/// All that is lent is the same, buffer by buffer.
fn assert_same(case: &Case, ours: &Lent, expected: &Lent) {
    assert_eq!(ours.answer, expected.answer, "the answer: {case:?}");
    assert_eq!(ours.results, expected.results, "the results: {case:?}");
    assert_eq!(ours.table, expected.table, "the table: {case:?}");
    assert_eq!(ours.order, expected.order, "the order: {case:?}");
    assert_eq!(ours.rows, expected.rows, "the rows: {case:?}");
}

/// The document of the formats, which tests hold to the engine.
pub const FORMAT: &str = include_str!("../../../../../docs/FORMAT.md");

/// The lines of the block that the document prints behind these words.
pub fn printed_block(words: &str) -> Vec<Vec<&'static str>> {
    block_of(FORMAT, words)
}

/// The lines of the block that a document prints behind these words: the columns
/// of each, two spaces apart or more.
pub fn block_of<'d>(document: &'d str, words: &str) -> Vec<Vec<&'d str>> {
    let (_, behind) = document.split_once(words).unwrap();
    let block = behind.split("\n\n").nth(1).unwrap();
    let columns = |line: &'d str| line.split("  ").map(str::trim);
    let lines = block.lines().map(columns);
    let lines = lines.map(|columns| columns.filter(|column| !column.is_empty()));
    lines.map(Iterator::collect).collect()
}

/// The parts of a text between the two, for each time that they stand there.
pub fn between<'t>(text: &'t str, start: &str, end: &str) -> Vec<&'t str> {
    let parts = text.split(start).skip(1);
    parts.map(|part| part.split(end).next().unwrap()).collect()
}

/// The indices of the usual rows.
fn usual(rows: &[u64]) -> Vec<u16> {
    let rows = rows.iter().enumerate();
    let usual = rows.filter(|(_, row)| **row >> 60 == 5);
    usual.map(|(index, _)| index as u16).collect()
}

/// Both engines on a deck with just what is asked for, then with some spare.
pub fn compare_deck(deck: Deck, random: &mut Random) -> Compared {
    let case = Case::new(deck);
    compare(&case, random);
    compare(&case.with_spare(random), random)
}
