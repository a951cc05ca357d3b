//! Calls on a text, compiling and the whole sitting: lent buffers with guards
//! around them, and the comparison with the plain engine.

use super::decks::Random;
use super::{usual, Guarded};
use shelf::ffi;
use shelf::limits::{ANSWER_WORDS, ROWS, TABLE_WORDS};
use shelf_reference::lent;
use std::fmt;
use std::hint::black_box;

/// Which of the two calls.
#[derive(Clone, Copy, Debug, PartialEq, Eq)]
pub enum Call {
    Compile,
    Evaluate,
}

pub const CALLS: [Call; 2] = [Call::Compile, Call::Evaluate];

/// A text, and how much is lent with it.
#[derive(Clone)]
pub struct TextCase {
    pub text: Vec<u8>,
    pub deck: usize,
    pub table: usize,
    pub results: usize,
    pub order: usize,
    pub answer: usize,
}

impl TextCase {
    /// A call that lends just what is asked for.
    pub fn new(text: impl AsRef<[u8]>) -> TextCase {
        TextCase {
            text: text.as_ref().to_vec(),
            deck: ROWS,
            table: TABLE_WORDS,
            results: ROWS,
            order: ROWS,
            answer: ANSWER_WORDS,
        }
    }

    /// Each buffer some numbers longer than before, or as long.
    pub fn with_spare(mut self, random: &mut Random) -> TextCase {
        self.deck += random.below(6);
        self.table += random.below(6);
        self.results += random.below(6);
        self.order += random.below(6);
        self.answer += random.below(6);
        self
    }
}

impl fmt::Debug for TextCase {
    fn fmt(&self, out: &mut fmt::Formatter<'_>) -> fmt::Result {
        let TextCase { deck, table, .. } = self;
        let TextCase { results, order, .. } = self;
        let answer = self.answer;
        write!(out, "lent {deck}, {table}, {results}, {order}, {answer}; ")?;
        write!(out, "text \"{}\"", self.text.escape_ascii())
    }
}

/// Everything that is lent to one call. The text is only read; compiling gets
/// the text, the deck and the answer only.
#[derive(Clone, PartialEq, Eq, Debug)]
pub struct TextLent {
    pub text: Guarded<u8>,
    pub deck: Guarded<u64>,
    pub table: Guarded<u64>,
    pub results: Guarded<u16>,
    pub order: Guarded<u16>,
    pub answer: Guarded<u64>,
}

impl TextLent {
    /// Buffers for a call, of bits from the source.
    pub fn from(case: &TextCase, mut bits: impl FnMut() -> u64) -> TextLent {
        let mut text = Guarded::new(case.text.len(), || bits() as u8);
        text.lent_mut().copy_from_slice(&case.text);
        TextLent {
            text,
            deck: Guarded::new(case.deck, &mut bits),
            table: Guarded::new(case.table, &mut bits),
            results: Guarded::new(case.results, || bits() as u16),
            order: Guarded::new(case.order, || bits() as u16),
            answer: Guarded::new(case.answer, &mut bits),
        }
    }

    /// Buffers for a call that hold random leftovers.
    pub fn leftovers(case: &TextCase, random: &mut Random) -> TextLent {
        TextLent::from(case, || random.next())
    }

    /// Buffers for a call that hold one and the same bits throughout.
    pub fn filled(case: &TextCase, bits: u64) -> TextLent {
        TextLent::from(case, || bits)
    }

    /// Calls the proved engine.
    pub fn call(&mut self, call: Call) -> u64 {
        let text = self.text.lent();
        let deck = self.deck.lent_mut();
        let answer = self.answer.lent_mut();
        let number = match call {
            Call::Compile => ffi::compile(text, deck, answer),
            Call::Evaluate => {
                let table = self.table.lent_mut();
                let results = self.results.lent_mut();
                let order = self.order.lent_mut();
                ffi::evaluate(text, deck, table, results, order, answer)
            }
        };
        black_box(self);
        number
    }

    /// Calls the plain engine.
    pub fn call_plain(&mut self, call: Call) -> u64 {
        let text = self.text.lent();
        let deck = self.deck.lent_mut();
        let answer = self.answer.lent_mut();
        match call {
            Call::Compile => lent::compile(text, deck, answer),
            Call::Evaluate => {
                let table = self.table.lent_mut();
                let results = self.results.lent_mut();
                let order = self.order.lent_mut();
                lent::evaluate(text, deck, table, results, order, answer)
            }
        }
    }

    /// The rows that an accepted call wrote.
    pub fn rows(&self) -> &[u64] {
        &self.deck.lent()[..self.answer.lent()[1] as usize]
    }

    /// The indices of the usual rows.
    pub fn usual(&self) -> Vec<u16> {
        usual(self.rows())
    }
}

/// What both engines said of a call, and what ours left in the buffers.
pub struct ComparedText {
    pub number: u64,
    pub lent: TextLent,
}

impl ComparedText {
    /// The refusal's number and its place.
    pub fn refused(&self) -> (u64, usize) {
        assert_ne!(self.number, 0, "the call is refused");
        (self.number, self.lent.answer.lent()[0] as usize)
    }

    /// The first numbers of the answer of an accepted call.
    pub fn counts<const COUNT: usize>(&self) -> [usize; COUNT] {
        assert_eq!(self.number, 0, "the call is accepted");
        std::array::from_fn(|index| self.lent.answer.lent()[index] as usize)
    }
}

/// Calls both engines on buffers with the same random leftovers and compares
/// all that is lent, guards included.
pub fn compare_text(call: Call, case: &TextCase, random: &mut Random) -> ComparedText {
    let before = TextLent::leftovers(case, random);
    let mut ours = before.clone();
    let mut plain = before.clone();
    let number = ours.call(call);
    let expected = plain.call_plain(call);
    assert_eq!(number, expected, "{call:?}, the number: {case:?}");
    if number != 0 {
        let mut kept = before;
        if case.answer >= ANSWER_WORDS {
            kept.answer.lent_mut()[0] = ours.answer.lent()[0];
        }
        assert_same(call, case, &ours, &kept);
    }
    assert_same(call, case, &ours, &plain);
    ComparedText { number, lent: ours }
}

/// All that is lent is the same, buffer by buffer.
fn assert_same(call: Call, case: &TextCase, ours: &TextLent, expected: &TextLent) {
    assert_eq!(
        ours.answer, expected.answer,
        "{call:?}, the answer: {case:?}"
    );
    assert_eq!(ours.deck, expected.deck, "{call:?}, the deck: {case:?}");
    assert_eq!(
        ours.results, expected.results,
        "{call:?}, the results: {case:?}"
    );
    assert_eq!(ours.table, expected.table, "{call:?}, the table: {case:?}");
    assert_eq!(ours.order, expected.order, "{call:?}, the order: {case:?}");
    assert_eq!(ours.text, expected.text, "{call:?}, the text: {case:?}");
}

/// Both calls of both engines on a text, lent what is asked for. The two say the
/// same of it: one refusal, or the same counts and rows. Gives the sitting.
pub fn compare_calls(case: &TextCase, random: &mut Random) -> ComparedText {
    let compiled = compare_text(Call::Compile, case, random);
    let settled = compare_text(Call::Evaluate, case, random);
    if compiled.number != 0 {
        assert_eq!(compiled.refused(), settled.refused(), "{case:?}");
    } else {
        let counts: [usize; 4] = compiled.counts();
        assert_eq!(counts, settled.counts(), "{case:?}");
        assert_eq!(compiled.lent.rows(), settled.lent.rows(), "{case:?}");
    }
    settled
}

/// The same with just what is asked for, then with some spare. Gives the last
/// sitting.
pub fn compare_book(text: impl AsRef<[u8]>, random: &mut Random) -> ComparedText {
    let case = TextCase::new(text);
    compare_calls(&case, random);
    compare_calls(&case.with_spare(random), random)
}

/// A book's settled rows have the results and counts that the plain engine
/// gives the book's own nested lines, and 0 at every definition row.
pub fn compare_with_lines(text: &[u8], settled: &shelf::Classified) {
    let nested = shelf_reference::settle_text(text).expect("the book is in order");
    let shown = text.escape_ascii();
    let (lines, definitions) = settled.results.split_at(nested.answers.len());
    assert_eq!(lines, nested.results(), "{shown}");
    assert!(definitions.iter().all(|result| *result == 0), "{shown}");
    let (counts, expected) = (settled.counts, nested.counts);
    assert_eq!(
        [counts.levels, counts.passes, counts.yes],
        [expected.levels, expected.passes, expected.yes],
        "{shown}"
    );
}
