//! Converting axioms: lent buffers with guards around them, and the comparison with
//! the plain engine.

use super::decks::Random;
use super::Guarded;
use shelf::limits::{ANSWER_WORDS, CONVERTED_BYTES};
use shelf::{ffi, Refused};
use shelf_reference::lent;
use std::fmt;
use std::hint::black_box;

/// An input to convert, and how much is lent with it.
#[derive(Clone)]
pub struct RunCase {
    pub input: Vec<u8>,
    pub text: usize,
    pub answer: usize,
}

impl RunCase {
    /// A call that lends just what the book takes: nothing where there is none.
    pub fn new(input: impl AsRef<[u8]>) -> RunCase {
        let input = input.as_ref().to_vec();
        let book = shelf_reference::convert(&input).unwrap_or_default();
        RunCase {
            input,
            text: book.len(),
            answer: ANSWER_WORDS,
        }
    }

    /// The text and the answer some numbers longer than before, or as long.
    pub fn with_spare(mut self, random: &mut Random) -> RunCase {
        self.text += random.below(6);
        self.answer += random.below(6);
        self
    }
}

impl fmt::Debug for RunCase {
    fn fmt(&self, out: &mut fmt::Formatter<'_>) -> fmt::Result {
        let shown = &self.input[..self.input.len().min(2_000)];
        write!(out, "lent {}, {}; ", self.text, self.answer)?;
        write!(out, "{} bytes of input, ", self.input.len())?;
        write!(out, "\"{}\"", shown.escape_ascii())
    }
}

/// Everything that is lent to one call. The input is only read.
#[derive(Clone, PartialEq, Eq, Debug)]
pub struct RunLent {
    pub input: Guarded<u8>,
    pub text: Guarded<u8>,
    pub answer: Guarded<u64>,
}

impl RunLent {
    /// Buffers for a call, of bits from the source.
    fn from(case: &RunCase, mut bits: impl FnMut() -> u64) -> RunLent {
        let mut input = Guarded::new(case.input.len(), || bits() as u8);
        input.lent_mut().copy_from_slice(&case.input);
        RunLent {
            input,
            text: Guarded::new(case.text, || bits() as u8),
            answer: Guarded::new(case.answer, &mut bits),
        }
    }

    /// Buffers for a call that hold random leftovers.
    pub fn leftovers(case: &RunCase, random: &mut Random) -> RunLent {
        RunLent::from(case, || random.next())
    }

    /// Buffers for a call that hold one and the same bits throughout.
    pub fn filled(case: &RunCase, bits: u64) -> RunLent {
        RunLent::from(case, || bits)
    }

    /// Calls the proved engine.
    pub fn call(&mut self) -> u64 {
        let number = self.call_by(ffi::convert);
        black_box(self);
        number
    }

    /// Calls the plain engine.
    fn call_plain(&mut self) -> u64 {
        self.call_by(lent::convert)
    }

    fn call_by(&mut self, convert: fn(&[u8], &mut [u8], &mut [u64]) -> u64) -> u64 {
        convert(
            self.input.lent(),
            self.text.lent_mut(),
            self.answer.lent_mut(),
        )
    }

    /// The first number of the answer: the book's length, or the place.
    fn first(&self) -> usize {
        self.answer.lent()[0] as usize
    }

    /// The same with the place in the answer, as a refusal is to leave it.
    pub fn refused_at(mut self, place: usize) -> RunLent {
        self.answer.lent_mut()[0] = place as u64;
        self
    }

    /// The same with the book in the text and its length in the answer, as an
    /// accepted call is to leave it.
    pub fn holding(mut self, book: &[u8]) -> RunLent {
        self.text.lent_mut()[..book.len()].copy_from_slice(book);
        self.answer.lent_mut()[0] = book.len() as u64;
        self
    }
}

/// What both engines said of an input, and what ours left in the buffers.
pub struct ComparedRun {
    pub number: u64,
    pub lent: RunLent,
}

impl ComparedRun {
    /// The refusal's number and its place.
    pub fn refused(&self) -> (u64, usize) {
        assert_ne!(self.number, 0, "the input is refused");
        (self.number, self.lent.first())
    }

    /// The book of an accepted run.
    pub fn book(&self) -> &[u8] {
        assert_eq!(self.number, 0, "the run is converted");
        &self.lent.text.lent()[..self.lent.first()]
    }
}

/// Calls both engines on buffers with the same random leftovers and compares all
/// that is lent, guards included. Nothing but the book and its length, or the
/// place, is changed; and the safe function says the same.
pub fn compare_run(case: &RunCase, random: &mut Random) -> ComparedRun {
    let before = RunLent::leftovers(case, random);
    let (mut ours, mut plain) = (before.clone(), before.clone());
    let number = ours.call();
    let expected = plain.call_plain();
    assert_eq!(number, expected, "the number: {case:?}");
    assert_same(case, &ours, &plain);
    let compared = ComparedRun { number, lent: ours };
    if case.answer < ANSWER_WORDS {
        assert_same(case, &compared.lent, &before);
    } else if number == 0 {
        let book = compared.book();
        assert!(book.len() <= 4 * case.input.len() / 3, "{case:?}");
        assert!(book.len() <= CONVERTED_BYTES, "{case:?}");
        assert_same(case, &compared.lent, &before.holding(book));
    } else {
        let place = compared.lent.first();
        assert_same(case, &compared.lent, &before.refused_at(place));
    }
    compare_safe(case, &compared);
    compared
}

/// In a text of its own the safe function converts what our call converts, and
/// what it refuses for a short text or answer too; all else it refuses alike.
fn compare_safe(case: &RunCase, compared: &ComparedRun) {
    match (shelf::convert(&case.input), compared.number) {
        (Ok(book), 0) => assert!(book == compared.book(), "{case:?}"),
        (Err(Refused { refusal, place }), 24) => {
            assert_eq!((refusal.number(), place), compared.refused(), "{case:?}");
        }
        (Ok(_), 25) | (_, 2) => {}
        (found, number) => panic!("{found:?}, not {number}: {case:?}"),
    }
}

/// All that is lent is the same, buffer by buffer.
fn assert_same(case: &RunCase, ours: &RunLent, expected: &RunLent) {
    assert_eq!(ours.answer, expected.answer, "the answer: {case:?}");
    assert!(ours.text == expected.text, "the text: {case:?}");
    assert!(ours.input == expected.input, "the input: {case:?}");
}

/// Both engines on an input with just what the book takes, then with some spare.
pub fn compare_input(input: impl AsRef<[u8]>, random: &mut Random) -> ComparedRun {
    let case = RunCase::new(input);
    compare_run(&case, random);
    compare_run(&case.with_spare(random), random)
}
