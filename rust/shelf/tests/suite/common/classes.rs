//! Marking the sheets of a class: classes to mark, lent buffers with guards
//! around them, and the comparison with the plain engine and with a sitting.

use super::books::FAMILIES;
use super::decks::Random;
use super::texts::{Call, TextCase, TextLent};
use super::Guarded;
use shelf::limits::{ANSWER_WORDS, ROWS, SCORE_NUMBERS, TABLE_WORDS};
use shelf::{ffi, mark_into, Refused, Totals};
use shelf_reference::{lent, marking, settle_text};
use std::fmt;
use std::hint::black_box;

/// A book and the sheets of a class, and how much is lent with them.
#[derive(Clone)]
pub struct ClassCase {
    /// The book, and how much is lent with it for a sitting.
    pub book: TextCase,
    pub sheets: Vec<u8>,
    pub report: usize,
}

impl ClassCase {
    /// A call that lends just what is asked for.
    pub fn new(text: impl AsRef<[u8]>, sheets: impl AsRef<[u8]>) -> ClassCase {
        let sheets = sheets.as_ref().to_vec();
        ClassCase {
            book: TextCase::new(text),
            report: SCORE_NUMBERS * count(&sheets),
            sheets,
        }
    }

    /// Each buffer some numbers longer than before, or as long.
    pub fn with_spare(mut self, random: &mut Random) -> ClassCase {
        self.book = self.book.with_spare(random);
        self.report += random.below(6);
        self
    }
}

/// How many sheets there are, one that is unended counted too.
pub fn count(sheets: &[u8]) -> usize {
    marking::sheets(sheets).count()
}

impl fmt::Debug for ClassCase {
    fn fmt(&self, out: &mut fmt::Formatter<'_>) -> fmt::Result {
        let shown = &self.sheets[..self.sheets.len().min(2_000)];
        write!(out, "{:?}; report {}; ", self.book, self.report)?;
        write!(out, "{} bytes of sheets, ", self.sheets.len())?;
        write!(out, "\"{}\"", shown.escape_ascii())
    }
}

/// A call that marks a class, of either engine.
type Mark =
    fn(&[u8], &[u8], &mut [u64], &mut [u64], &mut [u16], &mut [u16], &mut [u16], &mut [u64]) -> u64;

/// What is lent to `mark_into`: just what a sitting asks for, and a report.
#[derive(Clone, PartialEq, Eq, Debug)]
pub struct SafeLent {
    pub deck: [u64; ROWS],
    pub table: [u64; TABLE_WORDS],
    pub results: [u16; ROWS],
    pub order: [u16; ROWS],
    pub report: Vec<u16>,
}

impl SafeLent {
    /// Buffers that hold 7 throughout, with so long a report.
    pub fn of_sevens(report: usize) -> SafeLent {
        SafeLent {
            deck: [7; ROWS],
            table: [7; TABLE_WORDS],
            results: [7; ROWS],
            order: [7; ROWS],
            report: vec![7; report],
        }
    }

    pub fn mark(&mut self, text: &[u8], sheets: &[u8]) -> Result<Totals, Refused> {
        mark_into(
            text,
            sheets,
            &mut self.deck,
            &mut self.table,
            &mut self.results,
            &mut self.order,
            &mut self.report,
        )
    }
}

/// Everything that is lent to one call. The text and the sheets are only read.
#[derive(Clone, PartialEq, Eq, Debug)]
pub struct ClassLent {
    /// What a sitting is lent too, and the answer.
    pub sitting: TextLent,
    pub sheets: Guarded<u8>,
    pub report: Guarded<u16>,
}

impl ClassLent {
    /// Buffers for a call, of bits from the source.
    fn from(case: &ClassCase, mut bits: impl FnMut() -> u64) -> ClassLent {
        let mut sheets = Guarded::new(case.sheets.len(), || bits() as u8);
        sheets.lent_mut().copy_from_slice(&case.sheets);
        ClassLent {
            sitting: TextLent::from(&case.book, &mut bits),
            sheets,
            report: Guarded::new(case.report, || bits() as u16),
        }
    }

    /// Buffers for a call that hold random leftovers.
    pub fn leftovers(case: &ClassCase, random: &mut Random) -> ClassLent {
        ClassLent::from(case, || random.next())
    }

    /// Buffers for a call that hold one and the same bits throughout.
    pub fn filled(case: &ClassCase, bits: u64) -> ClassLent {
        ClassLent::from(case, || bits)
    }

    /// Calls the proved engine.
    pub fn call(&mut self) -> u64 {
        let number = self.call_by(ffi::mark);
        black_box(self);
        number
    }

    /// Calls the plain engine.
    fn call_plain(&mut self) -> u64 {
        self.call_by(lent::mark)
    }

    fn call_by(&mut self, mark: Mark) -> u64 {
        mark(
            self.sitting.text.lent(),
            self.sheets.lent(),
            self.sitting.deck.lent_mut(),
            self.sitting.table.lent_mut(),
            self.sitting.results.lent_mut(),
            self.sitting.order.lent_mut(),
            self.report.lent_mut(),
            self.sitting.answer.lent_mut(),
        )
    }

    /// The same with the place in the answer, as a refusal is to leave it.
    pub fn refused_at(mut self, place: u64) -> ClassLent {
        self.sitting.answer.lent_mut()[0] = place;
        self
    }
}

/// What both engines said of a class, and what ours left in the buffers.
pub struct ComparedClass {
    pub number: u64,
    pub lent: ClassLent,
}

impl ComparedClass {
    /// The first number of the answer.
    fn first(&self) -> u64 {
        self.lent.sitting.answer.lent()[0]
    }

    /// The refusal's number and its place.
    pub fn refused(&self) -> Refusal {
        assert_ne!(self.number, 0, "the class is refused");
        (self.number, self.first() as usize)
    }

    /// Right, wrong and percent of each sheet of a marked class, and the totals.
    pub fn scores(&self) -> (Vec<[u16; SCORE_NUMBERS]>, [u64; 2]) {
        assert_eq!(self.number, 0, "the class is marked");
        let numbers = SCORE_NUMBERS * count(self.lent.sheets.lent());
        let scores = self.lent.report.lent()[..numbers].chunks_exact(SCORE_NUMBERS);
        let scores = scores.map(|score| score.try_into().unwrap()).collect();
        (scores, [self.first(), self.lent.sitting.answer.lent()[1]])
    }
}

/// Calls both engines on buffers with the same random leftovers and compares
/// all that is lent, guards included; a sitting of ours leaves the same.
pub fn compare_class(case: &ClassCase, random: &mut Random) -> ComparedClass {
    let before = ClassLent::leftovers(case, random);
    let (mut ours, mut plain) = (before.clone(), before.clone());
    let number = ours.call();
    let expected = plain.call_plain();
    assert_eq!(number, expected, "the number: {case:?}");
    if number == 0 {
        compare_with_sitting(case, before.sitting, &ours.sitting);
    } else if case.book.answer >= ANSWER_WORDS {
        let place = ours.sitting.answer.lent()[0];
        assert_same(case, &ours, &before.refused_at(place));
    } else {
        assert_same(case, &ours, &before);
    }
    assert_same(case, &ours, &plain);
    ComparedClass { number, lent: ours }
}

/// A marked class leaves deck, table, results and order as a sitting leaves
/// them that finds the same.
fn compare_with_sitting(case: &ClassCase, mut sitting: TextLent, marked: &TextLent) {
    assert_eq!(sitting.call(Call::Evaluate), 0, "{case:?}");
    sitting.answer = marked.answer.clone();
    assert_eq!(&sitting, marked, "as a sitting leaves them: {case:?}");
}

/// All that is lent is the same, buffer by buffer.
fn assert_same(case: &ClassCase, ours: &ClassLent, expected: &ClassLent) {
    let (sitting, as_plain) = (&ours.sitting, &expected.sitting);
    assert_eq!(sitting.answer, as_plain.answer, "the answer: {case:?}");
    assert_eq!(ours.report, expected.report, "the report: {case:?}");
    assert_eq!(sitting, as_plain, "deck, table, results, order: {case:?}");
    assert!(ours.sheets == expected.sheets, "the sheets: {case:?}");
}

/// Both engines on a class with just what is asked for, then with some spare.
pub fn compare_sheets(
    text: impl AsRef<[u8]>,
    sheets: impl AsRef<[u8]>,
    random: &mut Random,
) -> ComparedClass {
    let case = ClassCase::new(text, sheets);
    compare_class(&case, random);
    compare_class(&case.with_spare(random), random)
}

/// A refusal's number and its place.
pub type Refusal = (u64, usize);

/// The class is refused so, with just what is asked for and with spare.
#[track_caller]
pub fn assert_refused(text: impl AsRef<[u8]>, sheets: impl AsRef<[u8]>, expected: Refusal) {
    let found = compare_sheets(text, sheets, &mut Random(140)).refused();
    assert_eq!(found, expected);
}

/// The sheet on P1 that says every reply: no, no, yes, yes.
pub const P1_KEY: &str = "nnyy\n";

/// The reply to each question of a book, by its own nested lines.
pub fn key(text: &[u8]) -> Vec<bool> {
    marking::key(&settle_text(text).expect("the book is in order"))
}

/// A sheet that says the replies, but for those that it turns round.
pub fn sheet(key: &[bool], mut turned: impl FnMut(usize) -> bool) -> Vec<u8> {
    let replies = key.iter().enumerate();
    let mut sheet: Vec<u8> = replies
        .map(|(question, reply)| {
            if *reply != turned(question) {
                b'y'
            } else {
                b'n'
            }
        })
        .collect();
    sheet.push(b'\n');
    sheet
}

/// So many sheets, each with none, some or all of its replies turned round.
pub fn random_sheets(random: &mut Random, key: &[bool], count: usize) -> Vec<u8> {
    let mut sheets = Vec::new();
    for _ in 0..count {
        let eighths = random.below(9);
        sheets.extend(sheet(key, |_| random.below(8) < eighths));
    }
    sheets
}

/// A random book of some family, the next in turn, most of the time with up to 20
/// questions more.
pub fn random_book(random: &mut Random, turn: usize) -> Vec<u8> {
    let (family, _) = FAMILIES[turn % FAMILIES.len()];
    let mut text = family(random);
    if random.once_in(5) {
        return text;
    }
    for _ in 0..random.from(1, 20) {
        let letter = random.pick(&['Q', 'K']);
        let mut word = || random.pick(&["a", "aa", "b", "k0", "k1", "d1", "yes", "no", "*"]);
        let (left, right) = (word(), word());
        text.extend(format!("{letter} {left} {right}\n").bytes());
    }
    text
}

/// Changes, removes or puts in one byte of the sheets.
pub fn damage_sheets(random: &mut Random, sheets: &mut Vec<u8>) {
    let bytes = b"yn\n\n YN\r\0\xFF1";
    let place = random.below(sheets.len() + 1);
    match random.below(4) {
        0 => sheets.insert(place, random.pick(bytes)),
        1 if place < sheets.len() => sheets[place] = random.pick(bytes),
        2 if place < sheets.len() => {
            sheets.remove(place);
        }
        _ => {
            sheets.pop();
        }
    }
}
