//! The calls on lent slices: what they write, and what they leave.

use shelf_reference::lent::{classify, compile, convert, evaluate, mark};

const MARK: u64 = 0xA5A5_5A5A_1234_4321;
const MARK16: u16 = 0xBEEF;
const BOOK: &[u8] = b"S clone set\nU set art\nQ clone art\nK clone /r set\n";

struct Lent {
    deck: Vec<u64>,
    table: Vec<u64>,
    results: Vec<u16>,
    order: Vec<u16>,
    report: Vec<u16>,
    answer: Vec<u64>,
}

impl Lent {
    /// Slices of one length but for the answer; a report for three sheets.
    fn new(length: usize, answer: usize) -> Lent {
        Lent {
            deck: vec![MARK; length],
            table: vec![MARK; length],
            results: vec![MARK16; length],
            order: vec![MARK16; length],
            report: vec![MARK16; 9],
            answer: vec![MARK; answer],
        }
    }

    fn evaluate(&mut self, text: &[u8]) -> u64 {
        evaluate(
            text,
            &mut self.deck,
            &mut self.table,
            &mut self.results,
            &mut self.order,
            &mut self.answer,
        )
    }

    fn mark(&mut self, text: &[u8], class: &[u8]) -> u64 {
        mark(
            text,
            class,
            &mut self.deck,
            &mut self.table,
            &mut self.results,
            &mut self.order,
            &mut self.report,
            &mut self.answer,
        )
    }

    /// Whether all but the first `written` of the answer is as it was lent.
    fn untouched(&self, written: usize) -> bool {
        self.deck
            .iter()
            .chain(&self.table)
            .all(|word| *word == MARK)
            && self
                .results
                .iter()
                .chain(&self.order)
                .chain(&self.report)
                .all(|word| *word == MARK16)
            && self.answer[written..].iter().all(|word| *word == MARK)
    }
}

/// Compiling writes the deck's start and four counts, and keeps the rest.
#[test]
fn compiling_writes_rows_and_counts() {
    let mut lent = Lent::new(1024, 32);
    assert_eq!(compile(BOOK, &mut lent.deck, &mut lent.answer), 0);
    assert_eq!(lent.answer[..4], [4, 6, 6, 1]);
    assert!(lent.answer[4..].iter().all(|word| *word == MARK));
    assert_eq!(lent.deck[0], 0x1000_0002_0000_0003);
    assert!(lent.deck[..6].iter().all(|word| *word != MARK));
    assert!(lent.deck[6..].iter().all(|word| *word == MARK));
}

/// Settling writes table, results and order up to their lengths only.
#[test]
fn settling_writes_its_lengths_only() {
    let mut lent = Lent::new(1100, 40);
    assert_eq!(compile(BOOK, &mut lent.deck, &mut lent.answer), 0);
    let deck = lent.deck[..6].to_vec();
    let number = classify(
        &deck,
        6,
        1,
        &mut lent.table,
        &mut lent.results,
        &mut lent.order,
        &mut lent.answer,
    );
    assert_eq!(number, 0);
    assert_eq!(lent.answer[..3], [1, 1, 1]);
    assert_eq!(lent.answer[3], 1, "what compiling left there is kept");
    assert!(lent.answer[4..].iter().all(|word| *word == MARK));
    assert_eq!(lent.results[..6], [0, 0x8000, 0x8000, 0, 0, 0]);
    assert!(lent.results[6..].iter().all(|word| *word == MARK16));
    assert_eq!(lent.order[..2], [1, MARK16]);
    assert!(lent.table[..24].iter().all(|word| *word != MARK));
    assert!(lent.table[24..].iter().all(|word| *word == MARK));
}

/// A sitting is compiling and then settling, with the counts of both.
#[test]
fn a_sitting_is_both_in_turn() {
    let mut lent = Lent::new(1024, 32);
    assert_eq!(lent.evaluate(BOOK), 0);
    assert_eq!(lent.answer[..7], [4, 6, 6, 1, 1, 1, 1]);
    assert!(lent.answer[7..].iter().all(|word| *word == MARK));
    assert_eq!(lent.results[..7], [0, 0x8000, 0x8000, 0, 0, 0, MARK16]);
}

/// Marking leaves the sitting's slices as a sitting does, and writes a score for
/// each sheet and the totals.
#[test]
fn marking_writes_scores_and_totals() {
    let (mut sitting, mut lent) = (Lent::new(1100, 40), Lent::new(1100, 40));
    assert_eq!(sitting.evaluate(BOOK), 0);
    assert_eq!(lent.mark(BOOK, b"yn\nny\n"), 0);
    assert_eq!(lent.report[..6], [2, 0, 100, 0, 2, 0]);
    assert!(lent.report[6..].iter().all(|number| *number == MARK16));
    assert_eq!(lent.answer[..2], [2, 2]);
    assert!(lent.answer[2..].iter().all(|word| *word == MARK));
    assert_eq!((lent.deck, lent.table), (sitting.deck, sitting.table));
    assert_eq!((lent.results, lent.order), (sitting.results, sitting.order));
}

/// Converting writes the book at the text's start and its length, and keeps the rest.
#[test]
fn converting_writes_the_book_and_its_length() {
    let (mut text, mut answer) = ([b'.'; 10], [MARK; 40]);
    assert_eq!(
        convert(b"SubClassOf(:a owl:Thing)", &mut text, &mut answer),
        0
    );
    assert_eq!((&text, answer[0]), (b"S a *\n....", 6));
    assert!(answer[1..].iter().all(|word| *word == MARK));
}

/// A refused conversion writes its place; a short answer slice is kept whole.
#[test]
fn a_refused_conversion_changes_the_place_only() {
    let axiom = b"SubClassOf(:a :b)";
    let vectors: [(&[u8], usize, u64, u64); 4] = [
        (b"SubClassOf(:a)", 10, 24, 13),
        (b"SubClassOf(:a)", 0, 24, 13),
        (&[b' '; 16_385], 10, 24, 16_384),
        (axiom, 5, 25, 0),
    ];
    for (input, length, number, place) in vectors {
        let (mut text, mut answer) = (vec![b'.'; length], [MARK; 32]);
        assert_eq!(convert(input, &mut text, &mut answer), number);
        assert_eq!(answer[0], place);
        assert!(answer[1..].iter().all(|word| *word == MARK));
        assert!(text.iter().all(|byte| *byte == b'.'));
        assert_eq!(convert(input, &mut text, &mut answer[1..]), 2);
        assert_eq!(answer[1], MARK);
        assert!(text.iter().all(|byte| *byte == b'.'));
    }
    let mut text = [b'.'; 10];
    assert_eq!(convert(axiom, &mut text, &mut []), 2);
    assert_eq!(&text, b"..........");
}

/// A refusal writes its place and keeps every other lent number.
#[test]
fn a_refusal_changes_the_place_only() {
    let mut lent = Lent::new(1024, 32);
    assert_eq!(lent.evaluate(b"S a b"), 3);
    assert_eq!(lent.answer[0], 5);
    assert!(lent.untouched(1));
    let mut lent = Lent::new(1024, 32);
    assert_eq!(compile(b"S a b", &mut lent.deck, &mut lent.answer), 3);
    assert_eq!(lent.answer[0], 5);
    assert!(lent.untouched(1));
    let mut lent = Lent::new(1024, 32);
    let deck = [0x1000_0000_0000_0000, 0x3001_0000_0000_0000];
    let number = classify(
        &deck,
        2,
        1,
        &mut lent.table,
        &mut lent.results,
        &mut lent.order,
        &mut lent.answer,
    );
    assert_eq!((number, lent.answer[0]), (18, 1));
    assert!(lent.untouched(1));
    let mut lent = Lent::new(1024, 32);
    assert_eq!(lent.mark(BOOK, b"yn\nyx\n"), 23);
    assert_eq!(lent.answer[0], 1);
    assert!(lent.untouched(1));
}

/// An answer slice under 32 is refused by 2 before all else and kept whole.
#[test]
fn a_short_answer_slice_comes_before_all_else() {
    let long = vec![b'!'; 16_385];
    for length in [0, 1, 31] {
        let mut lent = Lent::new(1024, length);
        assert_eq!(lent.evaluate(&long), 2);
        assert!(lent.untouched(0));
        assert_eq!(compile(&long, &mut lent.deck, &mut lent.answer), 2);
        assert!(lent.untouched(0));
        assert_eq!(lent.mark(&long, b"?"), 2);
        assert!(lent.untouched(0));
        let number = classify(
            &[0],
            0,
            65,
            &mut lent.table,
            &mut lent.results,
            &mut lent.order,
            &mut lent.answer,
        );
        assert_eq!(number, 2);
        assert!(lent.untouched(0));
    }
    let mut lent = Lent::new(1024, 32);
    assert_eq!((lent.evaluate(&long), lent.answer[0]), (1, 0));
    let mut lent = Lent::new(1023, 32);
    assert_eq!((lent.evaluate(b"bad"), lent.answer[0]), (2, 0));
    assert!(lent.untouched(1));
}
