//! The largest class: the most sheets on a book of the most questions, marked by
//! the proved engine and by the plain one.

use super::decks::Random;
use super::evaluations::{largest, print_times, Lent};
use super::{least_time, Buffers};
use shelf::ffi;
use shelf::limits::{ROWS, SCORE_NUMBERS, SHEETS};
use shelf_reference::lent;
use std::time::Duration;

/// A call that marks a class.
type Mark =
    fn(&[u8], &[u8], &mut [u64], &mut [u64], &mut [u16], &mut [u16], &mut [u16], &mut [u64]) -> u64;

/// The time of an engine's call, and the report that it leaves; the rest of what it
/// leaves stays in `lent`.
fn timed(mark: Mark, text: &str, sheets: &[u8], lent: &mut Lent) -> (Duration, Vec<u16>) {
    let mut report = vec![7; SCORE_NUMBERS * SHEETS];
    let Lent { deck, rest } = lent;
    let taken = least_time(|| {
        let Buffers { table, results, .. } = rest;
        let Buffers { order, answer, .. } = rest;
        let text = text.as_bytes();
        mark(
            text,
            sheets,
            deck,
            table,
            results,
            order,
            &mut report,
            answer,
        )
    });
    (taken, report)
}

/// Both engines' times on a class; they must have said the same.
fn both(name: &str, text: &str, sheets: &[u8]) {
    let (mut ours, mut theirs) = (Lent::new(), Lent::new());
    let (our_time, our_report) = timed(ffi::mark, text, sheets, &mut ours);
    let (plain_time, plain_report) = timed(lent::mark, text, sheets, &mut theirs);
    assert_eq!(our_report, plain_report);
    assert_eq!(ours.deck, theirs.deck);
    assert_eq!(ours.rest.results, theirs.rest.results);
    assert_eq!(ours.rest.answer, theirs.rest.answer);
    let [right, wrong, ..] = ours.rest.answer[..] else {
        unreachable!("an answer has more numbers");
    };
    println!("{name}: {right} right, {wrong} wrong");
    print_times("marking", our_time, plain_time);
}

/// Random sheets, as many as there can be, of the most questions.
fn sheets() -> Vec<u8> {
    let mut random = Random(93);
    let mut sheets = Vec::new();
    for _ in 0..SHEETS {
        sheets.extend((0..ROWS).map(|_| random.pick(b"yn")));
        sheets.push(b'\n');
    }
    sheets
}

/// The largest class on a book of strict questions, and on one of both kinds.
pub fn against_the_plain_engine() {
    println!("\nThe largest class (ratio: our time over the plain engine's)");
    let sheets = sheets();
    both("strict questions", &largest(&['K']), &sheets);
    both("both questions", &largest(&['Q', 'K']), &sheets);
}
