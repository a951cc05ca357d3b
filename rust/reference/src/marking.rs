//! Marking: the score sheets of a class, held against the replies of a book.
//!
//! The sheets are one text. A sheet is one byte a question, y or n, in line
//! order, and then a line feed.

use crate::limits::{SCORE_NUMBERS, SHEETS};
use crate::refusal::{Refusal, Refused};
use crate::settle::{evaluate, evaluate_lent, Evaluated, Settled};

/// The byte of a sheet that says yes.
const YES: u8 = b'y';
/// The byte of a sheet that says no.
const NO: u8 = b'n';
/// The byte that ends a sheet.
const LINE_FEED: u8 = b'\n';

/// The score of one sheet.
#[derive(Clone, Copy, Debug, PartialEq, Eq)]
pub struct Score {
    /// How many of its bytes say the reply.
    pub right: usize,
    /// How many say the other one.
    pub wrong: usize,
    /// The whole percent right.
    pub percent: usize,
}

/// The sums over all sheets of a class.
#[derive(Clone, Copy, Debug, PartialEq, Eq)]
pub struct Totals {
    /// Of what is right.
    pub right: usize,
    /// Of what is wrong.
    pub wrong: usize,
}

/// A marked class.
#[derive(Clone, Debug, PartialEq, Eq)]
pub struct Marked {
    /// The sitting that gave the replies.
    pub evaluated: Evaluated,
    /// The score of each sheet, in order.
    pub scores: Vec<Score>,
    /// The sums of the scores.
    pub totals: Totals,
}

/// Marks the sheets of a class on a book.
///
/// # Errors
/// Refusals 1, 3 to 8 and 21 to 23.
pub fn mark(text: &[u8], class: &[u8]) -> Result<Marked, Refused> {
    mark_sheets(evaluate(text)?, class, SCORE_NUMBERS * SHEETS)
}

/// Marks the sheets of a class on a book, given the lengths of the five
/// buffers that would be lent.
///
/// # Errors
/// Refusals 1 to 8 and 21 to 23.
pub fn mark_lent(
    text: &[u8],
    class: &[u8],
    deck_len: usize,
    table_len: usize,
    results_len: usize,
    order_len: usize,
    report_len: usize,
) -> Result<Marked, Refused> {
    let evaluated = evaluate_lent(text, deck_len, table_len, results_len, order_len)?;
    mark_sheets(evaluated, class, report_len)
}

/// Marks the sheets by what the sitting replied.
fn mark_sheets(evaluated: Evaluated, class: &[u8], report_len: usize) -> Result<Marked, Refused> {
    let key = key(&evaluated.classified.settled);
    check_class(class, key.len(), report_len)?;
    let scores: Vec<Score> = sheets(class).map(|sheet| score(sheet, &key)).collect();
    let totals = Totals {
        right: scores.iter().map(|score| score.right).sum(),
        wrong: scores.iter().map(|score| score.wrong).sum(),
    };
    Ok(Marked {
        evaluated,
        scores,
        totals,
    })
}

/// The reply to each question, in line order.
pub fn key(settled: &Settled) -> Vec<bool> {
    let answers = settled.answers.iter();
    answers.filter_map(|answer| answer.reply()).collect()
}

/// The sheets of a text, each with its line feed. What stands behind the last
/// line feed, if anything, is a sheet too, one without.
pub fn sheets(class: &[u8]) -> impl Iterator<Item = &[u8]> {
    class.split_inclusive(|byte| *byte == LINE_FEED)
}

/// Refusals 21 to 23, in this order.
fn check_class(class: &[u8], questions: usize, report_len: usize) -> Result<(), Refused> {
    if questions == 0 {
        return Err(Refusal::NoQuestion.at(0));
    }
    let count = sheets(class).count();
    if count > SHEETS || report_len < SCORE_NUMBERS * count {
        return Err(Refusal::TooManySheets.at(0));
    }
    match sheets(class).position(|sheet| !is_in_order(sheet, questions)) {
        Some(index) => Err(Refusal::WrongSheet.at(index)),
        None => Ok(()),
    }
}

/// Whether a sheet is one byte a question, y or n, and then a line feed.
fn is_in_order(sheet: &[u8], questions: usize) -> bool {
    match sheet.split_last() {
        Some((&LINE_FEED, said)) => {
            said.len() == questions && said.iter().all(|byte| [YES, NO].contains(byte))
        }
        _ => false,
    }
}

/// The score of a sheet that is in order. Its line feed stands beside no reply.
fn score(sheet: &[u8], key: &[bool]) -> Score {
    let says = |reply: bool| if reply { YES } else { NO };
    let pairs = || sheet.iter().zip(key);
    let right = pairs().filter(|(said, reply)| **said == says(**reply));
    let wrong = pairs().filter(|(said, reply)| **said == says(!**reply));
    let right = right.count();
    Score {
        right,
        wrong: wrong.count(),
        percent: percent(right, key.len()),
    }
}

/// The whole percent that a part is of all, which is not 0: the nearest, and
/// of two that are as near the one above.
pub fn percent(part: usize, all: usize) -> usize {
    let (below, rest) = (100 * part / all, 100 * part % all);
    let nearer_below = 2 * rest < all;
    if nearer_below {
        below
    } else {
        below + 1
    }
}
