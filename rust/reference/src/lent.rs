//! The frontend's calls on lent slices, as the scope words them: each
//! returns the refusal's number or 0, and writes its place or its answer's
//! numbers to the start of `answer`. A refusal changes nothing else.

use crate::compile::{compile_lent, Sizes};
use crate::conversion::convert_lent;
use crate::limits::{ANSWER_WORDS, SCORE_NUMBERS};
use crate::marking::{mark_lent, Score, Totals};
use crate::refusal::{Refusal, Refused};
use crate::settle::{classify_lent, evaluate_lent, Classified, Counts, Evaluated};

/// Compiles a book into a lent deck. The answer's numbers are lines, rows,
/// numbers and roles.
pub fn compile(text: &[u8], deck: &mut [u64], answer: &mut [u64]) -> u64 {
    if answer.len() < ANSWER_WORDS {
        return Refusal::BufferTooShort.number();
    }
    match compile_lent(text, deck.len()) {
        Ok(compiled) => {
            put(deck, &compiled.deck);
            put(answer, &size_numbers(compiled.sizes));
            0
        }
        Err(refused) => refuse(refused, answer),
    }
}

/// Settles a deck into a lent table, results and order (the scope's "work",
/// "results" and "roll"). The answer's numbers are levels, passes and the count
/// of yes.
pub fn classify(
    rows: &[u64],
    numbers: usize,
    roles: usize,
    table: &mut [u64],
    results: &mut [u16],
    order: &mut [u16],
    answer: &mut [u64],
) -> u64 {
    if answer.len() < ANSWER_WORDS {
        return Refusal::BufferTooShort.number();
    }
    let lengths = (table.len(), results.len(), order.len());
    match classify_lent(rows, numbers, roles, lengths.0, lengths.1, lengths.2) {
        Ok(classified) => {
            put_classified(&classified, table, results, order);
            put(answer, &count_numbers(classified.settled.counts));
            0
        }
        Err(refused) => refuse(refused, answer),
    }
}

/// Compiles a book and settles it, all into lent slices. The answer's numbers
/// are those of compiling, then those of settling.
pub fn evaluate(
    text: &[u8],
    deck: &mut [u64],
    table: &mut [u64],
    results: &mut [u16],
    order: &mut [u16],
    answer: &mut [u64],
) -> u64 {
    if answer.len() < ANSWER_WORDS {
        return Refusal::BufferTooShort.number();
    }
    let lengths = (deck.len(), table.len(), results.len(), order.len());
    match evaluate_lent(text, lengths.0, lengths.1, lengths.2, lengths.3) {
        Ok(done) => {
            put_evaluated(&done, deck, table, results, order);
            let sizes = size_numbers(done.compiled.sizes);
            put(answer, &sizes);
            let counts = count_numbers(done.classified.settled.counts);
            put(&mut answer[sizes.len()..], &counts);
            0
        }
        Err(refused) => refuse(refused, answer),
    }
}

/// Marks the sheets of a class on a book, all into lent slices: the sitting's,
/// and the report with the score of each sheet. The answer's numbers are the
/// totals of right and of wrong.
#[expect(clippy::too_many_arguments, reason = "the call has as many")]
pub fn mark(
    text: &[u8],
    class: &[u8],
    deck: &mut [u64],
    table: &mut [u64],
    results: &mut [u16],
    order: &mut [u16],
    report: &mut [u16],
    answer: &mut [u64],
) -> u64 {
    if answer.len() < ANSWER_WORDS {
        return Refusal::BufferTooShort.number();
    }
    let lengths = (deck.len(), table.len(), results.len(), order.len());
    let report_len = report.len();
    match mark_lent(
        text, class, lengths.0, lengths.1, lengths.2, lengths.3, report_len,
    ) {
        Ok(marked) => {
            put_evaluated(&marked.evaluated, deck, table, results, order);
            let scores: Vec<u16> = marked.scores.into_iter().flat_map(score_numbers).collect();
            put(report, &scores);
            put(answer, &total_numbers(marked.totals));
            0
        }
        Err(refused) => refuse(refused, answer),
    }
}

/// Converts a run of axioms to its book, at the start of a lent text. The
/// answer's number is the book's length.
pub fn convert(input: &[u8], text: &mut [u8], answer: &mut [u64]) -> u64 {
    if answer.len() < ANSWER_WORDS {
        return Refusal::BufferTooShort.number();
    }
    match convert_lent(input, text.len()) {
        Ok(book) => {
            put(text, &book);
            put(answer, &[book.len() as u64]);
            0
        }
        Err(refused) => refuse(refused, answer),
    }
}

fn size_numbers(sizes: Sizes) -> [u64; 4] {
    let Sizes {
        lines,
        rows,
        numbers,
        roles,
    } = sizes;
    [lines, rows, numbers, roles].map(|count| count as u64)
}

fn count_numbers(counts: Counts) -> [u64; 3] {
    let Counts {
        levels,
        passes,
        yes,
    } = counts;
    [levels, passes, yes].map(|count| count as u64)
}

fn score_numbers(score: Score) -> [u16; SCORE_NUMBERS] {
    let Score {
        right,
        wrong,
        percent,
    } = score;
    [right, wrong, percent].map(|count| count as u16)
}

fn total_numbers(totals: Totals) -> [u64; 2] {
    let Totals { right, wrong } = totals;
    [right, wrong].map(|count| count as u64)
}

fn put_evaluated(
    done: &Evaluated,
    deck: &mut [u64],
    table: &mut [u64],
    results: &mut [u16],
    order: &mut [u16],
) {
    put(deck, &done.compiled.deck);
    put_classified(&done.classified, table, results, order);
}

fn put_classified(done: &Classified, table: &mut [u64], results: &mut [u16], order: &mut [u16]) {
    put(table, &done.table);
    put(results, &done.settled.results());
    put(order, &done.order);
}

/// Copies values to the start of a slice; the rest of it is kept.
fn put<T: Copy>(slice: &mut [T], values: &[T]) {
    slice[..values.len()].copy_from_slice(values);
}

fn refuse(refused: Refused, answer: &mut [u64]) -> u64 {
    answer[0] = refused.place as u64;
    refused.number()
}
