//! The longest axioms, of each shape, converted by the proved engine and by the
//! plain one.

use super::evaluations::print_times;
use super::large_runs::{padded, with_depth, with_parts, with_roles};
use super::large_runs::{MOST_AXIOMS, MOST_DEPTH, MOST_PARTS, MOST_ROLES, SHORTEST};
use super::least_time;
use shelf::ffi;
use shelf::limits::{ANSWER_WORDS, CONVERTED_BYTES, TEXT_BYTES};
use shelf_reference::lent;
use std::time::Duration;

/// A call that converts axioms.
type Convert = fn(&[u8], &mut [u8], &mut [u64]) -> u64;

/// The time of an engine's call, and the book that it leaves.
fn timed(convert: Convert, axioms: &str) -> (Duration, Vec<u8>) {
    let (mut text, mut answer) = (vec![7; CONVERTED_BYTES], [7; ANSWER_WORDS]);
    let taken = least_time(|| convert(axioms.as_bytes(), &mut text, &mut answer));
    text.truncate(answer[0] as usize);
    (taken, text)
}

/// Both engines' times on some axioms; they must have given the same book.
fn both(name: &str, axioms: &str) {
    let (our_time, our_book) = timed(ffi::convert, axioms);
    let (plain_time, plain_book) = timed(lent::convert, axioms);
    assert!(our_book == plain_book, "{name}");
    println!("{name}: {} bytes to {}", axioms.len(), our_book.len());
    print_times("converting", our_time, plain_time);
}

/// Many axioms, many parts, classes in each other, and gaps.
pub fn against_the_plain_engine() {
    println!("\nThe longest axioms (ratio: our time over the plain engine's)");
    both("axioms", &SHORTEST.repeat(MOST_AXIOMS));
    both("parts", &with_parts(MOST_PARTS));
    both("intersections in each other", &with_depth(MOST_DEPTH));
    both("restrictions in each other", &with_roles(MOST_ROLES));
    both("gaps", &padded(SHORTEST, TEXT_BYTES));
}
