//! The deepest texts, accepted and refused, a flat one of the most rows, the
//! largest class, and the largest runs of axioms, on a thread of the stated stack.

use crate::common::large_runs::{padded, unclosed, with_depth, with_parts, with_roles};
use crate::common::large_runs::{MOST_AXIOMS, MOST_DEPTH, MOST_PARTS, MOST_ROLES};
use crate::common::large_runs::{MOST_UNCLOSED, SHORTEST};
use shelf::limits::{DEPTH, ROWS, SHEETS, STACK_BYTES, TEXT_BYTES};
use shelf::Refused;
use std::thread::Builder;

/// A line whose left is so deep, by `&` or by `/`.
fn nested(sign: &str, depth: usize) -> String {
    format!("S {}a b\n", sign.repeat(depth - 1))
}

/// What a call gives on a thread of the stated stack: the refusal's number, or 0.
fn number_on_stated_stack<T>(call: impl FnOnce() -> Result<T, Refused> + Send + 'static) -> u64 {
    let thread = Builder::new().stack_size(STACK_BYTES);
    let called = thread.spawn(move || match call() {
        Ok(_) => 0,
        Err(refused) => refused.refusal.number(),
    });
    called.unwrap().join().unwrap()
}

/// The number that a sitting of the text ends with.
fn on_stated_stack(text: String) -> u64 {
    number_on_stated_stack(move || shelf::evaluate(text.as_bytes()))
}

/// The number that marking so many equal sheets on the text ends with.
fn marked_on_stated_stack(text: String, sheet: String, count: usize) -> u64 {
    number_on_stated_stack(move || shelf::mark(text.as_bytes(), sheet.repeat(count).as_bytes()))
}

#[test]
fn the_stated_stack_is_enough() {
    for sign in ["& a ", "/r "] {
        assert_eq!(on_stated_stack(nested(sign, DEPTH)), 0);
        assert_eq!(on_stated_stack(nested(sign, DEPTH + 1)), 5);
    }
    let flat = |row| {
        format!(
            "{} a{} b{}\n",
            ["S", "U", "Q"][row % 3],
            row % 100,
            row % 90
        )
    };
    assert_eq!(on_stated_stack((0..ROWS).map(flat).collect()), 0);
    assert_eq!(on_stated_stack((0..=ROWS).map(flat).collect()), 8);
}

#[test]
fn the_stated_stack_is_enough_for_marking() {
    let sheet = "y".repeat(ROWS) + "\n";
    let all = |letter: &str| format!("{letter} a b\n").repeat(ROWS);
    for (text, count, number) in [
        (all("Q"), SHEETS, 0),
        (all("K"), SHEETS, 0),
        (all("K"), SHEETS + 1, 22),
        (all("U"), SHEETS, 21),
        (all("K") + "K a b\n", SHEETS, 8),
    ] {
        let found = marked_on_stated_stack(text, sheet.clone(), count);
        assert_eq!(found, number);
    }
    for sign in ["& a ", "/r "] {
        let asking = |depth| "K a b\n".to_owned() + &nested(sign, depth);
        let marked = |depth| marked_on_stated_stack(asking(depth), "n\n".to_owned(), SHEETS);
        assert_eq!((marked(DEPTH), marked(DEPTH + 1)), (0, 5));
    }
}

#[test]
fn the_stated_stack_is_enough_for_converting() {
    for (axioms, number) in [
        (String::new(), 0),
        (SHORTEST.repeat(MOST_AXIOMS), 0),
        (with_parts(MOST_PARTS), 0),
        (with_depth(MOST_DEPTH), 0),
        (with_roles(MOST_ROLES), 0),
        (unclosed(MOST_UNCLOSED), 24),
        (padded(SHORTEST, TEXT_BYTES), 0),
        (padded(SHORTEST, TEXT_BYTES + 1), 24),
    ] {
        let found = number_on_stated_stack(move || shelf::convert(axioms.as_bytes()));
        assert_eq!(found, number);
    }
}
