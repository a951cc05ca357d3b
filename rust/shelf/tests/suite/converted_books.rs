//! What becomes of a converted book: it is compiled and settled as any other, and
//! the limits of books apply to it then.

use crate::common::books::P1;
use crate::common::conversions::compare_input;
use crate::common::decks::Random;
use crate::common::large_runs::{with_depth, with_parts, with_roles, SHORTEST};
use crate::common::runs::{random_gap, random_run, write_run, NAMES};
use crate::common::texts::{compare_calls, compare_with_lines, TextCase};
use shelf::limits::{DEPTH, ROLES, ROWS, TEXT_BYTES};
use shelf::{convert, evaluate};

/// The rules of P1, as axioms.
const P1_AXIOMS: &str = include_str!("../../../data/p1.axioms");

/// Both engines convert an input, and both compile and settle its book. Gives the
/// number that the book is refused by, or 0.
fn compare_way(input: &str, random: &mut Random) -> u64 {
    let book = compare_input(input, random).book().to_vec();
    let settled = compare_calls(&TextCase::new(&book), random);
    if settled.number == 0 {
        compare_with_lines(&book, &evaluate(&book).unwrap().classified);
    }
    settled.number
}

/// 1,500 random runs: their books are settled as their own nested lines, or refused
/// for their depth. No book is refused for its grammar or for a word.
#[test]
fn converted_books_are_settled_alike() {
    let mut random = Random(180);
    let mut numbers = [0; 9];
    for turn in 0..1_500 {
        let count = random.below(6);
        let axioms = random_run(&mut random, &NAMES, count, turn % 6);
        let text = write_run(&axioms, |due| random_gap(&mut random, due));
        numbers[compare_way(&text, &mut random) as usize] += 1;
    }
    assert!(numbers[0] > 1_000 && numbers[5] > 10, "{numbers:?}");
    assert_eq!(numbers[0] + numbers[5], 1_500, "{numbers:?}");
}

/// The rules of the scope's printed sitting as axioms: the same lines, and so the
/// same levels and passes.
#[test]
fn the_printed_sitting_from_axioms() {
    let book = convert(P1_AXIOMS.as_bytes()).unwrap();
    let rules: String = P1.split_inclusive('\n').take(6).collect();
    assert_eq!(String::from_utf8(book.clone()).unwrap(), rules);
    let counts = evaluate(&book).unwrap().classified.counts;
    assert_eq!((counts.levels, counts.passes), (3, 1));
}

/// A run of this axiom for each number under the count.
fn each(count: usize, axiom: impl Fn(usize) -> String) -> String {
    (0..count).map(axiom).collect()
}

/// What is over a limit of books is converted, and its book is then refused by that
/// limit. A book of over 16,384 bytes is among them: the parts of an intersection
/// take more bytes in the book than in the axioms.
#[test]
fn limits_of_books_apply_to_the_book() {
    let some = |role: usize| format!("SubClassOf(ObjectSomeValuesFrom(:r{role} :a):b)");
    let words = |axiom: usize| format!("SubClassOf(:w{axiom} :v{axiom})");
    let pairs = |_| "SubClassOf(ObjectIntersectionOf(:a :b):c)".to_owned();
    let rows = each(200, pairs) + &SHORTEST.repeat(ROWS - 4 * 200);
    let vectors = [
        (with_parts(DEPTH), 0),
        (with_parts(DEPTH + 1), 5),
        (with_depth(DEPTH - 1), 0),
        (with_depth(DEPTH), 5),
        (with_roles(DEPTH - 1), 0),
        (with_roles(DEPTH), 5),
        (each(ROLES, some), 0),
        (each(ROLES + 1, some), 7),
        (each(127, words), 0),
        (each(128, words), 6),
        (rows.clone(), 0),
        (rows + SHORTEST, 8),
        (with_parts(4_095), 5),
        (with_parts(4_096), 1),
        (with_parts(5_000), 1),
    ];
    let mut random = Random(181);
    for (input, number) in vectors {
        assert!(input.len() <= TEXT_BYTES);
        assert_eq!(compare_way(&input, &mut random), number, "{input}");
    }
}
