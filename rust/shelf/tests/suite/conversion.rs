//! Runs of axioms that are converted: their books, the lent text, and the largest
//! runs. Each call is compared with the plain engine, whole (see
//! `common::conversions`).

use crate::common::conversions::{compare_input, compare_run, RunCase, RunLent};
use crate::common::decks::Random;
use crate::common::large_runs::{padded, with_depth, with_parts, with_roles, MOST_AXIOMS};
use crate::common::large_runs::{MOST_DEPTH, MOST_PARTS, MOST_ROLES, SHORTEST};
use crate::common::runs::{random_gap, random_run, write_run, NAMES};
use crate::common::{printed_block, FORMAT};
use shelf::limits::{CONVERTED_BYTES, TEXT_BYTES};

/// Asserts the book of a run.
#[track_caller]
fn converted(input: impl AsRef<[u8]>, book: impl AsRef<[u8]>) {
    let compared = compare_input(input, &mut Random(160));
    let (found, book) = (compared.book(), book.as_ref());
    assert_eq!(
        found.escape_ascii().to_string(),
        book.escape_ascii().to_string()
    );
}

/// Every token, with gaps around each and with none but those that are due.
#[test]
fn books_by_hand() {
    converted("", "");
    converted("\n  \n", "");
    converted(SHORTEST, "S a b\n");
    let tight = "SubClassOf(Annotation(rdfs:comment\"usual\")ObjectIntersectionOf(:a :b :c)\
                 ObjectSomeValuesFrom(:r owl:Thing))SubClassOf(:a owl:Nothing)";
    let book = "U & a & b c /r *\nS a -\n";
    converted(tight, book);
    let wide = " SubClassOf ( Annotation ( rdfs:comment \"usual\" ) ObjectIntersectionOf ( \
                :a :b :c ) ObjectSomeValuesFrom ( :r owl:Thing ) ) \
                SubClassOf ( :a owl:Nothing ) ";
    converted(wide, book);
    converted(wide.replace(' ', "\n\n "), book);
}

/// The axioms that docs/FORMAT.md prints, each with its line of the book.
#[test]
fn the_axioms_of_the_document() {
    let (mut axioms, mut book) = (String::new(), String::new());
    for columns in printed_block("A run of axioms, and its book") {
        axioms += &format!("{}\n", columns[0]);
        book += &format!("{}\n", columns[1]);
    }
    assert!(book.lines().count() > 3, "{book}");
    converted(axioms, book);
}

/// The inputs that docs/FORMAT.md prints with the place of 24, in a table: the rows
/// whose input is in backticks.
#[test]
fn the_places_of_the_document() {
    let (_, behind) = FORMAT
        .split_once("\n| input | place |\n|---|---|\n")
        .unwrap();
    let rows = behind.lines().take_while(|line| line.starts_with('|'));
    let mut compared = 0;
    for row in rows {
        let columns: Vec<&str> = row.split('|').collect();
        let Some(input) = columns[1].split('`').nth(1) else {
            continue;
        };
        let place: usize = columns[2].trim().parse().expect(row);
        let refused = compare_input(input, &mut Random(166)).refused();
        assert_eq!(refused, (24, place), "{row}");
        compared += 1;
    }
    assert!(compared >= 6, "{compared}");
}

/// A random run of up to so many axioms, its gaps random too.
fn random_text(random: &mut Random, most: usize) -> String {
    let (count, depth) = (random.below(most + 1), random.below(5));
    let axioms = random_run(random, &NAMES, count, depth);
    write_run(&axioms, |due| random_gap(random, due))
}

/// 4,000 random runs with random gaps are converted alike.
#[test]
fn random_runs_are_converted_alike() {
    let mut random = Random(161);
    let (mut lines, mut nested, mut longest) = (0, 0, 0);
    for _ in 0..4_000 {
        let text = random_text(&mut random, 6);
        let case = RunCase::new(&text).with_spare(&mut random);
        let compared = compare_run(&case, &mut random);
        let book = compared.book();
        lines += book.iter().filter(|byte| **byte == b'\n').count();
        nested += book.iter().filter(|byte| **byte == b'&').count();
        longest = longest.max(text.len());
    }
    assert!(lines > 10_000 && nested > 10_000, "{lines} {nested}");
    assert!(longest > 2_000, "{longest}");
}

/// A lent text of just the book's length and a longer one are taken; a shorter one,
/// by one byte or wholly, is refused by 25.
#[test]
fn lent_texts_around_the_length_of_the_book() {
    let mut random = Random(162);
    for _ in 0..500 {
        let text = random_text(&mut random, 4);
        let mut case = RunCase::new(&text);
        let exact = case.text;
        for (length, number) in [
            (exact, 0),
            (exact + 1, 0),
            (2 * exact + 100, 0),
            (exact.saturating_sub(1), if exact == 0 { 0 } else { 25 }),
            (0, if exact == 0 { 0 } else { 25 }),
        ] {
            case.text = length;
            let compared = compare_run(&case, &mut random);
            assert_eq!(compared.number, number, "{case:?}");
            if number == 25 {
                assert_eq!(compared.refused(), (25, 0), "{case:?}");
            }
        }
    }
}

/// 300 runs, each over buffers of zeros, of ones, and twice over random leftovers:
/// the same is written, and the rest is kept.
#[test]
fn different_leftovers_give_the_same() {
    let mut random = Random(163);
    for _ in 0..300 {
        let case = RunCase::new(random_text(&mut random, 5)).with_spare(&mut random);
        let book = compare_run(&case, &mut random).book().to_vec();
        let starts = [
            RunLent::filled(&case, 0),
            RunLent::filled(&case, u64::MAX),
            RunLent::leftovers(&case, &mut random),
            RunLent::leftovers(&case, &mut random),
        ];
        for before in starts {
            let mut lent = before.clone();
            assert_eq!(lent.call(), 0, "{case:?}");
            assert!(lent == before.holding(&book), "{case:?}");
        }
    }
}

/// 500 runs one after the other in one text, never cleared: each is converted as in
/// a text of its own, and a refused one in between leaves what the one before left.
#[test]
fn a_text_used_again_and_again() {
    let mut random = Random(164);
    let mut text = vec![7; CONVERTED_BYTES];
    for _ in 0..500 {
        let input = random_text(&mut random, 5);
        let mut expected = text.clone();
        let book = shelf::convert(input.as_bytes()).unwrap();
        expected[..book.len()].copy_from_slice(&book);
        let length = shelf::convert_into(input.as_bytes(), &mut text).unwrap();
        assert_eq!(length, book.len());
        assert!(text == expected, "{input}");
        let refused = shelf::convert_into((input.clone() + "!").as_bytes(), &mut text);
        assert_eq!(refused.unwrap_err().place, input.len());
        assert!(text == expected, "{input}");
    }
}

/// So many of something fit into an input, and one more doesn't.
fn assert_most(most: usize, input: impl Fn(usize) -> String) {
    assert!(input(most).len() <= TEXT_BYTES);
    assert!(input(most + 1).len() > TEXT_BYTES);
}

/// The longest input: one axiom and gaps, and as many axioms as fit. 2,000 axioms
/// don't, since the shortest has 17 bytes.
#[test]
fn the_longest_runs() {
    converted(padded(SHORTEST, TEXT_BYTES), "S a b\n");
    converted(" ".repeat(TEXT_BYTES), "");
    assert_most(MOST_AXIOMS, |count| SHORTEST.repeat(count));
    let axioms = SHORTEST.repeat(MOST_AXIOMS);
    let book = "S a b\n".repeat(MOST_AXIOMS);
    converted(&axioms, &book);
    converted(padded(&axioms, TEXT_BYTES), &book);
    let too_long = compare_input(SHORTEST.repeat(2_000), &mut Random(165));
    assert_eq!(too_long.refused(), (24, TEXT_BYTES));
}

/// 5,000 parts, and the most that fit: each takes 3 bytes of the input and 4 of the
/// book, so that a book may be longer than its axioms, and than any book that is
/// compiled.
#[test]
fn intersections_of_many_parts() {
    assert_most(MOST_PARTS, with_parts);
    for parts in [2, 3, 33, 34, 5_000, MOST_PARTS] {
        let input = with_parts(parts);
        let description = "& a ".repeat(parts - 1) + "a";
        let book = format!("S {description} b\n");
        converted(&input, &book);
        assert_eq!(book.len() > input.len(), parts > 33, "{parts}");
    }
    let longest = shelf::convert(with_parts(MOST_PARTS).as_bytes()).unwrap();
    assert_eq!(longest.len(), 21_798);
    assert!((TEXT_BYTES + 1..=CONVERTED_BYTES).contains(&longest.len()));
}

/// 600 brackets in each other, and the most that fit.
#[test]
fn classes_in_each_other() {
    assert_most(MOST_DEPTH, with_depth);
    for depth in [600, MOST_DEPTH] {
        let description = "& ".repeat(depth) + "a" + &" a".repeat(depth);
        converted(with_depth(depth), format!("S {description} b\n"));
    }
    assert_most(MOST_ROLES, with_roles);
    for depth in [600, MOST_ROLES] {
        let description = "/r ".repeat(depth) + "a";
        converted(with_roles(depth), format!("S {description} b\n"));
    }
}
