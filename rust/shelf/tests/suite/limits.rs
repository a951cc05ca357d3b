//! Counts and lengths at each limit and one past it.

use crate::common::decks::{query, row, strict_query, usually, within, Deck, Random};
use crate::common::{compare, Case};
use shelf::limits::{ANSWER_WORDS, LEAST_NUMBERS, NUMBERS, ROLES, ROWS, SET_WORDS};

/// A call of `count` equal rows that lends just what is asked for.
fn call(rows: u64, count: usize, numbers: usize, roles: usize) -> Case {
    Case::new(Deck {
        rows: vec![rows; count],
        numbers,
        roles,
    })
}

/// The number that both engines return for each call, its buffers changed.
fn returns(vectors: &[(u64, Case)]) {
    let mut random = Random(40);
    for (number, case) in vectors {
        let found = compare(case, &mut random);
        assert_eq!(found.number, *number, "{case:?}");
        if *number > 2 {
            assert_eq!(found.refused().1, 0, "the place: {case:?}");
        }
    }
}

/// N at the fewest and the most is accepted, one beyond refused by 11.
#[test]
fn numbers_from_the_fewest_to_the_most() {
    returns(&[
        (0, call(0, 0, LEAST_NUMBERS, 0)),
        (11, call(0, 0, LEAST_NUMBERS - 1, 0)),
        (11, call(0, 0, 0, 0)),
        (0, call(0, 0, NUMBERS - 1, 0)),
        (0, call(0, 0, NUMBERS, 0)),
        (11, call(0, 0, NUMBERS + 1, 0)),
        (0, call(within(NUMBERS - 1, NUMBERS - 2), 3, NUMBERS, 0)),
    ]);
}

/// R at 0 and the most is accepted, one beyond refused by 12.
#[test]
fn roles_up_to_the_most() {
    let last = row(3, ROLES - 1, 2, 0, 2);
    returns(&[
        (0, call(0, 0, 2, 0)),
        (0, call(last, 2, 3, ROLES)),
        (12, call(last, 2, 3, ROLES + 1)),
        (18, call(last, 2, 3, ROLES - 1)),
        (18, call(row(3, ROLES, 2, 0, 2), 2, 3, ROLES)),
    ]);
}

/// The most rows are accepted, of any kind; one more is refused by 13.
#[test]
fn rows_up_to_the_most() {
    let rows = [
        within(2, 3),
        row(2, 0, 2, 3, 1),
        row(3, 0, 2, 0, 3),
        row(4, 0, 2, 0, 3),
        usually(2, 3),
        query(2, 3),
        strict_query(2, 3),
    ];
    for row in rows {
        returns(&[
            (0, call(row, ROWS - 1, 4, 1)),
            (0, call(row, ROWS, 4, 1)),
            (13, call(row, ROWS + 1, 4, 1)),
        ]);
    }
}

/// A table of the words of N numbers is accepted, one word less refused by 14.
#[test]
fn a_table_of_so_many_words_a_number() {
    for numbers in [LEAST_NUMBERS, 3, 63, 64, 65, NUMBERS - 1, NUMBERS] {
        let case = call(usually(0, 1), 1, numbers, 0);
        let table = SET_WORDS * numbers;
        returns(&[
            (0, case.clone()),
            (
                0,
                Case {
                    table: table + 1,
                    ..case.clone()
                },
            ),
            (
                14,
                Case {
                    table: table - 1,
                    ..case.clone()
                },
            ),
            (14, Case { table: 0, ..case }),
        ]);
    }
}

/// Results and order as long as the deck are accepted, one less is refused by
/// 14: the order too is held against the deck, not against its usual rows.
#[test]
fn results_and_order_as_long_as_the_deck() {
    for row in [within(2, 3), usually(2, 3), query(2, 3)] {
        for count in [1, 2, 17, ROWS - 1, ROWS] {
            let case = call(row, count, 4, 0);
            returns(&[
                (0, case.clone()),
                (
                    14,
                    Case {
                        results: count - 1,
                        ..case.clone()
                    },
                ),
                (
                    14,
                    Case {
                        order: count - 1,
                        ..case.clone()
                    },
                ),
                (14, Case { order: 0, ..case }),
            ]);
        }
    }
    let none = call(0, 0, 2, 0);
    assert_eq!((none.results, none.order), (0, 0));
    returns(&[(0, none)]);
}

/// An answer slice of the least length is accepted, one shorter refused by 2; a
/// longer one keeps its rest.
#[test]
fn an_answer_of_the_least_length() {
    let least = ANSWER_WORDS;
    for (number, answer) in [(0, least), (2, least - 1), (2, 0), (0, least + 1), (0, 100)] {
        let case = call(usually(2, 3), 2, 4, 0);
        returns(&[(number, Case { answer, ..case })]);
    }
}

/// Every count of numbers and of roles that there can be is accepted, with the last number and the last role in use.
#[test]
fn every_count_of_numbers_and_roles() {
    let mut random = Random(41);
    for numbers in LEAST_NUMBERS..=NUMBERS {
        let roles = (numbers - LEAST_NUMBERS) % (ROLES + 1);
        let last = numbers - 1;
        let mut rows = vec![usually(last, 0), query(0, last), within(0, last)];
        if roles > 0 {
            rows.push(row(3, roles - 1, last, 0, 0));
        }
        let case = Case::new(Deck {
            rows,
            numbers,
            roles,
        });
        assert_eq!(compare(&case, &mut random).number, 0, "{case:?}");
    }
}
