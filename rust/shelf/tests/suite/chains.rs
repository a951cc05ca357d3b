//! Long chains: passes and levels one at a time and up to the most there can
//! be, and decks of the most rows.

use crate::common::decks::{both_within, chain, chain_on_a_ladder, ladder, query, reversed};
use crate::common::decks::{compiled, Deck, Random, BOTTOM, TOP};
use crate::common::decks::{some_within, strict_query, usually, within, within_some};
use crate::common::{compare, compare_deck, Case};
use shelf::limits::{NUMBERS, ROLES, ROWS, SET_WORDS};

/// The last number that there can be.
const LAST: usize = NUMBERS - 1;
/// The most links of a chain, and the most kinds of a ladder.
const MOST_LINKS: usize = NUMBERS / 2 - 2;
const MOST_KINDS: usize = NUMBERS - 4;

/// 1 to 40 one at a time, then some up to the most.
fn steps(more: &[usize]) -> impl Iterator<Item = usize> + '_ {
    (1..=40).chain(more.iter().copied())
}

/// `U d0 -`, `U d1 /r d0`, `U d2 /r d1`, ..: each link is one pass more, and
/// every rank is infinite. Rows in order and last first.
#[test]
fn passes_grow_one_at_a_time() {
    let mut random = Random(50);
    for links in steps(&[62, 63, 64, 100, MOST_LINKS]) {
        for deck in [chain(links), reversed(chain(links))] {
            let case = Case::new(deck.clone()).with_spare(&mut random);
            let compared = compare(&case, &mut random);
            assert_eq!(compared.counts(), [0, links + 2, 0]);
            let usual = deck.rows.iter().filter(|row| **row >> 60 == 5).count();
            let results = compared.lent.results.lent();
            let infinite = results[..deck.rows.len()].iter().filter(|r| **r == 0xFFFF);
            assert_eq!(infinite.count(), usual);
        }
    }
}

/// The same chain as a book, compiled.
#[test]
fn passes_of_a_book_grow_one_at_a_time() {
    let mut random = Random(51);
    let mut text = "U d0 -\n".to_owned();
    for link in 1..=30 {
        text.push_str(&format!("U d{link} /r d{}\n", link - 1));
        let compared = compare_deck(compiled(&text), &mut random);
        assert_eq!(compared.counts(), [0, link + 2, 0], "{text}");
    }
}

/// A ladder of kinds whose rules contradict each other by turns: each kind is
/// one level more, and its rank is its place. Rows in order and last first.
#[test]
fn levels_grow_one_at_a_time() {
    let mut random = Random(52);
    for kinds in steps(&[63, 64, 65, 128, MOST_KINDS]) {
        let yes = kinds.div_ceil(2);
        for deck in [ladder(kinds), reversed(ladder(kinds))] {
            let case = Case::new(deck.clone()).with_spare(&mut random);
            let compared = compare(&case, &mut random);
            assert_eq!(compared.counts(), [kinds, 1, yes]);
            let order = &compared.lent.order.lent()[..kinds];
            for (rank, index) in order.iter().enumerate() {
                let row = deck.rows[usize::from(*index)];
                assert_eq!(row, usually(4 + rank, 2 + rank % 2));
            }
        }
    }
}

/// Passes each of which has levels: a chain above a ladder.
#[test]
fn passes_with_levels() {
    let mut random = Random(53);
    let vectors = [(1, 1), (1, 9), (9, 1), (5, 5), (12, 20), (20, 12), (3, 60)];
    for (links, kinds) in vectors {
        let deck = chain_on_a_ladder(links, kinds);
        for deck in [deck.clone(), reversed(deck)] {
            let compared = compare_deck(deck, &mut random);
            assert_eq!(compared.counts(), [kinds, links + 2, 0]);
        }
    }
}

/// Strict rules in a row, told from the far end, so that each round of a
/// naive reader gains one: by "within", by roles, and by pairs.
#[test]
fn strict_chains_in_the_worst_order() {
    let mut random = Random(54);
    // The last within the one before within .. within 2.
    let by_within: Vec<u64> = (2..LAST).map(|kind| within(kind + 1, kind)).collect();
    // Each kind has some of the next by 0, and what has some is in the next.
    let half = NUMBERS / 2;
    let by_roles: Vec<u64> = (2..half)
        .flat_map(|kind| {
            [
                within_some(kind, 0, kind + 1),
                some_within(0, half + kind - 1, half + kind - 2),
                within(kind, half),
            ]
        })
        .collect();
    // 2 and 3 within 4, 3 and 4 within 5, ..; the last within 2 and 3.
    let mut by_pairs: Vec<u64> = (2..LAST - 2)
        .map(|kind| both_within(kind, kind + 1, kind + 2))
        .collect();
    by_pairs.extend([within(LAST, 2), within(LAST, 3)]);
    for mut rows in [by_within, by_roles, by_pairs] {
        rows.extend([query(LAST, 2), query(2, LAST), strict_query(LAST, 2)]);
        rows.extend([usually(LAST, 1), usually(2, 3), usually(100, 200)]);
        for rows in [rows.clone(), rows.into_iter().rev().collect()] {
            let deck = Deck {
                rows,
                numbers: NUMBERS,
                roles: 1,
            };
            compare_deck(deck, &mut random);
        }
    }
}

/// What is nothing at the far end of a chain of roles makes all of it nothing.
#[test]
fn nothing_comes_back_along_a_chain_of_roles() {
    let mut random = Random(55);
    for end in [within(LAST, BOTTOM), usually(LAST, BOTTOM)] {
        let mut rows: Vec<u64> = (2..LAST)
            .map(|kind| within_some(kind, kind % ROLES, kind + 1))
            .collect();
        rows.extend([end, query(2, 3), strict_query(2, 1), usually(2, 3)]);
        for rows in [rows.clone(), rows.into_iter().rev().collect()] {
            let deck = Deck {
                rows,
                numbers: NUMBERS,
                roles: ROLES,
            };
            let compared = compare_deck(deck, &mut random);
            // Row 2 of the table: 2 is within everything there is.
            let row = &compared.lent.table.lent()[2 * SET_WORDS..][..SET_WORDS];
            assert_eq!(row, [u64::MAX; SET_WORDS]);
        }
    }
}

/// The most rows: every row usual with one left, every row usual over a ladder,
/// every row a question, and a ladder and a chain filled up with questions.
#[test]
fn decks_of_the_most_rows() {
    let mut random = Random(56);
    let deck = |rows: Vec<u64>, numbers: usize| Deck {
        rows,
        numbers,
        roles: 1,
    };
    let by_index = |at: fn(usize) -> u64| (0..ROWS).map(at).collect::<Vec<u64>>();
    let fill = |mut deck: Deck, at: fn(usize) -> u64| {
        deck.rows.extend((deck.rows.len()..ROWS).map(at));
        deck
    };
    let decks = [
        deck(by_index(|i| usually(2, 2 + i % 9)), 11),
        deck(
            by_index(|i| usually(i % NUMBERS, (i / NUMBERS + i) % NUMBERS)),
            NUMBERS,
        ),
        deck(by_index(|_| usually(TOP, BOTTOM)), 2),
        deck(by_index(|i| query(i % 30, i / 35)), 30),
        deck(by_index(|i| strict_query(i % 32, i / 32)), 32),
        fill(ladder(40), |i| query(4 + i % 40, 2 + i / 40 % 2)),
        fill(ladder(20), |i| usually(4 + i % 20, 2 + i % 2)),
        fill(chain(30), |i| query(2 + i % 60, 2 + i / 60)),
        fill(chain(30), |i| strict_query(2 + i % 60, 2 + i / 60)),
        fill(chain_on_a_ladder(6, 12), |i| query(2 + i % 26, 2 + i / 40)),
    ];
    for deck in decks {
        assert_eq!(deck.rows.len(), ROWS);
        for deck in [deck.clone(), reversed(deck)] {
            assert_eq!(compare(&Case::new(deck), &mut random).number, 0);
        }
    }
}
