//! The decks that the benchmark times, but for the hard ones.

use super::decks::{self, both_within, usually, within, within_some};
use super::decks::{Deck, Random, BOTTOM, MIXES};
use super::hard::{filled, on_a_ladder, Size};
use shelf::limits::{NUMBERS, ROWS};

/// The greatest size.
pub const MOST: Size = Size {
    numbers: NUMBERS,
    rows: ROWS,
};

/// The decks on which both engines are timed, by name; one is that of P1.
pub fn compared(p1: &str) -> Vec<(String, Deck)> {
    let mut random = Random(81);
    let mut decks = vec![("small: P1".to_owned(), decks::compiled(p1))];
    for (name, kinds, exclusions) in MIXES {
        let deck = decks::sized(&mut random, kinds, exclusions / 3, 64, 200);
        decks.push((format!("middle: {name}"), deck));
    }
    for (name, kinds, exclusions) in MIXES {
        let deck = decks::full_size(&mut random, kinds, exclusions);
        decks.push((format!("full: {name}"), deck));
    }
    let (kinds, links) = (NUMBERS - 4, NUMBERS / 2 - 2);
    let ladder = filled(decks::ladder(kinds), MOST);
    let chain = filled(decks::chain(links), MOST);
    decks.push(("hard: chain on a ladder".to_owned(), on_a_ladder(64)));
    decks.push((format!("full: {kinds} levels"), ladder));
    decks.push((format!("full: {} passes", links + 2), chain));
    decks
}

/// Decks that differ in one count only.
pub struct Growth {
    pub title: &'static str,
    pub varied: &'static str,
    pub counts: &'static [usize],
    pub deck: fn(usize) -> Deck,
}

/// Counts of rows, each twice the one before.
const ROW_COUNTS: &[usize] = &[
    ROWS / 64,
    ROWS / 32,
    ROWS / 16,
    ROWS / 8,
    ROWS / 4,
    ROWS / 2,
    ROWS,
];

/// The series of such decks.
pub const GROWTHS: [Growth; 4] = [
    Growth {
        title: "Growth with rows (all kinds, the most numbers, 2 roles)",
        varied: "rows",
        counts: ROW_COUNTS,
        deck: |rows| decks::sized(&mut Random(82), MIXES[0].1, 0, NUMBERS, rows),
    },
    Growth {
        title: "Growth with rows (usual rules of one level)",
        varied: "rows",
        counts: ROW_COUNTS,
        deck: |rows| Deck {
            rows: (0..rows).map(|i| usually(2 + i % 200, 202)).collect(),
            numbers: 203,
            roles: 0,
        },
    },
    Growth {
        title: "Growth with levels (a ladder of 240 kinds)",
        varied: "levels",
        counts: &[1, 2, 4, 8, 16, 32, 64, 128, 240],
        deck: ladder_with_levels,
    },
    Growth {
        title: "Growth with passes (a chain of 120 links)",
        varied: "passes",
        counts: &[2, 4, 8, 16, 32, 64, 122],
        deck: chain_with_passes,
    },
];

/// A ladder of 240 kinds whose rules change sides this many times less one:
/// the same numbers and rows for any count of levels.
fn ladder_with_levels(levels: usize) -> Deck {
    let kinds = 240;
    let mut rows = vec![both_within(2, 3, BOTTOM)];
    for kind in 0..kinds {
        let side = kind * levels / kinds % 2;
        rows.push(usually(4 + kind, 2 + side));
        if kind > 0 {
            rows.push(within(4 + kind, 3 + kind));
        }
    }
    Deck {
        rows,
        numbers: 4 + kinds,
        roles: 0,
    }
}

/// A chain of 120 links of which so many hang together: the same numbers and
/// rows for any count of passes.
fn chain_with_passes(passes: usize) -> Deck {
    let links = 120;
    let mut deck = decks::chain(links);
    deck.numbers += 1;
    // A link beyond those asks for some of a number that nothing is said of.
    for link in passes.saturating_sub(1)..=links {
        if link > 0 {
            let some = 2 * link + 1;
            deck.rows[3 * link - 1] = within_some(some, 0, deck.numbers - 1);
        }
    }
    deck
}
