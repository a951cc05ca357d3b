//! The order: each usual row once, by rank, infinite last, and within a rank as
//! in the deck.

use crate::common::books::lines;
use crate::common::decks::{ladder, reversed, usually, Deck, Random, BOTTOM, FAMILIES, TOP};
use crate::common::texts::compare_book;
use crate::common::{compare, compare_deck, printed_block, Case, Compared, FORMAT};
use shelf::limits::{NUMBERS, ROWS};
use shelf::{Evaluated, Rank};

/// Two rules of each rank, with the rank of each; `usize::MAX` is oo.
const RULES: [(&str, usize); 6] = [
    ("U - a\n", usize::MAX),
    ("U clone hidden\n", 1),
    ("U set shown\n", 0),
    ("U set art\n", 0),
    ("U - b\n", usize::MAX),
    ("U clone new\n", 1),
];

/// What makes a clone exceptional.
const STRICT: &str = "S clone set\nS & shown hidden -\n";

/// The book of the rules, the strict lines standing before the rule `strict_at`.
fn book(rules: &[(&str, usize); 6], strict_at: usize) -> String {
    let (before, behind) = rules.split_at(strict_at);
    let text = |rules: &[(&str, usize)]| rules.iter().map(|rule| rule.0).collect::<String>();
    text(before) + STRICT + &text(behind)
}

/// The places of the rules in that book, by their ranks as they are written here.
fn by_hand(rules: &[(&str, usize); 6], strict_at: usize) -> Vec<u16> {
    let mut order = Vec::new();
    for rank in [0, 1, usize::MAX] {
        for (place, rule) in rules.iter().enumerate() {
            if rule.1 == rank {
                order.push((place + if place < strict_at { 0 } else { 2 }) as u16);
            }
        }
    }
    order
}

/// Every order of a list.
fn orders<T: Copy, const COUNT: usize>(values: [T; COUNT]) -> Vec<[T; COUNT]> {
    fn go<T: Copy, const COUNT: usize>(values: [T; COUNT], from: usize, all: &mut Vec<[T; COUNT]>) {
        if from == COUNT {
            all.push(values);
        }
        for next in from..COUNT {
            let mut values = values;
            values.swap(from, next);
            go(values, from + 1, all);
        }
    }
    let mut all = Vec::new();
    go(values, 0, &mut all);
    all
}

/// The book that docs/FORMAT.md prints, each usual line with its rank and its place
/// in the order. It is that of the proofs (`tied`), with the order that they have.
#[test]
fn the_book_of_the_document() {
    let (mut text, mut ranked) = (String::new(), Vec::new());
    let lines = printed_block("the rank of each usual line and its place in the order");
    for (index, columns) in lines.iter().enumerate() {
        text += &format!("{}\n", columns[0]);
        if let [_, rank, place] = columns[..] {
            let rank = match rank {
                "oo" => Rank::Infinite,
                level => Rank::Finite(level.parse().unwrap()),
            };
            ranked.push((place.parse::<usize>().unwrap(), index, rank));
        }
    }
    assert_eq!((text.as_str(), ranked.len()), (book(&RULES, 3).as_str(), 6));
    let settled = shelf::evaluate(text.as_bytes()).unwrap();
    let Evaluated {
        compiled,
        classified,
    } = settled;
    assert_eq!(classified.order, [2, 5, 1, 7, 0, 6]);
    assert!(FORMAT.contains("in the order, which is 2 5 1 7 0 6:\n"));
    for (place, index, rank) in ranked {
        assert_eq!(usize::from(classified.order[place]), index);
        assert_eq!(classified.rank(index), Some(rank));
    }
    assert_eq!(shelf::classify(&compiled.deck, 11, 0), Ok(classified));
}

/// Its six rules in each of their 720 orders, the strict lines before, among or
/// behind them: the order as it is written by hand.
#[test]
fn ties_in_each_of_their_orders() {
    let mut random = Random(130);
    for (turn, rules) in orders(RULES).into_iter().enumerate() {
        let strict_at = turn % 7;
        let text = book(&rules, strict_at);
        let compared = compare_book(&text, &mut random);
        let order = &compared.lent.order.lent()[..6];
        assert_eq!(order, by_hand(&rules, strict_at), "{text}");
    }
}

/// The order of an accepted call: the usual rows by their results, and where these
/// are the same by their index.
fn checked(case: &Case, compared: &Compared) -> Vec<u16> {
    assert_eq!(compared.number, 0, "{case:?}");
    let results = compared.lent.results.lent();
    let mut expected = case.usual();
    expected.sort_by_key(|index| (results[usize::from(*index)], *index));
    let order = &compared.lent.order.lent()[..expected.len()];
    assert_eq!(order, expected, "{case:?}");
    expected
}

/// What decks of a run have: ties of a finite rank, of the infinite one, and an
/// order that is not the deck's own.
#[derive(Debug, Default)]
struct Seen {
    finite: usize,
    infinite: usize,
    both: usize,
    moved: usize,
}

impl Seen {
    fn count(&mut self, order: &[u16], ranks: &[u16]) {
        let tied = |infinite: bool| {
            let mut ties = ranks.windows(2).filter(|two| two[0] == two[1]);
            ties.any(|two| (two[0] == 0xFFFF) == infinite)
        };
        self.finite += usize::from(tied(false));
        self.infinite += usize::from(tied(true));
        self.both += usize::from(tied(false) && tied(true));
        self.moved += usize::from(!order.is_sorted());
    }
}

/// 6,000 random decks: 3,000, and each again with its rows in another order. The
/// ranks along the order are the same for both.
#[test]
fn random_decks_have_their_ties_in_deck_order() {
    let mut random = Random(131);
    let mut seen = Seen::default();
    for turn in 0..3_000 {
        let (family, _) = FAMILIES[turn % FAMILIES.len()];
        let deck = family(&mut random);
        let mut shuffled = deck.clone();
        random.shuffle(&mut shuffled.rows);
        let [here, there] = [deck, shuffled].map(|deck| {
            let case = Case::new(deck).with_spare(&mut random);
            let compared = compare(&case, &mut random);
            let order = checked(&case, &compared);
            let results = compared.lent.results.lent();
            let ranks = order.iter().map(|index| results[usize::from(*index)]);
            let ranks: Vec<u16> = ranks.collect();
            seen.count(&order, &ranks);
            ranks
        });
        assert_eq!(here, there);
    }
    assert!(seen.finite > 1_000 && seen.infinite > 1_000, "{seen:?}");
    assert!(seen.both > 100 && seen.moved > 1_000, "{seen:?}");
}

/// The most rows that there can be, all usual, their rights falling: of rank 0, of
/// infinite rank, and by turns.
#[test]
fn full_decks_of_one_rank_and_of_two() {
    let mut random = Random(132);
    let all: Vec<u16> = (0..ROWS as u16).collect();
    let (even, odd): (Vec<u16>, Vec<u16>) = all.iter().partition(|index| *index % 2 == 0);
    let of = |left: fn(usize) -> usize| Deck {
        rows: (0..ROWS)
            .map(|index| usually(left(index), NUMBERS - 1 - index % (NUMBERS - 2)))
            .collect(),
        numbers: NUMBERS,
        roles: 0,
    };
    let decks = [
        (of(|_| TOP), all.clone()),
        (of(|_| BOTTOM), all),
        (
            of(|index| (index + 1) % 2),
            [odd.clone(), even.clone()].concat(),
        ),
        (of(|index| index % 2), [even, odd].concat()),
    ];
    for (deck, expected) in decks {
        let compared = compare_deck(deck, &mut random);
        assert_eq!(compared.number, 0);
        assert_eq!(compared.lent.order.lent()[..ROWS], expected);
    }
}

/// A ladder's usual rows, in the order of their ranks or last first, and behind them
/// three more of each left, which say nothing: each rank's four in deck order.
#[test]
fn every_rank_of_a_ladder_has_its_ties_in_deck_order() {
    let mut random = Random(133);
    let kinds = ROWS / 6;
    for mut deck in [ladder(kinds), reversed(ladder(kinds))] {
        let usual = deck.rows.iter().filter(|row| **row >> 60 == 5);
        let lefts: Vec<usize> = usual.map(|row| left_of(*row)).collect();
        deck.rows
            .extend(lefts.iter().map(|left| usually(*left, *left)));
        deck.rows
            .extend(lefts.iter().map(|left| usually(*left, TOP)));
        deck.rows.extend(lefts.iter().map(|left| usually(*left, 4)));
        let case = Case::new(deck);
        let order = checked(&case, &compare(&case, &mut random));
        assert_eq!(order.len(), 4 * kinds);
        for (rank, ties) in order.chunks(4).enumerate() {
            assert!(ties.is_sorted());
            let lefts = ties
                .iter()
                .map(|index| left_of(case.rows[usize::from(*index)]));
            assert_eq!(lefts.collect::<Vec<_>>(), [4 + rank; 4]);
        }
    }
}

/// The left of a row of kind 5.
fn left_of(row: u64) -> usize {
    (row >> 32 & 0xFFFF) as usize
}

/// As many lines of one rank as a book can have, their words falling.
#[test]
fn lines_of_one_rank_stand_in_their_order() {
    let mut random = Random(134);
    let words = NUMBERS - 3;
    let book = lines(ROWS, |line| format!("U a w{}\n", 999 - line % words));
    let compared = compare_book(&book, &mut random);
    let expected: Vec<u16> = (0..ROWS as u16).collect();
    assert_eq!(compared.lent.order.lent()[..ROWS], expected);
}
