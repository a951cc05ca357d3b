//! Random decks, in order and damaged: the whole of every buffer as the plain
//! engine leaves it.

use crate::common::decks::{self, Deck, Random, FAMILIES, MIXES};
use crate::common::met::Met;
use crate::common::texts::compare_with_lines;
use crate::common::{compare, Case};
use shelf::limits::{LEAST_NUMBERS, NUMBERS, ROLES};

impl Met {
    /// Both engines on a call.
    fn compare_deck(&mut self, case: &Case, random: &mut Random) {
        let compared = compare(case, random);
        self.numbers[compared.number as usize] += 1;
        if compared.number == 0 {
            let [levels, passes, _] = compared.counts();
            let lent = compared.lent;
            let (results, table) = (lent.results.lent(), lent.table.lent());
            self.settled([levels, passes], &case.rows, results, table);
        }
    }
}

/// 27,000 random decks of ten families are settled alike.
#[test]
fn random_decks_settle_alike() {
    let mut random = Random(1);
    let mut met = Met::default();
    for (family, count) in FAMILIES {
        for _ in 0..count {
            let case = Case::new(family(&mut random)).with_spare(&mut random);
            met.compare_deck(&case, &mut random);
        }
    }
    assert_eq!(met.numbers[0], 27_000, "every deck is accepted");
    assert!(met.most_levels >= 16 && met.most_passes >= 14);
    assert!(met.levels > 3_000 && met.passes > 3_000);
    assert!(met.infinite > 5_000 && met.no_model > 1_500);
    assert!(met.yes > 5_000 && met.no > 5_000);
}

/// 12,000 random decks with random bits flipped are settled or refused alike.
#[test]
fn decks_with_flipped_bits_are_settled_or_refused_alike() {
    let mut random = Random(2);
    let mut met = Met::default();
    for index in 0..12_000 {
        let (family, _) = FAMILIES[index % FAMILIES.len()];
        let mut deck = family(&mut random);
        for _ in 0..random.from(1, 3) {
            if !deck.rows.is_empty() {
                let row = random.below(deck.rows.len());
                deck.rows[row] ^= 1 << random.below(64);
            }
        }
        let case = Case::new(deck).with_spare(&mut random);
        met.compare_deck(&case, &mut random);
    }
    for number in [0, 15, 16, 17, 18] {
        assert!(met.numbers[number] > 200, "{number}: {:?}", met.numbers);
    }
}

/// 6,000 random decks with counts or lengths a little off are settled or
/// refused alike.
#[test]
fn calls_with_counts_and_lengths_off_are_settled_or_refused_alike() {
    let mut random = Random(3);
    let mut met = Met::default();
    for index in 0..6_000 {
        let (family, _) = FAMILIES[index % FAMILIES.len()];
        let mut case = Case::new(family(&mut random)).with_spare(&mut random);
        for _ in 0..random.from(1, 2) {
            let field = match random.below(6) {
                0 => &mut case.numbers,
                1 => &mut case.roles,
                2 => &mut case.table,
                3 => &mut case.results,
                4 => &mut case.order,
                _ => &mut case.answer,
            };
            *field = random.near(*field);
        }
        met.compare_deck(&case, &mut random);
    }
    for number in [0, 2, 11, 12, 14, 17, 18] {
        assert!(met.numbers[number] > 20, "{number}: {:?}", met.numbers);
    }
}

/// Random 64-bit numbers as rows, whatever they say, are refused alike.
#[test]
fn random_bits_are_refused_alike() {
    let mut random = Random(4);
    for _ in 0..3_000 {
        let rows = random.below(5);
        let deck = Deck {
            rows: (0..rows).map(|_| random.next()).collect(),
            numbers: random.from(LEAST_NUMBERS, NUMBERS),
            roles: random.below(ROLES + 1),
        };
        compare(&Case::new(deck).with_spare(&mut random), &mut random);
    }
}

/// Decks of the most numbers and rows, one of each mix, are settled alike.
#[test]
fn random_decks_of_the_greatest_size_settle_alike() {
    let mut random = Random(5);
    for (_, kinds, exclusions) in MIXES {
        let deck = decks::full_size(&mut random, kinds, exclusions);
        let compared = compare(&Case::new(deck), &mut random);
        assert_eq!(compared.number, 0);
    }
}

/// A book's deck, settled by the engine, has the replies and ranks that the
/// plain engine gives the book's own nested lines.
#[test]
fn random_books_have_the_replies_of_their_nested_lines() {
    let mut random = Random(6);
    for _ in 0..2_000 {
        let text = decks::book(&mut random);
        let deck = decks::compiled(&text);
        let settled = shelf::classify(&deck.rows, deck.numbers, deck.roles).unwrap();
        compare_with_lines(text.as_bytes(), &settled);
    }
}
