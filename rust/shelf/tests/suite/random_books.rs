//! Random books, in order and damaged: the whole of every buffer as the plain
//! engine leaves it, and the replies of the lines as they stand.

use crate::common::books::{damage, near_limits, FAMILIES};
use crate::common::decks::Random;
use crate::common::met::Met;
use crate::common::texts::{
    compare_calls, compare_text, compare_with_lines, Call, TextCase, CALLS,
};

impl Met {
    /// Both calls of both engines on a text.
    fn compare_text(&mut self, text: Vec<u8>, random: &mut Random) {
        let case = TextCase::new(text).with_spare(random);
        let settled = compare_calls(&case, random);
        self.numbers[settled.number as usize] += 1;
        if settled.number == 0 {
            let [lines, rows, _, _, levels, passes, _] = settled.counts();
            self.nested += usize::from(rows > lines);
            let lent = settled.lent;
            let (results, table) = (lent.results.lent(), lent.table.lent());
            self.settled([levels, passes], lent.rows(), results, table);
        }
    }
}

/// 24,000 random books of seven families are compiled and settled alike.
#[test]
fn random_books_settle_alike() {
    let mut random = Random(100);
    let mut met = Met::default();
    for (family, count) in FAMILIES {
        for _ in 0..count {
            met.compare_text(family(&mut random), &mut random);
        }
    }
    assert_eq!(met.numbers[0], 24_000, "every book is accepted");
    assert!(met.most_levels >= 8 && met.most_passes >= 8, "{met:?}");
    assert!(met.levels > 1_500 && met.passes > 1_500, "{met:?}");
    assert!(met.infinite > 5_000 && met.no_model > 1_500, "{met:?}");
    assert!(met.yes > 5_000 && met.no > 5_000, "{met:?}");
    assert!(met.nested > 15_000, "{met:?}");
}

/// 15,000 random books with one to three bytes changed, put in or taken out
/// are settled or refused alike.
#[test]
fn damaged_books_are_settled_or_refused_alike() {
    let mut random = Random(101);
    let mut met = Met::default();
    for index in 0..15_000 {
        let (family, _) = FAMILIES[index % FAMILIES.len()];
        let mut text = family(&mut random);
        for _ in 0..random.from(1, 3) {
            damage(&mut random, &mut text);
        }
        met.compare_text(text, &mut random);
    }
    for (number, least) in [(0, 500), (3, 5_000), (4, 100)] {
        assert!(met.numbers[number] > least, "{number}: {met:?}");
    }
}

/// 1,500 books near the limits of numbers, roles, levels, words and rows,
/// damaged up to twice, are compiled or refused alike; of the accepted ones
/// the first few are settled too.
#[test]
fn books_near_the_limits_are_settled_or_refused_alike() {
    let mut random = Random(102);
    let mut numbers = [0; 9];
    for _ in 0..1_500 {
        let mut text = near_limits(&mut random);
        for _ in 0..random.below(3) {
            damage(&mut random, &mut text);
        }
        let case = TextCase::new(text).with_spare(&mut random);
        let number = compare_text(Call::Compile, &case, &mut random).number;
        numbers[number as usize] += 1;
        if number != 0 || numbers[0] <= 12 {
            let settled = compare_text(Call::Evaluate, &case, &mut random);
            assert_eq!(settled.number, number, "{case:?}");
        }
    }
    for number in [0, 3, 4, 5, 6, 7, 8] {
        assert!(numbers[number] > 10, "{number}: {numbers:?}");
    }
}

/// 4,000 texts of random bytes, most of them from the grammar's, are settled
/// or refused alike.
#[test]
fn random_bytes_are_settled_or_refused_alike() {
    let mut random = Random(103);
    let mut met = Met::default();
    for index in 0..4_000 {
        let text: Vec<u8> = (0..random.below(24))
            .map(|_| match index % 4 {
                0 => random.next() as u8,
                _ => random.pick(b"SUQK    &/*-ab0\n\n"),
            })
            .collect();
        met.compare_text(text, &mut random);
    }
    assert!(met.numbers[3] > 3_000, "{met:?}");
}

/// Calls with lengths a little off are settled or refused alike.
#[test]
fn calls_with_lengths_off_are_settled_or_refused_alike() {
    let mut random = Random(104);
    let mut numbers = [0; 9];
    for index in 0..6_000 {
        let (family, _) = FAMILIES[index % FAMILIES.len()];
        let mut text = family(&mut random);
        if random.once_in(3) {
            damage(&mut random, &mut text);
        }
        let mut case = TextCase::new(text).with_spare(&mut random);
        for _ in 0..random.from(1, 2) {
            let field = match random.below(5) {
                0 => &mut case.deck,
                1 => &mut case.table,
                2 => &mut case.results,
                3 => &mut case.order,
                _ => &mut case.answer,
            };
            *field = random.near(*field);
        }
        for call in CALLS {
            numbers[compare_text(call, &case, &mut random).number as usize] += 1;
        }
    }
    for number in [0, 2, 3] {
        assert!(numbers[number] > 500, "{number}: {numbers:?}");
    }
}

/// Settled from their text, books have the replies, ranks and counts that the
/// plain engine gives their own nested lines.
#[test]
fn random_books_have_the_replies_of_their_lines_as_they_stand() {
    let mut random = Random(105);
    for index in 0..6_000 {
        let (family, _) = FAMILIES[index % FAMILIES.len()];
        let text = family(&mut random);
        compare_with_lines(&text, &shelf::evaluate(&text).unwrap().classified);
    }
}
