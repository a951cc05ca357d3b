//! Classes that are marked: scores and totals, the counts at their limits, and
//! the buffers. Each call is compared with the plain engine, whole, and with a
//! sitting (see `common::classes`).

use crate::common::books::P1;
use crate::common::classes::{compare_class, compare_sheets, count, key, random_book};
use crate::common::classes::{random_sheets, sheet, ClassCase, ClassLent, SafeLent};
use crate::common::decks::Random;
use crate::common::printed_block;
use shelf::limits::{ROWS, SCORE_NUMBERS, SET_WORDS, SHEETS};

/// Asserts the scores of a class, and that the totals are their sums.
fn marked(text: impl AsRef<[u8]>, sheets: impl AsRef<[u8]>, expected: &[[u16; 3]]) {
    let compared = compare_sheets(text, sheets, &mut Random(130));
    let (scores, totals) = compared.scores();
    assert_eq!(scores, expected);
    let sum = |field: usize| expected.iter().map(|score| u64::from(score[field])).sum();
    assert_eq!(totals, [sum(0), sum(1)]);
}

/// P1 replies no, no, yes, yes.
#[test]
fn a_class_on_p1() {
    let sheets = "nnyy\nyynn\nnnnn\nyyyy\nynyy\n";
    let expected = [[4, 0, 100], [0, 4, 0], [2, 2, 50], [2, 2, 50], [3, 1, 75]];
    marked(P1, sheets, &expected);
}

/// The class that docs/FORMAT.md prints: a line of the book, and behind some a
/// sheet with its score.
#[test]
fn the_class_of_the_document() {
    let (mut book, mut sheets, mut scores) = (String::new(), String::new(), Vec::new());
    for columns in printed_block("A book, its sheets") {
        book += &format!("{}\n", columns[0]);
        if let [_, sheet, score @ ..] = &columns[..] {
            sheets += &format!("{sheet}\n");
            let numbers: Vec<u16> = score.iter().map(|it| it.parse().unwrap()).collect();
            scores.push(<[u16; 3]>::try_from(numbers).unwrap());
        }
    }
    assert_eq!((book.lines().count(), scores.len()), (8, 3));
    marked(book, sheets, &scores);
}

/// Lines of one question so often, answered by yes.
fn all_yes(questions: usize) -> String {
    "K a a\n".repeat(questions)
}

/// A sheet for such lines with the first so many right.
fn right_in(right: usize, questions: usize) -> String {
    "y".repeat(right) + &"n".repeat(questions - right) + "\n"
}

/// Percents worked out by hand, exact halves among them.
#[test]
fn percents_by_hand() {
    let vectors = [
        (1, 8, 13),
        (3, 8, 38),
        (1, 2, 50),
        (1, 3, 33),
        (2, 3, 67),
        (1, 200, 1),
        (1, 201, 0),
        (199, 200, 100),
        (5, 1_000, 1),
        (4, 1_000, 0),
        (0, 1_024, 0),
        (1_024, 1_024, 100),
    ];
    for (right, questions, percent) in vectors {
        let score = [right, questions - right, percent];
        let (right, questions) = (usize::from(right), usize::from(questions));
        marked(all_yes(questions), right_in(right, questions), &[score]);
    }
}

/// Every count of questions to 64 with each count of right, and larger counts with
/// those around each half percent: a half goes up.
#[test]
fn every_percent() {
    let mut random = Random(131);
    let near_halves = |questions: usize| {
        let halves = (1..200).step_by(2).map(move |half| half * questions / 200);
        let mut near: Vec<usize> = halves.flat_map(|right| [right, right + 1]).collect();
        near.dedup();
        near
    };
    let small = (1..=64).map(|questions| (questions, (0..=questions).collect()));
    let large = [100, 200, 256, 333, 1_000, 1_023, 1_024].map(|all| (all, near_halves(all)));
    for (questions, rights) in small.chain(large) {
        for rights in rights.chunks(SHEETS) {
            let sheets: String = rights.iter().map(|it| right_in(*it, questions)).collect();
            let case = ClassCase::new(all_yes(questions), sheets);
            let (scores, _) = compare_class(&case, &mut random).scores();
            for (right, score) in rights.iter().zip(scores) {
                let [found, wrong, percent] = score.map(usize::from);
                assert_eq!((found, wrong), (*right, questions - right));
                // The nearest whole percent, the upper one at an exact half.
                assert!(2 * questions * percent <= 200 * right + questions);
                assert!(200 * right + questions < 2 * questions * (percent + 1));
            }
        }
    }
}

/// 4,000 random classes of random books are marked alike, each sheet as its bytes
/// say. Some books have no question.
#[test]
fn random_classes_are_marked_alike() {
    let mut random = Random(132);
    let (mut numbers, mut met) = ([0; 24], [0; 4]);
    for turn in 0..4_000 {
        let text = random_book(&mut random, turn);
        let key = key(&text);
        let all = match random.below(8) {
            0 => 0,
            1 => SHEETS,
            2..5 => random.from(1, SHEETS),
            _ => random.from(1, 8),
        };
        let sheets = random_sheets(&mut random, &key, all);
        let case = ClassCase::new(text, sheets).with_spare(&mut random);
        let compared = compare_class(&case, &mut random);
        numbers[compared.number as usize] += 1;
        if compared.number == 0 {
            let (scores, totals) = compared.scores();
            assert_eq!(scores.len(), all, "{case:?}");
            let sum = |score: &[u16; 3]| usize::from(score[0] + score[1]);
            assert!(scores.iter().all(|score| sum(score) == key.len()));
            let percents = scores.iter().map(|score| score[2]);
            met[0] += all;
            met[1] += percents
                .filter(|percent| !matches!(percent, 0 | 100))
                .count();
            met[2] += totals[0] as usize;
            met[3] += totals[1] as usize;
        }
    }
    assert_eq!(numbers[0] + numbers[21], 4_000, "{numbers:?}");
    assert!(numbers[0] > 3_500 && numbers[21] > 50, "{numbers:?}");
    assert!(met[0] > 50_000 && met[1] > 30_000, "{met:?}");
    assert!(met[2] > 250_000 && met[3] > 250_000, "{met:?}");
}

/// No sheets are a class: on a book with a question the totals are 0.
#[test]
fn no_sheets() {
    marked(P1, "", &[]);
    marked("K a a\n", "", &[]);
}

/// The most sheets, with a report that is just long enough, and longer ones.
#[test]
fn the_most_sheets() {
    for questions in [1, 2, 63, 64, 65] {
        for all in [1, 2, SHEETS - 1, SHEETS] {
            let right = |sheet: usize| sheet % (questions + 1);
            let sheets: String = (0..all).map(|it| right_in(right(it), questions)).collect();
            let mut case = ClassCase::new(all_yes(questions), sheets);
            for report in [SCORE_NUMBERS * all, SCORE_NUMBERS * all + 1, 500] {
                case.report = report;
                let (scores, _) = compare_class(&case, &mut Random(133)).scores();
                let found: Vec<usize> = scores.iter().map(|it| usize::from(it[0])).collect();
                assert_eq!(found, (0..all).map(right).collect::<Vec<usize>>());
            }
        }
    }
}

/// The most questions and the most sheets: the totals don't fit 16 bits.
#[test]
fn the_largest_class() {
    let most = (ROWS * SHEETS) as u64;
    assert_eq!(most, 65_536);
    let all_right = vec![[ROWS as u16, 0, 100]; SHEETS];
    let all_wrong = vec![[0, ROWS as u16, 0]; SHEETS];
    let by_turns = "K a a\nQ a b\n".repeat(ROWS / 2);
    for text in [all_yes(ROWS), "Q a b\n".repeat(ROWS), by_turns] {
        let key = key(text.as_bytes());
        assert_eq!(key.len(), ROWS);
        let right = sheet(&key, |_| false).repeat(SHEETS);
        let wrong = sheet(&key, |_| true).repeat(SHEETS);
        assert_eq!(right.len(), (ROWS + 1) * SHEETS);
        marked(&text, right, &all_right);
        marked(&text, wrong, &all_wrong);
        let half = sheet(&key, |question| question % 2 == 0).repeat(SHEETS);
        marked(&text, half, &vec![[512, 512, 50]; SHEETS]);
    }
}

/// Each question is held against its own reply: a sheet that is wrong in one place
/// has one wrong, wherever that is.
#[test]
fn one_wrong_at_each_place() {
    let mut random = Random(134);
    let text = [random_book(&mut random, 0), P1.as_bytes().repeat(3)].concat();
    let key = key(&text);
    assert!((12..SHEETS).contains(&key.len()), "{}", key.len());
    let sheets: Vec<u8> = (0..key.len())
        .flat_map(|place| sheet(&key, |question| question == place))
        .collect();
    let case = ClassCase::new(&text, sheets);
    let (scores, _) = compare_class(&case, &mut random).scores();
    let questions = key.len() as u16;
    assert!(scores.iter().all(|score| score[..2] == [questions - 1, 1]));
}

/// 400 classes, each over buffers of zeros, of ones, and twice over random
/// leftovers: the same is written, and the rest is kept.
#[test]
fn different_leftovers_give_the_same() {
    let mut random = Random(135);
    for turn in 0..400 {
        let text = [&random_book(&mut random, turn)[..], b"K a a\n"].concat();
        let all = random.below(9);
        let sheets = random_sheets(&mut random, &key(&text), all);
        let case = ClassCase::new(text, sheets).with_spare(&mut random);
        let starts = [
            ClassLent::filled(&case, 0),
            ClassLent::filled(&case, u64::MAX),
            ClassLent::leftovers(&case, &mut random),
            ClassLent::leftovers(&case, &mut random),
        ];
        let mut first = None;
        for before in starts {
            let mut lent = before.clone();
            assert_eq!(lent.call(), 0, "{case:?}");
            let found = written(&case, &before, &lent);
            let expected = first.get_or_insert_with(|| found.clone());
            assert_eq!(&found, expected, "{case:?}");
        }
    }
}

/// The 64-bit numbers that a call writes, of the answer, the deck and the table,
/// and the 16-bit ones, of the results, the order and the report.
type Written = ([Vec<u64>; 3], [Vec<u16>; 3]);

/// What was written, cut off the buffers; what lies beyond is as it was.
fn written(case: &ClassCase, before: &ClassLent, after: &ClassLent) -> Written {
    let compiled = shelf::compile(&case.book.text).unwrap();
    let rows = compiled.deck.len();
    let usual = compiled.deck.iter().filter(|row| **row >> 60 == 5).count();
    let words = SET_WORDS * compiled.sizes.numbers;
    let numbers = SCORE_NUMBERS * count(&case.sheets);
    let mut kept = after.clone();
    let (to, from) = (&mut kept.sitting, &before.sitting);
    let wide = [
        taken(to.answer.lent_mut(), from.answer.lent(), 2),
        taken(to.deck.lent_mut(), from.deck.lent(), rows),
        taken(to.table.lent_mut(), from.table.lent(), words),
    ];
    let narrow = [
        taken(to.results.lent_mut(), from.results.lent(), rows),
        taken(to.order.lent_mut(), from.order.lent(), usual),
        taken(kept.report.lent_mut(), before.report.lent(), numbers),
    ];
    assert_eq!(&kept, before, "what is beyond is kept: {case:?}");
    (wide, narrow)
}

/// The first so many of a buffer, which get back what they were.
fn taken<T: Copy>(buffer: &mut [T], before: &[T], length: usize) -> Vec<T> {
    let taken = buffer[..length].to_vec();
    buffer[..length].copy_from_slice(&before[..length]);
    taken
}

/// The scores of a class, as a report has them.
fn report_of(marks: &shelf::Marks) -> Vec<u16> {
    let scores = marks.scores.iter();
    let numbers = scores.map(|score| [score.right, score.wrong, score.percent]);
    numbers.flatten().collect()
}

/// 500 classes one after the other in one set of buffers, never cleared: each is
/// marked as in buffers of its own, and a refused class in between leaves the
/// buffers of the one before.
#[test]
fn buffers_used_again_and_again() {
    let mut random = Random(136);
    let mut lent = SafeLent::of_sevens(SCORE_NUMBERS * SHEETS);
    for turn in 0..500 {
        let text = [&random_book(&mut random, turn)[..], b"K a a\n"].concat();
        let all = random.below(SHEETS);
        let sheets = random_sheets(&mut random, &key(&text), all);
        let totals = lent.mark(&text, &sheets).unwrap();
        let refused = lent
            .mark(&text, &[&sheets[..], b"?\n"].concat())
            .unwrap_err();
        assert_eq!(refused.refusal, shelf::Refusal::WrongSheet);
        assert_eq!(refused.place, all);
        let marks = shelf::mark(&text, &sheets).unwrap();
        assert_eq!((marks.totals, marks.scores.len()), (totals, all));
        assert_eq!(lent.report[..SCORE_NUMBERS * all], report_of(&marks));
        let shelf::Evaluated {
            compiled,
            classified,
        } = shelf::evaluate(&text).unwrap();
        let rows = compiled.deck.len();
        assert_eq!(lent.deck[..rows], compiled.deck);
        assert_eq!(lent.table[..classified.table.len()], classified.table);
        assert_eq!(lent.results[..rows], classified.results);
        assert_eq!(lent.order[..classified.order.len()], classified.order);
    }
}
