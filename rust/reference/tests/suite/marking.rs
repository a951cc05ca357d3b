//! Marking: sheets, scores, the rounding of percents, and refusals 21 to 23.

use crate::common::{random_lines, write_lines, Random, Words, P1};
use shelf_reference::limits::{ROWS, SCORE_NUMBERS, SHEETS, TABLE_WORDS};
use shelf_reference::marking::{key, percent, sheets};
use shelf_reference::{evaluate, mark, mark_lent, read, settle_text, Kind, Marked, Refused};

/// P1 asks four questions; the replies are no, no, yes, yes.
const P1_KEY: &str = "nnyy\n";

/// Right, wrong and percent of each sheet.
fn scores(marked: &Marked) -> Vec<[usize; 3]> {
    let scores = marked.scores.iter();
    scores
        .map(|score| [score.right, score.wrong, score.percent])
        .collect()
}

/// Asserts the scores of a class, and that the totals are their sums.
#[track_caller]
fn marked(text: &str, class: &str, expected: &[[usize; 3]]) {
    let marked = mark(text.as_bytes(), class.as_bytes()).expect("the class is marked");
    assert_eq!(scores(&marked), expected);
    let sum = |field: usize| expected.iter().map(|score| score[field]).sum::<usize>();
    assert_eq!([marked.totals.right, marked.totals.wrong], [sum(0), sum(1)]);
}

/// Asserts the refusal's number and place.
#[track_caller]
fn refused(found: Result<Marked, Refused>, number: u64, place: usize) {
    let found = found.expect_err("the class is refused");
    assert_eq!((found.number(), found.place), (number, place));
}

/// A class on P1, with a report of this length.
fn p1_with_report(class: &str, report: usize) -> Result<Marked, Refused> {
    let (text, class) = (P1.as_bytes(), class.as_bytes());
    mark_lent(text, class, ROWS, TABLE_WORDS, ROWS, ROWS, report)
}

#[test]
fn a_class_on_p1() {
    let class = "nnyy\nyynn\nnnnn\nyyyy\nynyy\n";
    let expected = [[4, 0, 100], [0, 4, 0], [2, 2, 50], [2, 2, 50], [3, 1, 75]];
    marked(P1, class, &expected);
    marked(P1, "", &[]);
}

/// The scope's example: one right in eight gives 13.
#[test]
fn one_right_in_eight_is_13() {
    let eight = "K a a\n".repeat(8);
    marked(&eight, "nnnnnnny\n", &[[1, 7, 13]]);
    marked(&eight, "yynynnnn\n", &[[3, 5, 38]]);
}

/// The nearest whole percent, a half going up, for every count of questions
/// that there can be.
#[test]
fn percents_are_rounded_to_the_nearest() {
    let vectors = [(1, 3, 33), (2, 3, 67), (1, 6, 17), (5, 6, 83)];
    for (part, all, expected) in vectors {
        assert_eq!(percent(part, all), expected);
    }
    assert_eq!([percent(1, 200), percent(1, 201)], [1, 0]);
    assert_eq!([percent(199, 200), percent(200, 201)], [100, 100]);
    for all in 1..=ROWS {
        assert_eq!([percent(0, all), percent(all, all)], [0, 100]);
        for part in 0..=all {
            // The least that is not further below than a half.
            let found = percent(part, all);
            assert!(200 * part < all * (2 * found + 1));
            assert!(found == 0 || 200 * part >= all * (2 * found - 1));
        }
    }
}

/// The sheets are the text again, each ends with its only line feed, and only
/// the last may lack it.
#[test]
fn the_sheets_of_a_text() {
    let mut random = Random(60);
    for length in 0..400 {
        let class: Vec<u8> = (0..length).map(|_| random.pick(b"yn\n\nx")).collect();
        let all: Vec<&[u8]> = sheets(&class).collect();
        assert_eq!(all.concat(), class);
        let feeds = |sheet: &&[u8]| sheet.iter().filter(|byte| **byte == b'\n').count();
        let Some((last, others)) = all.split_last() else {
            assert!(class.is_empty());
            continue;
        };
        assert!(others.iter().all(|sheet| sheet.ends_with(b"\n")));
        assert!(others.iter().all(|sheet| feeds(sheet) == 1));
        assert!(!last.is_empty());
        assert_eq!(feeds(last), usize::from(last.ends_with(b"\n")));
    }
}

/// A book without a question is 21 whatever the sheets are, and no sheets on one
/// with a question are marked.
#[test]
fn a_book_without_a_question_is_21() {
    for text in ["", "S a b\n", "S a b\nU a c\n"] {
        for class in ["", "\n", "y\n", "?", &"y\n".repeat(65)] {
            refused(mark(text.as_bytes(), class.as_bytes()), 21, 0);
        }
    }
}

#[test]
fn more_than_64_sheets_or_a_short_report_is_22() {
    assert_eq!(
        mark(P1.as_bytes(), P1_KEY.repeat(SHEETS).as_bytes())
            .unwrap()
            .totals
            .right,
        256
    );
    refused(
        mark(P1.as_bytes(), P1_KEY.repeat(SHEETS + 1).as_bytes()),
        22,
        0,
    );
    let unended = P1_KEY.repeat(SHEETS) + "n";
    refused(mark(P1.as_bytes(), unended.as_bytes()), 22, 0);
    refused(
        mark(P1.as_bytes(), "\n".repeat(SHEETS + 1).as_bytes()),
        22,
        0,
    );
    for count in [0, 1, 2, SHEETS] {
        let class = P1_KEY.repeat(count);
        assert!(p1_with_report(&class, SCORE_NUMBERS * count).is_ok());
        if count > 0 {
            refused(p1_with_report(&class, SCORE_NUMBERS * count - 1), 22, 0);
        }
    }
    refused(p1_with_report("?", 2), 22, 0);
    refused(p1_with_report("?", 3), 23, 0);
}

#[test]
fn the_lowest_wrong_sheet_is_23() {
    let wrong = [
        "\n", "nny\n", "nnyyy\n", "nnyY\n", "nnyN\n", "nn y\n", "nny \n", "nnyy\r\n", "nny\r\n",
        "nny\0\n", "nny?\n", "\nnnyy\n", "nnyy\n\n",
    ];
    for sheet in wrong {
        let starts_right = usize::from(sheet.starts_with(P1_KEY));
        for before in 0..3 {
            let class = P1_KEY.repeat(before) + sheet + P1_KEY + "?\n";
            refused(
                mark(P1.as_bytes(), class.as_bytes()),
                23,
                before + starts_right,
            );
        }
    }
    for unended in ["n", "nny", "nnyy", "nnyyn", "?"] {
        let class = P1_KEY.repeat(2) + unended;
        refused(mark(P1.as_bytes(), class.as_bytes()), 23, 2);
        refused(mark(P1.as_bytes(), unended.as_bytes()), 23, 0);
    }
}

/// The sitting's refusals come before 21 to 23, and these in their order.
#[test]
fn refusals_in_their_order() {
    let crowd = "?\n".repeat(SHEETS + 1);
    let crowd = crowd.as_bytes();
    refused(mark(&vec![b'!'; 16_385], crowd), 1, 0);
    let short = mark_lent(b"!", crowd, ROWS, TABLE_WORDS, ROWS, ROWS - 1, 0);
    refused(short, 2, 0);
    refused(mark(b"S a b", crowd), 3, 5);
    refused(mark(b"S a b\n", crowd), 21, 0);
    refused(mark(b"K a b\n", crowd), 22, 0);
    refused(mark(b"K a b\n", b"?\n"), 23, 0);
}

const WORDS: Words = Words {
    names: &["a", "b", "c"],
    roles: &["r"],
};

/// Random books and classes: the key is that of the text's own nested lines, the
/// sitting is that of the text, and each score is what its bytes say, counted
/// from their places in the sheets' text.
#[test]
fn random_classes() {
    let mut random = Random(61);
    let mut right = 0;
    for _ in 0..1_500 {
        let lines = random_lines(&mut random, &WORDS, 12);
        let text = write_lines(&lines).into_bytes();
        let asks = |kind: Kind| matches!(kind, Kind::Query | Kind::StrictQuery);
        let questions = lines.iter().filter(|line| asks(line.kind)).count();
        assert_eq!(read(&text).unwrap(), lines);
        let count = random.below(5);
        let mut class = Vec::new();
        for _ in 0..count {
            class.extend((0..questions).map(|_| random.pick(b"yn")));
            class.push(b'\n');
        }
        if questions == 0 {
            refused(mark(&text, &class), 21, 0);
            continue;
        }
        let marked = mark(&text, &class).unwrap();
        let key = key(&settle_text(&text).unwrap());
        assert_eq!(marked.evaluated, evaluate(&text).unwrap());
        assert_eq!((key.len(), marked.scores.len()), (questions, count));
        for (sheet, score) in marked.scores.iter().enumerate() {
            let said = |question: usize| class[sheet * (questions + 1) + question] == b'y';
            let agreed = (0..questions).filter(|question| said(*question) == key[*question]);
            assert_eq!(score.right, agreed.count());
            assert_eq!(score.right + score.wrong, questions);
            right += score.right;
        }
    }
    assert!(right > 3_000, "{right}");
}
