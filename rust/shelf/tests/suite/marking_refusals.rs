//! The refusals of marking, each alone and with any other, for the order; those of
//! a wrong sheet are in `wrong_sheets`. Each call is compared with the plain
//! engine, and every lent byte but the place is held to be kept (see
//! `common::classes`).

use crate::common::books::{each_number, ties, P1};
use crate::common::classes::{assert_refused, compare_class, compare_sheets, count};
use crate::common::classes::{damage_sheets, key, random_book, random_sheets};
use crate::common::classes::{ClassCase, ClassLent, Refusal, P1_KEY};
use crate::common::decks::Random;
use crate::common::texts::{Call, TextCase, TextLent};
use shelf::limits::{ANSWER_WORDS, ROWS, SCORE_NUMBERS, SHEETS, TABLE_WORDS};

/// A text, and what is wrong with it: before the buffers are looked at (1), in
/// reading it (3 to 8), and once it is read (21).
struct Book {
    text: String,
    too_long: Option<Refusal>,
    unread: Option<Refusal>,
    asks_nothing: Option<Refusal>,
}

/// A book in order, one without a question, and for each refusal of a text one
/// with a question before and one with none.
fn books() -> Vec<Book> {
    let asking = "Q * *\n";
    let mut books = Vec::new();
    for (number, place, text) in each_number().into_iter().skip(1) {
        let place_behind = if number == 1 { 0 } else { place + asking.len() };
        let behind = asking.to_owned() + &text;
        for (text, place) in [(text, place), (behind, place_behind)] {
            let refusal = Some((number, place));
            books.push(Book {
                too_long: refusal.filter(|_| number == 1),
                unread: refusal.filter(|_| number != 1),
                asks_nothing: (!text.starts_with('Q')).then_some((21, 0)),
                text,
            });
        }
    }
    for (text, asks_nothing) in [(P1, None), ("S a b\nU a b\n", Some((21, 0)))] {
        books.push(Book {
            text: text.to_owned(),
            too_long: None,
            unread: None,
            asks_nothing,
        });
    }
    books
}

/// Sheets on P1, and what is wrong with how many there are, and with one of them.
fn classes() -> [(String, Option<Refusal>, Option<Refusal>); 8] {
    let good = |count| P1_KEY.repeat(count);
    let crowd = Some((22, 0));
    [
        (String::new(), None, None),
        (good(3), None, None),
        (good(SHEETS), None, None),
        (good(SHEETS + 1), crowd, None),
        (good(SHEETS) + "n", crowd, Some((23, SHEETS))),
        ("?\n".repeat(SHEETS + 1), crowd, Some((23, 0))),
        (good(2) + "\n" + "nnyY\n", None, Some((23, 2))),
        (good(3) + "nnyy", None, Some((23, 3))),
    ]
}

/// One buffer of the sitting too short.
const SHORTEN: [fn(&mut TextCase); 4] = [
    |case| case.deck = ROWS - 1,
    |case| case.table = TABLE_WORDS - 1,
    |case| case.results = ROWS - 1,
    |case| case.order = ROWS - 1,
];

/// Each book with each class, and with none or one of the sitting's buffers too
/// short; what is wrong with them, in the order in which it counts.
fn combinations() -> Vec<(ClassCase, [Option<Refusal>; 6])> {
    let mut all = Vec::new();
    for book in books() {
        for (sheets, crowd, wrong) in classes() {
            for shorten in [None].into_iter().chain(SHORTEN.map(Some)) {
                let mut case = ClassCase::new(&book.text, &sheets);
                if let Some(shorten) = shorten {
                    shorten(&mut case.book);
                }
                let short = shorten.map(|_| (2, 0));
                let (too_long, unread) = (book.too_long, book.unread);
                let faults = [too_long, short, unread, book.asks_nothing, crowd, wrong];
                all.push((case, faults));
            }
        }
    }
    all
}

/// Everything that can be wrong, together with everything else: the first of 1, 2,
/// 3 to 8, 21, 22, 23 counts.
#[test]
fn refusals_in_their_order() {
    let mut random = Random(141);
    let mut met = [0; 24];
    for (mut case, mut faults) in combinations() {
        for short_report in [false, true] {
            if short_report && case.report > 0 {
                case.report -= 1;
                faults[4] = Some((22, 0));
            }
            let found = compare_class(&case, &mut random);
            met[found.number as usize] += 1;
            match faults.into_iter().flatten().next() {
                Some(first) => assert_eq!(found.refused(), first, "{case:?}"),
                None => assert_eq!(found.number, 0, "{case:?}"),
            }
        }
    }
    for number in [0, 1, 2, 3, 4, 5, 6, 7, 8, 21, 22, 23] {
        assert!(met[number] > 1, "{number}: {met:?}");
    }
}

/// An answer slice that is too short is refused by 2 before all else, alone and
/// with anything else wrong, and nothing at all is changed; a longer one keeps
/// its rest.
#[test]
fn a_short_answer_is_2_before_all_else() {
    let mut random = Random(142);
    for (mut case, _) in combinations() {
        case.book.answer = random.pick(&[0, 1, 2, 3, ANSWER_WORDS - 1]);
        assert_eq!(compare_class(&case, &mut random).number, 2, "{case:?}");
    }
    for length in [ANSWER_WORDS, ANSWER_WORDS + 1, 100] {
        let mut case = ClassCase::new(P1, P1_KEY);
        case.book.answer = length;
        assert_eq!(compare_class(&case, &mut random).scores().1, [4, 0]);
    }
}

/// Texts whose refusals meet are refused as a sitting refuses them.
#[test]
fn refused_texts_are_refused_as_by_a_sitting() {
    let mut random = Random(143);
    let mut met = 0;
    for text in ties() {
        let case = ClassCase::new(text, "?");
        let mut sitting = TextLent::leftovers(&case.book, &mut random);
        let number = sitting.call(Call::Evaluate);
        if number != 0 {
            let found = compare_class(&case, &mut random).refused();
            assert_eq!(found, (number, sitting.answer.lent()[0] as usize));
            met += 1;
        }
    }
    assert!(met > 100, "{met}");
}

/// A book without a question is 21 whatever the sheets are, and none at all.
#[test]
fn a_book_without_a_question_is_21() {
    for text in ["", "S a b\n", "U a b\n", "S a b\nU a /r b\n"] {
        for sheets in ["", "\n", "y\n", "n", "?", "\n\n\n"] {
            assert_refused(text, sheets, (21, 0));
        }
    }
    assert_eq!(
        compare_sheets("S a b\nK a b\n", "", &mut Random(144)).number,
        0
    );
}

/// One sheet more than the most is 22, ended or not, wrong or not.
#[test]
fn one_sheet_too_many_is_22() {
    let most = P1_KEY.repeat(SHEETS);
    for last in [P1_KEY, "nnyy", "n", "\n", "?"] {
        assert_refused(P1, most.clone() + last, (22, 0));
    }
    assert_refused(P1, "\n".repeat(SHEETS + 1), (22, 0));
    assert_refused(P1, "\n".repeat(SHEETS), (23, 0));
    assert_refused("K a b\n", "n\n".repeat(2 * SHEETS), (22, 0));
}

/// A report one number too short is 22, whatever the sheets are; one that is far
/// too short is too.
#[test]
fn a_report_one_number_too_short_is_22() {
    let mut random = Random(145);
    let wrong = "?\n".repeat(3) + "?";
    for sheets in [
        P1_KEY.to_owned(),
        P1_KEY.repeat(SHEETS),
        "n".to_owned(),
        wrong,
    ] {
        let enough = SCORE_NUMBERS * count(sheets.as_bytes());
        for short in [enough - 1, enough - 2, enough - 3, 0] {
            let mut case = ClassCase::new(P1, &sheets);
            case.report = short;
            let found = compare_class(&case, &mut random).refused();
            assert_eq!(found, (22, 0), "{case:?}");
        }
    }
}

/// Calls with lengths a little off are marked or refused alike.
#[test]
fn calls_with_lengths_off_are_marked_or_refused_alike() {
    let mut random = Random(151);
    let mut numbers = [0; 24];
    for turn in 0..2_000 {
        let text = random_book(&mut random, turn);
        let all = random.from(1, 6);
        let mut sheets = random_sheets(&mut random, &key(&text), all);
        if random.once_in(3) {
            damage_sheets(&mut random, &mut sheets);
        }
        let mut case = ClassCase::new(text, sheets).with_spare(&mut random);
        for _ in 0..random.from(1, 2) {
            let field = match random.below(8) {
                0 => &mut case.book.deck,
                1 => &mut case.book.table,
                2 => &mut case.book.results,
                3 => &mut case.book.order,
                4 => &mut case.book.answer,
                _ => &mut case.report,
            };
            *field = random.near(*field);
        }
        numbers[compare_class(&case, &mut random).number as usize] += 1;
    }
    for (number, least) in [(0, 200), (2, 500), (21, 10), (22, 200), (23, 50)] {
        assert!(numbers[number] > least, "{number}: {numbers:?}");
    }
}

/// Over buffers all of zeros and all of ones a refusal writes its place and nothing
/// besides.
#[test]
fn a_refusal_writes_its_place_and_nothing_else() {
    let texts = each_number().into_iter().skip(1);
    let mut refusals: Vec<(u64, usize, ClassCase)> = texts
        .map(|(number, place, text)| (number, place, ClassCase::new(text, P1_KEY)))
        .collect();
    let mut short = ClassCase::new(P1, P1_KEY);
    short.book.order = ROWS - 1;
    refusals.push((2, 0, short));
    refusals.push((21, 0, ClassCase::new("S a b\n", P1_KEY)));
    refusals.push((22, 0, ClassCase::new(P1, P1_KEY.repeat(SHEETS + 1))));
    refusals.push((23, 1, ClassCase::new(P1, "nnyy\nnny\nnnyy\n")));
    for (number, place, case) in refusals {
        for bits in [0, u64::MAX] {
            let before = ClassLent::filled(&case, bits);
            let mut lent = before.clone();
            assert_eq!(lent.call(), number, "{case:?}");
            assert!(lent == before.refused_at(place as u64), "{case:?}");
        }
    }
}
