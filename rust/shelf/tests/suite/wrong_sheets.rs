//! Sheets that are wrong, in each way: 23 at the lowest of them. Each call is
//! compared with the plain engine, and every lent byte but the place is held to be
//! kept (see `common::classes`).

use crate::common::books::{damage, P1};
use crate::common::classes::{assert_refused, compare_class, count, damage_sheets, key};
use crate::common::classes::{random_book, random_sheets, ClassCase, P1_KEY};
use crate::common::decks::Random;
use shelf::limits::SHEETS;

/// A way to spoil a sheet at one of its places, before its line feed.
type Spoil = fn(&mut Vec<u8>, usize);

/// The ways to spoil a sheet.
const WAYS: [Spoil; 17] = [
    |sheet, place| sheet[place] = b'Y',
    |sheet, place| sheet[place] = b'N',
    |sheet, place| sheet[place] = b' ',
    |sheet, place| sheet[place] = b'\r',
    |sheet, place| sheet[place] = b'\t',
    |sheet, place| sheet[place] = b'\n',
    |sheet, place| sheet[place] = 0,
    |sheet, place| sheet[place] = 0xFF,
    |sheet, place| sheet[place] ^= 0x80,
    |sheet, place| sheet[place] = b'1',
    |sheet, place| sheet.insert(place, b' '),
    |sheet, place| sheet.insert(place, b'\n'),
    |sheet, place| sheet.insert(place, b'y'),
    |sheet, place| drop(sheet.drain(place..=place)),
    |sheet, _| sheet.insert(4, b'\r'),
    |sheet, _| sheet.insert(4, b' '),
    |sheet, _| drop(sheet.drain(..4)),
];

/// A sheet that is wrong in any way is 23 at its index, in any place of the class,
/// and whatever stands behind it.
#[test]
fn each_way_to_spoil_a_sheet() {
    let mut random = Random(146);
    for spoil in WAYS {
        for place in 0..4 {
            let mut sheet = P1_KEY.as_bytes().to_vec();
            spoil(&mut sheet, place);
            for (before, behind) in [(0, ""), (0, P1_KEY), (2, ""), (1, "?\n"), (62, P1_KEY)] {
                let good = P1_KEY.repeat(before);
                let sheets = [good.as_bytes(), &sheet, behind.as_bytes()].concat();
                let found = compare_class(&ClassCase::new(P1, &sheets), &mut random);
                // A line feed more in the last sheet of the most is a sheet too many.
                let expected = match count(&sheets) {
                    0..=SHEETS => (23, before),
                    _ => (22, 0),
                };
                assert_eq!(found.refused(), expected, "{}", sheets.escape_ascii());
            }
        }
    }
}

/// A line feed more behind a sheet is an empty sheet, which is wrong by itself.
#[test]
fn an_empty_sheet_is_23() {
    assert_refused(P1, "\n", (23, 0));
    assert_refused(P1, "nnyy\n\n", (23, 1));
    assert_refused(P1, "nnyy\n\nnnyy\n", (23, 1));
    assert_refused(P1, "\nnnyy\n", (23, 0));
    assert_refused(P1, "nnyy\n\n\n", (23, 1));
}

/// What stands behind the last line feed is a sheet, and wrong: even one that says
/// every reply.
#[test]
fn an_unended_sheet_is_23() {
    for unended in ["n", "nny", "nnyy", "nnyyn", "?", " ", "\r", "nnyy\r"] {
        for before in [0, 1, 2, SHEETS - 1] {
            let sheets = P1_KEY.repeat(before) + unended;
            assert_refused(P1, sheets, (23, before));
        }
    }
}

/// Each of the 256 bytes at each place of the sheets, compared whole; y and n are
/// marked, but for a line feed's place.
#[test]
fn every_byte_at_every_place() {
    let mut random = Random(147);
    let sheets = b"nnyy\nyynn\n";
    for place in 0..sheets.len() {
        for byte in 0..=u8::MAX {
            let mut sheets = sheets.to_vec();
            let was = std::mem::replace(&mut sheets[place], byte);
            let found = compare_class(&ClassCase::new(P1, &sheets), &mut random);
            let in_order = match was {
                b'\n' => byte == b'\n',
                _ => matches!(byte, b'y' | b'n'),
            };
            assert_eq!(found.number == 0, in_order, "{}", sheets.escape_ascii());
        }
    }
}

/// The place is the lowest wrong sheet's, from the first to the last of the most.
#[test]
fn the_place_is_the_lowest_wrong_sheet() {
    let mut random = Random(148);
    for place in 0..SHEETS {
        let mut sheets = vec![P1_KEY; SHEETS];
        sheets[place] = "nny?\n";
        for other in [place, random.from(place, SHEETS - 1), SHEETS - 1] {
            sheets[other] = random.pick(&["nnY?\n", "\n", "nnyyy\n", "nny\r\n"]);
            let case = ClassCase::new(P1, sheets.concat());
            assert_eq!(compare_class(&case, &mut random).refused(), (23, place));
        }
    }
}

/// The sheets' text has no limit of its own: of some millions of bytes it is told
/// what is wrong with them.
#[test]
fn very_long_sheets() {
    let mut random = Random(149);
    let million = 1 << 20;
    let good = P1_KEY.repeat(SHEETS - 1);
    let vectors = [
        ("y".repeat(4 * million), (23, 0)),
        ("y".repeat(4 * million) + "\n", (23, 0)),
        ("\n".repeat(4 * million), (22, 0)),
        (P1_KEY.repeat(million), (22, 0)),
        (good.clone() + &"n".repeat(4 * million), (23, SHEETS - 1)),
        (good.clone() + "nnyy\n" + &"n".repeat(2 * million), (22, 0)),
        ("nnyy\0".repeat(million / 2), (23, 0)),
    ];
    for (sheets, expected) in vectors {
        let found = compare_class(&ClassCase::new(P1, sheets), &mut random);
        assert_eq!(found.refused(), expected);
    }
}

/// 3,000 random classes with one to three bytes changed, put in or taken out, some
/// of them on damaged books, are marked or refused alike.
#[test]
fn damaged_classes_are_marked_or_refused_alike() {
    let mut random = Random(150);
    let mut numbers = [0; 24];
    for turn in 0..3_000 {
        let mut text = random_book(&mut random, turn);
        let all = random.pick(&[1, 2, 5, SHEETS - 1, SHEETS]);
        let mut sheets = random_sheets(&mut random, &key(&text), all);
        for _ in 0..random.from(1, 3) {
            damage_sheets(&mut random, &mut sheets);
        }
        if random.once_in(10) {
            damage(&mut random, &mut text);
        }
        let case = ClassCase::new(text, sheets).with_spare(&mut random);
        numbers[compare_class(&case, &mut random).number as usize] += 1;
    }
    for (number, least) in [(0, 50), (3, 100), (21, 50), (22, 50), (23, 1_500)] {
        assert!(numbers[number] > least, "{number}: {numbers:?}");
    }
}
