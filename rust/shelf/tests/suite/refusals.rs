//! Refusals 11 to 18 alone and in pairs, their places, and the order within a
//! row. Each call is also compared with the plain engine, and every lent byte
//! but the place is held to be kept (see `common::compare`).

use crate::common::decks::{both_within, query, row, some_within, usually, within, within_some};
use crate::common::decks::{Deck, Random};
use crate::common::{compare, Case, Lent};
use shelf::limits::{ANSWER_WORDS, KINDS, NUMBERS, ROLES, ROWS, SET_WORDS, TABLE_WORDS};

/// How many numbers the call that is in order has.
const GOOD_NUMBERS: usize = 5;

/// A call that is in order, with buffers that are long enough for any deck.
fn good() -> Case {
    let rows = vec![
        within(2, 3),
        both_within(3, 4, 1),
        within_some(2, 1, 4),
        some_within(0, 4, 3),
        usually(4, 0),
        query(2, 3),
    ];
    Case {
        table: TABLE_WORDS + 76,
        results: ROWS + 6,
        order: ROWS + 6,
        ..Case::new(Deck {
            rows,
            numbers: GOOD_NUMBERS,
            roles: 2,
        })
    }
}

/// Something wrong with a call: its number, its place, and how to bring it
/// about.
type Fault = (u64, usize, fn(&mut Case));

/// What can be wrong besides the rows, in the order in which it counts.
const CALL_FAULTS: [Fault; 18] = [
    (11, 0, |case| case.numbers = 0),
    (11, 0, |case| case.numbers = 1),
    (11, 0, |case| case.numbers = NUMBERS + 1),
    (11, 0, |case| case.numbers = 65_536 + 5),
    (11, 0, |case| case.numbers = (1 << 32) + 5),
    (11, 0, |case| case.numbers = 1 << 62),
    (11, 0, |case| case.numbers = usize::MAX),
    (12, 0, |case| case.roles = ROLES + 1),
    (12, 0, |case| case.roles = 4_096),
    (12, 0, |case| case.roles = 1 << 32),
    (12, 0, |case| case.roles = usize::MAX),
    (13, 0, |case| case.rows.resize(ROWS + 1, within(2, 3))),
    (13, 0, |case| case.rows.resize(ROWS + 6, within(2, 3))),
    (14, 0, |case| case.table = SET_WORDS * GOOD_NUMBERS - 1),
    (14, 0, |case| case.table = 0),
    (14, 0, |case| case.results = 5),
    (14, 0, |case| case.order = 5),
    (14, 0, |case| (case.results, case.order) = (0, 0)),
];

/// What can be wrong with a row, at one place or another. Two faults of one
/// place are not brought together.
const ROW_FAULTS: [Fault; 16] = [
    (15, 0, |case| case.rows[0] = row(0, 0, 2, 0, 3)),
    (16, 0, |case| case.rows[0] = row(1, 1, 2, 0, 3)),
    (17, 0, |case| case.rows[0] = row(1, 0, 5, 0, 3)),
    (18, 0, |case| case.rows[0] = row(3, 2, 2, 0, 3)),
    (15, 1, |case| {
        case.rows[1] = row(KINDS as u64 + 1, 0, 0, 0, 0)
    }),
    (16, 1, |case| case.rows[1] = row(2, 0x800, 2, 2, 3)),
    (17, 1, |case| case.rows[1] = row(2, 0, 2, 5, 3)),
    (18, 1, |case| case.rows[1] = row(4, 0xFFF, 2, 0, 3)),
    (15, 3, |case| case.rows[3] = row(15, 0, 2, 0, 3)),
    (16, 3, |case| case.rows[3] = row(4, 0, 2, 0x8000, 3)),
    (17, 3, |case| case.rows[3] = row(4, 0, 2, 0, 0xFFFF)),
    (18, 3, |case| case.rows[3] = row(4, 2, 2, 0, 3)),
    (15, 5, |case| case.rows[5] = 0),
    (16, 5, |case| case.rows[5] = row(6, 0, 2, 1, 3)),
    (17, 5, |case| case.rows[5] = row(7, 0, 2, 0, NUMBERS)),
    (18, 5, |case| case.rows[5] = row(3, ROLES, 2, 0, 3)),
];

/// The call before anything is wrong with it is accepted.
#[test]
fn the_good_call_is_accepted() {
    let mut random = Random(30);
    assert_eq!(compare(&good(), &mut random).counts(), [1, 1, 1]);
}

/// Each of 11 to 18 alone, with its place.
#[test]
fn every_refusal_alone() {
    let mut random = Random(31);
    for (number, place, spoil) in CALL_FAULTS.into_iter().chain(ROW_FAULTS) {
        let mut case = good();
        spoil(&mut case);
        let found = compare(&case, &mut random).refused();
        assert_eq!(found, (number, place), "{case:?}");
    }
}

/// Any two together: of the call's own faults the lesser number counts, they
/// come before every row, and of two rows the lower counts.
#[test]
fn every_two_refusals_together() {
    let mut random = Random(32);
    let mut all: Vec<(bool, Fault)> = Vec::new();
    all.extend(CALL_FAULTS.map(|fault| (false, fault)));
    all.extend(ROW_FAULTS.map(|fault| (true, fault)));
    for (one_is_row, one) in &all {
        for (other_is_row, other) in &all {
            let first = match (one_is_row, other_is_row) {
                (true, true) if one.1 == other.1 => continue,
                (true, true) => [one, other].into_iter().min_by_key(|fault| fault.1),
                (false, false) => [one, other].into_iter().min_by_key(|fault| fault.0),
                (false, true) => Some(one),
                (true, false) => Some(other),
            };
            let (number, place, _) = first.expect("there are two");
            let mut case = good();
            one.2(&mut case);
            other.2(&mut case);
            let found = compare(&case, &mut random).refused();
            assert_eq!(found, (*number, *place), "{case:?}");
        }
    }
}

/// Several things wrong with one row: 15 to 18 in their order.
#[test]
fn within_a_row_15_to_18_in_their_order() {
    let mut random = Random(33);
    let vectors = [
        (15, row(KINDS as u64 + 1, 9, 9, 9, 9)),
        (15, row(0, 9, 9, 9, 9)),
        (15, row(15, 0xFFF, 0xFFFF, 0xFFFF, 0xFFFF)),
        (15, row(0, 9, 0, 0, 0)),
        (16, row(1, 9, 9, 9, 9)),
        (16, row(2, 9, 9, 9, 9)),
        (16, row(3, 9, 9, 9, 9)),
        (16, row(4, 9, 0, 1, 0)),
        (16, row(5, 0, 9, 9, 9)),
        (16, row(6, 9, 9, 0, 9)),
        (16, row(7, 0xFFF, 0xFFFF, 0xFFFF, 0xFFFF)),
        (17, row(3, 9, 9, 0, 0)),
        (17, row(4, 9, 0, 0, 9)),
        (17, row(4, 0xFFF, 0xFFFF, 0, 0xFFFF)),
        (18, row(3, 9, 0, 0, 0)),
        (18, row(4, 9, 0, 0, 0)),
    ];
    for (number, wrong) in vectors {
        for place in [0, 2, 5] {
            let mut case = good();
            case.rows[place] = wrong;
            let found = compare(&case, &mut random).refused();
            assert_eq!(found, (number, place), "{case:?}");
        }
    }
}

/// The place of a wrong row in decks of the most rows, from the first row to the
/// last; a wrong row behind it changes nothing.
#[test]
fn the_place_goes_up_to_the_last_row() {
    let mut random = Random(34);
    let last = ROWS - 1;
    for place in [0, 1, 63, 64, 255, 256, 511, last - 1, last] {
        for (number, _, spoil) in ROW_FAULTS.into_iter().take(4) {
            let mut case = good();
            spoil(&mut case);
            let wrong = case.rows[0];
            case.rows = vec![within(0, 0); ROWS];
            case.rows[place] = wrong;
            case.rows[last] = if place < last { 0 } else { wrong };
            let found = compare(&case, &mut random).refused();
            assert_eq!(found, (number, place), "{case:?}");
        }
    }
}

/// Each kind with every single bit flipped, alone in a deck: accepted or
/// refused alike.
#[test]
fn every_bit_of_a_row_of_every_kind() {
    let mut random = Random(35);
    for (numbers, roles) in [(2, 0), (2, 1), (5, 2), (129, 33), (NUMBERS, ROLES)] {
        for kind in 1..=KINDS as u64 {
            for bit in 0..64 {
                let deck = Deck {
                    rows: vec![row(kind, 0, 1, 0, 1) ^ 1 << bit],
                    numbers,
                    roles,
                };
                compare(&Case::new(deck), &mut random);
            }
        }
    }
}

/// Every kind with each field at 0, 1 and around its limit, alone in a deck:
/// accepted or refused alike.
#[test]
fn every_field_around_its_limit() {
    let mut random = Random(36);
    for (numbers, roles) in [(2, 0), (3, 1), (NUMBERS, ROLES)] {
        let values = [0, 1, numbers - 1, numbers, 0xFFFF];
        let role_values = [0, 1, roles.max(1) - 1, roles, 0xFFF];
        for kind in 0..16 {
            for role in role_values {
                for a in values {
                    for (b, c) in [(0, 0), (0, 1), (1, 0), (2, 2), (3, 4), (4, 3), (3, 3)] {
                        let deck = Deck {
                            rows: vec![row(kind, role, a, values[b], values[c])],
                            numbers,
                            roles,
                        };
                        compare(&Case::new(deck), &mut random);
                    }
                }
            }
        }
    }
}

/// An answer slice that is too short is refused by 2 before all else, alone and with
/// anything else wrong, and nothing at all is changed.
#[test]
fn a_short_answer_is_2_before_all_else() {
    let mut random = Random(37);
    let nothing_more: Fault = (0, 0, |_| ());
    let faults = [nothing_more].into_iter().chain(CALL_FAULTS);
    for (_, _, spoil) in faults.chain(ROW_FAULTS) {
        for length in [0, 1, 3, ANSWER_WORDS - 1] {
            let mut case = good();
            spoil(&mut case);
            case.answer = length;
            assert_eq!(compare(&case, &mut random).number, 2, "{case:?}");
        }
    }
}

/// Over buffers all of zeros and all of ones a refusal writes its place and
/// nothing besides.
#[test]
fn a_refusal_writes_its_place_and_nothing_else() {
    for (number, place, spoil) in CALL_FAULTS.into_iter().chain(ROW_FAULTS) {
        let mut case = good();
        spoil(&mut case);
        for bits in [0, u64::MAX] {
            let mut expected = Lent::filled(&case, bits);
            let mut lent = expected.clone();
            assert_eq!(lent.call(&case), number, "{case:?}");
            expected.answer.lent_mut()[0] = place as u64;
            assert_eq!(lent, expected, "{case:?}");
        }
    }
}
