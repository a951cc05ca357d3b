//! Refusals 11 to 18, lengths at and one under each limit, and small decks.

use shelf_reference::{classify_lent, Classified, Refused};

/// A row of these fields, packed by hand.
fn row(kind: u64, role: u64, a: u64, b: u64, c: u64) -> u64 {
    kind << 60 | role << 48 | a << 32 | b << 16 | c
}

/// Settles with buffers that are just long enough.
fn settle(deck: &[u64], numbers: usize, roles: usize) -> Result<Classified, Refused> {
    let table = 4 * numbers.min(256);
    classify_lent(deck, numbers, roles, table, deck.len(), deck.len())
}

#[track_caller]
fn refused(found: Result<Classified, Refused>, number: u64, place: usize) {
    let found = found.expect_err("settling refuses");
    assert_eq!((found.number(), found.place), (number, place));
}

/// 11: fewer than 2 or more than 256 numbers.
#[test]
fn number_counts_outside_2_to_256_are_11() {
    for numbers in [0, 1, 257, 65_536 + 2, usize::MAX] {
        refused(classify_lent(&[], numbers, 0, 4096, 0, 0), 11, 0);
    }
    assert!(settle(&[], 2, 0).is_ok());
    assert!(settle(&[], 256, 0).is_ok());
}

/// 12: more than 64 roles.
#[test]
fn role_counts_over_64_are_12() {
    for roles in [65, 4096, usize::MAX] {
        refused(settle(&[], 2, roles), 12, 0);
    }
    assert!(settle(&[], 2, 64).is_ok());
}

/// 13: more than 1,024 rows.
#[test]
fn decks_over_1024_rows_are_13() {
    let deck = vec![row(1, 0, 0, 0, 0); 1025];
    refused(settle(&deck, 2, 0), 13, 0);
    assert!(settle(&deck[..1024], 2, 0).is_ok());
}

/// 14: table, results or order one under its limit; at the limit all is well.
#[test]
fn short_buffers_are_14() {
    let deck = [row(1, 0, 0, 0, 0); 3];
    assert!(classify_lent(&deck, 5, 0, 20, 3, 3).is_ok());
    refused(classify_lent(&deck, 5, 0, 19, 3, 3), 14, 0);
    refused(classify_lent(&deck, 5, 0, 20, 2, 3), 14, 0);
    refused(classify_lent(&deck, 5, 0, 20, 3, 2), 14, 0);
    assert!(classify_lent(&[], 2, 0, 8, 0, 0).is_ok());
    refused(classify_lent(&[], 2, 0, 7, 0, 0), 14, 0);
    assert!(classify_lent(&[], 256, 0, 1024, 0, 0).is_ok());
    refused(classify_lent(&[], 256, 0, 1023, 0, 0), 14, 0);
}

/// The order is held against the deck's length, even with no usual row in it.
#[test]
fn the_order_is_held_against_the_deck() {
    let deck = [row(6, 0, 0, 0, 0); 4];
    refused(classify_lent(&deck, 2, 0, 8, 4, 3), 14, 0);
    assert!(classify_lent(&deck, 2, 0, 8, 4, 4).is_ok());
}

/// 15: kind 0 and kinds 8 to 15, at the row's index.
#[test]
fn kinds_0_and_8_to_15_are_15() {
    for kind in 0..16 {
        let deck = [row(1, 0, 0, 0, 0), row(kind, 0, 0, 0, 0)];
        if (1..=7).contains(&kind) {
            assert!(settle(&deck, 2, 1).is_ok());
        } else {
            refused(settle(&deck, 2, 1), 15, 1);
        }
    }
}

/// 16: an unused field that isn't 0, in every kind that has one.
#[test]
fn unused_fields_are_16() {
    for kind in [1, 5, 6, 7] {
        refused(settle(&[row(kind, 1, 0, 0, 0)], 9, 9), 16, 0);
        refused(settle(&[row(kind, 0, 0, 1, 0)], 9, 9), 16, 0);
        refused(settle(&[row(kind, 0xFFF, 0, 0xFFFF, 0)], 9, 9), 16, 0);
    }
    refused(settle(&[row(2, 1, 0, 0, 0)], 9, 9), 16, 0);
    assert!(settle(&[row(2, 0, 0, 1, 0)], 9, 9).is_ok());
    for kind in [3, 4] {
        refused(settle(&[row(kind, 0, 0, 1, 0)], 9, 9), 16, 0);
        assert!(settle(&[row(kind, 1, 0, 0, 0)], 9, 9).is_ok());
    }
}

/// 17: a number that isn't under N, in every used field of every kind.
#[test]
fn numbers_not_under_n_are_17() {
    for kind in 1..=7 {
        for (a, b, c) in [(5, 0, 0), (0, 5, 0), (0, 0, 5), (0xFFFF, 0, 0)] {
            if b != 0 && kind != 2 {
                continue;
            }
            refused(settle(&[row(kind, 0, a, b, c)], 5, 1), 17, 0);
        }
        let b = if kind == 2 { 4 } else { 0 };
        assert!(settle(&[row(kind, 0, 4, b, 4)], 5, 1).is_ok());
    }
}

/// 18: a role that isn't under R, in the two kinds with a role.
#[test]
fn roles_not_under_r_are_18() {
    for kind in [3, 4] {
        refused(settle(&[row(kind, 3, 0, 0, 0)], 2, 3), 18, 0);
        refused(settle(&[row(kind, 0, 0, 0, 0)], 2, 0), 18, 0);
        refused(settle(&[row(kind, 0xFFF, 0, 0, 0)], 2, 64), 18, 0);
        assert!(settle(&[row(kind, 2, 0, 0, 0)], 2, 3).is_ok());
    }
}

/// 11 to 14 come in their order, and all before any row.
#[test]
fn counts_and_lengths_in_their_order() {
    let long = vec![0; 1025];
    refused(classify_lent(&long, 1, 65, 0, 0, 0), 11, 0);
    refused(classify_lent(&long, 2, 65, 0, 0, 0), 12, 0);
    refused(classify_lent(&long, 2, 64, 0, 0, 0), 13, 0);
    refused(classify_lent(&long[..1024], 2, 64, 0, 0, 0), 14, 0);
    refused(classify_lent(&long[..1024], 2, 64, 8, 1024, 1024), 15, 0);
    refused(classify_lent(&[], 257, 65, 0, 0, 0), 11, 0);
    refused(classify_lent(&[], 2, 65, 0, 0, 0), 12, 0);
    refused(classify_lent(&long, 257, 0, 2000, 2000, 2000), 11, 0);
    refused(classify_lent(&long, 2, 0, 2000, 2000, 2000), 13, 0);
}

/// The lowest row decides, whatever is wrong with a later one.
#[test]
fn the_lowest_row_decides() {
    let good = row(1, 0, 0, 0, 0);
    let wrong = [
        (15, row(0, 0, 0, 0, 0)),
        (16, row(1, 1, 0, 0, 0)),
        (17, row(1, 0, 2, 0, 0)),
        (18, row(3, 1, 0, 0, 0)),
    ];
    for (first, low) in wrong {
        for (_, high) in wrong {
            refused(settle(&[good, good, low, high], 2, 1), first, 2);
        }
    }
}

/// Within one row 15 to 18 come in their order.
#[test]
fn within_a_row_the_order_is_15_to_18() {
    // Kind 8 with every field set: only the kind counts.
    refused(settle(&[row(8, 9, 9, 9, 9)], 2, 1), 15, 0);
    refused(settle(&[row(0, 9, 9, 9, 9)], 2, 1), 15, 0);
    // An unused field and a great number.
    refused(settle(&[row(1, 9, 9, 9, 9)], 2, 1), 16, 0);
    refused(settle(&[row(2, 9, 9, 9, 9)], 2, 1), 16, 0);
    refused(settle(&[row(3, 9, 9, 9, 9)], 2, 1), 16, 0);
    // An unused field and a great role.
    refused(settle(&[row(4, 9, 0, 1, 0)], 2, 1), 16, 0);
    // A great number and a great role.
    refused(settle(&[row(3, 9, 9, 0, 0)], 2, 1), 17, 0);
    refused(settle(&[row(4, 9, 0, 0, 9)], 2, 1), 17, 0);
    refused(settle(&[row(4, 9, 0, 0, 0)], 2, 1), 18, 0);
}

/// N = 2, no roles, no rows: everything is within everything only, nothing is
/// within both.
#[test]
fn the_empty_deck_has_its_table() {
    let done = settle(&[], 2, 0).unwrap();
    let everything = 1u64 << 63;
    let nothing = 1u64 << 62;
    let table = [everything, 0, 0, 0, everything | nothing, 0, 0, 0];
    assert_eq!(done.table, table);
    assert!(done.order.is_empty());
    assert!(done.settled.results().is_empty());
    let counts = done.settled.counts;
    assert_eq!((counts.levels, counts.passes, counts.yes), (0, 1, 0));
}

/// With N = 256 and no rows every bit stands where the layout puts it.
#[test]
fn the_table_of_256_free_numbers() {
    let done = settle(&[], 256, 0).unwrap();
    assert_eq!(done.table.len(), 1024);
    for a in 0..256 {
        let mut words = [0u64; 4];
        words[0] |= 1 << 63;
        words[a / 64] |= 1 << (63 - a % 64);
        if a == 1 {
            words = [u64::MAX; 4];
        }
        assert_eq!(done.table[4 * a..4 * a + 4], words, "number {a}");
    }
}

/// Bits from N on are 0, even for what is within everything.
#[test]
fn bits_from_n_on_are_0() {
    let done = settle(&[row(1, 0, 0, 0, 1)], 70, 0).unwrap();
    for a in 0..70 {
        let words = [u64::MAX, u64::MAX << 58, 0, 0];
        assert_eq!(done.table[4 * a..4 * a + 4], words, "number {a}");
    }
}

/// The table is that of T*: a usual row whose left can't be shows in it.
#[test]
fn the_table_is_that_of_the_last_pass() {
    let deck = [row(5, 0, 2, 0, 1), row(7, 0, 2, 0, 1), row(1, 0, 3, 0, 2)];
    let done = settle(&deck, 4, 0).unwrap();
    assert_eq!(done.settled.results(), [0xFFFF, 0, 0]);
    assert_eq!(
        (done.settled.counts.levels, done.settled.counts.passes),
        (0, 2)
    );
    assert_eq!(done.table[8], 0xF << 60);
    assert_eq!(done.table[12], 0xF << 60);
    assert_eq!(done.table[0], 1 << 63);
    assert_eq!(done.order, [0]);
}

/// Each strict kind says what the scope says, read off the table.
#[test]
fn each_kind_shows_in_the_table() {
    // 2 within 3; 3 and 4 within 5; 5 within some 0 6; some 0 6 within 7.
    let deck = [
        row(1, 0, 2, 0, 3),
        row(1, 0, 2, 0, 4),
        row(2, 0, 3, 4, 5),
        row(3, 0, 5, 0, 6),
        row(4, 0, 6, 0, 7),
        row(4, 1, 6, 0, 8),
    ];
    let done = settle(&deck, 9, 2).unwrap();
    let bits = |a: usize| done.table[4 * a] >> 55;
    // Bits of 0 to 8, 0 first.
    assert_eq!(bits(2), 0b1_0111_1010);
    assert_eq!(bits(3), 0b1_0010_0000);
    assert_eq!(bits(5), 0b1_0000_1010);
    assert_eq!(bits(6), 0b1_0000_0100);
    assert_eq!(bits(8), 0b1_0000_0001);
}

/// Any number may stand in any used field: everything and nothing too.
#[test]
fn everything_and_nothing_in_odd_fields() {
    // Everything within some 0 nothing: there is no model.
    let done = settle(&[row(3, 0, 0, 0, 1), row(6, 0, 0, 0, 1)], 2, 1).unwrap();
    assert_eq!(done.settled.results(), [0, 0xFFFF]);
    // Some 0 nothing within nothing says nothing at all.
    let done = settle(&[row(4, 0, 1, 0, 1), row(6, 0, 0, 0, 1)], 2, 1).unwrap();
    assert_eq!(done.settled.results(), [0, 0]);
    // Some 0 everything within nothing: no pairs, so 2 within some 0 3 is void.
    let deck = [row(4, 0, 0, 0, 1), row(3, 0, 2, 0, 3), row(7, 0, 2, 0, 1)];
    assert_eq!(
        settle(&deck, 4, 1).unwrap().settled.results(),
        [0, 0, 0x8000]
    );
    // Everything and 2 within 1: 2 is nothing.
    let deck = [row(2, 0, 0, 2, 1), row(7, 0, 2, 0, 1), row(7, 0, 0, 0, 1)];
    assert_eq!(
        settle(&deck, 3, 0).unwrap().settled.results(),
        [0, 0x8000, 0]
    );
}

/// The order has each usual row once, by rank, infinite last, and within a rank
/// as in the deck.
#[test]
fn the_order_goes_by_rank_then_by_row() {
    // 3 within 2; 4 and 5 exclude each other; 6 usually nothing.
    let deck = [
        row(5, 0, 6, 0, 1),
        row(5, 0, 3, 0, 5),
        row(1, 0, 3, 0, 2),
        row(2, 0, 4, 5, 1),
        row(5, 0, 2, 0, 4),
        row(6, 0, 3, 0, 4),
        row(5, 0, 6, 0, 2),
        row(5, 0, 3, 0, 0),
        row(5, 0, 2, 0, 0),
    ];
    let done = settle(&deck, 7, 0).unwrap();
    assert_eq!(done.order, [4, 8, 1, 7, 0, 6]);
    assert_eq!(
        done.settled.results(),
        [0xFFFF, 0x8001, 0, 0, 0x8000, 0x0001, 0xFFFF, 0x8001, 0x8000]
    );
    assert_eq!(
        (done.settled.counts.levels, done.settled.counts.passes),
        (2, 2)
    );
}
