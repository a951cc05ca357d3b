//! P1 to P9: the examples that the scope marks, from the nested text and from
//! the compiled deck.

use crate::common::{P1, P1_PRINTED};
use shelf_reference::{classify_lent, compile, settle_text, shelf, shelf_by_deck, Answer, Rank};

/// Asserts what is printed for a book, by both ways of settling it.
fn prints(book: &str, printed: &str) {
    assert_eq!(shelf(book.as_bytes()), printed, "nested: {book}");
    assert_eq!(shelf_by_deck(book.as_bytes()), printed, "by deck: {book}");
}

/// P1: the printed sitting, byte for byte.
#[test]
fn p1_prints_the_sitting() {
    prints(P1, P1_PRINTED);
}

/// P1: 13 numbers, 1 role, 23 rows, and rows 0 and 5 in hex.
#[test]
fn p1_has_the_deck_of_the_scope() {
    let compiled = compile(P1.as_bytes()).unwrap();
    let sizes = compiled.sizes;
    assert_eq!(sizes.lines, 10);
    assert_eq!(sizes.numbers, 13);
    assert_eq!(sizes.roles, 1);
    assert_eq!(sizes.rows, 23);
    assert_eq!(compiled.deck.len(), 23);
    assert_eq!(compiled.deck[0], 0x1000_0002_0000_0003);
    assert_eq!(compiled.deck[5], 0x5000_0008_0000_0005);
}

/// P1: the whole deck, worked out by hand from "Compiling".
#[test]
fn p1_has_every_row_as_worked_out_by_hand() {
    // clone 2, set 3, & 4, shown 5, hidden 6, art 7, & 8, / 9, text 10,
    // & 11, / 12; role has 0.
    let by_hand: [u64; 23] = [
        0x1000_0002_0000_0003, // S clone set
        0x1000_0004_0000_0001, // S & shown hidden -
        0x5000_0003_0000_0005, // U set shown
        0x5000_0003_0000_0007, // U set art
        0x5000_0002_0000_0006, // U clone hidden
        0x5000_0008_0000_0005, // U & clone /has text shown
        0x6000_0002_0000_0005, // Q clone shown
        0x6000_0002_0000_0007, // Q clone art
        0x6000_000B_0000_0005, // Q & clone /has text shown
        0x7000_0002_0000_0003, // K clone set
        0x1000_0004_0000_0005, // 4 within 5
        0x1000_0004_0000_0006, // 4 within 6
        0x2000_0005_0006_0004, // 5 and 6 within 4
        0x1000_0008_0000_0002, // 8 within 2
        0x1000_0008_0000_0009, // 8 within 9
        0x2000_0002_0009_0008, // 2 and 9 within 8
        0x3000_0009_0000_000A, // 9 within some has 10
        0x4000_000A_0000_0009, // some has 10 within 9
        0x1000_000B_0000_0002, // 11 within 2
        0x1000_000B_0000_000C, // 11 within 12
        0x2000_0002_000C_000B, // 2 and 12 within 11
        0x3000_000C_0000_000A, // 12 within some has 10
        0x4000_000A_0000_000C, // some has 10 within 12
    ];
    assert_eq!(compile(P1.as_bytes()).unwrap().deck, by_hand);
}

/// P1: the results of the deck's rows, with 0 for every definition row, and
/// the order of the usual rows, by rank and within a rank by row.
#[test]
fn p1_has_the_results_of_the_deck() {
    let compiled = compile(P1.as_bytes()).unwrap();
    let done = classify_lent(&compiled.deck, 13, 1, 52, 23, 23).unwrap();
    let mut expected = vec![
        0, 0, 0x8000, 0x8000, 0x8001, 0x8002, 0x0001, 0x0001, 0x8002, 0x8000,
    ];
    expected.resize(23, 0);
    assert_eq!(done.settled.results(), expected);
    assert_eq!(done.order, [2, 3, 4, 5]);
    assert_eq!(done.table.len(), 52);
}

/// P2: the empty text is a book of no lines, no rows and 2 numbers.
#[test]
fn p2_empty_text() {
    prints("", "levels 0 passes 1 yes 0\n");
    let compiled = compile(b"").unwrap();
    let sizes = compiled.sizes;
    assert_eq!((sizes.lines, sizes.rows), (0, 0));
    assert_eq!((sizes.numbers, sizes.roles), (2, 0));
    assert!(compiled.deck.is_empty());
}

/// P3: a thing is usually itself.
#[test]
fn p3_a_name_is_itself() {
    prints("Q a a\n", "1 Q yes 0\nlevels 0 passes 1 yes 1\n");
}

/// P4: nothing ties two names together.
#[test]
fn p4_two_names_are_apart() {
    prints("Q a b\n", "1 Q no 0\nlevels 0 passes 1 yes 0\n");
}

/// P5: without any model every rank is infinite and every question is yes.
#[test]
fn p5_no_model_at_all() {
    prints(
        "S * -\nQ a b\n",
        "1 S\n2 Q yes oo\nlevels 0 passes 1 yes 1\n",
    );
}

/// P6: a rule about nothing is stuck in the first pass.
#[test]
fn p6_a_rule_about_nothing() {
    prints("U - a\n", "1 U oo\nlevels 0 passes 2 yes 0\n");
}

/// P7: a rule about everything reaches a name that is not spoken of.
#[test]
fn p7_a_rule_about_everything() {
    prints(
        "U * shown\nQ a shown\n",
        "1 U 0\n2 Q yes 0\nlevels 1 passes 1 yes 1\n",
    );
}

/// P8: x falls only once a is known to be nothing, one pass later.
#[test]
fn p8_needs_three_passes() {
    let book = b"U a b\nU a c\nS & b c -\nS x /r a\nU x y\n";
    prints(
        std::str::from_utf8(book).unwrap(),
        "1 U oo\n2 U oo\n3 S\n4 S\n5 U oo\nlevels 0 passes 3 yes 0\n",
    );
    let settled = settle_text(book).unwrap();
    assert_eq!((settled.counts.levels, settled.counts.passes), (0, 3));
    assert_eq!(settled.answers[4], Answer::Defeasible(Rank::Infinite));
}

/// P9: a usual rule never applies to a role's target.
#[test]
fn p9_a_part_keeps_its_habits() {
    prints(
        "U stick rare\nS shmup /needs stick\nS /needs rare gem\nQ shmup gem\n",
        "1 U 0\n2 S\n3 S\n4 Q no 0\nlevels 1 passes 1 yes 0\n",
    );
}
