//! P1 to P9, the examples that the scope marks, and those of the readings:
//! compiled by the plain engine and settled by the proved one, and the whole
//! sitting by the proved one.

use crate::common::books::{P1, STUCK_IN_TURN};
use crate::common::compare_deck;
use crate::common::decks::{compiled, Random};
use crate::common::texts::{compare_book, compare_text, compare_with_lines, Call, TextCase};
use shelf::limits::{LEAST_NUMBERS, NUMBERS, SET_WORDS};

/// The yes bit, and the rank field of an infinite rank.
const YES: u16 = 0x8000;
const OO: u16 = 0x7FFF;

/// A book, its lines' results, and levels, passes, yes.
type Marked = (&'static str, &'static str, &'static [u16], [usize; 3]);

const MARKED: [Marked; 17] = [
    (
        "P1",
        P1,
        &[0, 0, YES, YES, YES | 1, YES | 2, 1, 1, YES | 2, YES],
        [3, 1, 2],
    ),
    ("P2", "", &[], [0, 1, 0]),
    ("P3", "Q a a\n", &[YES], [0, 1, 1]),
    ("P4", "Q a b\n", &[0], [0, 1, 0]),
    ("P5", "S * -\nQ a b\n", &[0, YES | OO], [0, 1, 1]),
    ("P6", "U - a\n", &[YES | OO], [0, 2, 0]),
    ("P7", "U * shown\nQ a shown\n", &[YES, YES], [1, 1, 1]),
    (
        "P8",
        "U a b\nU a c\nS & b c -\nS x /r a\nU x y\n",
        &[YES | OO, YES | OO, 0, 0, YES | OO],
        [0, 3, 0],
    ),
    (
        "P9",
        "U stick rare\nS shmup /needs stick\nS /needs rare gem\nQ shmup gem\n",
        &[YES, 0, 0, 0],
        [1, 1, 0],
    ),
    (
        "R15: a question's rank can equal the levels",
        "S & a b -\nU * a\nQ b a\n",
        &[0, YES, 1],
        [1, 1, 0],
    ),
    (
        "R16: everything is usually nothing",
        "U * -\nQ a b\nK a b\n",
        &[YES | OO, YES | OO, 0],
        [0, 2, 1],
    ),
    (
        "R16: of nothing all is so",
        "Q - a\n",
        &[YES | OO],
        [0, 1, 1],
    ),
    ("R16: no model, no usual line", "S * -\n", &[0], [0, 1, 0]),
    (
        "K reads the written lines, not T*",
        "U a -\nK a -\nQ a -\n",
        &[YES | OO, 0, YES | OO],
        [0, 2, 1],
    ),
    (
        "R10: a line twice",
        "U a b\nU a b\nS c a\nS & b d -\nU c d\nU c d\n",
        &[YES, YES, 0, 0, YES | 1, YES | 1],
        [2, 1, 0],
    ),
    (
        "R17: levels are the last pass's only",
        "U a b\nS & b c -\nU a c\nU d /r a\nU * e\n",
        &[YES | OO, 0, YES | OO, YES | OO, YES],
        [1, 3, 0],
    ),
    (
        "T grows in every pass: by the first stuck set alone b would have rank 0",
        STUCK_IN_TURN,
        &[YES | OO, YES | OO, YES | OO],
        [0, 3, 1],
    ),
];

/// Each marked book has its results at its lines, 0 at every definition row,
/// and its counts; both engines agree on the whole of the buffers.
#[test]
fn the_marked_books() {
    let mut random = Random(60);
    for (name, text, results, counts) in MARKED {
        let deck = compiled(text);
        let rows = deck.rows.len();
        let compared = compare_deck(deck, &mut random);
        let mut expected = results.to_vec();
        expected.resize(rows, 0);
        assert_eq!(compared.lent.results.lent()[..rows], expected, "{name}");
        assert_eq!(compared.counts(), counts, "{name}");
    }
}

/// The same from their text, by the sitting.
#[test]
fn the_marked_books_from_their_text() {
    let mut random = Random(61);
    for (name, text, results, counts) in MARKED {
        let compared = compare_book(text, &mut random);
        let rows = compared.lent.rows().len();
        let mut expected = results.to_vec();
        expected.resize(rows, 0);
        assert_eq!(compared.lent.results.lent()[..rows], expected, "{name}");
        let [lines, _, _, _, levels, passes, yes] = compared.counts();
        assert_eq!(lines, results.len(), "{name}");
        assert_eq!([levels, passes, yes], counts, "{name}");
    }
}

/// T grows by the stuck set of every pass: a's rule is stuck in the first, and
/// b's only in the second, once a is nothing. So there are three passes, no
/// level, and b's question is yes at an infinite rank. A reading that grows T by
/// the first stuck set alone gives b rank 0.
#[test]
fn t_grows_by_every_stuck_set() {
    let book = STUCK_IN_TURN.as_bytes();
    let settled = shelf::evaluate(book).unwrap().classified;
    let counts = settled.counts;
    assert_eq!((counts.levels, counts.passes, counts.yes), (0, 3, 1));
    let infinite = Some(shelf::Rank::Infinite);
    assert_eq!([0, 1, 2].map(|line| settled.rank(line)), [infinite; 3]);
    assert_eq!(settled.reply(2), Some(true));
    compare_with_lines(book, &settled);
}

/// The first numbers of the answer for P1 and P2, and P1's marked rows.
#[test]
fn p1_and_p2_have_the_counts_of_the_scope() {
    let mut random = Random(62);
    let p1 = TextCase::new(P1);
    let compiled = compare_text(Call::Compile, &p1, &mut random);
    assert_eq!(compiled.counts(), [10, 23, 13, 1]);
    assert_eq!(compiled.lent.rows()[0], 0x1000_0002_0000_0003);
    assert_eq!(compiled.lent.rows()[5], 0x5000_0008_0000_0005);
    let settled = compare_text(Call::Evaluate, &p1, &mut random);
    assert_eq!(settled.counts(), [10, 23, 13, 1, 3, 1, 2]);
    assert_eq!(settled.lent.order.lent()[..4], [2, 3, 4, 5]);
    let empty = compare_text(Call::Evaluate, &TextCase::new(""), &mut random);
    assert_eq!(empty.counts(), [0, 0, 2, 0, 0, 1, 0]);
}

/// P1's deck has 13 numbers, 1 role and 23 rows, and its order goes by rank,
/// within a rank by row.
#[test]
fn p1_has_the_deck_and_the_order_of_the_scope() {
    let deck = compiled(P1);
    assert_eq!((deck.numbers, deck.roles, deck.rows.len()), (13, 1, 23));
    assert_eq!(deck.rows[0], 0x1000_0002_0000_0003);
    assert_eq!(deck.rows[5], 0x5000_0008_0000_0005);
    let settled = shelf::classify(&deck.rows, 13, 1).unwrap();
    assert_eq!(settled.order, [2, 3, 4, 5]);
}

/// R14: with the fewest numbers, R = 0 and no rows the table is that of the
/// scope.
#[test]
fn the_smallest_deck_has_its_table() {
    let settled = shelf::classify(&[], LEAST_NUMBERS, 0).unwrap();
    let mut table = [0; LEAST_NUMBERS * SET_WORDS];
    table[0] = 0x8000_0000_0000_0000;
    table[SET_WORDS] = 0xC000_0000_0000_0000;
    assert_eq!(settled.table, table);
}

/// With the most numbers and no rows every bit stands where the layout puts it.
#[test]
fn the_table_of_the_most_free_numbers() {
    let settled = shelf::classify(&[], NUMBERS, 0).unwrap();
    let rows = settled.table.chunks_exact(SET_WORDS);
    assert_eq!(rows.len(), NUMBERS);
    for (a, words) in rows.enumerate() {
        let mut expected = [0u64; SET_WORDS];
        expected[0] |= 1 << 63;
        expected[a / 64] |= 1 << (63 - a % 64);
        if a == 1 {
            expected = [u64::MAX; SET_WORDS];
        }
        assert_eq!(words, expected, "number {a}");
    }
}
