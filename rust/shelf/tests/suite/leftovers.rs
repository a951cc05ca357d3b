//! What the buffers held before plays no part.

use crate::common::decks::{Deck, Random, FAMILIES};
use crate::common::{Case, Lent};
use shelf::limits::{ROWS, SET_WORDS, TABLE_WORDS};

/// What a call writes when it accepts: table, results, order, answer.
type Written = (Vec<u64>, Vec<u16>, Vec<u16>, Vec<u64>);

/// What was written, cut off the buffers; what lies beyond is as it was.
fn written(case: &Case, before: &Lent, after: &Lent) -> Written {
    let words = SET_WORDS * case.numbers;
    let (rows, usual) = (case.rows.len(), case.usual().len());
    let mut kept = after.clone();
    kept.table.lent_mut()[..words].copy_from_slice(&before.table.lent()[..words]);
    kept.results.lent_mut()[..rows].copy_from_slice(&before.results.lent()[..rows]);
    kept.order.lent_mut()[..usual].copy_from_slice(&before.order.lent()[..usual]);
    kept.answer.lent_mut()[..3].copy_from_slice(&before.answer.lent()[..3]);
    assert_eq!(&kept, before, "what is beyond is kept: {case:?}");
    (
        after.table.lent()[..words].to_vec(),
        after.results.lent()[..rows].to_vec(),
        after.order.lent()[..usual].to_vec(),
        after.answer.lent()[..3].to_vec(),
    )
}

/// 3,000 decks, each settled over buffers of zeros, of ones, and twice over
/// random leftovers: the same is written, and the rest is kept.
#[test]
fn different_leftovers_give_the_same() {
    let mut random = Random(70);
    for index in 0..3_000 {
        let (family, _) = FAMILIES[index % FAMILIES.len()];
        let deck = family(&mut random);
        let case = Case::new(deck).with_spare(&mut random);
        let starts = [
            Lent::filled(&case, 0),
            Lent::filled(&case, u64::MAX),
            Lent::leftovers(&case, &mut random),
            Lent::leftovers(&case, &mut random),
        ];
        let mut first = None;
        for before in starts {
            let mut lent = before.clone();
            assert_eq!(lent.call(&case), 0, "{case:?}");
            let found = written(&case, &before, &lent);
            let expected = first.get_or_insert_with(|| found.clone());
            assert_eq!(&found, expected, "{case:?}");
        }
    }
}

/// 2,000 decks one after the other in one set of buffers, never cleared: each
/// is settled as in buffers of its own, and a refused deck in between leaves
/// the buffers of the one before.
#[test]
fn buffers_used_again_and_again() {
    let mut random = Random(71);
    let (mut table, mut results, mut order) = ([0; TABLE_WORDS], [0; ROWS], [0; ROWS]);
    for index in 0..2_000 {
        let (family, _) = FAMILIES[index % FAMILIES.len()];
        let Deck {
            rows,
            numbers,
            roles,
        } = family(&mut random);
        let mut call = |rows: &[u64]| {
            shelf::classify_into(rows, numbers, roles, &mut table, &mut results, &mut order)
        };
        let counts = call(&rows).unwrap();
        let mut damaged = rows.clone();
        damaged.push(0);
        let refused = call(&damaged).unwrap_err();
        assert_eq!(refused.refusal, shelf::Refusal::UnknownKind);
        assert_eq!(refused.place, rows.len());
        let own = shelf::classify(&rows, numbers, roles).unwrap();
        assert_eq!(counts, own.counts);
        assert_eq!(table[..SET_WORDS * numbers], own.table);
        assert_eq!(results[..rows.len()], own.results);
        assert_eq!(order[..own.order.len()], own.order);
    }
}
