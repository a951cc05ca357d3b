//! What the buffers held before plays no part in a call on a text, nor do the
//! bytes around the text.

use crate::common::books::{damage, FAMILIES};
use crate::common::decks::Random;
use crate::common::texts::{Call, TextCase, TextLent, CALLS};
use shelf::limits::{ROWS, SET_WORDS, TABLE_WORDS};

/// What a call writes when it accepts: answer, deck, table, results, order.
type Written = (Vec<u64>, Vec<u64>, Vec<u64>, Vec<u16>, Vec<u16>);

/// How much of each buffer that is.
fn lengths(call: Call, after: &TextLent) -> [usize; 5] {
    let rows = after.rows().len();
    let numbers = after.answer.lent()[2] as usize;
    match call {
        Call::Compile => [4, rows, 0, 0, 0],
        Call::Evaluate => [7, rows, SET_WORDS * numbers, rows, after.usual().len()],
    }
}

/// What was written, cut off the buffers; what lies beyond is as it was.
fn written(call: Call, case: &TextCase, before: &TextLent, after: &TextLent) -> Written {
    let [counts, rows, words, results, usual] = lengths(call, after);
    let mut kept = after.clone();
    kept.answer.lent_mut()[..counts].copy_from_slice(&before.answer.lent()[..counts]);
    kept.deck.lent_mut()[..rows].copy_from_slice(&before.deck.lent()[..rows]);
    kept.table.lent_mut()[..words].copy_from_slice(&before.table.lent()[..words]);
    kept.results.lent_mut()[..results].copy_from_slice(&before.results.lent()[..results]);
    kept.order.lent_mut()[..usual].copy_from_slice(&before.order.lent()[..usual]);
    assert_eq!(&kept, before, "{call:?}, what is beyond is kept: {case:?}");
    (
        after.answer.lent()[..counts].to_vec(),
        after.deck.lent()[..rows].to_vec(),
        after.table.lent()[..words].to_vec(),
        after.results.lent()[..results].to_vec(),
        after.order.lent()[..usual].to_vec(),
    )
}

/// 3,000 books, a third of them damaged, each over buffers of zeros, of ones,
/// and twice over random leftovers: the same is said and written, and the rest
/// is kept.
#[test]
fn different_leftovers_give_the_same() {
    let mut random = Random(120);
    for index in 0..3_000 {
        let (family, _) = FAMILIES[index % FAMILIES.len()];
        let mut text = family(&mut random);
        if random.once_in(3) {
            damage(&mut random, &mut text);
        }
        let case = TextCase::new(text).with_spare(&mut random);
        let starts = [
            TextLent::filled(&case, 0),
            TextLent::filled(&case, u64::MAX),
            TextLent::leftovers(&case, &mut random),
            TextLent::leftovers(&case, &mut random),
        ];
        for call in CALLS {
            let mut first = None;
            for before in &starts {
                let mut lent = before.clone();
                let number = lent.call(call);
                let found = if number == 0 {
                    written(call, &case, before, &lent)
                } else {
                    let place = lent.answer.lent()[0];
                    let mut kept = before.clone();
                    kept.answer.lent_mut()[0] = place;
                    assert_eq!(lent, kept, "{call:?}: {case:?}");
                    (vec![number, place], vec![], vec![], vec![], vec![])
                };
                let expected = first.get_or_insert_with(|| found.clone());
                assert_eq!(&found, expected, "{call:?}: {case:?}");
            }
        }
    }
}

/// 2,000 books one after the other in one set of buffers, never cleared: each
/// is settled as in buffers of its own, and a refused text in between leaves
/// the buffers of the one before.
#[test]
fn buffers_used_again_and_again() {
    let mut random = Random(121);
    let (mut deck, mut table) = ([0; ROWS], [0; TABLE_WORDS]);
    let (mut results, mut order) = ([0; ROWS], [0; ROWS]);
    for index in 0..2_000 {
        let (family, _) = FAMILIES[index % FAMILIES.len()];
        let text = family(&mut random);
        let mut call = |text: &[u8]| {
            shelf::evaluate_into(text, &mut deck, &mut table, &mut results, &mut order)
        };
        let done = call(&text).unwrap();
        let (sizes, counts) = (done.sizes, done.counts);
        let damaged = [&text[..], b"!"].concat();
        let refused = call(&damaged).unwrap_err();
        assert_eq!(refused.refusal, shelf::Refusal::SyntaxError);
        assert_eq!(refused.place, text.len());
        let shelf::Evaluated {
            compiled,
            classified,
        } = shelf::evaluate(&text).unwrap();
        assert_eq!(shelf::compile(&text).unwrap(), compiled);
        assert_eq!((sizes, counts), (compiled.sizes, classified.counts));
        let rows = compiled.deck.len();
        assert_eq!(deck[..rows], compiled.deck);
        assert_eq!(table[..classified.table.len()], classified.table);
        assert_eq!(results[..rows], classified.results);
        assert_eq!(order[..classified.order.len()], classified.order);
        let apart = shelf::classify(&compiled.deck, sizes.numbers, sizes.roles).unwrap();
        assert_eq!(apart, classified, "{}", text.escape_ascii());
    }
}
