//! The benchmark's decks, so that what is timed is known to be right. Those that
//! take the plain engine over a second are compared in a smaller size here, and
//! in their own by the benchmark itself.

use crate::common::benched::{compared, GROWTHS, MOST};
use crate::common::books::P1;
use crate::common::decks::{Deck, Random};
use crate::common::hard::{self, Size};
use crate::common::{compare, Case};

/// Both engines on a deck; gives its levels and passes.
fn settled_alike(name: &str, deck: Deck, random: &mut Random) -> [usize; 2] {
    println!("{name}");
    let [levels, passes, _] = compare(&Case::new(deck), random).counts();
    [levels, passes]
}

/// The decks that both engines are timed on.
#[test]
fn timed_decks_settle_alike() {
    let mut random = Random(110);
    for (name, deck) in compared(P1) {
        settled_alike(&name, deck, &mut random);
    }
}

/// The decks that differ in one count.
#[test]
fn growing_decks_settle_alike() {
    let mut random = Random(111);
    for growth in GROWTHS {
        for count in growth.counts {
            let name = format!("{}: {count} {}", growth.title, growth.varied);
            settled_alike(&name, (growth.deck)(*count), &mut random);
        }
    }
}

/// The hard decks with a quarter of the numbers and rows. Most have many levels
/// or many passes.
#[test]
fn hard_decks_settle_alike() {
    let mut random = Random(112);
    let size = Size {
        numbers: MOST.numbers / 4,
        rows: MOST.rows / 4,
    };
    let mut both = 0;
    for (name, deck) in hard::hard_decks(size) {
        assert!(deck.numbers <= size.numbers, "{name}");
        let [levels, passes] = settled_alike(name, deck, &mut random);
        both += usize::from(levels > 10 && passes > 10);
    }
    assert!(both > 10);
    let deck = hard::slow_strict_chain(MOST);
    settled_alike("strict chain of the greatest size", deck, &mut random);
}
