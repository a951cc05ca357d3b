//! Decks that are hard to settle: each of them is slow for some way of
//! settling. They are made for any size, so that small ones of the same shape
//! can be compared with the plain engine.

use super::decks::Deck;
use super::decks::{self, both_within, query, some_within, usually, within, within_some};
use super::relay::{Entry, Order, Parts, Rest, Step, PLAIN};

/// The counts of numbers and rows that a deck is made for.
#[derive(Clone, Copy)]
pub struct Size {
    pub numbers: usize,
    pub rows: usize,
}

/// A deck for a given size, as hard as its way allows.
pub type Construction = fn(Size) -> Deck;

/// Hard decks by name, built by hand.
const BUILT: [(&str, Construction); 10] = [
    ("ladder, last row first", |size| {
        decks::reversed(filled(decks::ladder(size.numbers - 4), size))
    }),
    ("ladder, the rest asks about its last kind", |size| {
        let last = size.numbers - 1;
        filled_with(decks::ladder(size.numbers - 4), query(last, 2), size)
    }),
    ("chain on a ladder", |size| on_a_ladder(size.numbers)),
    ("chain on a ladder, last row first", |size| {
        decks::reversed(on_a_ladder(size.numbers))
    }),
    ("chain on a ladder, its last rule repeated", |size| {
        let deck = on_a_ladder(size.numbers);
        let last = deck.numbers - 1;
        filled_with(deck, usually(last, last - 1), size)
    }),
    ("chain on a ladder, the rest asks about its end", |size| {
        let deck = on_a_ladder(size.numbers);
        let last = deck.numbers - 1;
        filled_with(deck, query(last, 2), size)
    }),
    ("chain beside a ladder", beside_a_ladder),
    ("chain beside strict rows", chain_beside_strict_rows),
    ("strict chain, idle pairs of roles", slow_strict_chain),
    ("relay on a ladder", relay_on_a_ladder),
];

/// Hard decks by name, of parts whose counts are for 256 numbers. Most of them
/// are what a search found worst for one way of settling.
const OF_PARTS: [(&str, Parts); 11] = [
    ("relay of pairs, entered in turn", RELAY_IN_TURN),
    ("relay of pairs, entered at once", RELAY_AT_ONCE),
    ("relay of pairs in leaps", RELAY_IN_LEAPS),
    ("relay of nested pairs", NESTED_PAIRS),
    ("relay of nested rules", NESTED_RULES),
    ("relay of nested rules, one about everything", ABOUT_ALL),
    ("chain beside a ladder, shuffled", SHUFFLED),
    ("ladder with idle pairs at its end", IDLE_END),
    ("ladder climbed from its end", CLIMBED),
    ("ladder that falls with the chain", FALLING),
    ("ladder that falls, with a relay", FALLING_WITH_RELAY),
];

/// All hard decks of a size, by name.
pub fn hard_decks(size: Size) -> impl Iterator<Item = (&'static str, Deck)> {
    let built = BUILT.into_iter();
    let of_parts = OF_PARTS.into_iter();
    built
        .map(move |(name, construct)| (name, construct(size)))
        .chain(of_parts.map(move |(name, parts)| (name, scaled(parts, size))))
}

/// Filled up with questions about all numbers.
pub fn filled(mut deck: Deck, size: Size) -> Deck {
    let numbers = deck.numbers;
    let more = (0..).map(|i| query(i % numbers, (i / numbers + i) % numbers));
    deck.rows.extend(more.take(size.rows - deck.rows.len()));
    deck
}

/// Filled up with one row.
pub fn filled_with(mut deck: Deck, row: u64, size: Size) -> Deck {
    deck.rows.resize(size.rows, row);
    deck
}

/// Half of the numbers for the chain, half for the ladder: nearly the most of
/// passes x levels x lefts. The chain's lefts are within the ladder's last
/// kind, so each of them is tried at every level of every pass.
pub fn on_a_ladder(numbers: usize) -> Deck {
    let links = numbers / 4;
    decks::chain_on_a_ladder(links, numbers - 5 - 2 * links)
}

/// The same where the chain's lefts are not within the ladder: in every pass
/// the stuck one comes up through every level.
fn beside_a_ladder(size: Size) -> Deck {
    let mut deck = on_a_ladder(size.numbers);
    let (links, last) = (size.numbers / 4, deck.numbers - 1);
    let on_top = within(last, last - 2 * links - 1);
    let is_on_top = |row: u64| row >> 60 == 1 && row as u16 == on_top as u16;
    deck.rows.retain(|row| !is_on_top(*row));
    filled_with(deck, query(last, 2), size)
}

/// A chain over half of the numbers, and over the other half strict rows that
/// are told in the order in which a reader gains least, up to the most rows.
pub fn chain_beside_strict_rows(size: Size) -> Deck {
    let numbers = size.numbers;
    let mut deck = decks::chain(numbers / 4);
    let (first, count) = (deck.numbers, numbers - deck.numbers);
    for kind in first + 1..numbers {
        deck.rows.push(within(kind, kind - 1));
        deck.rows.push(within_some(kind, 0, kind - 1));
    }
    let pair = |i: usize| (first + i % count, first + (i / count + i) % count);
    let more = (0..).map(|i| some_within(0, pair(i).0, pair(i).1));
    deck.rows.extend(more.take(size.rows - deck.rows.len()));
    Deck { numbers, ..deck }
}

/// A chain of "within" told so that a round over the rows gains one, and rows of
/// kinds 3 and 4 up to the most that never meet.
pub fn slow_strict_chain(size: Size) -> Deck {
    let end = size.numbers - 2;
    let mut rows: Vec<u64> = (3..end).map(|kind| within(kind, kind - 1)).collect();
    let pairs = (0..).map(|i| match (i % 2, 2 + i % (end - 2)) {
        (0, kind) => within_some(kind, 0, end),
        (_, kind) => some_within(0, end + 1, kind),
    });
    rows.extend(pairs.take(size.rows - rows.len()));
    Deck {
        rows,
        numbers: size.numbers,
        roles: 1,
    }
}

/// A ladder, a chain on it, and a relay that only the ladder's last kind and the
/// chain's lefts run through, told last first; the rest asks about its end.
fn relay_on_a_ladder(size: Size) -> Deck {
    let (links, kinds) = (size.numbers / 6, size.numbers / 3);
    let mut deck = decks::chain_on_a_ladder(links, kinds);
    let (last, trigger, end) = (3 + kinds, deck.numbers, size.numbers - 1);
    let mut rows: Vec<u64> = (trigger + 1..end)
        .map(|place| both_within(trigger, place, place + 1))
        .rev()
        .collect();
    rows.extend([usually(last, trigger), within(last, trigger + 1)]);
    rows.extend((1..=links).map(|link| usually(4 + kinds + 2 * link, trigger)));
    rows.append(&mut deck.rows);
    deck.rows = rows;
    deck.numbers = size.numbers;
    filled_with(deck, query(last, end), size)
}

/// Parts whose counts are for 256 numbers, scaled to the size.
fn scaled(parts: Parts, size: Size) -> Deck {
    let scaled = |count: usize| count * size.numbers / 256;
    let scaled = Parts {
        kinds: scaled(parts.kinds).max(2),
        links: scaled(parts.links),
        relay: scaled(parts.relay),
        ..parts
    };
    scaled.deck(size)
}

/// The worst found for rounds over all rows.
const RELAY_IN_TURN: Parts = Parts {
    kinds: 124,
    links: 43,
    relay: 40,
    entry: Entry::InTurn(14),
    rest: Rest::OfLast,
    numbers: Order::LastFirst,
    rows: Order::LastFirst,
    ..PLAIN
};

/// The worst found for rounds over the rows that read what changed.
const RELAY_AT_ONCE: Parts = Parts {
    kinds: 99,
    links: 55,
    relay: 40,
    entry: Entry::AtOnce,
    numbers: Order::LastFirst,
    rows: Order::LastFirst,
    ..PLAIN
};

/// The worst found for columns of roots and a worklist.
const RELAY_IN_LEAPS: Parts = Parts {
    kinds: 57,
    links: 52,
    relay: 88,
    step: Step::PairsInLeaps(19),
    entry: Entry::InTurn(19),
    rest: Rest::RepeatLast,
    numbers: Order::LastFirst,
    rows: Order::Shuffled(1),
    ..PLAIN
};

/// The worst found for roots kept from pass to pass.
const SHUFFLED: Parts = Parts {
    kinds: 118,
    links: 66,
    rest: Rest::OfLast,
    numbers: Order::Shuffled(1),
    rows: Order::Shuffled(2),
    ..PLAIN
};

/// The same, found later.
const IDLE_END: Parts = Parts {
    kinds: 151,
    links: 55,
    rest: Rest::IdlePairs,
    rows: Order::LastFirst,
    ..PLAIN
};

/// Bad for columns of roots: a number more in a root is looked for in the
/// columns of all that it is within.
const NESTED_PAIRS: Parts = Parts {
    kinds: 60,
    links: 31,
    relay: 120,
    nested: true,
    entry: Entry::AtOnce,
    numbers: Order::LastFirst,
    rows: Order::LastFirst,
    ..PLAIN
};

/// The same with every number of the relay a left: the worst known for columns.
const NESTED_RULES: Parts = Parts {
    kinds: 3,
    links: 31,
    relay: 180,
    step: Step::Rules,
    nested: true,
    rest: Rest::IdleRules,
    numbers: Order::LastFirst,
    rows: Order::LastFirst,
    ..PLAIN
};

/// Bad for roots one at a time: every left comes up through every level, the
/// last kinds are looked at first, and many rows read the last kind.
const CLIMBED: Parts = Parts {
    kinds: 146,
    links: 54,
    on_top: true,
    rest: Rest::IdlePairs,
    numbers: Order::LastFirst,
    rows: Order::LastFirst,
    ..PLAIN
};

/// Levels and passes share their numbers.
const FALLING: Parts = Parts {
    kinds: 160,
    links: 83,
    falling: true,
    rest: Rest::RepeatLast,
    numbers: Order::LastFirst,
    rows: Order::LastFirst,
    ..PLAIN
};

/// The worst found for roots one at a time by a worklist.
const FALLING_WITH_RELAY: Parts = Parts {
    kinds: 151,
    links: 96,
    relay: 36,
    entry: Entry::InTurn(16),
    given: true,
    falling: true,
    rest: Rest::IdlePairs,
    numbers: Order::LastFirst,
    ..PLAIN
};

/// Bad for an index with a list of the rows that have no second number.
const ABOUT_ALL: Parts = Parts {
    kinds: 14,
    links: 83,
    relay: 74,
    step: Step::Rules,
    nested: true,
    about_all: true,
    rest: Rest::OfLast,
    rows: Order::Shuffled(5),
    ..PLAIN
};
