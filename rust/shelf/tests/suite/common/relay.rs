//! Decks of three parts: a ladder of kinds, a chain of passes beside it or on
//! it, and a relay, numbers that a root runs through one after the other.

use super::decks::{self, both_within, query, usually, within, within_some};
use super::decks::{Deck, Random, BOTTOM, TOP};
use super::hard::Size;

/// The order that numbers are given in, or that rows are told in.
#[derive(Clone, Copy)]
pub enum Order {
    AsMade,
    LastFirst,
    /// By the random numbers from this start.
    Shuffled(u64),
}

/// How a root runs through the relay.
#[derive(Clone, Copy)]
pub enum Step {
    /// With the trigger, a number is within the next.
    Pairs,
    /// The same, and within the one so many further.
    PairsInLeaps(usize),
    /// A number usually is the next.
    Rules,
}

/// Where the lefts of the ladder and the chain come into the relay.
#[derive(Clone, Copy)]
pub enum Entry {
    Nowhere,
    /// All of them are within its first number.
    AtOnce,
    /// Each usually is a number so many further than the left before.
    InTurn(usize),
}

/// What the rows up to the most say.
#[derive(Clone, Copy)]
pub enum Rest {
    /// A question about the ladder's last kind.
    AskAboutLast,
    /// The chain's last rule again.
    RepeatLast,
    /// A rule of the ladder's last kind.
    OfLast,
    /// Pairs in the relay, or else at the ladder's last kind, that add nothing.
    IdlePairs,
    /// Rules of the relay that add nothing to the lefts that came in at its
    /// first number.
    IdleRules,
}

/// Every kind of rest.
const RESTS: [Rest; 5] = [
    Rest::AskAboutLast,
    Rest::RepeatLast,
    Rest::OfLast,
    Rest::IdlePairs,
    Rest::IdleRules,
];

/// What a deck is made of.
#[derive(Clone, Copy)]
pub struct Parts {
    /// How many kinds the ladder has, how many links the chain, and how many
    /// numbers the relay.
    pub kinds: usize,
    pub links: usize,
    pub relay: usize,
    pub step: Step,
    /// Each number of the relay is within the one before, too.
    pub nested: bool,
    pub entry: Entry,
    /// The ladder's kinds are within the trigger; else each left usually is.
    pub given: bool,
    /// The chain's lefts are within the ladder's last kind.
    pub on_top: bool,
    /// The chain's rules lead to the ladder's kinds, so the ladder loses its
    /// last kind with every pass.
    pub falling: bool,
    /// There is a rule about everything.
    pub about_all: bool,
    pub rest: Rest,
    pub numbers: Order,
    pub rows: Order,
}

/// A ladder and a chain side by side, the rest a question.
pub const PLAIN: Parts = Parts {
    kinds: 125,
    links: 62,
    relay: 0,
    step: Step::Pairs,
    nested: false,
    entry: Entry::Nowhere,
    given: false,
    on_top: false,
    falling: false,
    about_all: false,
    rest: Rest::AskAboutLast,
    numbers: Order::AsMade,
    rows: Order::AsMade,
};

/// A deck on the way: what it has so far, and who has which number.
struct Making {
    rows: Vec<u64>,
    /// The ladder's last kind.
    last: usize,
    trigger: usize,
    relay: Vec<usize>,
    /// The lefts of the ladder's and the chain's rules.
    lefts: Vec<usize>,
    /// The chain's last rule.
    rule: u64,
    /// The first number that nobody has.
    free: usize,
}

impl Parts {
    /// The deck: the ladder and the relay, as much of the chain as there are
    /// numbers for, and the rest.
    pub fn deck(&self, size: Size) -> Deck {
        let mut making = with_ladder(self.kinds, self.relay);
        self.add_chain(&mut making, size.numbers);
        self.add_relay(&mut making);
        self.add_entry(&mut making);
        if self.about_all {
            making.rows.push(usually(TOP, TOP));
        }
        making.rows.truncate(size.rows);
        for index in making.rows.len()..size.rows {
            let row = self.rest.row(&making, index);
            making.rows.push(row);
        }
        self.rows.apply(&mut making.rows);
        let mut names: Vec<usize> = (0..size.numbers).collect();
        self.numbers.apply(&mut names[BOTTOM + 1..]);
        Deck {
            rows: making
                .rows
                .into_iter()
                .map(|row| renamed(row, &names))
                .collect(),
            numbers: size.numbers,
            roles: 1,
        }
    }

    /// Usual rules each of which leads to some of what the one before is about.
    fn add_chain(&self, making: &mut Making, numbers: usize) {
        let mut before = making.free;
        making.rows.push(usually(before, BOTTOM));
        making.lefts.push(before);
        making.free += 1;
        for link in 0..self.links {
            // Two kinds stay, so that there is a ladder to the end.
            let taken = self.falling && making.last > link + 5;
            if making.free + 2 > numbers {
                return;
            }
            let kind = making.free;
            let some = if taken { making.last - link } else { kind + 1 };
            making.free += if taken { 1 } else { 2 };
            making.rule = usually(kind, some);
            making.rows.push(making.rule);
            making.rows.push(within_some(some, 0, before));
            if self.on_top {
                making.rows.push(within(kind, making.last));
            }
            making.lefts.push(kind);
            before = kind;
        }
    }

    /// The rows by which a root runs through the relay.
    fn add_relay(&self, making: &mut Making) {
        let relay = &making.relay;
        let rows = &mut making.rows;
        for (place, pair) in relay.windows(2).enumerate() {
            let [here, next] = [pair[0], pair[1]];
            rows.push(match self.step {
                Step::Rules => usually(here, next),
                _ => both_within(making.trigger, here, next),
            });
            if let Step::PairsInLeaps(leap) = self.step {
                let further = relay.get(place + leap);
                rows.extend(further.map(|further| both_within(making.trigger, here, *further)));
            }
            if self.nested {
                rows.push(within(next, here));
            }
        }
    }

    /// The rows by which the lefts come into the relay, and have the trigger.
    fn add_entry(&self, making: &mut Making) {
        let relay = &making.relay;
        if relay.is_empty() {
            return;
        }
        let rows = &mut making.rows;
        for (place, left) in making.lefts.iter().enumerate() {
            match self.entry {
                Entry::Nowhere => continue,
                Entry::AtOnce => rows.push(within(*left, relay[0])),
                Entry::InTurn(leap) => {
                    rows.push(usually(*left, relay[place * leap % relay.len()]));
                }
            }
            if !self.given {
                rows.push(usually(*left, making.trigger));
            }
        }
        if self.given {
            rows.push(within(making.lefts[0], making.trigger));
        }
    }
}

/// Parts and sizes at random, with a few wild rows more half of the time.
pub fn relayed(random: &mut Random) -> Deck {
    let leap = random.from(2, 5);
    let orders = [
        Order::AsMade,
        Order::LastFirst,
        Order::Shuffled(random.next()),
    ];
    let parts = Parts {
        kinds: random.from(2, 16),
        links: random.from(1, 14),
        relay: random.pick(&[0, 3, 5, 9]),
        step: random.pick(&[Step::Pairs, Step::PairsInLeaps(leap), Step::Rules]),
        nested: random.once_in(2),
        entry: random.pick(&[Entry::Nowhere, Entry::AtOnce, Entry::InTurn(leap)]),
        given: random.once_in(2),
        on_top: random.once_in(2),
        falling: random.once_in(2),
        about_all: random.once_in(4),
        rest: random.pick(&RESTS),
        numbers: random.pick(&orders),
        rows: random.pick(&orders),
    };
    let size = Size {
        numbers: random.from(32, 48),
        rows: random.from(40, 80),
    };
    let deck = parts.deck(size);
    if random.once_in(2) {
        return decks::disturbed(random, deck);
    }
    deck
}

/// The ladder, and the numbers of the relay.
fn with_ladder(kinds: usize, relay: usize) -> Making {
    let mut rows = decks::ladder(kinds).rows;
    rows.retain(|row| row >> 60 != 6);
    let (last, trigger) = (3 + kinds, 4 + kinds);
    let free = trigger + 1 + relay;
    Making {
        rows,
        last,
        trigger,
        relay: (trigger + 1..free).collect(),
        lefts: (4..=last).collect(),
        rule: usually(last, TOP),
        free,
    }
}

impl Rest {
    /// The row at this index.
    fn row(self, making: &Making, index: usize) -> u64 {
        let relay = |place: usize| match making.relay.len() {
            0 => making.last,
            length => making.relay[place % length],
        };
        match self {
            Rest::AskAboutLast => query(making.last, 2),
            Rest::RepeatLast => making.rule,
            Rest::OfLast => usually(making.last, making.trigger),
            Rest::IdlePairs => both_within(relay(index), relay(index * 7 + 3), relay(0)),
            Rest::IdleRules => usually(relay(index), relay(0)),
        }
    }
}

impl Order {
    /// Puts values into this order.
    fn apply<T>(self, values: &mut [T]) {
        match self {
            Order::AsMade => {}
            Order::LastFirst => values.reverse(),
            Order::Shuffled(start) => Random(start).shuffle(values),
        }
    }
}

/// The row with other numbers in the places of its own.
fn renamed(row: u64, names: &[usize]) -> u64 {
    let name = |shift: u32| names[(row >> shift) as usize % 65_536];
    let (kind, role) = (row >> 60, (row >> 48) as usize % 4096);
    decks::row(kind, role, name(32), name(16), name(0))
}
