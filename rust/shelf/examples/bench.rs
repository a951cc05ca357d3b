//! Times the proved engine against the plain one, and how its time grows.
//!
//! `cargo run --release --offline -p shelf --example bench [-- SECONDS | evaluations | hard]`
//!
//! SECONDS is how long one call may take in a series of growing decks: 10
//! unless given. A series whose next call would take longer stops there. With
//! `evaluations` only whole sittings, the largest class and the longest axioms are
//! timed, and no decks; with `hard` only the hard decks of the greatest size.

#[path = "../tests/suite/common/benched.rs"]
mod benched;
#[path = "bench/conversion.rs"]
mod conversion;
#[allow(dead_code)]
#[path = "../tests/suite/common/decks.rs"]
mod decks;
#[path = "bench/evaluations.rs"]
mod evaluations;
#[path = "../tests/suite/common/hard.rs"]
mod hard;
#[allow(dead_code)]
#[path = "../tests/suite/common/large_runs.rs"]
mod large_runs;
#[path = "bench/marking.rs"]
mod marking;
#[path = "../tests/suite/common/one_hash.rs"]
mod one_hash;
#[path = "../tests/suite/common/relay.rs"]
mod relay;

use benched::MOST;
use decks::{query, usually, Deck, Random};
use hard::{filled_with, on_a_ladder, Size};
use shelf::ffi;
use shelf::limits::{ANSWER_WORDS, NUMBERS, ROWS, TABLE_WORDS};
use shelf_reference::lent;
use std::time::{Duration, Instant};

/// The least time that one measurement goes on for, with as many calls as
/// that takes.
const MEASURE: Duration = Duration::from_millis(200);

fn main() {
    let word = std::env::args().nth(1);
    let [evaluations, decks, hard] = match word.as_deref() {
        Some("evaluations") => [true, false, false],
        Some("hard") => [false, false, true],
        _ => [true; 3],
    };
    let patience = match word {
        Some(word) if decks => match word.parse() {
            Ok(seconds) => Duration::from_secs(seconds),
            Err(_) => {
                eprintln!("bench [SECONDS | evaluations | hard]: {word} is no whole number");
                std::process::exit(2);
            }
        },
        _ => Duration::from_secs(10),
    };
    println!("Both engines in one process, on the same texts and rows, one thread.");
    println!("Built for release: {}.", !cfg!(debug_assertions));
    println!("Buffers are lent once and never cleared: a call finds what the call before left.");
    println!("Times are the least of several calls, a call of over 0.2 s is made once.");
    if evaluations {
        evaluations::against_the_plain_engine(P1);
        marking::against_the_plain_engine();
        conversion::against_the_plain_engine();
    }
    if decks {
        against_the_plain_engine();
        growth();
    }
    if hard {
        hard_against_the_plain_engine();
    }
    if decks {
        worst(patience);
    }
}

/// The buffers of an engine, as long as any deck asks for.
struct Buffers {
    table: Vec<u64>,
    results: Vec<u16>,
    order: Vec<u16>,
    answer: Vec<u64>,
}

/// A call of either engine on a deck.
type Call = fn(&Deck, &mut Buffers) -> u64;

impl Buffers {
    fn new() -> Buffers {
        let mut random = Random(80);
        Buffers {
            table: (0..TABLE_WORDS).map(|_| random.next()).collect(),
            results: (0..ROWS).map(|_| random.next() as u16).collect(),
            order: (0..ROWS).map(|_| random.next() as u16).collect(),
            answer: (0..ANSWER_WORDS).map(|_| random.next()).collect(),
        }
    }

    /// Levels and passes of the deck settled last.
    fn levels_and_passes(&self) -> (u64, u64) {
        (self.answer[0], self.answer[1])
    }
}

fn proved(deck: &Deck, lent: &mut Buffers) -> u64 {
    ffi::classify(
        &deck.rows,
        deck.numbers,
        deck.roles,
        &mut lent.table,
        &mut lent.results,
        &mut lent.order,
        &mut lent.answer,
    )
}

fn plain(deck: &Deck, lent: &mut Buffers) -> u64 {
    lent::classify(
        &deck.rows,
        deck.numbers,
        deck.roles,
        &mut lent.table,
        &mut lent.results,
        &mut lent.order,
        &mut lent.answer,
    )
}

/// The least time of one call on a deck.
fn time(call: Call, deck: &Deck, lent: &mut Buffers) -> Duration {
    least_time(|| call(deck, lent))
}

/// The least time of one call; it has to accept.
fn least_time(mut call: impl FnMut() -> u64) -> Duration {
    let start = Instant::now();
    let mut least = Duration::MAX;
    while start.elapsed() < MEASURE {
        let begun = Instant::now();
        let number = call();
        least = least.min(begun.elapsed());
        assert_eq!(number, 0, "the call is accepted");
    }
    least
}

/// A time in milliseconds.
fn ms(time: Duration) -> f64 {
    time.as_secs_f64() * 1e3
}

/// Both engines' times on one deck; they must have said the same.
fn both(name: &str, deck: &Deck) {
    let (mut ours, mut theirs) = (Buffers::new(), Buffers::new());
    let our_time = time(proved, deck, &mut ours);
    let plain_time = time(plain, deck, &mut theirs);
    assert_eq!(ours.results, theirs.results);
    assert_eq!(ours.table, theirs.table);
    assert_eq!(ours.answer, theirs.answer);
    let (levels, passes) = ours.levels_and_passes();
    println!(
        "{name:46} {:7} {:5} {levels:6} {passes:6} {:10.3} {:10.3} {:8.4}",
        deck.numbers,
        deck.rows.len(),
        ms(our_time),
        ms(plain_time),
        our_time.as_secs_f64() / plain_time.as_secs_f64(),
    );
}

/// P1 of the scope, a book.
const P1: &str = include_str!("../../data/p1.book");

fn print_columns() {
    println!(
        "{:46} {:>7} {:>5} {:>6} {:>6} {:>10} {:>10} {:>8}",
        "deck", "numbers", "rows", "levels", "passes", "ours ms", "plain ms", "ratio"
    );
}

fn against_the_plain_engine() {
    println!("\nAgainst the plain engine (ratio: our time over the plain engine's)");
    print_columns();
    for (name, deck) in benched::compared(P1) {
        both(&name, &deck);
    }
}

fn hard_against_the_plain_engine() {
    println!("\nHard decks of the greatest size, against the plain engine");
    println!(
        "(which needs less than a minute on each where nothing else runs, so none is left out)"
    );
    print_columns();
    for (name, deck) in hard::hard_decks(MOST) {
        both(name, &deck);
    }
}

fn heading(title: &str, varied: &str) {
    println!("\n{title}");
    println!(
        "{varied:>8} {:>7} {:>5} {:>6} {:>6} {:>10} {:>12}",
        "numbers", "rows", "levels", "passes", "ours ms", "us a unit"
    );
}

/// Our time on one deck of a series.
fn ours(varied: usize, deck: &Deck) {
    let mut lent = Buffers::new();
    let taken = time(proved, deck, &mut lent);
    let (levels, passes) = lent.levels_and_passes();
    println!(
        "{varied:8} {:7} {:5} {levels:6} {passes:6} {:10.3} {:12.2}",
        deck.numbers,
        deck.rows.len(),
        ms(taken),
        ms(taken) * 1e3 / varied as f64,
    );
}

fn growth() {
    for growth in benched::GROWTHS {
        heading(growth.title, growth.varied);
        for count in growth.counts {
            ours(*count, &(growth.deck)(*count));
        }
    }
}

/// A deck for a given size of numbers, as hard as its way allows.
type Construction = fn(usize) -> Deck;

/// How hard decks are built.
const CONSTRUCTIONS: [(&str, Construction); 10] = [
    ("ladder", |numbers| decks::ladder(numbers - 4)),
    ("ladder, last row first", |numbers| {
        decks::reversed(decks::ladder(numbers - 4))
    }),
    ("ladder, the rest asks about its last kind", |numbers| {
        let last = numbers - 1;
        filled_with(decks::ladder(numbers - 4), query(last, 2), MOST)
    }),
    ("chain", |numbers| decks::chain((numbers - 3) / 2)),
    ("chain, last row first", |numbers| {
        decks::reversed(decks::chain((numbers - 3) / 2))
    }),
    ("chain beside strict rows", |numbers| {
        hard::chain_beside_strict_rows(Size { numbers, ..MOST })
    }),
    ("chain on a ladder", on_a_ladder),
    ("chain on a ladder, last row first", |numbers| {
        decks::reversed(on_a_ladder(numbers))
    }),
    ("chain on a ladder, its last rule repeated", |numbers| {
        let deck = on_a_ladder(numbers);
        let last = deck.numbers - 1;
        filled_with(deck, usually(last, last - 1), MOST)
    }),
    (
        "chain on a ladder, the rest asks about its end",
        |numbers| {
            let deck = on_a_ladder(numbers);
            let last = deck.numbers - 1;
            filled_with(deck, query(last, 2), MOST)
        },
    ),
];

/// The time for the most numbers, measured or reckoned.
struct Reckoned {
    name: &'static str,
    seconds: f64,
    measured: bool,
}

/// The sizes of a series of hard decks.
const SIZES: [usize; 5] = [
    NUMBERS / 8,
    NUMBERS / 4,
    NUMBERS / 2,
    NUMBERS / 4 * 3,
    NUMBERS,
];

fn worst(patience: Duration) {
    println!("\nHard decks, of growing size, until a call would take over {patience:?}");
    println!("(power: the time grows with this power of the numbers)");
    println!(
        "{:46} {:>7} {:>5} {:>6} {:>6} {:>12} {:>6}",
        "deck", "numbers", "rows", "levels", "passes", "ours ms", "power"
    );
    let mut series: Vec<Reckoned> = CONSTRUCTIONS
        .into_iter()
        .map(|(name, construct)| hard_series(name, construct, patience))
        .collect();
    series.sort_by(|one, other| other.seconds.total_cmp(&one.seconds));
    println!("\nWorst first, at {NUMBERS} numbers");
    for Reckoned {
        name,
        seconds,
        measured,
    } in series
    {
        let how = if measured { "measured" } else { "reckoned" };
        println!("{name:46} {seconds:12.3} s {how}");
    }
}

/// One construction at each size, as far as patience goes.
fn hard_series(name: &'static str, construct: Construction, patience: Duration) -> Reckoned {
    let mut before: Option<(usize, f64)> = None;
    for (index, numbers) in SIZES.into_iter().enumerate() {
        let deck = construct(numbers);
        let mut lent = Buffers::new();
        let seconds = time(proved, &deck, &mut lent).as_secs_f64();
        let (levels, passes) = lent.levels_and_passes();
        let power = before.map(|(size, less)| {
            let wider = numbers as f64 / size as f64;
            (seconds / less).ln() / wider.ln()
        });
        let shown = power.map_or_else(String::new, |power| format!("{power:6.1}"));
        println!(
            "{name:46} {:7} {:5} {levels:6} {passes:6} {:12.3} {shown}",
            deck.numbers,
            deck.rows.len(),
            seconds * 1e3
        );
        let reckon = |size: usize| {
            let wider = size as f64 / numbers as f64;
            seconds * wider.powf(power.unwrap_or(1.0).max(1.0))
        };
        let next = SIZES.get(index + 1);
        if next.is_some_and(|next| reckon(*next) > patience.as_secs_f64()) {
            return Reckoned {
                name,
                seconds: reckon(NUMBERS),
                measured: false,
            };
        }
        before = Some((numbers, seconds));
    }
    Reckoned {
        name,
        seconds: before.expect("there are sizes").1,
        measured: true,
    }
}
