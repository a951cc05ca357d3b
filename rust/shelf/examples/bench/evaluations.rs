//! Whole sittings: reading a book, settling its deck, and both in one call, by
//! the proved engine and by the plain one.

use super::decks::{self, Random};
use super::{least_time, one_hash, plain, proved, Buffers};
use shelf::ffi;
use shelf::limits::{LEAST_NUMBERS, NUMBERS, ROWS, TEXT_BYTES, WORD_BYTES};
use shelf_reference::lent;
use std::fmt::Write;
use std::time::Duration;

/// The times of one engine on one book.
struct Times {
    compile: Duration,
    classify: Duration,
    evaluate: Duration,
}

/// Everything that a sitting lends.
pub struct Lent {
    pub deck: Vec<u64>,
    pub rest: Buffers,
}

impl Lent {
    pub fn new() -> Lent {
        let mut random = Random(90);
        Lent {
            deck: (0..ROWS).map(|_| random.next()).collect(),
            rest: Buffers::new(),
        }
    }
}

/// A call on a text that compiles it, and one that settles it too.
type Compile = fn(&[u8], &mut [u64], &mut [u64]) -> u64;
type Evaluate = fn(&[u8], &mut [u64], &mut [u64], &mut [u16], &mut [u16], &mut [u64]) -> u64;

/// Times of an engine's three calls; what the sitting leaves stays in `lent`.
fn times(
    text: &str,
    compile: Compile,
    classify: super::Call,
    evaluate: Evaluate,
    Lent { deck, rest }: &mut Lent,
) -> Times {
    let rows = decks::compiled(text);
    let text = text.as_bytes();
    Times {
        compile: least_time(|| compile(text, deck, &mut rest.answer)),
        classify: least_time(|| classify(&rows, rest)),
        evaluate: least_time(|| {
            let Buffers { table, results, .. } = rest;
            let Buffers { order, answer, .. } = rest;
            evaluate(text, deck, table, results, order, answer)
        }),
    }
}

/// Both engines' times on one book; they must have said the same.
fn both(name: &str, text: &str) {
    let (mut ours, mut theirs) = (Lent::new(), Lent::new());
    let our_times = times(text, ffi::compile, proved, ffi::evaluate, &mut ours);
    let plain_times = times(text, lent::compile, plain, lent::evaluate, &mut theirs);
    assert_eq!(ours.deck, theirs.deck);
    assert_eq!(ours.rest.results, theirs.rest.results);
    assert_eq!(ours.rest.table, theirs.rest.table);
    assert_eq!(ours.rest.answer, theirs.rest.answer);
    let [_, rows, numbers, _, levels, passes] = ours.rest.answer[..6] else {
        unreachable!("an answer has more numbers");
    };
    println!(
        "{name}: {} bytes, {numbers} numbers, {rows} rows, {levels} levels, {passes} passes",
        text.len()
    );
    print_times("reading", our_times.compile, plain_times.compile);
    print_times("settling", our_times.classify, plain_times.classify);
    print_times("sitting", our_times.evaluate, plain_times.evaluate);
}

pub fn print_times(what: &str, ours: Duration, theirs: Duration) {
    let micros = |time: Duration| time.as_secs_f64() * 1e6;
    println!(
        "  {what:10} {:14.1} {:14.1} {:9.4}",
        micros(ours),
        micros(theirs),
        micros(ours) / micros(theirs)
    );
}

/// Reading, settling and both, for the printed sitting, a middle book and the
/// largest that are accepted.
pub fn against_the_plain_engine(printed: &str) {
    println!("\nWhole sittings (ratio: our time over the plain engine's)");
    println!(
        "  {:10} {:>14} {:>14} {:>9}",
        "", "ours us", "plain us", "ratio"
    );
    both("the printed sitting", printed);
    both("a middle book", &middle());
    both("largest, the longest words", &largest_words());
    both("largest, words of one hash", &one_hash::book());
    both("largest, strict questions", &largest(&['K']));
    both("largest, all letters", &largest(&['S', 'U', 'Q', 'K']));
    both("largest, nested", &largest_nested());
    both("largest, a ladder", &largest_ladder());
    both("largest, a chain", &largest_chain());
}

/// 100 lines over 40 words and 4 roles.
fn middle() -> String {
    let mut random = Random(91);
    let mut text = String::new();
    for _ in 0..100 {
        let letter = random.pick(&['S', 'U', 'U', 'Q', 'K']);
        let mut word = || random.below(40);
        let (a, b, c) = (word(), word(), word());
        let role = random.below(4);
        let sides = match random.below(6) {
            0 => format!("& w{a} w{b} w{c}"),
            1 => format!("w{a} /r{role} w{b}"),
            2 => format!("/r{role} w{a} w{b}"),
            _ => format!("w{a} w{b}"),
        };
        writeln!(text, "{letter} {sides}").expect("a string takes it all");
    }
    text
}

/// The most words of a book that has nothing else that takes a number.
const MOST_WORDS: usize = NUMBERS - LEAST_NUMBERS;

/// The largest by bytes, numbers and rows at once: as many lines of 16 bytes as
/// there can be rows, over the most words, their letters in turn.
pub fn largest(letters: &[char]) -> String {
    let mut text = String::new();
    for (line, letter) in (0..ROWS).zip(letters.iter().cycle()) {
        let left = line % MOST_WORDS;
        let right = (line / MOST_WORDS + line * 7) % MOST_WORDS;
        writeln!(text, "{letter} w{left:05} w{right:05}").expect("a string takes it all");
    }
    assert_eq!(text.len(), TEXT_BYTES);
    text
}

/// The most bytes of words: lines over words of the greatest length, up to the
/// greatest text.
fn largest_words() -> String {
    let width = WORD_BYTES - 1;
    let mut text = String::new();
    for index in 0.. {
        let (left, right) = (index % MOST_WORDS, index * 7 % MOST_WORDS);
        let line = format!("K w{left:0width$} w{right:0width$}\n");
        if text.len() + line.len() > TEXT_BYTES {
            break;
        }
        text += &line;
    }
    text
}

/// 50 pairs, 50 roles with their fillers, and words and lines up to the most
/// numbers and rows.
fn largest_nested() -> String {
    let words = MOST_WORDS - 50 - 50;
    let mut random = Random(92);
    let mut text = String::new();
    for line in 0..ROWS - 50 * 3 - 50 * 2 {
        let letter = random.pick(&['S', 'U', 'Q', 'K']);
        let (left, right) = (line % words, random.below(words));
        let sides = match line {
            200..250 => format!("& w{left} w{right} w{}", random.below(words)),
            250..300 => format!("w{left} /r{} w{right}", line - 250),
            _ => format!("w{left} w{right}"),
        };
        writeln!(text, "{letter} {sides}").expect("a string takes it all");
    }
    text
}

/// The most kinds each within the one before, whose usual rules say one of two
/// things by turns that exclude each other, and questions up to the most rows.
fn largest_ladder() -> String {
    let kinds = MOST_WORDS - 3;
    let mut text = "S & yes no -\n".to_owned();
    for kind in 0..kinds {
        let side = if kind % 2 == 0 { "yes" } else { "no" };
        writeln!(text, "U k{kind} {side}").expect("a string takes it all");
        if kind > 0 {
            writeln!(text, "S k{kind} k{}", kind - 1).expect("a string takes it all");
        }
    }
    for line in 0..ROWS - 3 - 2 * kinds {
        writeln!(text, "Q k{} yes", line % kinds).expect("a string takes it all");
    }
    text
}

/// The most usual rules each of which asks for some of what the one before is
/// about, the first for nothing, and questions up to the most rows.
fn largest_chain() -> String {
    let links = MOST_WORDS / 2 - 1;
    let mut text = "U d0 -\n".to_owned();
    for link in 1..=links {
        writeln!(text, "U d{link} /r d{}", link - 1).expect("a string takes it all");
    }
    for line in 0..ROWS - 1 - 3 * links {
        let (left, right) = (line % (links + 1), line / (links + 1));
        writeln!(text, "Q d{left} d{right}").expect("a string takes it all");
    }
    text
}
