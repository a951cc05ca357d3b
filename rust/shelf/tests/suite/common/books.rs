//! Books to compile and settle: P1, random ones of several families, damaged
//! ones, and built ones at the limits and past them.

use super::decks::{self, Random};
use shelf::limits::{self, DEPTH, LEAST_NUMBERS, NUMBERS, ROWS, TEXT_BYTES, WORD_BYTES};
use std::fmt::Write;

/// P1, the book of the scope's printed sitting.
pub const P1: &str = include_str!("../../../../data/p1.book");
/// What the scope prints for it.
pub const P1_PRINTED: &str = include_str!("../../../../data/p1.printed");

/// Two passes have a stuck set: a's rule is stuck in the first, b's only in the
/// second, once a is nothing. A reading that grows T by the first stuck set
/// alone gives b rank 0.
pub const STUCK_IN_TURN: &str = "U a -\nU b /r a\nQ b c\n";

/// The most words of a book that has nothing else that takes a number.
pub const MOST_WORDS: usize = NUMBERS - LEAST_NUMBERS;

/// A word of the most bytes, and one of one more.
pub const LONGEST: &str = "abcdefghij09";
pub const TOO_LONG: &str = "abcdefghij09z";
const _: () = assert!(LONGEST.len() == WORD_BYTES && TOO_LONG.len() == WORD_BYTES + 1);

/// Lines made from the numbers from 0 on.
pub fn lines(count: usize, line: impl Fn(usize) -> String) -> String {
    (0..count).map(line).collect()
}

/// A line for each of so many words.
pub fn words(count: usize) -> String {
    lines(count, |word| format!("S w{word} *\n"))
}

/// A line for each of so many roles.
pub fn roles(count: usize) -> String {
    lines(count, |role| format!("Q /r{role} * a\n"))
}

/// A line of no more than its own row, so many times.
pub fn simple(count: usize) -> String {
    "S a b\n".repeat(count)
}

/// A description at this level below roles.
pub fn below_roles(level: usize, innermost: &str) -> String {
    "/r ".repeat(level - 1) + innermost
}

/// Words that begin alike, words of one byte and of the most, and digits.
const NAMES: &[&str] = &["a", "aa", "ab", "b", "0", "yes", "no", LONGEST, "z9"];
/// Roles, some of them trait words too.
const ROLES: &[&str] = &["r", "a", "rr", LONGEST];

/// The words that random descriptions and classes are made of.
pub struct Words<'w> {
    pub names: &'w [&'w str],
    pub roles: &'w [&'w str],
}

const MIXED: Words = Words {
    names: NAMES,
    roles: ROLES,
};

/// A random description of at most `depth` levels.
fn description(random: &mut Random, words: &Words, depth: usize) -> String {
    match random.below(if depth > 1 { 10 } else { 6 }) {
        0 if random.once_in(2) => "*".to_owned(),
        1 if random.once_in(3) => "-".to_owned(),
        0..=5 => random.pick(words.names).to_owned(),
        6 | 7 => {
            let left = description(random, words, depth - 1);
            format!("& {left} {}", description(random, words, depth - 1))
        }
        _ => {
            let role = random.pick(words.roles);
            format!("/{role} {}", description(random, words, depth - 1))
        }
    }
}

/// A random line, its descriptions of at most `depth` levels.
fn line(random: &mut Random, words: &Words, depth: usize) -> String {
    let letter = random.pick(&['S', 'S', 'S', 'U', 'U', 'U', 'Q', 'Q', 'K']);
    let left = description(random, words, depth);
    let right = match letter {
        'S' if random.once_in(3) => "-".to_owned(),
        _ => description(random, words, depth),
    };
    format!("{letter} {left} {right}\n")
}

/// The lines one after the other, in a random order.
fn shuffled(random: &mut Random, mut lines: Vec<String>) -> Vec<u8> {
    random.shuffle(&mut lines);
    lines.concat().into_bytes()
}

/// Up to 12 lines over five words and two roles.
fn plain(random: &mut Random) -> Vec<u8> {
    decks::book(random).into_bytes()
}

/// Up to 10 lines over words that begin alike and serve as roles too.
fn wordy(random: &mut Random) -> Vec<u8> {
    let count = random.below(11);
    let lines = (0..count).map(|_| {
        let depth = random.from(1, 5);
        line(random, &MIXED, depth)
    });
    lines.collect::<String>().into_bytes()
}

/// Up to 4 lines, one of them with a description of up to the most levels.
fn deep(random: &mut Random) -> Vec<u8> {
    let mut lines: Vec<String> = (0..random.below(4))
        .map(|_| line(random, &MIXED, 3))
        .collect();
    let mut description = random.pick(NAMES).to_owned();
    for _ in 1..random.from(DEPTH - 6, DEPTH) {
        description = match random.below(4) {
            0 => format!("& {} {description}", random.pick(&["*", "a", "b"])),
            1 => format!("& {description} {}", random.pick(&["*", "a", "b"])),
            _ => format!("/{} {description}", random.pick(ROLES)),
        };
    }
    let letter = random.pick(&['S', 'U', 'Q', 'K']);
    lines.push(match random.below(2) {
        0 => format!("{letter} {description} a\n"),
        _ => format!("{letter} a {description}\n"),
    });
    shuffled(random, lines)
}

/// Kinds each within the one before, with usual rules that say one of two
/// things that exclude each other, mostly by turns, and further lines about
/// them: many levels.
fn laddered(random: &mut Random) -> Vec<u8> {
    let kinds = random.from(2, 9);
    let mut lines = vec!["S & yes no -\n".to_owned()];
    for kind in 1..kinds {
        lines.push(format!("S k{kind} k{}\n", kind - 1));
    }
    let mut side = random.once_in(2);
    for kind in 0..kinds {
        lines.push(format!("U k{kind} {}\n", if side { "yes" } else { "no" }));
        side ^= !random.once_in(4);
    }
    for _ in 0..random.below(kinds) {
        let letter = random.pick(&['U', 'U', 'U', 'Q', 'Q', 'K']);
        let mut left = format!("k{}", random.below(kinds));
        let mut right = random.pick(&["yes", "no"]).to_owned();
        if random.once_in(4) {
            left = format!("& {left} {}", description(random, &MIXED, 2));
        }
        if random.once_in(5) {
            right = format!("/r {right}");
        }
        lines.push(format!("{letter} {left} {right}\n"));
    }
    shuffled(random, lines)
}

/// Usual rules each of which asks for some of what the one before is about:
/// many passes, since the first asks for nothing.
fn chained(random: &mut Random) -> Vec<u8> {
    let mut lines = vec!["U d0 -\n".to_owned()];
    for link in 1..random.from(2, 9) {
        let role = random.pick(ROLES);
        let usual = format!("U d{link} /{role} d{}\n", link - 1);
        lines.push(usual);
        if random.once_in(3) {
            lines.push(format!("Q d{} d{link}\n", random.below(9)));
        }
    }
    for _ in 0..random.below(4) {
        lines.push(line(random, &MIXED, 2));
    }
    shuffled(random, lines)
}

/// Strict lines without any model, or usual lines that leave none for T*.
fn unsatisfiable(random: &mut Random) -> Vec<u8> {
    let mut lines: Vec<String> = (0..random.below(8))
        .map(|_| line(random, &MIXED, 3))
        .collect();
    let ways = [
        "S * -\n",
        "S * /r -\n",
        "S & * * -\n",
        "S * a\nS a -\n",
        "S * /r a\nS /r * -\n",
        "U * -\n",
    ];
    lines.push(random.pick(&ways).to_owned());
    shuffled(random, lines)
}

/// Up to 40 lines over 60 words and 20 roles.
fn wide(random: &mut Random) -> Vec<u8> {
    let names: Vec<String> = (0..60).map(|name| format!("w{name}")).collect();
    let roles: Vec<String> = (0..20).map(|role| format!("r{role}")).collect();
    let names: Vec<&str> = names.iter().map(String::as_str).collect();
    let roles: Vec<&str> = roles.iter().map(String::as_str).collect();
    let words = Words {
        names: &names,
        roles: &roles,
    };
    let count = random.below(41);
    let lines = (0..count).map(|_| line(random, &words, 2));
    lines.collect::<String>().into_bytes()
}

/// A generator of random books.
pub type Family = fn(&mut Random) -> Vec<u8>;

/// Every family of random books, and how many of it a run settles.
pub const FAMILIES: [(Family, usize); 7] = [
    (plain, 8_000),
    (wordy, 5_000),
    (deep, 1_500),
    (laddered, 4_000),
    (chained, 3_000),
    (unsatisfiable, 2_000),
    (wide, 500),
];

/// Changes, removes or puts in one byte.
pub fn damage(random: &mut Random, text: &mut Vec<u8>) {
    let bytes = b"SUQK *-&/abz09\n\n  XA_\0\xFF";
    let place = random.below(text.len() + 1);
    match random.below(4) {
        0 => text.insert(place, random.pick(bytes)),
        1 => text.insert(place, random.next() as u8),
        2 if place < text.len() => text[place] = random.pick(bytes),
        _ if place < text.len() => {
            text.remove(place);
        }
        _ => text.push(b'\n'),
    }
}

/// A book near the limits of numbers, roles, levels, words and rows, some of
/// them passed, its lines in a random order half of the time.
pub fn near_limits(random: &mut Random) -> Vec<u8> {
    let roles = random.from(limits::ROLES - 9, limits::ROLES + 2);
    let names = random.from(NUMBERS - 56, NUMBERS + 3) - roles;
    let mut lines: Vec<String> = (0..roles)
        .map(|role| format!("S /q{role} w0 w1\n"))
        .collect();
    for word in 1..names {
        lines.push(format!("U w{word} w{}\n", random.below(word)));
    }
    if random.once_in(3) {
        let depth = random.from(DEPTH - 2, DEPTH + 1);
        lines.push(format!("Q {}w0 w1\n", "/q0 ".repeat(depth)));
    }
    if random.once_in(3) {
        let length = random.from(WORD_BYTES - 2, WORD_BYTES + 2);
        lines.push(format!("K w0 {}\n", "z".repeat(length)));
    }
    if random.once_in(3) {
        let most = (ROWS + 16).saturating_sub(roles * 3 + names);
        let count = most.saturating_sub(random.below(60));
        lines.extend(std::iter::repeat_n("K w0 w1\n".to_owned(), count));
    }
    if random.once_in(2) {
        random.shuffle(&mut lines);
    }
    lines.concat().into_bytes()
}

/// Lines that use up all numbers and all roles but so many.
pub fn used_up(numbers_left: usize, roles_left: usize) -> String {
    let roles = limits::ROLES - roles_left;
    let mut text = String::new();
    for word in 0..MOST_WORDS - 2 * roles - numbers_left {
        writeln!(text, "S w{word} *").expect("a string takes it all");
    }
    for role in 0..roles {
        writeln!(text, "K /r{role} v{role} *").expect("a string takes it all");
    }
    text
}

/// Texts whose refusals meet at one offset or near.
pub fn ties() -> Vec<Vec<u8>> {
    let long = TOO_LONG;
    let deep = "/r0 ".repeat(DEPTH);
    let mut texts = Vec::new();
    let tails = [
        format!("S {long} *\n"),
        "S new!*\n".to_owned(),
        format!("S & {long} *\n"),
        "S &new *\n".to_owned(),
        format!("S /{long} * *\n"),
        "S /new * *\n".to_owned(),
        "S /new!* *\n".to_owned(),
        "S / * *\n".to_owned(),
        format!("S {deep}new *\n"),
        format!("S {deep}{long} *\n"),
        format!("S {deep}! *\n"),
        format!("S {deep}& * * *\n"),
    ];
    for numbers_left in [0, 1, 2, DEPTH, DEPTH + 1] {
        for roles_left in [0, 1] {
            let used = used_up(numbers_left, roles_left);
            texts.extend(tails.iter().map(|tail| (used.clone() + tail).into_bytes()));
        }
    }
    let many = simple(ROWS + 1);
    texts.extend(tails.iter().map(|tail| (many.clone() + tail).into_bytes()));
    texts
}

/// A text for each number that a call on a text returns, with its place.
pub fn each_number() -> Vec<(u64, usize, String)> {
    let deep = format!("S {} b\n", below_roles(DEPTH + 1, "a"));
    let one_word_more = words(MOST_WORDS).len() + "S ".len();
    let one_role_more = roles(limits::ROLES).len() + "Q /".len();
    let too_many_rows = simple(ROWS + 1);
    vec![
        (0, 0, "S & a b -\nU a /r b\nQ a b\nK a b\n".to_owned()),
        (1, 0, simple(TEXT_BYTES / simple(1).len() + 1)),
        (3, 5, "S a b".to_owned()),
        (4, 2, format!("S {TOO_LONG} b\n")),
        (5, 2 + 3 * DEPTH, deep),
        (6, one_word_more, words(MOST_WORDS + 1)),
        (7, one_role_more, roles(limits::ROLES + 1)),
        (8, too_many_rows.len(), too_many_rows),
    ]
}
