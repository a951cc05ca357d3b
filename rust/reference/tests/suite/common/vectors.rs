//! Texts for the Rattle program `reading_run`, and what it has to print.
//!
//! Its standard input has the count of texts and then each text after its
//! length, both in two bytes, the higher first. Its standard output has a line
//! for each text.

use super::{random_lines, write_lines, Random, Words, P1};
use shelf_reference::{compile, find_name, limits, Compiled};
use std::path::PathBuf;

/// Sums are taken as remainders by this prime.
const PRIME: u64 = 65_521;

/// The stored file of this name beside the Rattle program.
pub fn stored(name: &str) -> PathBuf {
    let root = PathBuf::from(env!("CARGO_MANIFEST_DIR")).join("../..");
    root.join("crates/reading_run").join(name)
}

/// The program's standard input.
pub fn input(texts: &[Vec<u8>]) -> Vec<u8> {
    let two = |count: usize| {
        u16::try_from(count)
            .expect("it fits two bytes")
            .to_be_bytes()
    };
    let mut bytes = two(texts.len()).to_vec();
    for text in texts {
        bytes.extend(two(text.len()));
        bytes.extend(text);
    }
    bytes
}

/// What the plain engine makes of the texts, as the program prints it.
pub fn output(texts: &[Vec<u8>]) -> String {
    texts.iter().map(|text| line(text)).collect()
}

fn line(text: &[u8]) -> String {
    match compile(text) {
        Err(refused) => format!("refused {} {}\n", refused.number(), refused.place),
        Ok(Compiled { sizes, deck }) => format!(
            "read {} {} {} {} {} {}\n",
            sizes.lines,
            sizes.rows,
            sizes.numbers,
            sizes.roles,
            row_sum(&deck[..sizes.lines]),
            name_sum(text)
        ),
    }
}

/// A sum goes on with one number more.
fn summed(sum: u64, number: u64) -> u64 {
    sum % PRIME * 257 + number % PRIME
}

/// Over the lines' own rows, in a buffer of as many as a deck can have.
fn row_sum(rows: &[u64]) -> u64 {
    let unused = vec![0; limits::ROWS - rows.len()];
    rows.iter()
        .chain(&unused)
        .fold(0, |sum, &row| summed(sum, row))
        % PRIME
}

/// Over the words that the finder gives, past the last number too.
fn name_sum(text: &[u8]) -> u64 {
    let word_sum = |number| {
        let word = find_name(text, number).iter();
        word.fold(0, |sum, &byte| summed(sum, u64::from(byte)))
    };
    (0..260).fold(0, |sum, number| summed(sum, word_sum(number))) % PRIME
}

/// All texts: marked ones, the scope's edges, every byte at every place of a
/// line, cuts, damaged books, and the limits.
pub fn texts() -> Vec<Vec<u8>> {
    let mut texts = marked();
    texts.extend(edges());
    texts.extend(ties());
    texts.extend(every_byte(b"S & a /r b *\n"));
    texts.extend(cuts(P1));
    texts.extend(damaged(700));
    texts.extend(at_limits());
    texts
}

/// P1 to P9.
const MARKED: [&str; 9] = [
    P1,
    "",
    "Q a a\n",
    "Q a b\n",
    "S * -\nQ a b\n",
    "U - a\n",
    "U * shown\nQ a shown\n",
    "U a b\nU a c\nS & b c -\nS x /r a\nU x y\n",
    "U stick rare\nS shmup /needs stick\nS /needs rare gem\nQ shmup gem\n",
];

fn marked() -> Vec<Vec<u8>> {
    MARKED.map(|text| text.as_bytes().to_vec()).to_vec()
}

/// Words, levels and refusals that meet at one offset or near.
fn edges() -> Vec<Vec<u8>> {
    let word12 = "abcdefghij09";
    let word13 = "abcdefghij09z";
    let nested = |level: usize, innermost: &str| "/r ".repeat(level - 1) + innermost;
    let mut texts: Vec<String> = vec![
        "S a b".into(),
        "S a b\n".into(),
        "S /a b a\n".into(),
        "S /a /a a a\nK a /b b\n".into(),
        "S aa a\nS a aaa\nU aaa aa\n".into(),
        format!("S {word12} {word12}\n"),
        format!("S {word13} b\n"),
        format!("S a {word13}\n"),
        format!("S /{word12} a b\n"),
        format!("S /{word13} a b\n"),
        format!("S a {word13}A\n"),
        format!("S {word12}z b\nS {word12} c\n"),
    ];
    for innermost in ["a", "*", "-", "& a b", "/r a", "", " ", "A", word13] {
        for level in [15, 16, 17, 18] {
            texts.push(format!("S {} b\n", nested(level, innermost)));
            texts.push(format!("S a {}", nested(level, innermost)));
        }
    }
    texts.into_iter().map(String::into_bytes).collect()
}

/// Lines that use up all numbers but `left`, by words, or all roles but
/// `left`.
fn used_up(numbers_left: usize, roles_left: usize) -> String {
    let words =
        (0..254 - 2 * (64 - roles_left) - numbers_left).map(|word| format!("S w{word} *\n"));
    let roles = (0..64 - roles_left).map(|role| format!("K /r{role} v{role} *\n"));
    words.chain(roles).collect()
}

/// Refusals that meet at one offset or near, where the numbers or the roles
/// are used up.
fn ties() -> Vec<Vec<u8>> {
    let word13 = "abcdefghij09z";
    let deep = "/r0 ".repeat(16);
    let mut texts = Vec::new();
    for numbers_left in [0, 1, 17] {
        for roles_left in [0, 1] {
            let used = used_up(numbers_left, roles_left);
            for tail in [
                format!("S {word13} *\n"),
                "S new!*\n".to_owned(),
                format!("S & {word13} *\n"),
                "S &new *\n".to_owned(),
                format!("S /{word13} * *\n"),
                "S /new * *\n".to_owned(),
                "S /new!* *\n".to_owned(),
                "S / * *\n".to_owned(),
                format!("S {deep}new *\n"),
                format!("S {deep}{word13} *\n"),
                format!("S {deep}! *\n"),
                format!("S {deep}& * * *\n"),
            ] {
                texts.push((used.clone() + &tail).into_bytes());
            }
        }
    }
    // More rows than there can be, and then a line that is refused.
    for tail in [
        format!("S {word13} *\n"),
        format!("S {deep}a *\n"),
        "S a b".to_owned(),
    ] {
        texts.push(("S a b\n".repeat(1_025) + &tail).into_bytes());
    }
    texts
}

/// Each of the 256 bytes at each place of the line.
fn every_byte(line: &[u8]) -> Vec<Vec<u8>> {
    let mut texts = Vec::new();
    for place in 0..line.len() {
        for byte in 0..=u8::MAX {
            let mut text = line.to_vec();
            text[place] = byte;
            texts.push(text);
        }
    }
    texts
}

/// Each beginning of the text.
fn cuts(text: &str) -> Vec<Vec<u8>> {
    (0..text.len())
        .map(|cut| text.as_bytes()[..cut].to_vec())
        .collect()
}

/// Random books, half of them with up to three bytes changed, put in or taken
/// out.
fn damaged(count: usize) -> Vec<Vec<u8>> {
    let mut random = Random(41);
    let words = Words {
        names: &["a", "bb", "ab", "abcdefghijkl", "0", "yes", "no"],
        roles: &["r", "a", "abcdefghijkl"],
    };
    let mut texts = Vec::new();
    for _ in 0..count {
        let mut text = write_lines(&random_lines(&mut random, &words, 4)).into_bytes();
        for _ in 0..random.below(6).saturating_sub(2) {
            damage(&mut random, &mut text);
        }
        texts.push(text);
    }
    texts
}

fn damage(random: &mut Random, text: &mut Vec<u8>) {
    let place = random.below(text.len() + 1);
    let byte = random.pick(b"SUQK *-&/abz09\n\n  XA_\0\xFF");
    match random.below(3) {
        0 => text.insert(place, byte),
        1 if place < text.len() => text[place] = byte,
        _ if place < text.len() => {
            text.remove(place);
        }
        _ => text.push(byte),
    }
}

/// Texts at each limit and one past it.
fn at_limits() -> Vec<Vec<u8>> {
    let mut texts = Vec::new();
    for words in [254, 255] {
        texts.push((0..words).map(|word| format!("S w{word} *\n")).collect());
        texts.push((0..words).map(|_| "U & * - *\n".to_owned()).collect());
        texts.push((0..words).map(|_| "K /r * -\n".to_owned()).collect());
        // The last new word stands before a byte that no line can have.
        texts.push(
            (0..words)
                .map(|word| format!("S * w{word}"))
                .collect::<Vec<_>>()
                .join("\n")
                + "!",
        );
    }
    for roles in [64, 65] {
        texts.push((0..roles).map(|role| format!("Q /r{role} * a\n")).collect());
        texts.push(
            (0..roles)
                .map(|role| format!("Q /r{role} * a"))
                .collect::<Vec<_>>()
                .join("\n")
                + "!",
        );
    }
    for rows in [1_024, 1_025] {
        texts.push("S a b\n".repeat(rows));
        texts.push("S a & a b\n".repeat(250) + &"S a b\n".repeat(rows - 1_000));
        texts.push("S a /r b\n".repeat(250) + &"S a b\n".repeat(rows - 750));
    }
    for bytes in [16_384, 16_385] {
        texts.push(
            "S abcdefg hijkl\n".repeat(1_023) + &"U aaaaaaaaaaaa bbbbbbbbbbbb\n"[..bytes - 16_368],
        );
        let line = "S abcdefg hijkl\n";
        texts.push(
            line.repeat(1_023)
                + &"S abcdefg hijklm\n"[..16]
                + if bytes == 16_384 { "" } else { "\n" },
        );
    }
    texts.push("S abcdefg hijkl\n".repeat(1_024));
    texts.push("S a b\n".repeat(2_730));
    texts.into_iter().map(String::into_bytes).collect()
}
