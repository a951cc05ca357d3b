//! Damaged texts: accepted ones print back exactly, refused ones are refused
//! as a reader of another structure refuses them, and the place of refusal 3
//! is right by brute force over all short texts.

use crate::common::{one_pass, random_lines, write_lines, Random, Words};
use shelf_reference::tokens::scan;
use shelf_reference::{compile, read};
use std::collections::{BTreeMap, BTreeSet, HashSet};

/// Reads by the engine and by the one-pass reader: both have to agree, and an
/// accepted text has to print back. Gives the refusal's number or 0.
fn check(text: &[u8]) -> u64 {
    let other = one_pass::read(text);
    match compile(text) {
        Ok(compiled) => {
            let sizes = compiled.sizes;
            assert_eq!(other, Ok([sizes.rows, sizes.numbers, sizes.roles]));
            let lines = read(text).expect("compiling accepted it");
            assert_eq!(write_lines(&lines).as_bytes(), text);
            0
        }
        Err(refused) => {
            let found = (refused.number(), refused.place);
            assert_eq!(other, Err(found), "{}", String::from_utf8_lossy(text));
            assert_eq!(read(text).unwrap_err(), refused);
            refused.number()
        }
    }
}

/// Changes, removes or puts in one byte.
fn damage(random: &mut Random, text: &mut Vec<u8>) {
    let bytes = b"SUQK *-&/abz09\n\n  XA_\0\xFF";
    let place = random.below(text.len() + 1);
    match random.below(4) {
        0 => text.insert(place, random.pick(bytes)),
        1 => text.insert(place, random.next() as u8),
        2 if place < text.len() => text[place] = random.pick(bytes),
        _ if place < text.len() => {
            text.remove(place);
        }
        _ => text.push(b'\n'),
    }
}

/// Small random books, damaged up to three times.
#[test]
fn damaged_small_books() {
    let mut random = Random(30);
    let words = Words {
        names: &["a", "bb", "abcdefghijkl", "0"],
        roles: &["r", "abcdefghijkl"],
    };
    let mut counts = BTreeMap::new();
    for _ in 0..60_000 {
        let lines = random_lines(&mut random, &words, 3);
        let mut text = write_lines(&lines).into_bytes();
        for _ in 0..random.below(4) {
            damage(&mut random, &mut text);
        }
        *counts.entry(check(&text)).or_insert(0) += 1;
    }
    for number in [0, 3, 4] {
        assert!(counts[&number] > 500, "{counts:?}");
    }
}

/// A book near several limits at once.
fn book_near_limits(random: &mut Random) -> Vec<u8> {
    let mut text = String::new();
    let names = 200 + random.below(60);
    let roles = 55 + random.below(12);
    for role in 0..roles {
        text.push_str(&format!("S /q{role} w0 w1\n"));
    }
    let words = (names - roles).max(2);
    for word in 1..words {
        text.push_str(&format!("U w{word} w{}\n", random.below(word)));
    }
    if random.below(3) == 0 {
        let depth = 14 + random.below(4);
        text.push_str(&format!("Q {}w0 w1\n", "/q0 ".repeat(depth)));
    }
    if random.below(3) == 0 {
        let length = 10 + random.below(5);
        text.push_str(&format!("K w0 {}\n", "z".repeat(length)));
    }
    if random.below(3) == 0 {
        let most = 1_040usize.saturating_sub(roles * 3 + words);
        for _ in 0..most.saturating_sub(random.below(60)) {
            text.push_str("K w0 w1\n");
        }
    }
    text.into_bytes()
}

/// Books near the limits of numbers, roles, levels, words and rows, damaged up
/// to twice: every refusal of a text but 1 comes up, each with its place.
#[test]
fn damaged_books_near_the_limits() {
    let mut random = Random(31);
    let mut counts = BTreeMap::new();
    for _ in 0..4_000 {
        let mut text = book_near_limits(&mut random);
        if random.below(2) == 0 {
            // Lines in another order move the places of the refusals.
            let mut lines: Vec<&[u8]> = text.split_inclusive(|byte| *byte == b'\n').collect();
            random.shuffle(&mut lines);
            text = lines.concat();
        }
        for _ in 0..random.below(3) {
            damage(&mut random, &mut text);
        }
        *counts.entry(check(&text)).or_insert(0) += 1;
    }
    for number in [0, 3, 4, 5, 6, 7, 8] {
        let found = counts.get(&number).copied().unwrap_or(0);
        assert!(found > 20, "{number}: {counts:?}");
    }
}

/// Books glued, cut and padded to lengths around 16,384 bytes.
#[test]
fn texts_around_the_greatest_length() {
    let mut random = Random(32);
    let mut counts = BTreeMap::new();
    for _ in 0..300 {
        let length = 16_384 - 20 + random.below(40);
        let line = b"S aaaaaa bbbbbb\n";
        let mut text: Vec<u8> = line.iter().copied().cycle().take(length).collect();
        if random.below(2) == 0 {
            text.truncate(text.len() / 16 * 16);
        }
        if random.below(4) == 0 {
            damage(&mut random, &mut text);
        }
        *counts.entry(check(&text)).or_insert(0) += 1;
    }
    for number in [0, 1, 3] {
        assert!(counts[&number] > 20, "{counts:?}");
    }
}

/// Ways to finish a book behind a prefix: a first piece, then fillers.
fn completions() -> Vec<Vec<u8>> {
    let mut all = vec![Vec::new()];
    for first in ["", "*", "a"] {
        for fillers in 0..12 {
            all.push(format!("{first}{}\n", " *".repeat(fillers)).into_bytes());
        }
    }
    all
}

fn can_be_finished(prefix: &[u8], completions: &[Vec<u8>]) -> bool {
    completions.iter().any(|end| {
        let whole = [prefix, end].concat();
        scan(&whole).broken_at.is_none()
    })
}

/// Where a damaged text is broken at p, the text before p can be finished to a
/// book, and the text up to p and its byte can't.
#[test]
fn a_broken_place_is_neither_early_nor_late() {
    let mut random = Random(33);
    let words = Words {
        names: &["a", "b"],
        roles: &["r"],
    };
    let completions = completions();
    let mut broken = 0;
    for _ in 0..5_000 {
        let mut text = write_lines(&random_lines(&mut random, &words, 2)).into_bytes();
        damage(&mut random, &mut text);
        if let Some(place) = scan(&text).broken_at {
            broken += 1;
            assert!(can_be_finished(&text[..place], &completions));
            if place < text.len() {
                assert!(!can_be_finished(&text[..=place], &completions));
            }
        }
    }
    assert!(broken > 2_000);
}

/// Every description up to a length over one letter, one trait word letter,
/// `*`, `&` and `/`: the list at index n has those of n bytes.
fn descriptions(most: usize) -> Vec<Vec<String>> {
    let mut by_length: Vec<Vec<String>> = vec![Vec::new()];
    for length in 1..=most {
        let mut found = vec!["a".repeat(length)];
        if length == 1 {
            found.push("*".to_owned());
        }
        // `& C D` has three bytes besides C and D.
        for left in 1..length.saturating_sub(3) {
            for one in &by_length[left] {
                for two in &by_length[length - 3 - left] {
                    found.push(format!("& {one} {two}"));
                }
            }
        }
        // `/word C` has two bytes besides the word and C.
        for word in 1..length.saturating_sub(2) {
            for filler in &by_length[length - 2 - word] {
                found.push(format!("/{} {filler}", "a".repeat(word)));
            }
        }
        by_length.push(found);
    }
    by_length
}

/// Every book of at most so many bytes over that alphabet.
fn books(most: usize) -> BTreeSet<String> {
    let sides = descriptions(most - 5);
    let mut lines = BTreeSet::new();
    for left in 1..most - 4 {
        for right in 1..most - 3 - left {
            for one in &sides[left] {
                for two in &sides[right] {
                    lines.insert(format!("S {one} {two}\n"));
                }
            }
        }
    }
    let mut all = BTreeSet::from([String::new()]);
    let mut latest = all.clone();
    while !latest.is_empty() {
        let mut longer = BTreeSet::new();
        for book in &latest {
            let fitting = lines.iter().filter(|line| book.len() + line.len() <= most);
            longer.extend(fitting.map(|line| format!("{book}{line}")));
        }
        all.extend(longer.iter().cloned());
        latest = longer;
    }
    all
}

/// All that brute force knows of the short texts.
struct Known {
    books: HashSet<Vec<u8>>,
    prefixes: HashSet<Vec<u8>>,
    checked: usize,
}

const ALPHABET: &[u8] = b"S a*&/\nX";

impl Known {
    /// Checks a text and all its continuations up to a length. `broken` is the
    /// first place where no book goes on, if there is one.
    fn visit(&mut self, text: &mut Vec<u8>, broken: Option<usize>, most: usize) {
        let expected = match broken {
            Some(place) => Some(place),
            None if self.books.contains(text) => None,
            None => Some(text.len()),
        };
        let found = compile(text).err().map(|refused| {
            assert_eq!(refused.number(), 3);
            refused.place
        });
        assert_eq!(found, expected, "{:?}", String::from_utf8_lossy(text));
        self.checked += 1;
        if text.len() == most {
            return;
        }
        for byte in ALPHABET {
            text.push(*byte);
            let place = text.len() - 1;
            let goes_on = broken.is_some() || self.prefixes.contains(text);
            let now_broken = if goes_on { broken } else { Some(place) };
            self.visit(text, now_broken, most);
            text.pop();
        }
    }
}

/// All texts of up to 7 bytes over eight bytes, 2,396,745 of them, against the
/// list of all books of up to 18 bytes. A prefix of 7 bytes that any book has
/// is a prefix of such a book: the longest need is `S & & &`, which is
/// finished by ` a a a a a` and a line feed.
#[test]
fn refusal_3_by_brute_force_over_short_texts() {
    let all = books(18);
    assert!(all.len() > 10_000, "{}", all.len());
    let mut known = Known {
        books: HashSet::new(),
        prefixes: HashSet::new(),
        checked: 0,
    };
    for book in &all {
        let bytes = book.as_bytes();
        known.books.insert(bytes.to_vec());
        for length in 0..=bytes.len().min(7) {
            known.prefixes.insert(bytes[..length].to_vec());
        }
    }
    known.visit(&mut Vec::new(), None, 7);
    assert_eq!(known.checked, (8usize.pow(8) - 1) / 7);
}

/// Every book that brute force lists is accepted and prints back.
#[test]
fn every_short_book_is_accepted() {
    for book in books(16) {
        assert_eq!(check(book.as_bytes()), 0, "{book}");
    }
}
