//! The book that the engine's reader takes longest for: the most lines over the
//! most words, all of one hash, so that each is looked for along one chain.

use shelf::limits::{LEAST_NUMBERS, NUMBERS, ROWS};

/// The hash of a word, as crates/words/src/word.rt has it, to which the test of this
/// book holds it: another hash would make this a book like any other.
fn hash(word: &str) -> u8 {
    let go_on = |hash: u8, byte| hash.wrapping_mul(9).wrapping_add(byte);
    word.bytes().fold(0, go_on)
}

/// The book, of strict questions.
pub fn book() -> String {
    let words = (0..100_000).map(|index| format!("w{index:05}"));
    let words = words.filter(|word| hash(word) == 0);
    let words: Vec<String> = words.take(NUMBERS - LEAST_NUMBERS).collect();
    assert_eq!(words.len(), NUMBERS - LEAST_NUMBERS);
    let word = |index: usize| &words[index % words.len()];
    let line = |index: usize| format!("K {} {}\n", word(index), word(7 * index));
    (0..ROWS).map(line).collect()
}
