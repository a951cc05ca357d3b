//! The finder: where a number's word first stands.

use crate::limits::LEAST_NUMBERS;
use crate::reader::{accepted_tokens, number_takers};
use crate::tokens::Symbol;

/// The part of the text where the word of this number first stands as a
/// concept name. It refuses nothing: the part is empty for a text that
/// compiling refuses and for a number that no concept name has.
pub fn find_name(text: &[u8], number: usize) -> &[u8] {
    let empty = &text[..0];
    let Ok(tokens) = accepted_tokens(text) else {
        return empty;
    };
    let takers = number_takers(&tokens);
    let index = number.checked_sub(LEAST_NUMBERS);
    let taker = index.and_then(|index| takers.get(index));
    match taker.map(|token| token.symbol) {
        Some(Symbol::Word(word)) => word,
        _ => empty,
    }
}
