//! A book's text becomes lines, or is refused by 1 or 3 to 8.
//!
//! The grammar comes first and by itself ([`crate::tokens`]). Each limit is
//! then looked for by itself among the tokens, and of all that was found the
//! least offset decides.

use crate::concept::{Concept, Line};
use crate::limits;
use crate::refusal::{Refusal, Refused};
use crate::tokens::{scan, Scan, Symbol, Token};
use std::collections::BTreeSet;

/// Reads a book as its nested lines.
///
/// # Errors
/// Refusals 1 and 3 to 8.
pub fn read(text: &[u8]) -> Result<Vec<Line<String>>, Refused> {
    let tokens = accepted_tokens(text)?;
    let mut rest = tokens.iter();
    let mut lines = Vec::new();
    while let Some(token) = rest.next() {
        let Symbol::Letter(kind) = token.symbol else {
            unreachable!("a line begins with its letter");
        };
        let left = concept(&mut rest);
        let right = concept(&mut rest);
        lines.push(Line::new(kind, left, right));
    }
    Ok(lines)
}

/// The tokens of a text that nothing refuses.
///
/// # Errors
/// Refusals 1 and 3 to 8.
pub fn accepted_tokens(text: &[u8]) -> Result<Vec<Token<'_>>, Refused> {
    if text.len() > limits::TEXT_BYTES {
        return Err(Refusal::TextTooLong.at(0));
    }
    let scan = scan(text);
    if let Some(refused) = first_violation(&scan) {
        return Err(refused);
    }
    if row_count(&scan.tokens) > limits::ROWS {
        return Err(Refusal::TooManyRows.at(text.len()));
    }
    Ok(scan.tokens)
}

/// The violation at the least offset. The list is in the scope's order for
/// one offset (3, 5, 4, 6, 7), and of equals the first is taken.
fn first_violation(scan: &Scan<'_>) -> Option<Refused> {
    [
        scan.broken_at.map(|at| Refusal::SyntaxError.at(at)),
        first_too_deep(&scan.tokens),
        first_long_word(&scan.tokens),
        first_number_over(&scan.tokens),
        first_role_over(&scan.tokens),
    ]
    .into_iter()
    .flatten()
    .min_by_key(|refused| refused.place)
}

/// The first concept at level 17.
fn first_too_deep(tokens: &[Token<'_>]) -> Option<Refused> {
    let token = tokens.iter().find(|token| token.level > limits::DEPTH)?;
    Some(Refusal::TooDeep.at(token.offset))
}

/// The first word, of a concept or a role, over 12 bytes.
fn first_long_word(tokens: &[Token<'_>]) -> Option<Refused> {
    let token = tokens.iter().find(|token| match token.symbol {
        Symbol::Word(word) | Symbol::Role(word) => word.len() > limits::WORD_BYTES,
        _ => false,
    })?;
    Some(Refusal::WordTooLong.at(token.offset))
}

/// The token that would take the 257th number.
fn first_number_over(tokens: &[Token<'_>]) -> Option<Refused> {
    let takers = number_takers(tokens);
    let over = takers.get(limits::NUMBERS - limits::LEAST_NUMBERS)?;
    Some(Refusal::TooManyNumbers.at(over.offset))
}

/// The word that would be the 65th role.
fn first_role_over(tokens: &[Token<'_>]) -> Option<Refused> {
    let over = *role_takers(tokens).get(limits::ROLES)?;
    Some(Refusal::TooManyRoles.at(over.offset))
}

/// The tokens that take a number, left to right: the first takes number 2.
/// Each new concept name takes one, and each occurrence of `&` or `/`.
pub fn number_takers<'t, 'a>(tokens: &'t [Token<'a>]) -> Vec<&'t Token<'a>> {
    let mut known = BTreeSet::new();
    tokens
        .iter()
        .filter(|token| match token.symbol {
            Symbol::Word(word) => known.insert(word),
            Symbol::And | Symbol::Exists => true,
            _ => false,
        })
        .collect()
}

/// The tokens that take a role, left to right: the first takes role 0.
fn role_takers<'t, 'a>(tokens: &'t [Token<'a>]) -> Vec<&'t Token<'a>> {
    let mut known = BTreeSet::new();
    tokens
        .iter()
        .filter(|token| match token.symbol {
            Symbol::Role(word) => known.insert(word),
            _ => false,
        })
        .collect()
}

/// The rows that a book takes: one a line, three for each `&`, two for each `/`.
fn row_count(tokens: &[Token<'_>]) -> usize {
    tokens
        .iter()
        .map(|token| match token.symbol {
            Symbol::Letter(_) => 1,
            Symbol::And => 3,
            Symbol::Exists => 2,
            _ => 0,
        })
        .sum()
}

/// The concept that begins at the next token of an accepted text.
fn concept<'t, 'a: 't>(rest: &mut impl Iterator<Item = &'t Token<'a>>) -> Concept<String> {
    let token = rest.next().expect("an accepted text has every concept");
    match token.symbol {
        Symbol::Top => Concept::Top,
        Symbol::Bottom => Concept::Bottom,
        Symbol::Word(word) => Concept::Name(word_text(word)),
        Symbol::And => {
            let left = concept(rest);
            let right = concept(rest);
            Concept::and(left, right)
        }
        Symbol::Exists => {
            let role = rest.next().expect("an accepted text has every role");
            let Symbol::Role(word) = role.symbol else {
                unreachable!("a role's word stands behind its `/`");
            };
            Concept::exists(word_text(word), concept(rest))
        }
        Symbol::Letter(_) | Symbol::Role(_) => unreachable!("no concept begins here"),
    }
}

/// A word's bytes, all of them ASCII, as a string.
fn word_text(word: &[u8]) -> String {
    word.iter().copied().map(char::from).collect()
}
