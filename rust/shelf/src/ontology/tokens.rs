//! The tokens of a document, and where it is damaged.
//!
//! White space is a space, a tab, a carriage return or a line feed, and a
//! comment: `#` where a token could begin, up to the line feed. Nothing is read
//! that others read in another way:
//!
//! - A `#` directly behind a word is damage. In OWL's grammar it begins a comment;
//!   for the OWL API it goes on with the name.
//! - A comment has no carriage return but one before its line feed: for some
//!   readers it ends there.

use super::malformed::{Damage, Malformed};
use crate::refusal::BYTE_ORDER_MARK;

/// What a token is.
#[derive(Clone, Copy, Debug, PartialEq, Eq)]
pub(super) enum Kind {
    /// `(`
    Open,
    /// `)`
    Close,
    /// `=`
    Equals,
    /// `^^`
    Carets,
    /// `"..."`, with `\"` and `\\` for a quote and a backslash.
    Text,
    /// `<...>`: a full IRI.
    Iri,
    /// A name or a keyword, or anything else that stands apart.
    Word,
}

/// A token of a document.
#[derive(Clone, Copy, Debug)]
pub(super) struct Token {
    pub kind: Kind,
    /// Its first byte.
    pub start: usize,
    /// The byte behind it.
    pub end: usize,
}

/// All tokens of a document, in order.
pub(super) fn tokens(document: &[u8]) -> Result<Vec<Token>, Malformed> {
    let mut place = 0;
    if document.starts_with(BYTE_ORDER_MARK) {
        place = BYTE_ORDER_MARK.len();
    }
    let mut tokens = Vec::new();
    loop {
        place = behind_gap(document, place)?;
        let Some(first) = document.get(place) else {
            return Ok(tokens);
        };
        let token = token(document, place, *first)?;
        place = token.end;
        tokens.push(token);
    }
}

fn is_white(byte: u8) -> bool {
    matches!(byte, b' ' | b'\t' | b'\r' | b'\n')
}

/// The first place from this one on that is neither white space nor in a
/// comment.
fn behind_gap(document: &[u8], mut place: usize) -> Result<usize, Malformed> {
    loop {
        match document.get(place) {
            Some(byte) if is_white(*byte) => place += 1,
            Some(b'#') => place = behind_comment(document, place)?,
            _ => return Ok(place),
        }
    }
}

/// The line feed that ends a comment, or the document's end.
fn behind_comment(document: &[u8], start: usize) -> Result<usize, Malformed> {
    let line = document[start..].split(|byte| *byte == b'\n').next();
    let line = line.unwrap_or_default();
    let end = start + line.len();
    match line.iter().position(|byte| *byte == b'\r') {
        Some(back) if back + 1 < line.len() => Err(Damage::LoneReturn.at(start + back)),
        _ => Ok(end),
    }
}

/// The token that begins with this byte, at this place.
fn token(document: &[u8], start: usize, first: u8) -> Result<Token, Malformed> {
    let of = |kind, end| Token { kind, start, end };
    match first {
        b'(' => Ok(of(Kind::Open, start + 1)),
        b')' => Ok(of(Kind::Close, start + 1)),
        b'=' => Ok(of(Kind::Equals, start + 1)),
        b'^' if document[start..].starts_with(b"^^") => Ok(of(Kind::Carets, start + 2)),
        b'"' => Ok(of(Kind::Text, behind_text(document, start)?)),
        b'<' => Ok(of(Kind::Iri, behind_iri(document, start)?)),
        b'@' => Ok(of(Kind::Word, behind_word(document, start + 1)?)),
        _ if is_in_word(first) => Ok(of(Kind::Word, behind_word(document, start)?)),
        _ => Err(Damage::StrayByte.at(start)),
    }
}

/// The byte behind the quote that ends a text.
fn behind_text(document: &[u8], start: usize) -> Result<usize, Malformed> {
    let mut place = start + 1;
    loop {
        match document.get(place) {
            Some(b'"') => return Ok(place + 1),
            Some(b'\\') => place += 2,
            Some(_) => place += 1,
            None => return Err(Damage::UnendedText.at(start)),
        }
    }
}

/// The byte behind the `>` that ends an IRI, which has no white space.
fn behind_iri(document: &[u8], start: usize) -> Result<usize, Malformed> {
    let rest = &document[start + 1..];
    let stops = |byte: &u8| is_white(*byte) || matches!(byte, b'<' | b'>' | b'"');
    match rest.iter().position(stops) {
        Some(length) if rest[length] == b'>' => Ok(start + 1 + length + 1),
        _ => Err(Damage::UnendedIri.at(start)),
    }
}

/// The first byte from this place on that is in no word, which is not `#`.
fn behind_word(document: &[u8], place: usize) -> Result<usize, Malformed> {
    let rest = document[place..].iter();
    let end = place + rest.take_while(|byte| is_in_word(**byte)).count();
    match document.get(end) {
        Some(b'#') => Err(Damage::HashInWord.at(end)),
        _ => Ok(end),
    }
}

/// All that is printed and not ASCII, but for what begins or ends other tokens.
fn is_in_word(byte: u8) -> bool {
    match byte {
        b'(' | b')' | b'=' | b'"' | b'<' | b'>' | b'^' | b'@' | b'#' => false,
        b'!'..=b'~' => true,
        _ => !byte.is_ascii(),
    }
}
