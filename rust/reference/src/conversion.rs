//! Converting: a run of axioms becomes a book, a line for each axiom.

use crate::axioms::{read_run, Axiom, Class};
use crate::concept::Kind;
use crate::limits::TEXT_BYTES;
use crate::refusal::{Refusal, Refused};

/// Converts a run of axioms to its book.
///
/// # Errors
/// Refusal 24.
pub fn convert(input: &[u8]) -> Result<Vec<u8>, Refused> {
    if input.len() > TEXT_BYTES {
        return Err(Refusal::NoRun.at(TEXT_BYTES));
    }
    match read_run(input) {
        Ok(axioms) => Ok(book(&axioms)),
        Err(place) => Err(Refusal::NoRun.at(place)),
    }
}

/// Converts a run of axioms to its book, given the length of the text that
/// would be lent.
///
/// # Errors
/// Refusals 24 and 25.
pub fn convert_lent(input: &[u8], text_len: usize) -> Result<Vec<u8>, Refused> {
    let book = convert(input)?;
    if text_len < book.len() {
        return Err(Refusal::BookRoom.at(0));
    }
    Ok(book)
}

/// The book of some axioms: one line each, in order.
pub fn book(axioms: &[Axiom]) -> Vec<u8> {
    axioms.iter().map(line).collect::<String>().into_bytes()
}

/// The line of an axiom.
fn line(axiom: &Axiom) -> String {
    let kind = if axiom.usual {
        Kind::Defeasible
    } else {
        Kind::Strict
    };
    let letter = char::from(kind.letter());
    let (left, right) = (description(&axiom.sub), description(&axiom.sup));
    format!("{letter} {left} {right}\n")
}

/// A class as a book writes it.
fn description(class: &Class) -> String {
    match class {
        Class::Thing => "*".to_owned(),
        Class::Nothing => "-".to_owned(),
        Class::Named(name) => name.clone(),
        Class::Intersection(parts) => nested(parts),
        Class::SomeValues(role, filler) => format!("/{role} {}", description(filler)),
    }
}

/// The parts of an intersection, nested to the right: each but the last is
/// paired with all that stand behind it.
fn nested(parts: &[Class]) -> String {
    let (last, before) = parts.split_last().expect("an intersection has parts");
    let before: String = before
        .iter()
        .map(|part| format!("& {} ", description(part)))
        .collect();
    before + &description(last)
}
