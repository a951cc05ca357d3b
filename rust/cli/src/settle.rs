//! A book, given as it is or by its axioms, and settled: what `run` and `layers`
//! print is read off it.

use crate::arguments::Arguments;
use crate::command::CommandOption;
use crate::failure::Failure;
use crate::{convert, input};
use shelf::{evaluate, Evaluated, Rank, Refused};

pub const OWL: CommandOption = CommandOption {
    name: "--owl",
    value: None,
    does: &["BOOK has axioms, as convert takes them: the book that they give is settled."],
};

/// The book that is a command's first file, and what it settles to; where it is
/// refused, what is said.
pub fn settled_book(arguments: &Arguments) -> Result<(Vec<u8>, Evaluated), Failure> {
    let text = input::read(&arguments.files[0])?;
    if arguments.has(&OWL) {
        settled(convert::book_of(&text)?, show_in_converted)
    } else {
        settled(text, Refused::show)
    }
}

fn settled(
    book: Vec<u8>,
    show: fn(&Refused, &[u8]) -> String,
) -> Result<(Vec<u8>, Evaluated), Failure> {
    match evaluate(&book) {
        Ok(settled) => Ok((book, settled)),
        Err(refused) => Err(Failure::Refused(show(&refused, &book))),
    }
}

/// A refusal of a book that was converted from axioms, which nobody has seen.
fn show_in_converted(refused: &Refused, book: &[u8]) -> String {
    let shown = refused.show(book);
    format!("{shown}\nThis is said of the book that the axioms give: shelf-cli convert prints it.")
}

/// A rank as it is printed.
pub fn rank_text(rank: Rank) -> String {
    match rank {
        Rank::Finite(level) => level.to_string(),
        Rank::Infinite => "oo".to_owned(),
    }
}
