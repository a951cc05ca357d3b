//! `layers`: the usual rules of a book in the engine's order, as a handbook lists
//! them.

use crate::arguments::Arguments;
use crate::command::{Answer, Command};
use crate::failure::Failure;
use crate::settle::{rank_text, settled_book, OWL};

pub const COMMAND: Command = Command {
    name: "layers",
    options: &[OWL],
    files: &["BOOK"],
    does: &[
        "Prints the usual rules of the book, those of rank 0 first and those of rank oo",
        "last, within a rank as they stand in the book: the rank, the number of the",
        "line, counted from 1, and the line.",
    ],
    run: layers,
};

fn layers(arguments: &Arguments) -> Result<Answer, Failure> {
    let (book, settled) = settled_book(arguments)?;
    let book = String::from_utf8(book).expect("a settled book is ASCII");
    let lines: Vec<&str> = book.lines().collect();
    let mut printed = String::new();
    for index in &settled.classified.order {
        let line = usize::from(*index);
        let rank = settled.classified.rank(line);
        let rank = rank_text(rank.expect("the order lists usual lines"));
        printed += &format!("{rank} {} {}\n", line + 1, lines[line]);
    }
    Ok(printed.into())
}
