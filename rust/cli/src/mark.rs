//! `mark`: the score of each sheet of a class, as a table, and the totals.

use crate::arguments::Arguments;
use crate::command::{Answer, Command};
use crate::failure::Failure;
use crate::input;
use shelf::{evaluate, mark, Marks, Position, Refusal, Refused};
use std::fmt::Display;

pub const COMMAND: Command = Command {
    name: "mark",
    options: &[],
    files: &["BOOK", "SHEETS"],
    does: &[
        "Marks the sheets of a class by the replies of the book. A sheet is a line of",
        "one byte a question, y or n, in the order of the book. Prints for each sheet,",
        "counted from 1, right, wrong and the percent right; then the totals.",
    ],
    run,
};

fn run(arguments: &Arguments) -> Result<Answer, Failure> {
    let files = &arguments.files;
    let (book, sheets) = (input::read(&files[0])?, input::read(&files[1])?);
    match mark(&book, &sheets) {
        Ok(marks) => Ok(table(&marks).into()),
        Err(refused) => Err(Failure::Refused(show(refused, &book, &sheets))),
    }
}

/// A heading, a line for each sheet, and the totals.
fn table(marks: &Marks) -> String {
    let mut table = row("sheet", "right", "wrong", "percent");
    for (index, score) in marks.scores.iter().enumerate() {
        table += &row(index + 1, score.right, score.wrong, score.percent);
    }
    table + &row("total", marks.totals.right, marks.totals.wrong, "")
}

/// A line of the table: what stands in a column ends below its heading's end.
fn row(
    sheet: impl Display,
    right: impl Display,
    wrong: impl Display,
    percent: impl Display,
) -> String {
    let row = format!("{sheet:>5} {right:>6} {wrong:>6} {percent:>8}");
    row.trim_end().to_owned() + "\n"
}

/// The refusal in words, and where it is: at a byte of the book, or in a sheet.
fn show(refused: Refused, book: &[u8], sheets: &[u8]) -> String {
    if refused.refusal != Refusal::WrongSheet {
        return refused.show(book);
    }
    let Ok(settled) = evaluate(book) else {
        return refused.show(book);
    };
    let questions = settled.classified.questions();
    let shown = show_sheet(refused.place, sheets, questions);
    format!("{refused}\n{shown}")
}

/// What is wrong with the lowest wrong sheet, its index given, and its line with a
/// mark below the first wrong byte.
fn show_sheet(index: usize, sheets: &[u8], questions: usize) -> String {
    // The sheets before it are right: a byte a question and a line feed each.
    let start = index * (questions + 1);
    let (wrong, what) = first_wrong(&sheets[start..], questions);
    let position = Position {
        line: index + 1,
        column: wrong + 1,
    };
    let shown = position.show(sheets);
    format!("sheet {}: {what}\n{shown}", index + 1)
}

/// The first place of a wrong sheet, which begins this text, where it is wrong, and
/// what is wrong there.
fn first_wrong(text: &[u8], questions: usize) -> (usize, String) {
    let is_reply = |byte: &&u8| matches!(byte, b'y' | b'n');
    let said = text.iter().take(questions).take_while(is_reply).count();
    let what = match text.get(said) {
        Some(b'\n') | None if said < questions => {
            format!("it ends after {said} of {questions} answers")
        }
        Some(_) if said < questions => "a byte that is neither y nor n".to_owned(),
        Some(_) => format!("it goes on after {questions} answers"),
        None => "its line feed is missing".to_owned(),
    };
    (said, what)
}
