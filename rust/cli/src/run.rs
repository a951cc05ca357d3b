//! `run`: a line for each line of a book, as the program `shelf` prints them, and
//! the settled counts.

use crate::arguments::Arguments;
use crate::command::{Answer, Command};
use crate::failure::Failure;
use crate::settle::{rank_text, settled_book, OWL};
use shelf::{Counts, Evaluated};

pub const COMMAND: Command = Command {
    name: "run",
    options: &[OWL],
    files: &["BOOK"],
    does: &[
        "Prints for each line of the book its number, its letter, the reply to a",
        "question and the rank of a usual rule or question, oo where it is infinite;",
        "then the levels, the passes and how often the reply is yes.",
    ],
    run,
};

fn run(arguments: &Arguments) -> Result<Answer, Failure> {
    let (_, settled) = settled_book(arguments)?;
    Ok(printed(&settled).into())
}

/// The lines, then the counts.
fn printed(settled: &Evaluated) -> String {
    let lines = 0..settled.compiled.sizes.lines;
    let lines: String = lines.map(|line| printed_line(settled, line)).collect();
    lines + &printed_counts(settled.classified.counts)
}

/// The fields of a line, with one space between.
fn printed_line(settled: &Evaluated, line: usize) -> String {
    let fields = [
        Some((line + 1).to_string()),
        settled.letter(line).map(String::from),
        settled.classified.reply(line).map(reply_text),
        settled.classified.rank(line).map(rank_text),
    ];
    let fields: Vec<String> = fields.into_iter().flatten().collect();
    fields.join(" ") + "\n"
}

fn reply_text(yes: bool) -> String {
    if yes { "yes" } else { "no" }.to_owned()
}

fn printed_counts(counts: Counts) -> String {
    let (levels, passes, yes) = (counts.levels, counts.passes, counts.yes);
    format!("levels {levels} passes {passes} yes {yes}\n")
}
