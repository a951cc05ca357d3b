//! The printed form of a sitting: what `shelf` writes for a book.

use crate::closure::{Answer, Rank};
use crate::concept::Kind;
use crate::deck::Row;
use crate::reader::read;
use crate::refusal::Refused;
use crate::settle::{evaluate, settle_lines, Counts, Settled};
use std::fmt::Write;

/// What `shelf` prints, from the book's nested lines as they stand.
pub fn shelf(text: &[u8]) -> String {
    match read(text) {
        Ok(lines) => {
            let kinds: Vec<Kind> = lines.iter().map(|line| line.kind).collect();
            print(&kinds, &settle_lines(&lines))
        }
        Err(refused) => print_refused(refused),
    }
}

/// What `shelf` prints, from the deck that the book compiles to.
pub fn shelf_by_deck(text: &[u8]) -> String {
    match evaluate(text) {
        Ok(done) => {
            let rows = &done.compiled.deck[..done.compiled.sizes.lines];
            let kinds: Vec<Kind> = rows
                .iter()
                .map(|row| Row::unpack(*row).line().kind)
                .collect();
            print(&kinds, &done.classified.settled)
        }
        Err(refused) => print_refused(refused),
    }
}

/// A refusal as printed.
pub fn print_refused(refused: Refused) -> String {
    format!("{refused}\n")
}

/// One line for each line of the book, then the counts. Answers beyond the
/// book's lines (those of definition rows) aren't printed.
pub fn print(kinds: &[Kind], settled: &Settled) -> String {
    let mut out = String::new();
    for (index, (kind, answer)) in kinds.iter().zip(&settled.answers).enumerate() {
        let letter = char::from(kind.letter());
        writeln!(out, "{} {letter}{}", index + 1, fields(*answer)).expect("a string takes it all");
    }
    let Counts {
        levels,
        passes,
        yes,
    } = settled.counts;
    writeln!(out, "levels {levels} passes {passes} yes {yes}").expect("a string takes it all");
    out
}

/// The reply and the rank, as far as there are, each behind a space.
fn fields(answer: Answer) -> String {
    match answer {
        Answer::Strict => String::new(),
        Answer::Defeasible(rank) => format!(" {}", rank_text(rank)),
        Answer::Query(yes, rank) => format!(" {} {}", reply_text(yes), rank_text(rank)),
        Answer::StrictQuery(yes) => format!(" {}", reply_text(yes)),
    }
}

fn reply_text(yes: bool) -> &'static str {
    if yes {
        "yes"
    } else {
        "no"
    }
}

fn rank_text(rank: Rank) -> String {
    match rank {
        Rank::Finite(level) => level.to_string(),
        Rank::Infinite => "oo".to_owned(),
    }
}
