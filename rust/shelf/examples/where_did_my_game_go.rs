//! Answers "where did my game go?" for a small collection, in words.
//!
//! `cargo run --offline -p shelf --example where_did_my_game_go`
//!
//! The rules of a cabinet say what is on the shelf and what is put away. Each
//! game's question is written behind them, the whole is settled, and the
//! replies and ranks are told as sentences.

use shelf::{evaluate, Classified, Rank, Refused};

/// What the cabinet's owner wrote: a set is usually shown, a clone is usually
/// hidden, and a clone with text in it is usually shown after all.
const RULES: &str = "\
S clone set
S & shown hidden -
S prototype clone
S & prototype working -
U set shown
U set /has art
U clone hidden
U & clone /has text shown
";

/// A game of the collection, and its description in the book's words.
const GAMES: [(&str, &str); 6] = [
    ("Star Lane", "set"),
    ("Star Lane (bootleg)", "clone"),
    ("Star Lane (translated)", "& clone /has text"),
    ("Star Lane (prototype)", "prototype"),
    ("Star Lane (working prototype)", "& prototype working"),
    ("A box of cables", "cable"),
];

/// What is asked about each game, in this order.
const ASKED: [&str; 3] = ["shown", "hidden", "/has art"];

fn main() -> Result<(), Refused> {
    let rules = RULES.lines().count();
    let book = book();
    let evaluated = evaluate(book.as_bytes()).inspect_err(|refused| {
        eprintln!("{}", refused.show(book.as_bytes()));
    })?;
    let settled = evaluated.classified;
    println!("The rules, the most usual first:");
    for index in &settled.order {
        tell_rule(&settled, usize::from(*index));
    }
    println!("\nWhere did my game go?");
    for (index, (game, _)) in GAMES.into_iter().enumerate() {
        tell_game(&settled, game, rules + ASKED.len() * index);
    }
    Ok(())
}

/// The rules, and behind them a question for each game and each thing asked.
fn book() -> String {
    let mut book = RULES.to_owned();
    for (_, description) in GAMES {
        for asked in ASKED {
            book.push_str(&format!("Q {description} {asked}\n"));
        }
    }
    book
}

/// A usual rule with its rank.
fn tell_rule(settled: &Classified, line: usize) {
    let rule = RULES.lines().nth(line).expect("a usual line is a rule");
    match settled.rank(line) {
        Some(Rank::Finite(rank)) => println!("  layer {rank}: {rule}"),
        _ => println!("  about nothing at all: {rule}"),
    }
}

/// Where a game is, from the replies to its questions, the first of which is
/// this line.
fn tell_game(settled: &Classified, game: &str, line: usize) {
    let reply = |asked: usize| settled.reply(line + asked) == Some(true);
    let place = match (reply(0), reply(1)) {
        (true, false) => "is on the shelf",
        (false, true) => "is put away",
        (false, false) => "may be on the shelf or put away: the rules don't say",
        (true, true) => "can't be: the rules leave no such game",
    };
    let layer = match settled.rank(line) {
        Some(Rank::Finite(0)) => "as usual".to_owned(),
        Some(Rank::Finite(rank)) => format!("an exception of layer {rank}"),
        _ => "impossible".to_owned(),
    };
    let art = match (reply(2), settled.rank(line)) {
        (_, Some(Rank::Infinite)) => "",
        (true, _) => " It usually has art.",
        (false, _) => " Whether it has art is open.",
    };
    println!("  {game} {place} ({layer}).{art}");
}
