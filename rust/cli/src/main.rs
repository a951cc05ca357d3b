//! Runs books, lists their layers, marks classes and converts axioms with the proved
//! shelf engine, for people: what is refused is said in words. `shelf-cli --help`
//! says how.
//!
//! A command is a module with its entry in [`COMMANDS`].

#![forbid(unsafe_code)]

mod arguments;
mod command;
mod convert;
mod failure;
mod input;
mod layers;
mod mark;
mod ontology;
mod run;
mod settle;

use arguments::Arguments;
use command::{Answer, COMMANDS};
use failure::Failure;
use std::env;
use std::ffi::OsString;
use std::io::{stderr, stdout, Write};
use std::process::ExitCode;

fn main() -> ExitCode {
    let arguments: Vec<OsString> = env::args_os().skip(1).collect();
    match answer(&arguments).and_then(|answer| print(&answer)) {
        Ok(()) => ExitCode::SUCCESS,
        Err(failure) => {
            // Where this can't be said, the status still tells it.
            let _ = writeln!(stderr(), "{failure}");
            failure.exit_code()
        }
    }
}

/// What is to be printed for these arguments.
fn answer(arguments: &[OsString]) -> Result<Answer, Failure> {
    if arguments.iter().any(|it| it == "--help" || it == "-h") {
        return Ok(command::help().into());
    }
    let Some((name, words)) = arguments.split_first() else {
        return Err(Failure::Usage("a command is missing".to_owned()));
    };
    let Some(command) = COMMANDS.iter().find(|command| *name == command.name) else {
        let name = name.to_string_lossy();
        return Err(Failure::Usage(format!("there is no command {name}")));
    };
    (command.run)(&Arguments::of(command, words)?)
}

/// Prints all of an answer, and says what there is to be said beside it.
fn print(answer: &Answer) -> Result<(), Failure> {
    let mut out = stdout();
    let printed = out.write_all(answer.printed.as_bytes());
    let printed = printed.and_then(|()| out.flush());
    // As with a failure, nothing helps where this can't be said.
    let _ = stderr().write_all(answer.said.as_bytes());
    printed.map_err(Failure::Unprinted)
}
