//! What a command is called with: its options, and its files.

use crate::command::{Command, CommandOption};
use crate::failure::Failure;
use crate::input;
use std::ffi::{OsStr, OsString};

/// The arguments of a command, as many and such as it takes.
#[derive(Default)]
pub struct Arguments {
    /// The names of the options that are given, each with its value if it has one.
    given: Vec<(&'static str, Option<String>)>,
    /// The files, in their order.
    pub files: Vec<OsString>,
}

impl Arguments {
    /// The words behind a command's name, taken apart. Options may stand anywhere
    /// among the files. At most one file is standard input.
    pub fn of(command: &Command, words: &[OsString]) -> Result<Arguments, Failure> {
        let mut arguments = Arguments::default();
        let mut words = words.iter();
        while let Some(word) = words.next() {
            if is_option(word) {
                let option = known(command, word)?;
                let value = value_of(option, &mut words)?;
                arguments.given.push((option.name, value));
            } else {
                arguments.files.push(word.clone());
            }
        }
        check_files(command, &arguments.files)?;
        Ok(arguments)
    }

    /// Whether an option is given.
    pub fn has(&self, option: &CommandOption) -> bool {
        self.given.iter().any(|(name, _)| *name == option.name)
    }

    /// The value of an option, the last where it is given more than once.
    pub fn value(&self, option: &CommandOption) -> Option<&str> {
        let mut given = self.given.iter().rev();
        let (_, value) = given.find(|(name, _)| *name == option.name)?;
        value.as_deref()
    }
}

fn is_standard(file: &OsStr) -> bool {
    file == input::STANDARD
}

fn is_option(word: &OsStr) -> bool {
    word.as_encoded_bytes().starts_with(b"-") && !is_standard(word)
}

/// An option that the command has, by its name.
fn known<'a>(command: &'a Command, name: &OsStr) -> Result<&'a CommandOption, Failure> {
    let mut options = command.options.iter();
    options.find(|option| name == option.name).ok_or_else(|| {
        let (command, name) = (command.name, name.to_string_lossy());
        Failure::Usage(format!("{command} has no option {name}"))
    })
}

/// The value of an option that takes one: the next word.
fn value_of<'a>(
    option: &CommandOption,
    words: &mut impl Iterator<Item = &'a OsString>,
) -> Result<Option<String>, Failure> {
    let Some(what) = option.value else {
        return Ok(None);
    };
    match words.next().and_then(|word| word.to_str()) {
        Some(value) => Ok(Some(value.to_owned())),
        None => Err(Failure::Usage(format!("{} takes {what}", option.name))),
    }
}

/// There are as many files as the command takes, and at most one is standard input.
fn check_files(command: &Command, files: &[OsString]) -> Result<(), Failure> {
    if files.len() != command.files.len() {
        let (name, takes) = (command.name, command.files.join(" and "));
        return Err(Failure::Usage(format!("{name} takes {takes}")));
    }
    if files.iter().filter(|file| is_standard(file)).count() > 1 {
        let message = "standard input can be read only once";
        return Err(Failure::Usage(message.to_owned()));
    }
    Ok(())
}
