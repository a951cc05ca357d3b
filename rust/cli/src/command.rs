//! The commands there are, and the help that lists them.

use crate::arguments::Arguments;
use crate::failure::Failure;
use crate::{convert, layers, mark, run};

/// A command of the program.
pub struct Command {
    pub name: &'static str,
    /// The options that it takes.
    pub options: &'static [CommandOption],
    /// What each file that it takes is.
    pub files: &'static [&'static str],
    /// What it does, a line each.
    pub does: &'static [&'static str],
    /// Does it, for arguments that it takes.
    pub run: fn(&Arguments) -> Result<Answer, Failure>,
}

/// An option of a command.
pub struct CommandOption {
    /// Its name, with the hyphens.
    pub name: &'static str,
    /// What the word behind it is, where it takes one.
    pub value: Option<&'static str>,
    /// What it changes, a line each.
    pub does: &'static [&'static str],
}

/// What a command that is done gives.
pub struct Answer {
    /// What was asked for: it goes to standard output.
    pub printed: String,
    /// What is said beside it, on standard error.
    pub said: String,
}

impl From<String> for Answer {
    fn from(printed: String) -> Answer {
        let said = String::new();
        Answer { printed, said }
    }
}

impl CommandOption {
    /// How it is given.
    fn usage(&self) -> String {
        let value = self.value.map(|value| format!(" {value}"));
        self.name.to_owned() + &value.unwrap_or_default()
    }
}

/// Every command, in the order of the help.
pub const COMMANDS: [Command; 4] = [
    run::COMMAND,
    layers::COMMAND,
    mark::COMMAND,
    convert::COMMAND,
];

impl Command {
    /// How it is called.
    pub fn usage(&self) -> String {
        let options = self.options.iter();
        let options: String = options.map(|it| format!("[{}] ", it.usage())).collect();
        format!("shelf-cli {} {options}{}", self.name, self.files.join(" "))
    }

    /// How it is called, what it does and what its options change, indented.
    fn help(&self) -> String {
        let mut help = format!("  {}\n", self.usage());
        for line in self.does {
            help += &format!("      {line}\n");
        }
        for option in self.options {
            help += &format!("      {}\n", option.usage());
            for line in option.does {
                help += &format!("          {line}\n");
            }
        }
        help
    }
}

/// What `--help` prints.
pub fn help() -> String {
    let commands: String = COMMANDS.iter().map(Command::help).collect();
    format!(
        "Runs books of strict and usual rules with the proved shelf engine.\n\
         \n\
         {commands}\
         \x20 shelf-cli --help | -h\n\
         \x20     Prints this.\n\
         \n\
         A file named - is standard input.\n\
         \n\
         Standard output has what was asked for and nothing else. What went wrong or\n\
         was left out is said on standard error, and what went wrong by the exit status:\n\
         \x20 0  done\n\
         \x20 1  the input was refused, or something could not be read or printed\n\
         \x20 2  the program was called in a way that it doesn't have\n"
    )
}
