//! Whole ontology documents: the options of `convert` for them, and what is said.

use crate::arguments::Arguments;
use crate::command::{Answer, CommandOption};
use crate::convert::printed;
use crate::failure::Failure;
use shelf::ontology::{list, Names, Options, Unconverted};

const ONTOLOGY: CommandOption = CommandOption {
    name: "--ontology",
    value: None,
    does: &[
        "AXIOMS is a whole document, as an ontology editor saves it: its SubClassOf",
        "axioms over one prefix are converted, however their names are written.",
        "Declarations and annotations are passed over. Anything else is an error, and",
        "listed with its place.",
    ],
};

const SKIP_OTHERS: CommandOption = CommandOption {
    name: "--skip-others",
    value: None,
    does: &["With --ontology: what can't be converted is left out, and listed."],
};

const PREFIX: CommandOption = CommandOption {
    name: "--prefix",
    value: Some("NAME"),
    does: &[
        "With --ontology: the words of the book are the names under this prefix of the",
        "document. Without it all names are to be under one and the same, with",
        "--skip-others all those in axioms that can be converted.",
    ],
};

const BASE: CommandOption = CommandOption {
    name: "--base",
    value: Some("IRI"),
    does: &["With --ontology: the same by the IRI that the names begin with."],
};

/// The options there are for documents.
pub const OPTIONS: [CommandOption; 4] = [ONTOLOGY, SKIP_OTHERS, PREFIX, BASE];

/// How a document is to be converted; none where there is no document but a run.
pub fn options(arguments: &Arguments) -> Result<Option<Options>, Failure> {
    if !arguments.has(&ONTOLOGY) {
        let alone = OPTIONS.iter().find(|option| arguments.has(option));
        return match alone {
            None => Ok(None),
            Some(option) => Err(usage(format!("{} needs --ontology", option.name))),
        };
    }
    let names = match (arguments.value(&PREFIX), arguments.value(&BASE)) {
        (None, None) => Names::OneBase,
        (Some(prefix), None) => Names::Prefix(prefix.to_owned()),
        (None, Some(base)) => Names::Base(without_brackets(base).to_owned()),
        _ => return Err(usage("give --prefix or --base, not both".to_owned())),
    };
    Ok(Some(Options {
        names,
        skip_others: arguments.has(&SKIP_OTHERS),
    }))
}

/// An IRI may be given as documents write it.
fn without_brackets(iri: &str) -> &str {
    let inside = iri.strip_prefix('<').and_then(|it| it.strip_suffix('>'));
    inside.unwrap_or(iri)
}

fn usage(message: String) -> Failure {
    Failure::Usage(message)
}

/// The book of a document, and what was left out.
pub fn convert(document: &[u8], options: &Options) -> Result<Answer, Failure> {
    match shelf::ontology::convert(document, options) {
        Ok(converted) => Ok(Answer {
            printed: printed(converted.book),
            said: match &converted.skipped[..] {
                [] => String::new(),
                skipped => format!("left out:\n{}", list(skipped, document)),
            },
        }),
        Err(unconverted) => Err(Failure::Refused(show(&unconverted, document))),
    }
}

/// Why there is no book, and what to do where an option helps.
fn show(unconverted: &Unconverted, document: &[u8]) -> String {
    let shown = unconverted.show(document);
    match unconverted {
        Unconverted::SeveralBases(_) => {
            format!("{shown}\nChoose one with --prefix or --base.")
        }
        Unconverted::Outside(_) => {
            format!("{shown}\nWith --skip-others they are left out.")
        }
        _ => shown,
    }
}
