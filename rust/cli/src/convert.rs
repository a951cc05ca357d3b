//! `convert`: the book of a run of axioms.

use crate::arguments::Arguments;
use crate::command::{Answer, Command};
use crate::failure::Failure;
use crate::{input, ontology};

pub const COMMAND: Command = Command {
    name: "convert",
    options: &ontology::OPTIONS,
    files: &["AXIOMS"],
    does: &[
        "Prints the book of a run of SubClassOf axioms in OWL 2 functional-style",
        "syntax, over :name, owl:Thing, owl:Nothing, ObjectIntersectionOf and",
        "ObjectSomeValuesFrom: a line for each axiom. An axiom that is annotated",
        "Annotation( rdfs:comment \"usual\" ) is a usual rule, any other a strict one.",
    ],
    run,
};

fn run(arguments: &Arguments) -> Result<Answer, Failure> {
    let options = ontology::options(arguments)?;
    let text = input::read(&arguments.files[0])?;
    match options {
        None => Ok(printed(book_of(&text)?).into()),
        Some(options) => ontology::convert(&text, &options),
    }
}

/// A book as text.
pub fn printed(book: Vec<u8>) -> String {
    String::from_utf8(book).expect("a book is ASCII")
}

/// The book of some axioms; where they are refused, that is shown in them.
pub fn book_of(axioms: &[u8]) -> Result<Vec<u8>, Failure> {
    let book = shelf::convert(axioms);
    book.map_err(|refused| Failure::Refused(refused.show(axioms)))
}
