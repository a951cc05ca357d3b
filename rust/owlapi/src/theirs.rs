//! Their side: the OWL API, by the Java program beside this one.

use std::collections::BTreeSet;
use std::fs;
use std::path::{Path, PathBuf};
use std::process::Command;

/// A document is a run in this: our names are under the empty prefix.
const HEAD: &str = "Prefix(:=<http://example.org/shelf#>)\n\
                    Prefix(owl:=<http://www.w3.org/2002/07/owl#>)\n\
                    Prefix(rdfs:=<http://www.w3.org/2000/01/rdf-schema#>)\n\
                    Prefix(xsd:=<http://www.w3.org/2001/XMLSchema#>)\n\
                    Ontology(<http://example.org/shelf>\n";

/// The ways in which a document is saved.
pub const WAYS: [&str; 3] = ["prefix", "full", "named"];

/// What the OWL API says of a document: its axioms in canonical form, or a message.
pub type Read = Result<BTreeSet<String>, String>;

/// How to start the Java program.
pub struct Theirs {
    /// Where its classes and those of the OWL API are.
    pub class_path: String,
    /// A folder to work in.
    pub folder: PathBuf,
}

/// What was said of some documents, in a folder.
pub struct Answers(PathBuf);

impl Theirs {
    /// Reads each run in a document, and saves what was read where that is asked for.
    pub fn read(&self, name: &str, runs: &[String], saves: bool) -> Answers {
        let folder = self.folder.join(name);
        fs::create_dir(&folder).expect("a folder can be made");
        for (index, run) in runs.iter().enumerate() {
            let document = format!("{HEAD}{run}\n)\n");
            write(&folder.join(format!("{index}.ofn")), &document);
        }
        let mut java = Command::new("java");
        java.args([
            "-Xss64m",
            "-Dorg.slf4j.simpleLogger.defaultLogLevel=off",
            "-cp",
        ]);
        java.arg(&self.class_path).arg("ReadAxioms").arg(&folder);
        java.args(saves.then_some("save"));
        let ended = java.status().expect("java starts");
        assert!(ended.success(), "the OWL API's side failed");
        Answers(folder)
    }
}

impl Answers {
    /// A run's document, and what was read from it.
    pub fn read(&self, index: usize) -> (Vec<u8>, Read) {
        let file = |end: &str| self.0.join(format!("{index}.{end}"));
        let document = fs::read(file("ofn")).expect("the document was written");
        (document, read(&file("read")))
    }

    /// A run's document as it was saved in this way, and what was read from that.
    pub fn saved(&self, index: usize, way: &str) -> (Vec<u8>, Read) {
        let file = |end: &str| self.0.join(format!("{index}.{way}.{end}"));
        let document = fs::read(file("saved")).expect("the document was saved");
        (document, read(&file("read")))
    }
}

fn write(file: &Path, text: &str) {
    fs::write(file, text).expect("a document can be written");
}

fn read(file: &Path) -> Read {
    let report = fs::read_to_string(file).expect("there is an answer");
    let (verdict, axioms) = report.split_once('\n').expect("it has a line");
    match verdict.strip_prefix("refused ") {
        Some(message) => Err(message.to_owned()),
        None => Ok(axioms.lines().map(str::to_owned).collect()),
    }
}
