//! Compares the converter with the OWL API, which nobody here wrote.
//!
//! - Runs that we convert: the OWL API reads the same axioms from a document with
//!   that run.
//! - Documents that the OWL API saves: `convert --ontology` gives a book with the
//!   same axioms.
//! - Damaged runs: what we convert it reads alike, and where we refuse what it
//!   takes, the reason is a known one.
//! - Documents with a damaged run that the OWL API takes: `convert --ontology
//!   --skip-others` picks out just those of its axioms that a book can have.
//!
//! Axioms are compared as sets, and so are the parts of an intersection, since the
//! OWL API keeps them so: order and repetition are not compared. Nor is how
//! intersections stand in each other: a book has only pairs, in which an intersection
//! that stands last goes on with the one around it, and the OWL API doesn't keep which
//! part stood last. Called by scripts/compare-with-owlapi.

#![forbid(unsafe_code)]

mod canonical;
mod damage;
mod damaged;
mod generate;
mod ours;
mod random;
mod reasons;
mod repeated;
mod theirs;

use generate::Run;
use ours::{Ours, Said};
use random::Random;
use std::path::PathBuf;
use theirs::{Read, Theirs, WAYS};

/// How many runs are compared.
const RUNS: usize = 1_000;

fn main() {
    let arguments: Vec<String> = std::env::args().skip(1).collect();
    let [command, class_path, folder, seed] = &arguments[..] else {
        panic!("call: shelf-owlapi COMMAND CLASS-PATH FOLDER SEED");
    };
    let ours = Ours(PathBuf::from(command));
    let theirs = Theirs {
        class_path: class_path.clone(),
        folder: PathBuf::from(folder),
    };
    let mut random = Random(seed.parse().expect("the seed is a number"));
    let runs: Vec<Run> = (0..RUNS)
        .map(|turn| generate::run(&mut random, 6, turn % 6))
        .collect();
    compare_runs(&runs, &ours, &theirs);
    damaged::compare(&mut random, &runs, &ours, &theirs);
    println!("no difference");
}

/// Every run is read alike, and every document that was saved is converted alike.
fn compare_runs(runs: &[Run], ours: &Ours, theirs: &Theirs) {
    let texts: Vec<String> = runs.iter().map(Run::text).collect();
    let answers = theirs.read("runs", &texts, true);
    let (mut axioms, mut saved) = (0, 0);
    for (index, text) in texts.iter().enumerate() {
        let Said::Converted(book) = ours.convert(text) else {
            panic!("we refuse a run:\n{text}");
        };
        let (document, read) = answers.read(index);
        axioms += same(&book, &read, text);
        compare_document(ours, &document, &read);
        for way in WAYS {
            let (document, read) = answers.saved(index, way);
            compare_document(ours, &document, &read);
            saved += 1;
        }
    }
    println!("{RUNS} runs: the OWL API reads the same {axioms} axioms");
    println!("{saved} documents that it saves: convert --ontology gives the same axioms");
}

/// A book has just the axioms that were read. Gives how many these are.
fn same(book: &str, read: &Read, text: &str) -> usize {
    match read {
        Ok(axioms) => {
            let lines = canonical::lines(book);
            assert_eq!(&lines, axioms, "the axioms differ:\n{text}");
            lines.len()
        }
        Err(message) => panic!("the OWL API refuses what we take: {message}\n{text}"),
    }
}

/// A document is converted as it is read.
fn compare_document(ours: &Ours, document: &[u8], read: &Read) {
    let shown = String::from_utf8_lossy(document);
    match ours.convert_ontology(document, &[]) {
        Ok((book, _)) => same(&book, read, &shown),
        Err(said) => panic!("we can't convert what the OWL API reads: {said}\n{shown}"),
    };
}
