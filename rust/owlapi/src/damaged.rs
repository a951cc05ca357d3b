//! The comparison of damaged runs.

use crate::damage::damaged;
use crate::generate::Run;
use crate::ours::{Ours, Said};
use crate::random::Random;
use crate::reasons::reason;
use crate::repeated::{lines_without, pick};
use crate::theirs::{Read, Theirs};
use crate::{canonical, same};
use std::collections::{BTreeMap, BTreeSet};

/// How many runs are damaged, some of them alike.
const DAMAGED: usize = 6_000;

/// The fewest of them that we refuse and the OWL API takes.
const LEAST_TAKEN: usize = 500;

/// What became of the damaged runs.
#[derive(Default)]
struct Found {
    converted: usize,
    refused_by_both: usize,
    /// Those that only we refuse, by the reason: how many, and the rest of one from
    /// the place on.
    reasons: BTreeMap<&'static str, (usize, String)>,
    /// The documents that the OWL API takes: how many, and the axioms picked out.
    documents: usize,
    picked: usize,
    /// The axioms that we leave out for an annotation that is there twice.
    annotated_twice: usize,
    /// Those of them that we don't read at all, by what we say.
    unread: BTreeMap<String, usize>,
}

/// What we say of a whole document that the OWL API takes: it has control bytes and
/// `#` in names, white space in IRIs, and no end of a comment at a carriage return.
const UNREAD: [&str; 4] = [
    "no part of a document begins with this byte",
    "this IRI has no closing >",
    "a carriage return without its line feed",
    "a # in a name: before a comment there is to be white space",
];

/// What both sides take is read alike, and what only the OWL API takes has a known
/// reason.
pub fn compare(random: &mut Random, runs: &[Run], ours: &Ours, theirs: &Theirs) {
    let texts = (0..DAMAGED).map(|turn| damaged(random, &runs[turn % runs.len()]));
    let mut texts: BTreeSet<String> = texts.collect();
    texts.insert(format!("SubClassOf(:a :b){}", " ".repeat(16_384)));
    let texts: Vec<String> = texts.into_iter().collect();
    let answers = theirs.read("damaged", &texts, false);
    let mut found = Found::default();
    for (index, text) in texts.iter().enumerate() {
        let (document, read) = answers.read(index);
        found.add_run(text, ours.convert(text), &read);
        if let Ok(axioms) = &read {
            let document = String::from_utf8(document).expect("a document is text");
            found.add_document(ours, &document, axioms);
        }
    }
    found.print(texts.len());
}

impl Found {
    fn add_run(&mut self, text: &str, said: Said, read: &Read) {
        match (said, read) {
            (Said::Converted(book), read) => {
                same(&book, read, text);
                self.converted += 1;
            }
            (Said::Refused(_), Err(_)) => self.refused_by_both += 1,
            (Said::Refused(place), Ok(_)) => {
                let (before, behind) = text.split_at(place);
                let Some(reason) = reason(text, place) else {
                    panic!("no reason is known for our refusal between {before:?} and {behind:?}");
                };
                let entry = self.reasons.entry(reason);
                entry.or_insert((0, behind.to_owned())).0 += 1;
            }
        }
    }

    /// From a document that the OWL API takes we pick out what a book can have, but for
    /// axioms with an annotation twice.
    fn add_document(&mut self, ours: &Ours, document: &str, axioms: &BTreeSet<String>) {
        let axioms = axioms.iter().filter(|axiom| canonical::is_line(axiom));
        let axioms: BTreeSet<String> = axioms.cloned().collect();
        match pick(ours, document) {
            Ok((lines, left_out)) => {
                let repeated = lines_without(ours, document, &left_out);
                self.add_picked(&lines, &repeated, &axioms, document);
            }
            Err(said) => {
                let said = said.lines().next().unwrap_or_default();
                assert!(
                    UNREAD.contains(&said),
                    "only we can't read it: {said}\n{document}"
                );
                *self.unread.entry(said.to_owned()).or_default() += 1;
            }
        }
    }

    /// All that is picked out is an axiom, and each axiom that is missing is one that
    /// we leave out for its second annotation alone.
    fn add_picked(
        &mut self,
        lines: &BTreeSet<String>,
        repeated: &BTreeSet<String>,
        axioms: &BTreeSet<String>,
        document: &str,
    ) {
        let missing: BTreeSet<String> = axioms.difference(lines).cloned().collect();
        let is_same = lines.is_subset(axioms) && missing.is_subset(repeated);
        assert!(is_same, "not {lines:?} but {axioms:?}:\n{document}");
        self.documents += 1;
        self.picked += lines.len();
        self.annotated_twice += missing.len();
    }

    fn print(&self, count: usize) {
        let taken: usize = self.reasons.values().map(|it| it.0).sum();
        println!("{count} damaged runs, each once:");
        println!("{:6} both sides take, with the same axioms", self.converted);
        println!("{:6} neither side takes", self.refused_by_both);
        println!("{taken:6} only the OWL API takes. We refuse");
        for (reason, (count, behind)) in &self.reasons {
            let behind: String = behind.chars().take(24).collect();
            println!("{count:13} {reason}, as at {behind:?}");
        }
        println!(
            "{} documents with a damaged run that it takes: convert --ontology --skip-others \
             picks out the same {} axioms, but for {} with their annotation twice",
            self.documents, self.picked, self.annotated_twice
        );
        for (said, count) in &self.unread {
            println!("{count:6} more such documents we don't read: {said}");
        }
        assert!(taken >= LEAST_TAKEN, "too few to tell");
    }
}
