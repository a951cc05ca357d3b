//! Random runs as documents: names, gaps and what stands between the axioms are
//! written in any way there is.

use super::common::{document, skipping};
use crate::common::books::damage;
use crate::common::decks::Random;
use crate::common::runs::{random_run, write_run, NAMES};
use shelf::ontology::{convert, list, Options, Unconverted};
use shelf::{compile, Refusal};
use shelf_reference::Axiom;

/// Parts two tokens while a run is rewritten.
const MARK: char = '\u{1}';

const PASSED_OVER: [&str; 6] = [
    "Declaration(Class(:a))",
    "# SubClassOf(:a :b)\n",
    "AnnotationAssertion(rdfs:label ex:a \"a (\\\"b\\\\\"@en)",
    "Annotation(Annotation(foaf:x foaf:y) rdfs:comment <urn:(>)",
    "SubAnnotationPropertyOf(:p :q)",
    "AnnotationPropertyRange(foaf:p xsd:string)",
];

/// White space or comments; where they are due, not empty.
fn gap(random: &mut Random, due: bool) -> String {
    let gaps = ["", " ", "\n", "\t", "\r\n", " # )\r\n", "\n#\n", "   "];
    random.pick(&gaps[usize::from(due)..]).to_owned()
}

/// A token in any of the ways to write it.
fn token(random: &mut Random, token: &str) -> String {
    let owl = "http://www.w3.org/2002/07/owl#";
    let usual = [
        "\"usual\"",
        "\"usual\"^^xsd:string",
        "\"usual\" ^^xsd:string",
    ];
    match (token.split_once(':'), random.below(3)) {
        (Some(("", name)), 0) => format!("ex:{name}"),
        (Some(("", name)), 1) => format!("<http://x.org/g#{name}>"),
        (Some(("owl", name)), 0) => format!("<{owl}{name}>"),
        (Some(("rdfs", name)), 0) => format!("<http://www.w3.org/2000/01/rdf-schema#{name}>"),
        (None, _) if token == usual[0] => random.pick(&usual).to_owned(),
        _ => token.to_owned(),
    }
}

/// An axiom in any of the ways to write it.
fn written(random: &mut Random, axiom: &Axiom) -> String {
    let run = write_run(std::slice::from_ref(axiom), |_| MARK.to_string());
    let mut text = String::new();
    let mut due = false;
    for plain in run.split(MARK).filter(|it| !it.is_empty()) {
        let is_bracket = matches!(plain, "(" | ")");
        text += &gap(random, due && !is_bracket);
        text += &token(random, plain);
        due = !is_bracket;
    }
    text
}

/// A random document, and the run that is to be picked out of it.
fn random_document(random: &mut Random, depth: usize) -> (String, String) {
    let count = random.below(6);
    let axioms = random_run(random, &NAMES, count, depth);
    let mut says = String::new();
    for axiom in &axioms {
        if random.once_in(2) {
            says += random.pick(&PASSED_OVER);
        }
        says += &written(random, axiom);
    }
    let run = write_run(&axioms, |due| if due { " " } else { "" }.to_owned());
    (document(&says), run)
}

/// 3,000 random documents have the book of their run.
#[test]
fn random_documents() {
    let mut random = Random(190);
    for turn in 0..3_000 {
        let (document, run) = random_document(&mut random, turn % 6);
        match convert(document.as_bytes(), &Options::default()) {
            Ok(converted) => assert_eq!(converted.book, shelf::convert(run.as_bytes()).unwrap()),
            Err(other) => panic!("{}\n{document}", other.show(document.as_bytes())),
        }
    }
}

/// 6,000 random documents with one to three bytes changed, put in or taken out: what
/// is converted is a book, with words and letters as they should be, and all that is
/// told of a document is in it.
#[test]
fn damaged_documents() {
    let mut random = Random(191);
    let (mut whole, mut in_part, mut malformed) = (0, 0, 0);
    for turn in 0..6_000 {
        let (document, _) = random_document(&mut random, turn % 4);
        let mut document = document.into_bytes();
        for _ in 0..random.from(1, 3) {
            damage(&mut random, &mut document);
        }
        match convert(&document, &skipping(&Options::default())) {
            Ok(converted) => {
                let refused = compile(&converted.book).err().map(|it| it.refusal);
                let is_book = refused.is_none_or(|it| it == Refusal::TooDeep);
                assert!(is_book, "{refused:?}: {}", document.escape_ascii());
                let listed = list(&converted.skipped, &document);
                assert_eq!(listed.lines().count(), converted.skipped.len());
                whole += usize::from(converted.skipped.is_empty());
                in_part += usize::from(!converted.skipped.is_empty());
            }
            Err(other) => {
                let shown = other.show(&document);
                assert!(shown.contains("line "), "{shown}");
                malformed += usize::from(matches!(other, Unconverted::Malformed(_)));
            }
        }
    }
    let counts = [whole, in_part, malformed];
    assert!(counts.iter().all(|count| *count > 500), "{counts:?}");
}
