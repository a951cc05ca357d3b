//! Runs with something wrong in them: most edits make what other readers of
//! functional-style syntax take, and some what none takes.

use crate::generate::Run;
use crate::random::Random;

/// What a gap may be changed to.
const GAPS: [&str; 9] = [
    "\t",
    "\r",
    "\r\n",
    " \t ",
    " # comment (\n",
    " #\n",
    "\u{c}",
    "\u{a0}",
    "",
];

/// What a name may be changed to.
const NAMES: [&str; 26] = [
    ":Clone",
    ":clonE",
    ":abcdefghijklm",
    ":a-b",
    ":a_b",
    ":a.b",
    ":a/b",
    ":a:b",
    ":a#b",
    ":\u{e9}",
    ":",
    "<http://example.org/shelf#a>",
    "<urn:x>",
    "owl:Thing",
    "owl:thing",
    "rdfs:label",
    "xsd:string",
    "undeclared:a",
    "_:a",
    "a",
    "7",
    "\"a\"",
    "ObjectInverseOf(:r)",
    "ObjectComplementOf(:a)",
    "ObjectUnionOf(:a :b)",
    "ObjectIntersectionOf(:a)",
];

/// What one of OWL's classes may be changed to.
const OWL_CLASSES: [&str; 6] = [
    "<http://www.w3.org/2002/07/owl#Thing>",
    "owl:Thang",
    "owl:Things",
    "owl:Nothin",
    "Thing",
    "ObjectOneOf(:a)",
];

/// What the text of an annotation may be changed to.
const TEXTS: [&str; 11] = [
    "\"usual\"^^xsd:string",
    "\"usual\" ^^ xsd:string",
    "\"usual\"^^xsd:integer",
    "\"usual\"@en",
    "\"Usual\"",
    "\"usual \"",
    "\"us\\\"ual\"",
    "\"\"",
    ":usual",
    "_:usual",
    "<urn:usual>",
];

/// What the property of an annotation may be changed to.
const PROPERTIES: [&str; 5] = [
    "rdfs:label",
    ":comment",
    "owl:versionInfo",
    "<http://www.w3.org/2000/01/rdf-schema#comment>",
    "Annotation(rdfs:label \"x\") rdfs:comment",
];

/// What any other token may be changed to, by its beginning.
const KEYWORDS: [(&str, &[&str]); 5] = [
    (
        "SubClassOf",
        &[
            "EquivalentClasses",
            "DisjointClasses",
            "SubClassof",
            "ObjectPropertyDomain",
        ],
    ),
    (
        "ObjectIntersectionOf",
        &["ObjectUnionOf", "ObjectOneOf", "ObjectIntersection"],
    ),
    (
        "ObjectSomeValuesFrom",
        &[
            "ObjectAllValuesFrom",
            "ObjectHasValue",
            "ObjectMinCardinality",
        ],
    ),
    ("Annotation", &["annotation", "Annotations"]),
    ("(", &["", "((", "[", ")"]),
];

/// What may be put before a token.
const INSERTED: [&str; 6] = [
    "Annotation(rdfs:comment \"usual\")",
    "Annotation(rdfs:label \"x\")",
    "EquivalentClasses(:a :b)",
    "Declaration(Class(:a))",
    "DisjointClasses(:a ObjectUnionOf(:b :c))",
    "# comment\n",
];

/// The run's text with one edit, or two.
pub fn damaged(random: &mut Random, run: &Run) -> String {
    let mut run = run.clone();
    for _ in 0..random.pick(&[1, 1, 1, 2]) {
        if !run.tokens.is_empty() {
            edit(random, &mut run);
        }
    }
    let mut text = run.text();
    if random.once_in(5) {
        edit_byte(random, &mut text);
    }
    text
}

/// Changes a gap or a token, or puts in, takes out, doubles or swaps one.
fn edit(random: &mut Random, run: &mut Run) {
    let index = random.below(run.tokens.len());
    match random.below(10) {
        0 | 1 => run.tokens[index].0 = random.pick(&GAPS).to_owned(),
        2 => {
            run.tokens.remove(index);
        }
        3 => run.tokens.insert(index, run.tokens[index].clone()),
        4 if index > 0 => run.tokens.swap(index - 1, index),
        5 => {
            let inserted = random.pick(&INSERTED).to_owned();
            run.tokens.insert(index, (" ".to_owned(), inserted));
        }
        _ => run.tokens[index].1 = other_token(random, &run.tokens[index].1),
    }
}

/// Something in place of a token.
fn other_token(random: &mut Random, token: &str) -> String {
    let others: &[&str] = match token {
        "owl:Thing" | "owl:Nothing" => &OWL_CLASSES,
        "rdfs:comment" => &PROPERTIES,
        "\"usual\"" => &TEXTS,
        _ if token.starts_with(':') => &NAMES,
        _ => {
            let keyword = KEYWORDS.iter().find(|it| it.0 == token);
            keyword.map_or(&["", "))", "="], |it| it.1)
        }
    };
    random.pick(others).to_owned()
}

/// Puts in, takes out or changes one character, all of them ASCII.
fn edit_byte(random: &mut Random, text: &mut String) {
    let place = random.below(text.len() + 1);
    let bytes = "abzAZ09 \n\t():\"<>#^@=-_.,&/*";
    let byte = random.below(bytes.len());
    let end = place + random.below(2);
    if text.is_char_boundary(place) && text.is_char_boundary(end) {
        let new = if random.once_in(3) {
            ""
        } else {
            &bytes[byte..=byte]
        };
        text.replace_range(place..end, new);
    }
}
