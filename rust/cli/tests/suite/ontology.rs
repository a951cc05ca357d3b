//! `convert --ontology`: whole documents, what is left out of them, and what is said.

use crate::common::{call, done, failed, Ended, P1};

/// The rules of P1 as the OWL API saves them.
const SAVED: &str = include_str!("../../../data/p1.ofn");

/// Their lines, in the saved order.
const RULES: &str = "\
U clone hidden
S clone set
U set art
U set shown
U & clone /has text shown
S & hidden shown -
";

fn convert(options: &[&str], document: &str) -> Ended {
    let arguments = [&["convert", "--ontology", "-"], options].concat();
    call(&arguments, document)
}

/// From a file and from standard input, by each of the names of the base, with the
/// options anywhere.
#[test]
fn a_saved_document() {
    let arguments: [&[&str]; 5] = [
        &["convert", "--ontology", "p1.ofn"],
        &["convert", "p1.ofn", "--ontology", "--skip-others"],
        &["convert", "--prefix", "games", "--ontology", "p1.ofn"],
        &["convert", "--ontology", "p1.ofn", "--prefix", "games:"],
        &[
            "convert",
            "--ontology",
            "--base",
            "http://example.org/shelf#",
            "p1.ofn",
        ],
    ];
    for arguments in arguments {
        done(call(arguments, ""), RULES);
    }
    done(
        convert(&["--base", "<http://example.org/shelf#>"], SAVED),
        RULES,
    );
    done(convert(&[], SAVED), RULES);
}

/// The rules are those of P1, in another order, and so are the parts of one.
#[test]
fn the_saved_rules_are_those_of_p1() {
    let rules = RULES.replace("hidden shown", "shown hidden");
    let mut rules: Vec<&str> = rules.lines().collect();
    let mut expected: Vec<&str> = P1.lines().take(6).collect();
    rules.sort_unstable();
    expected.sort_unstable();
    assert_eq!(rules, expected);
}

/// The book can be run as it is printed: its layers are those of P1's own rules.
#[test]
fn a_saved_document_is_run() {
    let printed = convert(&[], SAVED).printed;
    let run = "1 U 1\n2 S\n3 U 0\n4 U 0\n5 U 2\n6 S\nlevels 3 passes 1 yes 0\n";
    done(call(&["run", "-"], printed), run);
}

/// A document that says more than a book can.
const MORE: &str = "\
Prefix(:=<http://x.org/g#>)
Ontology(<http://x.org/g>
SubClassOf(:clone :set)
DisjointClasses(:shown :hidden)
SubClassOf(:set ObjectUnionOf(:shown :hidden))
SubClassOf(:set :Shown)
)
";

const LISTED: &str = "\
line 4, column 1: DisjointClasses is not SubClassOf
line 5, column 23: no class has ObjectUnionOf
line 6, column 18: the name :Shown is not 1 to 12 bytes from a-z and 0-9
";

/// What is outside is an error, unless it is to be left out: then it is listed beside
/// the book.
#[test]
fn what_no_book_can_say() {
    let said = failed(convert(&[], MORE), 1);
    let expected = format!(
        "the document says what no book can:\n{LISTED}With --skip-others they are left out.\n"
    );
    assert_eq!(said, expected);
    let ended = convert(&["--skip-others"], MORE);
    let expected = Ended {
        status: 0,
        printed: "S clone set\n".to_owned(),
        said: format!("left out:\n{LISTED}"),
    };
    assert_eq!(ended, expected);
}

#[test]
fn names_under_several_bases() {
    let document = "Prefix(:=<urn:x:>)\nPrefix(y:=<urn:y:>)\nOntology(SubClassOf(:a y:b))";
    let said = failed(convert(&[], document), 1);
    let expected = "the names are under several bases, of which a book has one:\n\
                    <urn:x:>, first at line 3, column 21\n\
                    <urn:y:>, first at line 3, column 24\n\
                    Choose one with --prefix or --base.\n";
    assert_eq!(said, expected);
    let said = failed(convert(&["--prefix", "z"], document), 1);
    assert_eq!(said, "the document doesn't declare the prefix z:\n");
}

/// A damaged document is shown where it is damaged. A run without its ontology is
/// one: that is what `convert` takes alone.
#[test]
fn a_damaged_document() {
    let said = failed(
        convert(&[], "Ontology(\n  Annotation(rdfs:label \"x)\n)"),
        1,
    );
    let expected = "this text has no closing quote\n\
                    line 2, column 25\n\
                    \x20 Annotation(rdfs:label \"x)\n\
                    \x20                       ^\n";
    assert_eq!(said, expected);
    let said = failed(call(&["convert", "--ontology", "p1.axioms"], ""), 1);
    assert!(
        said.starts_with("Prefix( or Ontology( is due here\nline 1, column 1\n"),
        "{said}"
    );
    let said = failed(call(&["convert", "p1.ofn"], ""), 1);
    assert!(said.starts_with("refused 24 0: "), "{said}");
}

/// Axioms that are too long together are refused by the engine, and shown from the one
/// on that is the first too many.
#[test]
fn a_document_that_is_too_long() {
    let axioms = "SubClassOf(:a :b)\n".repeat(1_000);
    let document = format!("Prefix(:=<urn:x:>)\nOntology(\n{axioms})");
    let said = failed(convert(&[], &document), 1);
    // Byte 16,384 of the run is in its axiom 964, in line 966.
    let place = 19 + 10 + 963 * 18;
    let expected = format!(
        "refused 24 {place}: with this axiom the run of those that are picked out is over \
         16384 bytes\nline 966, column 1\nSubClassOf(:a :b)\n^\n"
    );
    assert_eq!(said, expected);
}
