//! Converting: runs of axioms that are accepted, and their books.

use crate::common::runs::{random_gap, random_run, write_run, NAMES};
use crate::common::Random;
use shelf_reference::{convert, read_run};

/// Asserts the book of a run.
#[track_caller]
fn converted(input: &str, book: &str) {
    let found = convert(input.as_bytes()).expect("the run is converted");
    let found = String::from_utf8(found).expect("a book is ASCII");
    assert_eq!(found, book);
}

#[test]
fn an_empty_run_is_the_empty_book() {
    for input in ["", " ", "\n", " \n \n\n  "] {
        converted(input, "");
    }
}

/// One line an axiom, in order; an axiom may stand there twice.
#[test]
fn a_line_for_each_axiom() {
    converted("SubClassOf(:a :b)", "S a b\n");
    converted("SubClassOf(:b :a) SubClassOf(:a :b)", "S b a\nS a b\n");
    converted("SubClassOf(:a :b)SubClassOf(:a :b)", "S a b\nS a b\n");
}

/// The annotation makes a usual rule of its own axiom only.
#[test]
fn the_annotation_makes_a_usual_rule() {
    let usual = "SubClassOf(Annotation(rdfs:comment \"usual\") :a :b)";
    converted(usual, "U a b\n");
    converted(&format!("{usual}SubClassOf(:a :b)"), "U a b\nS a b\n");
    converted(&format!("SubClassOf(:a :b){usual}"), "S a b\nU a b\n");
}

#[test]
fn everything_and_nothing() {
    converted("SubClassOf(owl:Thing owl:Nothing)", "S * -\n");
    converted("SubClassOf(owl:Nothing owl:Thing)", "S - *\n");
    converted("SubClassOf(owl:Thing :thing)", "S * thing\n");
}

/// Parts nest to the right, whatever they are.
#[test]
fn parts_nest_to_the_right() {
    let vectors = [
        (":a :b", "& a b"),
        (":a :b :c", "& a & b c"),
        (":a :b :c :d", "& a & b & c d"),
        (":a :a", "& a a"),
        ("ObjectIntersectionOf(:a :b) :c", "& & a b c"),
        (":a ObjectIntersectionOf(:b :c :d) :e", "& a & & b & c d e"),
        (":a ObjectIntersectionOf(:b :c)", "& a & b c"),
    ];
    for (parts, description) in vectors {
        let input = format!("SubClassOf(ObjectIntersectionOf({parts}) :z)");
        converted(&input, &format!("S {description} z\n"));
    }
}

/// Role names and class names are separate lists, so one word may be both.
#[test]
fn some_by_a_role() {
    let vectors = [
        ("ObjectSomeValuesFrom(:a :a)", "/a a"),
        (
            "ObjectSomeValuesFrom(:r ObjectSomeValuesFrom(:s owl:Thing))",
            "/r /s *",
        ),
        (
            "ObjectSomeValuesFrom(:r ObjectIntersectionOf(:a :b))",
            "/r & a b",
        ),
    ];
    for (class, description) in vectors {
        converted(
            &format!("SubClassOf(:z {class})"),
            &format!("S z {description}\n"),
        );
        converted(
            &format!("SubClassOf({class}:z)"),
            &format!("S {description} z\n"),
        );
    }
}

/// Names follow the word rule: 1 to 12 of a-z and 0-9, in any order.
#[test]
fn names_follow_the_word_rule() {
    converted("SubClassOf(:0 :z9)", "S 0 z9\n");
    let longest = "SubClassOf(:abcdefghijkl :012345678901)";
    converted(longest, "S abcdefghijkl 012345678901\n");
    converted("SubClassOf(:owl :usual)", "S owl usual\n");
}

/// One run with no gap but those that are due, and with gaps around every token.
/// Due they are only behind names and owl: classes, and not before a bracket.
#[test]
fn gaps_may_stand_around_any_token() {
    let book = "U & a b c\nS /r * -\n";
    let tight = "SubClassOf(Annotation(rdfs:comment\"usual\")ObjectIntersectionOf(:a :b):c)\
                 SubClassOf(ObjectSomeValuesFrom(:r owl:Thing)owl:Nothing)";
    converted(tight, book);
    let wide = " SubClassOf ( Annotation ( rdfs:comment \"usual\" ) \
                ObjectIntersectionOf ( :a :b ) :c ) \
                SubClassOf ( ObjectSomeValuesFrom ( :r owl:Thing ) owl:Nothing ) ";
    converted(wide, book);
    converted(&wide.replace(' ', "\n"), book);
    converted(&wide.replace(' ', " \n\n "), book);
    converted(
        "SubClassOf(Annotation(rdfs:comment\"usual\"):a :b)",
        "U a b\n",
    );
}

/// Deep classes, many parts and many axioms.
#[test]
fn the_largest_runs() {
    let deep = "ObjectIntersectionOf(".repeat(600) + ":a" + &" :a)".repeat(600);
    let description = "& ".repeat(600) + "a" + &" a".repeat(600);
    converted(
        &format!("SubClassOf({deep} :b)"),
        &format!("S {description} b\n"),
    );
    let wide = format!("ObjectIntersectionOf({})", ":a ".repeat(5_000));
    let description = "& a ".repeat(4_999) + "a";
    converted(
        &format!("SubClassOf({wide} :b)"),
        &format!("S {description} b\n"),
    );
    converted(&"SubClassOf(:a :b)".repeat(900), &"S a b\n".repeat(900));
}

/// Random runs with random gaps are read as the axioms that they were written from.
#[test]
fn random_runs_are_read_as_they_were_written() {
    let mut random = Random(71);
    let mut bytes = 0;
    for turn in 0..3_000 {
        let count = random.below(6);
        let axioms = random_run(&mut random, &NAMES, count, turn % 5);
        let text = write_run(&axioms, |due| random_gap(&mut random, due));
        assert_eq!(read_run(text.as_bytes()).as_ref(), Ok(&axioms), "{text}");
        bytes += text.len();
    }
    assert!(bytes > 500_000, "{bytes}");
}
