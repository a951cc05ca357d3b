//! `convert`: the book of axioms, and refusals shown in the axioms.

use crate::common::{call, done, failed, P1, P1_AXIOMS};

/// The rules of P1, from a file and from standard input.
#[test]
fn the_rules_of_p1() {
    let rules: String = P1.split_inclusive('\n').take(6).collect();
    done(call(&["convert", "p1.axioms"], ""), &rules);
    done(call(&["convert", "-"], P1_AXIOMS), &rules);
}

#[test]
fn further_axioms() {
    let intersection = "ObjectIntersectionOf(:a :b owl:Thing)";
    let both = format!("SubClassOf({intersection}:c)\n\nSubClassOf(:c :a)");
    for (axioms, book) in [
        ("", ""),
        (" \n", ""),
        ("SubClassOf(:a :b)", "S a b\n"),
        (&both, "S & a & b * c\nS c a\n"),
    ] {
        done(call(&["convert", "-"], axioms), book);
    }
}

/// A book that is over the limits of books is printed all the same: they apply when
/// it is run.
#[test]
fn a_book_over_the_limits() {
    let parts = vec![":a"; 5_000].join(" ");
    let axioms = format!("SubClassOf(ObjectIntersectionOf({parts}) :b)");
    let book = format!("S {}a b\n", "& a ".repeat(4_999));
    assert!(book.len() > 16_384);
    done(call(&["convert", "-"], axioms), &book);
}

/// The refusal is shown in the axioms, with a mark below the byte.
#[test]
fn a_refused_byte_is_shown() {
    let said = failed(call(&["convert", "-"], "SubClassOf(:a :b)\n  Sub(:a)\n"), 1);
    let expected = "refused 24 23: a byte, or the end, that no run of axioms could have there, or \
                    axioms of over 16384 bytes\n\
                    line 2, column 6\n\
                    \x20 Sub(:a)\n\
                    \x20    ^\n";
    assert_eq!(said, expected);
    let said = failed(call(&["convert", "-"], "SubClassOf(:a :b"), 1);
    assert!(said.starts_with("refused 24 16: "), "{said}");
    let end = "\nline 1, column 17\nSubClassOf(:a :b\n                ^\n";
    assert!(said.ends_with(end), "{said}");
    let said = failed(call(&["convert", "p1.book"], ""), 1);
    assert!(said.starts_with("refused 24 1: "), "{said}");
}

/// Axioms that are too long are refused at the first byte that is too much; of a
/// line that is as long, what stands near it is shown.
#[test]
fn axioms_that_are_too_long() {
    let lines = "SubClassOf(:a :b)\n".repeat(1_000);
    let said = failed(call(&["convert", "-"], lines), 1);
    assert!(said.starts_with("refused 24 16384: "), "{said}");
    let end = "\nline 911, column 5\nSubClassOf(:a :b)\n    ^\n";
    assert!(said.ends_with(end), "{said}");
    let line = "SubClassOf(:a :b)".repeat(100_000);
    let said = failed(call(&["convert", "-"], line), 1);
    assert!(said.contains("\nline 1, column 16385\n..."), "{said}");
    assert!(said.len() < 400, "{} bytes", said.len());
}
