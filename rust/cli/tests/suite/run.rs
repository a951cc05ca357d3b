//! `run`: what `shelf` prints, and refusals in words; the same for axioms.

use crate::common::{call, done, failed, DATA, P1, P1_AXIOMS};

/// The printed sitting, from a file by its name here and elsewhere, and from
/// standard input.
#[test]
fn the_printed_sitting() {
    let printed = include_str!("../../../data/p1.printed");
    done(call(&["run", "p1.book"], ""), printed);
    done(call(&["run", &format!("{DATA}/p1.book")], ""), printed);
    done(call(&["run", "../data/p1.book"], ""), printed);
    done(call(&["run", "-"], P1), printed);
}

/// Books of the scope with each letter, infinite ranks and no line at all.
#[test]
fn further_books() {
    let books = [
        ("", "levels 0 passes 1 yes 0\n"),
        (
            "S * -\nQ a b\nK a b\n",
            "1 S\n2 Q yes oo\n3 K yes\nlevels 0 passes 1 yes 2\n",
        ),
        ("U - a\n", "1 U oo\nlevels 0 passes 2 yes 0\n"),
        (
            "U stick rare\nS shmup /needs stick\nS /needs rare gem\nQ shmup gem\n",
            "1 U 0\n2 S\n3 S\n4 Q no 0\nlevels 1 passes 1 yes 0\n",
        ),
    ];
    for (book, printed) in books {
        done(call(&["run", "-"], book), printed);
    }
}

/// A refusal that points at a byte shows its line and a mark below it.
#[test]
fn a_refused_byte_is_shown() {
    let said = failed(call(&["run", "-"], "S a b\nU & a b\n"), 1);
    let expected = "refused 3 13: a byte, or the text's end, that the grammar can't have there\n\
                    line 2, column 8\n\
                    U & a b\n\
                    \x20      ^\n";
    assert_eq!(said, expected);
    let said = failed(call(&["run", "-"], "S a abcdefghijklm\n"), 1);
    assert!(said.starts_with("refused 4 4: "), "{said}");
    assert!(said.ends_with("\nS a abcdefghijklm\n    ^\n"), "{said}");
}

/// A refusal that points nowhere is a line; a text that is too long is refused by
/// the engine.
#[test]
fn a_refusal_that_points_nowhere() {
    let too_long = "S a b\n".repeat(100_000);
    let said = failed(call(&["run", "-"], too_long), 1);
    assert_eq!(said, "refused 1 0: the text is over 16384 bytes\n");
    let too_many_rows = "S a b\n".repeat(1_025);
    let said = failed(call(&["run", "-"], too_many_rows), 1);
    assert_eq!(said, "refused 8 6150: the book takes over 1024 rows\n");
}

/// The rules of P1 as axioms have the ranks that they have as lines. The option may
/// stand before the file or behind it.
#[test]
fn the_rules_of_p1_from_axioms() {
    let printed = "1 S\n2 S\n3 U 0\n4 U 0\n5 U 1\n6 U 2\nlevels 3 passes 1 yes 0\n";
    done(call(&["run", "--owl", "p1.axioms"], ""), printed);
    done(call(&["run", "p1.axioms", "--owl"], ""), printed);
    done(call(&["run", "--owl", "-"], P1_AXIOMS), printed);
    done(
        call(&["run", "--owl", "-"], ""),
        "levels 0 passes 1 yes 0\n",
    );
}

/// Axioms that are refused are shown themselves.
#[test]
fn refused_axioms_are_shown() {
    let said = failed(call(&["run", "--owl", "-"], "SubClassOf(:a)"), 1);
    assert!(said.starts_with("refused 24 13: "), "{said}");
    assert!(
        said.ends_with("\nSubClassOf(:a)\n             ^\n"),
        "{said}"
    );
    let said = failed(call(&["run", "--owl", "p1.book"], ""), 1);
    assert!(said.starts_with("refused 24 1: "), "{said}");
}

/// Where the book that axioms give is refused, it is shown in that book, and said
/// whose it is.
#[test]
fn a_refused_book_of_axioms_is_shown() {
    let opened = "ObjectSomeValuesFrom(:r ".repeat(16);
    let closed = ")".repeat(16);
    let axioms = format!("SubClassOf(:a :b) SubClassOf({opened}:a{closed}:b)");
    let said = failed(call(&["run", "--owl", "-"], axioms), 1);
    let line = format!("S {}a b", "/r ".repeat(16));
    let mark = " ".repeat(50) + "^";
    let whose = "This is said of the book that the axioms give: shelf-cli convert prints it.";
    let expected = format!(
        "refused 5 56: a description deeper than level 16\n\
         line 2, column 51\n{line}\n{mark}\n{whose}\n"
    );
    assert_eq!(said, expected);
    let parts = vec![":a"; 5_000].join(" ");
    let axioms = format!("SubClassOf(ObjectIntersectionOf({parts}) :b)");
    let said = failed(call(&["run", "--owl", "-"], axioms), 1);
    let expected = format!("refused 1 0: the text is over 16384 bytes\n{whose}\n");
    assert_eq!(said, expected);
}
