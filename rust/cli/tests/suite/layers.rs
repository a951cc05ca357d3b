//! `layers`: the usual rules of a book in the engine's order.

use crate::common::{call, done, failed, P1_AXIOMS};
use shelf::limits::{NUMBERS, ROWS};

/// The printed sitting's rules: two of rank 0, as they stand in the book.
#[test]
fn the_layers_of_the_printed_sitting() {
    let printed = "0 3 U set shown\n\
                   0 4 U set art\n\
                   1 5 U clone hidden\n\
                   2 6 U & clone /has text shown\n";
    done(call(&["layers", "p1.book"], ""), printed);
    done(call(&["layers", "--owl", "-"], P1_AXIOMS), printed);
}

/// Infinite last, and ties as they stand in the book; told the other way round, the
/// ties are too.
#[test]
fn ties_stand_as_in_the_book() {
    let lines = [
        "U - a",
        "U clone hidden",
        "U set shown",
        "S clone set",
        "S & shown hidden -",
        "U set art",
        "U - b",
        "U clone new",
    ];
    let printed = "0 3 U set shown\n\
                   0 6 U set art\n\
                   1 2 U clone hidden\n\
                   1 8 U clone new\n\
                   oo 1 U - a\n\
                   oo 7 U - b\n";
    done(call(&["layers", "-"], lines.join("\n") + "\n"), printed);
    let document = include_str!("../../../../docs/FORMAT.md");
    let (first, last) = (printed.lines().next(), printed.lines().last());
    let quoted = format!("begins `{}` and ends `{}`", first.unwrap(), last.unwrap());
    assert!(document.contains(&quoted), "{quoted}");
    let mut turned = lines;
    turned.reverse();
    let printed = "0 3 U set art\n\
                   0 6 U set shown\n\
                   1 1 U clone new\n\
                   1 7 U clone hidden\n\
                   oo 2 U - b\n\
                   oo 8 U - a\n";
    done(call(&["layers", "-"], turned.join("\n") + "\n"), printed);
}

/// Where there is no usual rule nothing is printed, and a refused book is refused
/// as `run` refuses it.
#[test]
fn no_rule_and_a_refused_book() {
    done(call(&["layers", "-"], ""), "");
    done(call(&["layers", "-"], "S a b\nQ a b\nK a b\n"), "");
    for (refused, start) in [
        ("U a b\nU & a b\n", "refused 3 13: "),
        ("U a b", "refused 3 5: "),
        ("U a b\r\n", "refused 3 5: "),
    ] {
        let said = failed(call(&["layers", "-"], refused), 1);
        assert!(said.starts_with(start), "{said}");
        assert_eq!(said, failed(call(&["run", "-"], refused), 1));
    }
    let axioms = "SubClassOf( :a )\n";
    let said = failed(call(&["layers", "--owl", "-"], axioms), 1);
    assert!(said.starts_with("refused 24 15: "), "{said}");
}

/// As many lines as a book can have: one of infinite rank, and behind it rules of one
/// rank whose words fall.
#[test]
fn the_longest_list() {
    let words = NUMBERS - 3;
    let rules = (1..ROWS).map(|line| format!("U a w{}\n", 999 - line % words));
    let rules: Vec<String> = rules.collect();
    let numbered = rules.iter().zip(2..);
    let printed: String = numbered
        .map(|(rule, line)| format!("0 {line} {rule}"))
        .collect();
    let book = "U - a\n".to_owned() + &rules.concat();
    done(call(&["layers", "-"], book), &(printed + "oo 1 U - a\n"));
}
