//! The worked examples of document 004, with the outcomes it states.
//!
//! Concept names become lower-case words. Examples 1 and 3 to 13 are here;
//! what was left out of an example, and why, is said at its test.

use crate::common::write_lines;
use shelf_reference::closure::{exceptional, Closure};
use shelf_reference::{
    classify_lent, compile, read, shelf, shelf_by_deck, Concept, Inclusion, Kind, Line,
};

/// Example 3's strict and defeasible inclusions.
const CELLS: &str = "\
S brbc mrbc
S arbc vrbc
S mrbc vrbc
S & /hasn * notn -
U vrbc /hascm *
U vrbc /hasn *
U mrbc notn
";

/// The printed lines for a book, the same by both ways of settling it.
fn printed(book: &str) -> Vec<String> {
    let nested = shelf(book.as_bytes());
    assert_eq!(shelf_by_deck(book.as_bytes()), nested, "{book}");
    nested.lines().map(str::to_owned).collect()
}

/// The printed lines behind those of a first part of the book, line numbers
/// and letters cut off, and without the counts.
fn replies(book: &str, question: &str) -> Vec<String> {
    let all = printed(&format!("{book}{question}"));
    let first = book.lines().count();
    all[first..all.len() - 1]
        .iter()
        .map(|line| line.splitn(3, ' ').nth(2).unwrap_or("").to_owned())
        .collect()
}

fn of_kind(book: &str, kind: Kind) -> Vec<Inclusion<String>> {
    let lines = read(book.as_bytes()).unwrap();
    let lines = lines.into_iter().filter(|line| line.kind == kind);
    lines.map(|line| line.inclusion).collect()
}

fn name(word: &str) -> Concept<String> {
    Concept::Name(word.to_owned())
}

/// Example 1 is told in words. What the paper says of it: "A classical
/// formalisation of the ontology above would imply that mammalian red blood
/// cells do not exist". So: with strict lines only, every mrbc is nothing, and
/// so is every brbc, while arbc and vrbc are not.
#[test]
fn example_1_a_classical_reading_leaves_no_mammalian_cells() {
    let classical = CELLS.replace("U ", "S ");
    let asked = "K mrbc -\nK brbc -\nK arbc -\nK vrbc -\n";
    assert_eq!(replies(&classical, asked), ["yes", "yes", "no", "no"]);
}

/// Example 3 states the ontology. What the paper says of any ontology just
/// behind it: "the axioms in T and D are included into the set of the
/// derivable axioms".
#[test]
fn example_3_all_that_is_written_is_derived() {
    for line in read(CELLS.as_bytes()).unwrap() {
        let kind = match line.kind {
            Kind::Strict => Kind::StrictQuery,
            _ => Kind::Query,
        };
        let asked = write_lines(&[Line { kind, ..line }]);
        assert!(replies(CELLS, &asked)[0].starts_with("yes"), "{asked}");
    }
}

/// Example 4: B usually C has rank 0; A usually D and E usually some r A have
/// rank infinite; three repeats; T* gains "A is nothing", "E is nothing".
#[test]
fn example_4_hidden_strict_knowledge_takes_three_passes() {
    let book = "S a b\nS & b d -\nU b c\nU a d\nU e /r a\n";
    assert_eq!(
        printed(book),
        [
            "1 S",
            "2 S",
            "3 U 0",
            "4 U oo",
            "5 U oo",
            "levels 1 passes 3 yes 0"
        ]
    );
    let strict = of_kind(book, Kind::Strict);
    let closure = Closure::new(&strict, &of_kind(book, Kind::Defeasible), &[]);
    let added = &closure.hardened[strict.len()..];
    let nothing = |word| Inclusion::new(name(word), Concept::Bottom);
    assert_eq!(added, [nothing("a"), nothing("e")]);
}

/// Example 4 again, in the deck's strict table: a (2) and e are within
/// nothing, while b (3) is not. K reads the written lines only, so it says no.
#[test]
fn example_4_shows_in_the_strict_table_but_not_in_k() {
    let book = "S a b\nS & b d -\nU b c\nU a d\nU e /r a\n";
    assert_eq!(replies(book, "K a -\nK e -\n"), ["no", "no"]);
    let compiled = compile(book.as_bytes()).unwrap();
    // a 2, b 3, & 4, d 5, c 6, e 7, / 8.
    let done = classify_lent(&compiled.deck, compiled.sizes.numbers, 1, 36, 1024, 1024).unwrap();
    let nothing_bit = 1 << 62;
    let is_nothing: Vec<bool> = (0..9)
        .map(|a| done.table[4 * a] & nothing_bit != 0)
        .collect();
    let expected = [false, true, true, false, true, false, false, true, true];
    assert_eq!(is_nothing, expected);
}

/// Example 5: one repeat; the two vrbc axioms have rank 0, the mrbc axiom has
/// rank 1.
#[test]
fn example_5_ranks_of_the_cells() {
    let lines = printed(CELLS);
    assert_eq!(
        lines[4..],
        ["5 U 0", "6 U 0", "7 U 1", "levels 2 passes 1 yes 0"]
    );
    let strict = of_kind(CELLS, Kind::Strict);
    let closure = Closure::new(&strict, &of_kind(CELLS, Kind::Defeasible), &[]);
    let sets: Vec<Vec<usize>> = closure
        .sets
        .iter()
        .map(|set| set.iter().copied().collect())
        .collect();
    assert_eq!(sets, [vec![0, 1, 2], vec![2], vec![]]);
    assert_eq!(closure.hardened, strict);
}

/// Example 6: with all of D mrbc is nothing and vrbc is not; with the axioms
/// of rank 1 and up mrbc is not. The new names delta of the paper only mark
/// the one element that obeys, so the exceptional test stands for them.
#[test]
fn example_6_what_is_exceptional_at_each_level() {
    let strict = of_kind(CELLS, Kind::Strict);
    let all = of_kind(CELLS, Kind::Defeasible);
    assert!(exceptional(&strict, &all, &name("mrbc")));
    assert!(!exceptional(&strict, &all, &name("vrbc")));
    assert!(!exceptional(&strict, &all[2..], &name("mrbc")));
}

/// Example 7: brbc has rank 1; "BRBC usually some hasN" is false, "BRBC
/// usually notN" is true.
#[test]
fn example_7_bovine_cells_have_no_nucleus() {
    let asked = "Q brbc /hasn *\nQ brbc notn\n";
    assert_eq!(replies(CELLS, asked), ["no 1", "yes 1"]);
}

/// Example 8: a normal form, with A1 for some hasN and A2 for some hasCM, has
/// the same ranks, and by Proposition 15 the same replies for every two names
/// of Example 3.
#[test]
fn example_8_the_normal_form_answers_alike() {
    let normal = "\
S brbc mrbc
S arbc vrbc
S mrbc vrbc
S /hasn * a1
S a1 /hasn *
S /hascm * a2
S a2 /hascm *
S & a1 notn -
U vrbc a2
U vrbc a1
U mrbc notn
";
    let ranks = printed(normal);
    assert_eq!(
        ranks[8..],
        ["9 U 0", "10 U 0", "11 U 1", "levels 2 passes 1 yes 0"]
    );
    let words = ["brbc", "mrbc", "arbc", "vrbc", "notn"];
    let mut asked = String::new();
    for left in words {
        for right in words {
            asked.push_str(&format!("Q {left} {right}\n"));
        }
    }
    assert_eq!(replies(normal, &asked), replies(CELLS, &asked));
}

/// Example 9, the drowning effect: the rank of mrbc is 1 and "MRBC usually
/// some hasCM" cannot be concluded.
#[test]
fn example_9_mammalian_cells_lose_the_membrane() {
    assert_eq!(replies(CELLS, "Q mrbc /hascm *\n"), ["no 1"]);
}

/// Example 10 is about inheritance nets. Building the net and its ducts is
/// left out, since the scope has plain rational closure only. The two closures
/// that the example names are here: with D' = {VRBC usually A2}, MRBC is
/// usually A2; and with that rule added to D, MRBC usually has some hasCM.
#[test]
fn example_10_the_two_closures_of_the_inheritance_net() {
    let strict = "\
S brbc mrbc
S arbc vrbc
S mrbc vrbc
S /hasn * a1
S a1 /hasn *
S /hascm * a2
S a2 /hascm *
S & a1 notn -
";
    let part = format!("{strict}U vrbc a2\n");
    assert_eq!(replies(&part, "Q mrbc a2\n"), ["yes 0"]);
    let joined = format!("{strict}U vrbc a2\nU vrbc a1\nU mrbc notn\nU mrbc a2\n");
    assert_eq!(replies(&joined, "Q mrbc /hascm *\n"), ["yes 1"]);
}

/// Example 11 has nominals {a} and {b}, which the scope leaves outside; they
/// are read as names here. The partition is as stated: "everything usually C"
/// has rank 0, "some r C usually D" rank 1. Left out is what rests on {a} and
/// {b} being single elements: the two minimal models, and that {a} would be D
/// and so nothing.
#[test]
fn example_11_the_partition_with_names_for_nominals() {
    let book = "S a /r b\nS & c d -\nU * c\nU /r c d\n";
    assert_eq!(
        printed(book),
        ["1 S", "2 S", "3 U 0", "4 U 1", "levels 2 passes 1 yes 0"]
    );
}

/// Example 12 adds two defeasible nominals, which the paper treats as names:
/// cell a is a brbc, cell b an arbc. The partition stays; a has rank 1, b rank
/// 0; a usually has no nucleus (not some hasN, but notN), b has some hasN.
#[test]
fn example_12_a_cow_cell_and_a_bird_cell() {
    let book = format!("S a brbc\nS b arbc\n{CELLS}");
    let lines = printed(&book);
    assert_eq!(
        lines[6..],
        ["7 U 0", "8 U 0", "9 U 1", "levels 2 passes 1 yes 0"]
    );
    let asked = "Q a /hasn *\nQ a notn\nQ b /hasn *\n";
    assert_eq!(replies(&book, asked), ["no 1", "yes 1", "yes 0"]);
}

/// Example 13 reads Example 11 with defeasible nominals, as names: a and b
/// have rank 0, both are usually C, and neither "a usually D" nor "a usually
/// nothing" follows.
#[test]
fn example_13_both_prototypes_are_c() {
    let book = "S a /r b\nS & c d -\nU * c\nU /r c d\n";
    let asked = "Q a c\nQ b c\nQ a d\nQ a -\n";
    assert_eq!(replies(book, asked), ["yes 0", "yes 0", "no 0", "no 0"]);
    assert_eq!(printed(book)[2..4], ["3 U 0", "4 U 1"]);
}
