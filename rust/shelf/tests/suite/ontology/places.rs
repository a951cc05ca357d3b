//! The place of a refusal in the document, the limit of a run's length, and depth.

use super::common::{book_of, document, outside, skipping, unconverted, HEAD};
use shelf::limits::{STACK_BYTES, TEXT_BYTES};
use shelf::ontology::{convert, Names, Options, Unconverted, Why};
use shelf::{Refusal, Refused};

/// An axiom with every token, written as it is in the run.
const AXIOM: &str = "SubClassOf(Annotation(rdfs:comment\"usual\")ObjectIntersectionOf(:a \
                     owl:Thing owl:Nothing)ObjectSomeValuesFrom(:r :abcdefghijkl))";

/// With each byte of an axiom changed to one that parts nothing, the place is the
/// converter's own, counted from the axiom's first byte. Only of a name of OWL's
/// that there is not, it is the name's first byte.
#[test]
fn places_are_the_converters() {
    let mut compared = 0;
    for place in "SubClassOf(".len()..AXIOM.len() {
        for byte in ["x", "Z", "-"] {
            let mut axiom = AXIOM.to_owned();
            axiom.replace_range(place..=place, byte);
            let document = document(&axiom);
            let converted = convert(document.as_bytes(), &Options::default());
            let Err(Unconverted::Outside(others)) = converted else {
                continue;
            };
            let places: Vec<usize> = others.iter().map(|it| it.place).collect();
            assert_eq!(places, [HEAD.len() + expected_place(&axiom)], "{axiom}");
            compared += 1;
        }
    }
    assert!(compared > 250, "{compared}");
}

fn expected_place(axiom: &str) -> usize {
    let refused = shelf::convert(axiom.as_bytes()).expect_err("it is refused");
    let name = axiom[..refused.place]
        .rfind(['(', ' ', ')', '"'])
        .map_or(0, |at| at + 1);
    match axiom[name..].starts_with("owl:") || axiom[name..].starts_with("rdfs:") {
        true => name,
        false => refused.place,
    }
}

/// Axioms whose run has this many bytes, with comments, longer names and gaps
/// around them.
fn axioms_of(bytes: usize) -> String {
    let (short, shortest) = ("SubClassOf(:a :b)", "SubClassOf(:a :)".len());
    let count = bytes / short.len() - 2;
    let rest = bytes - count * short.len();
    let written = "SubClassOf( # :a\n\tex:a <http://x.org/g#b> )\n";
    let mut axioms = written.repeat(count);
    for length in [rest / 2, rest - rest / 2] {
        let name = "c".repeat(length - shortest);
        axioms += &format!("SubClassOf( ex:a ex:{name} )\n");
    }
    axioms
}

/// The run and not the document may have 16,384 bytes: one more is refused by 24,
/// at the axiom that has the byte, and the words say so.
#[test]
fn a_run_that_is_too_long() {
    let longest = document(&axioms_of(TEXT_BYTES));
    assert!(longest.len() > 2 * TEXT_BYTES);
    assert_eq!(book_of(&longest).lines().count(), 963);
    let too_long = document(&axioms_of(TEXT_BYTES + 1));
    let place = too_long.rfind("SubClassOf").expect("it has axioms");
    let refused = Unconverted::Refused(Refused {
        refusal: Refusal::NoRun,
        place,
    });
    for skip_others in [false, true] {
        let options = Options {
            skip_others,
            ..Options::default()
        };
        assert_eq!(unconverted(&too_long, &options), refused);
    }
    let words = format!(
        "refused 24 {place}: with this axiom the run of those that are picked out is over \
         16384 bytes"
    );
    assert_eq!(refused.to_string(), words);
    let shown = refused.show(too_long.as_bytes());
    let line = too_long[..place].lines().count() + 1;
    let start = format!("{words}\nline {line}, column 1\nSubClassOf( ex:a ex:ccc");
    assert!(shown.starts_with(&start), "{shown}");
    assert!(shown.ends_with("\n^"), "{shown}");
}

/// The axiom is the one that has byte 16,384 of the run, as its first byte, its last or
/// any other.
#[test]
fn the_axiom_with_which_a_run_is_too_long() {
    let shortest = "SubClassOf(:a :b)";
    for more in 0..=22 {
        let (a, b) = ("a".repeat(1 + more / 2), "b".repeat(1 + more - more / 2));
        let first = format!("SubClassOf(:{a} :{b})\nDeclaration(Class(:a))\nImport(<urn:y>)\n");
        let document = document(&(first + &format!("{shortest}\n").repeat(1_000)));
        let index = (TEXT_BYTES - more) / shortest.len();
        let mut axioms = document.match_indices("SubClassOf");
        let (place, _) = axioms.nth(index).expect("it has so many");
        let found = unconverted(&document, &skipping(&Options::default()));
        let refusal = Refusal::NoRun;
        assert_eq!(found, Unconverted::Refused(Refused { refusal, place }));
    }
}

/// One axiom that is too long is refused too, and not skipped: so far it is in the
/// fragment.
#[test]
fn an_axiom_that_is_too_long() {
    let start = "SubClassOf(:a ObjectIntersectionOf(";
    let says = start.to_owned() + &" ex:bc".repeat(5_000) + "))";
    let options = Options {
        skip_others: true,
        ..Options::default()
    };
    let document = document(&says);
    let found = unconverted(&document, &options);
    assert!(found.show(document.as_bytes()).len() < 600);
    let (refusal, place) = (Refusal::NoRun, HEAD.len());
    assert_eq!(found, Unconverted::Refused(Refused { refusal, place }));
}

/// What a name has of its base's rest in its prefix alone has no place in the
/// document but the name's first byte.
#[test]
fn a_place_in_a_prefix() {
    let document = "Prefix(g:=<urn:x:abcdefghijklmno>)Ontology(SubClassOf(g:p g:q))";
    let options = Options {
        names: Names::Base("urn:x:".to_owned()),
        ..Options::default()
    };
    let others = outside(document, &options);
    assert_eq!(others[0].place, document.find("g:p").expect("it is there"));
    assert_eq!(others[0].why, Why::NoWord("g:p".to_owned()));
}

/// What is 300 levels deep is converted: the book's depth is for the compiler.
#[test]
fn a_deep_axiom() {
    let class = "ObjectSomeValuesFrom(:r ".repeat(300) + ":a" + &")".repeat(300);
    let book = book_of(document(&format!("SubClassOf(:b {class})")));
    assert_eq!(book, format!("S b {}a\n", "/r ".repeat(300)));
}

/// One that is too long and outside before that is outside.
#[test]
fn an_axiom_that_is_too_long_and_outside() {
    let says = "SubClassOf(:a ObjectUnionOf(".to_owned() + &" :b".repeat(10_000) + "))";
    let others = outside(document(&says), &Options::default());
    assert_eq!(others[0].why, Why::OtherKeyword("ObjectUnionOf".to_owned()));
    assert_eq!(others[0].place, HEAD.len() + "SubClassOf(:a Object".len());
}

/// However deep a document is, reading it takes no more stack.
#[test]
fn depth_takes_no_stack() {
    let thread = std::thread::Builder::new().stack_size(2 * STACK_BYTES);
    let thread = thread.spawn(read_deep_documents);
    thread
        .expect("a thread starts")
        .join()
        .expect("the stack is enough");
}

fn read_deep_documents() {
    let (deep, options) = (200_000, Options::default());
    let brackets = "(".repeat(deep) + &")".repeat(deep);
    assert_eq!(book_of(document(&format!("Annotation{brackets}"))), "");
    let others = outside(document(&format!("SubClassOf{brackets}")), &options);
    assert_eq!(others[0].why, Why::Misplaced("(".to_owned()));
    let annotated = format!("SubClassOf(Annotation{brackets} :a :b)");
    let others = outside(document(&annotated), &options);
    assert_eq!(others[0].why, Why::OtherAnnotation);
    let nested = "ObjectSomeValuesFrom(:r ".repeat(deep) + ":a" + &")".repeat(deep);
    let found = unconverted(document(&format!("SubClassOf(:a {nested})")), &options);
    assert!(matches!(found, Unconverted::Refused(_)));
}
