//! Damaged documents: what is wrong, and where.

use super::common::{book_of, document, skipping, unconverted};
use shelf::compile;
use shelf::ontology::{convert, list, Damage, Malformed, Options, Unconverted};

/// A document is damaged so; the place is that of the last mark in it, or its
/// end where the mark is empty.
#[track_caller]
fn is_damaged(document: &str, mark: &str, damage: Damage) {
    let place = document.rfind(mark).expect("the mark is there");
    let found = unconverted(document, &Options::default());
    let expected = Unconverted::Malformed(Malformed { damage, place });
    assert_eq!(found, expected, "{document}");
    let shown = found.show(document.as_bytes());
    let position = shown.lines().nth(1).unwrap_or_default();
    let line = document[..place].matches('\n').count() + 1;
    assert!(shown.starts_with(&damage.to_string()), "{shown}");
    assert!(
        position.starts_with(&format!("line {line}, column ")),
        "{shown}"
    );
}

#[test]
fn what_is_not_ended() {
    let head = "Prefix(:=<urn:x:>)\nOntology(";
    let vectors = [
        ("Annotation(rdfs:label \"x)\n)", "\"", Damage::UnendedText),
        (
            "Annotation(rdfs:label \"x\\\")\n)",
            "\"x",
            Damage::UnendedText,
        ),
        ("Annotation(rdfs:label \"x\\", "\"x", Damage::UnendedText),
        ("SubClassOf(<urn:x:a :b))", "<", Damage::UnendedIri),
        ("SubClassOf(<urn:x:a", "<", Damage::UnendedIri),
        ("SubClassOf(<urn:x:\"a\">))", "<", Damage::UnendedIri),
        ("SubClassOf(:a :b)", "(SubClass", Damage::UnclosedBracket),
        ("SubClassOf(:a :b", "(:a", Damage::UnclosedBracket),
        (
            "SubClassOf(:a ObjectUnionOf(:b)",
            "(:a",
            Damage::UnclosedBracket,
        ),
        ("", "(", Damage::UnclosedBracket),
    ];
    for (says, mark, damage) in vectors {
        is_damaged(&format!("{head}{says}"), mark, damage);
    }
}

#[test]
fn what_is_due() {
    let start = Damage::Due("Prefix( or Ontology(");
    let vectors = [
        ("", "", start),
        ("  # nothing\n", "", start),
        ("SubClassOf(:a :b)", "SubClassOf", start),
        ("Prefix(:=<urn:x:>)\n", "", start),
        ("Prefix(:=<urn:x:>) ontology()", "ontology", start),
        ("Prefix :=<urn:x:>) Ontology()", ":=", Damage::Due("(")),
        ("Prefix(:<urn:x:>) Ontology()", "<", Damage::Due("=")),
        ("Prefix(:=ex:y) Ontology()", "ex", Damage::Due("a full IRI")),
        ("Prefix(:=<urn:x:> Ontology()", "Ontology", Damage::Due(")")),
        (
            "Prefix(ex=<urn:x:>) Ontology()",
            "ex",
            Damage::Due("a prefix with its colon"),
        ),
        (
            "Prefix(ex:a=<urn:x:>) Ontology()",
            "ex",
            Damage::Due("a prefix with its colon"),
        ),
        (
            "Prefix(=<urn:x:>) Ontology()",
            "=",
            Damage::Due("a prefix with its colon"),
        ),
        ("Ontology", "", Damage::Due("(")),
        ("Ontology <urn:x>", "<", Damage::Due("(")),
        (
            "Ontology(<urn:x> <urn:y> <urn:z>)",
            "<urn:z>",
            Damage::Due("an axiom"),
        ),
        ("Ontology(())", "()", Damage::Due("an axiom")),
        ("Ontology(:a)x", "x", Damage::Due("the end")),
        ("Ontology(\"x\")", "\"x", Damage::Due("an axiom")),
        ("Ontology(_:x())", "_:x", Damage::Due("an axiom")),
        ("Ontology(SubClassOf)", ")", Damage::Due("(")),
        ("Ontology(SubClassOf", "", Damage::Due("(")),
        ("Ontology())", ")", Damage::Due("the end")),
        ("Ontology() Ontology()", "Ontology", Damage::Due("the end")),
    ];
    for (document, mark, damage) in vectors {
        is_damaged(document, mark, damage);
    }
}

#[test]
fn bytes_that_begin_nothing() {
    for stray in ["\0", "\u{7f}", "\u{c}", ">", "^"] {
        let says = format!("SubClassOf(:a {stray} :b)");
        is_damaged(&document(&says), stray, Damage::StrayByte);
    }
}

/// Only a carriage return before a line feed is in a comment: some readers end the
/// comment at another, and so would read an axiom that others don't.
#[test]
fn a_carriage_return_in_a_comment() {
    let says = "# comment\rSubClassOf(:a :b)\n";
    is_damaged(&document(says), "\r", Damage::LoneReturn);
    assert_eq!(
        book_of(document("# comment\r\nSubClassOf(:a :b)\r\n")),
        "S a b\n"
    );
    assert_eq!(book_of("Ontology()# comment\r"), "");
}

/// A `#` in a name is a comment for some readers and part of the name for others, who
/// so would read another axiom. In a full IRI it is read alike by all, and behind a
/// gap, a bracket, a text or an IRI it begins a comment.
#[test]
fn a_hash_in_a_name() {
    let head = "Prefix(owl2:=<http://www.w3.org/2002/07/owl>)Prefix(w3:=<http://www.w3.org/>)\
                Prefix(x:=<http://x.org/>)";
    for says in [
        "SubClassOf(:a owl2:#Nothing\n)",
        "SubClassOf(:a w3:2002/07/owl#Nothing)",
        "SubClassOf(:a x:g#b\n)",
        "SubClassOf(:a x:#\n)",
        "SubClassOf(:a _:b#\n)",
        "SubClassOf(:a :b#)\n)",
        "SubClassOf#\n(:a :b)",
        "Annotation(rdfs:label \"x\"@en#\n)",
    ] {
        let document = format!("{head}{}", document(says));
        is_damaged(&document, "#", Damage::HashInWord);
    }
    let prefix = "Prefix(x:#\n=<urn:x:>)Ontology()";
    is_damaged(prefix, "#", Damage::HashInWord);
    let comments = "SubClassOf(#)\n<http://x.org/g#a>#b>\n:b #c\n)#d\n\
                    Annotation(rdfs:label \"x\"#y\n)";
    assert_eq!(book_of(document(comments)), "S a b\n");
}

#[test]
fn prefixes() {
    let says = "SubClassOf(:a no:b)";
    is_damaged(&document(says), "no:b", Damage::UndeclaredPrefix);
    let says = "SubClassOf(Annotation(no:label \"x\") :a :b)";
    is_damaged(&document(says), "no:label", Damage::UndeclaredPrefix);
    is_damaged(
        "Ontology(SubClassOf(:a owl:Thing))",
        ":a",
        Damage::UndeclaredPrefix,
    );
    let twice = "Prefix(:=<urn:x:>)\nPrefix(:=<urn:y:>)\nOntology()";
    is_damaged(twice, ":=", Damage::PrefixTwice);
    let same = "Prefix(:=<urn:x:>)\nPrefix(:=<urn:x:>)\nOntology(SubClassOf(:a :b))";
    assert_eq!(book_of(same), "S a b\n");
}

/// In a few words, without the document.
#[test]
fn in_short() {
    let vectors = [
        ("", "at byte 0: Prefix( or Ontology( is due here"),
        (
            "Ontology(Import(<urn:y>))",
            "the document says what no book can",
        ),
        (
            "Ontology(SubClassOf(<urn:x:a> <urn:y:a>))",
            "the names are under several bases, of which a book has one",
        ),
    ];
    for (document, words) in vectors {
        let found = unconverted(document, &Options::default());
        assert_eq!(found.to_string(), words);
    }
}

/// A document with every kind of thing in it.
const WHOLE: &str = "\u{feff}Prefix(:=<urn:x:>) # (\r\n\
                     Prefix(o:=<http://www.w3.org/2002/07/owl#>)\n\
                     Ontology(<urn:x> <urn:x:1>\n\
                     Import(<urn:y>)\n\
                     Annotation(rdfs:label \"\\\"(é\\\\\"@en)\n\
                     Declaration(Class(:a))\n\
                     SubClassOf(Annotation(rdfs:comment \"usual\"^^xsd:string) :a \
                     ObjectIntersectionOf(:b ObjectSomeValuesFrom(:r o:Thing) <urn:x:c>))\n\
                     SubClassOf(_:a 7)\n)";

/// Every document that ends early is damaged, and shown where, whatever it ends in.
#[test]
fn each_beginning_of_a_document() {
    let whole = WHOLE.as_bytes();
    let options = skipping(&Options::default());
    let converted = convert(whole, &options).unwrap();
    assert_eq!(converted.book, b"U a & b & /r * c\n");
    assert_eq!(converted.skipped.len(), 2);
    for end in 0..whole.len() {
        let beginning = &whole[..end];
        let found = unconverted(beginning, &options);
        let Unconverted::Malformed(malformed) = &found else {
            panic!("{end}: {found:?}");
        };
        assert!(malformed.place <= end, "{end}: {found:?}");
        assert!(found.show(beginning).contains("\nline "), "{end}");
    }
}

/// With any byte taken out, or another in its place, a document is converted but for
/// what is left out, or not at all; what is told of it is in it. Both happen often.
#[test]
fn each_byte_of_a_document() {
    let whole = WHOLE.as_bytes();
    let options = skipping(&Options::default());
    let (mut converted, mut refused) = (0, 0);
    for place in 0..whole.len() {
        for byte in [
            None,
            Some(b'('),
            Some(b')'),
            Some(b'"'),
            Some(b'#'),
            Some(b'A'),
            Some(0xFF),
        ] {
            let mut document = whole.to_vec();
            document.splice(place..=place, byte);
            match convert(&document, &options) {
                Ok(found) => {
                    converted += 1;
                    let listed = list(&found.skipped, &document);
                    assert_eq!(listed.lines().count(), found.skipped.len());
                    assert!(compile(&found.book).is_ok(), "{}", document.escape_ascii());
                }
                Err(found) => {
                    refused += 1;
                    let shown = found.show(&document);
                    assert!(shown.contains("line "), "{shown}");
                }
            }
        }
    }
    assert_eq!(converted + refused, 7 * whole.len());
    assert!(converted > 500 && refused > 500, "{converted} {refused}");
}
