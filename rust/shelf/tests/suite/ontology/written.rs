//! One axiom, however it is written: names in full or under any prefix, gaps,
//! comments, the type of a text.

use super::common::{book_of, document};

/// What OWL has of its own is known by its IRI.
#[test]
fn names_of_owl() {
    let document =
        |head: &str, says: &str| format!("Prefix(:=<urn:x:>)\n{head}\nOntology(<urn:x>\n{says}\n)");
    let vectors = [
        ("", "SubClassOf(owl:Thing owl:Nothing)", "S * -\n"),
        (
            "",
            "SubClassOf(<http://www.w3.org/2002/07/owl#Thing> \
             <http://www.w3.org/2002/07/owl#Nothing>)",
            "S * -\n",
        ),
        (
            "Prefix(o:=<http://www.w3.org/2002/07/owl#>)",
            "SubClassOf(o:Thing o:Nothing)",
            "S * -\n",
        ),
        (
            "Prefix(r:=<http://www.w3.org/2000/01/rdf-schema#>)",
            "SubClassOf(Annotation(r:comment \"usual\") :a :b)",
            "U a b\n",
        ),
        (
            "",
            "SubClassOf(Annotation(<http://www.w3.org/2000/01/rdf-schema#comment> \"usual\") :a :b)",
            "U a b\n",
        ),
    ];
    for (head, says, book) in vectors {
        assert_eq!(book_of(document(head, says)), book);
    }
}

/// A document may take a standard prefix for itself: its names then are not OWL's.
#[test]
fn a_standard_prefix_declared_otherwise() {
    let document = "Prefix(owl:=<urn:birds:>)\nOntology(SubClassOf(owl:barn owl:bird))";
    assert_eq!(book_of(document), "S barn bird\n");
    let document = "Prefix(owl:=<urn:birds:>)\nOntology(\
                    SubClassOf(owl:barn <http://www.w3.org/2002/07/owl#Thing>))";
    assert_eq!(book_of(document), "S barn *\n");
}

/// Names that are the same IRI are the same word.
#[test]
fn names_of_the_author() {
    for says in [
        "SubClassOf(:a :b)",
        "SubClassOf(ex:a ex:b)",
        "SubClassOf(:a ex:b)",
        "SubClassOf(<http://x.org/g#a> <http://x.org/g#b>)",
        "SubClassOf(ex:a<http://x.org/g#b>)",
        "SubClassOf(<http://x.org/g#a>:b)",
    ] {
        assert_eq!(book_of(document(says)), "S a b\n", "{says}");
    }
    let role = "SubClassOf(ObjectSomeValuesFrom(<http://x.org/g#r> ex:a) \
                ObjectIntersectionOf(:b ex:c <http://x.org/g#d>))";
    assert_eq!(book_of(document(role)), "S /r a & b & c d\n");
}

/// A text of type string is the text itself, however the type is written.
#[test]
fn the_type_of_usual() {
    for usual in [
        "\"usual\"",
        "\"usual\"^^xsd:string",
        "\"usual\" ^^ xsd:string ",
        "\"usual\"^^<http://www.w3.org/2001/XMLSchema#string>",
    ] {
        let says = format!("SubClassOf(Annotation(rdfs:comment {usual}) :a :b)");
        assert_eq!(book_of(document(&says)), "U a b\n", "{usual}");
    }
}

/// The tokens of a document with every kind of thing in it.
const TOKENS: &[&str] = &[
    "Prefix",
    "(",
    ":",
    "=",
    "<urn:x:>",
    ")",
    "Ontology",
    "(",
    "<urn:x>",
    "<urn:x:1>",
    "Annotation",
    "(",
    "rdfs:label",
    "\"(\\\"\"",
    ")",
    "Declaration",
    "(",
    "Class",
    "(",
    ":a",
    ")",
    ")",
    "SubClassOf",
    "(",
    "Annotation",
    "(",
    "rdfs:comment",
    "\"usual\"",
    "^^",
    "xsd:string",
    ")",
    ":a",
    "ObjectIntersectionOf",
    "(",
    ":b",
    "ObjectSomeValuesFrom",
    "(",
    ":r",
    "owl:Thing",
    ")",
    "<urn:x:c>",
    ")",
    ")",
    ")",
];

/// White space and comments may stand between any two tokens; a comment has
/// brackets, quotes and IRIs in it, and ends with its line.
#[test]
fn gaps_and_comments() {
    let gaps = [
        " ",
        "\n",
        "\t",
        "\r\n",
        " # comment (\n",
        "\n#\"\n#<\n  ##)\n",
        " # \\ \r\n",
        " #\n\t",
    ];
    for gap in gaps {
        for (before, behind) in [("", ""), (gap, gap), ("\u{feff}", " # the end")] {
            let document = format!("{before}{}{behind}", TOKENS.join(gap));
            assert_eq!(book_of(document), "U a & b & /r * c\n", "{gap:?}");
        }
    }
}

/// No gap is needed where a bracket, a quote or an IRI parts two tokens.
#[test]
fn no_gaps() {
    let document = "Prefix(:=<urn:x:>)Ontology(<urn:x><urn:x:1>Declaration(Class(:a))\
                    SubClassOf(Annotation(rdfs:comment\"usual\"):a \
                    ObjectIntersectionOf(:b ObjectSomeValuesFrom(:r owl:Thing)<urn:x:c>)))";
    assert_eq!(book_of(document), "U a & b & /r * c\n");
}

/// An IRI may have brackets. They are no brackets of the axiom.
#[test]
fn brackets_in_an_iri() {
    let document = "Prefix(:=<urn:x:>)Ontology(<urn:x:(> AnnotationAssertion(rdfs:label :a \
                    <urn:x:)>) SubClassOf(:a :b))";
    assert_eq!(book_of(document), "S a b\n");
}
