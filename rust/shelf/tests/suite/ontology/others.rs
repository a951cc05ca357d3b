//! What is outside the fragment: which axioms, where, and why.

use super::common::{document, outside, skipping};
use shelf::ontology::{convert, list, Options, Outside, Why};

/// What one thing that is outside is told for; the place is that of the first byte
/// of the mark, which stands in it.
#[track_caller]
fn is_outside(says: &str, mark: &str, why: Why) {
    let document = document(&format!("SubClassOf(:a :b)\n{says}\nSubClassOf(:b :c)"));
    let place = document.find(says).expect("it is said") + says.find(mark).expect("the mark");
    let options = Options::default();
    assert_eq!(
        outside(&document, &options),
        [Outside { place, why }],
        "{says}"
    );
    let converted = convert(document.as_bytes(), &skipping(&options)).unwrap();
    assert_eq!(converted.book, b"S a b\nS b c\n", "{says}");
}

#[test]
fn axioms_of_other_kinds() {
    for keyword in [
        "EquivalentClasses",
        "DisjointClasses",
        "ObjectPropertyDomain",
        "SubObjectPropertyOf",
        "ClassAssertion",
        "SubClassof",
        "DLSafeRule",
    ] {
        let says = format!("{keyword}(:a :b)");
        is_outside(&says, keyword, Why::OtherAxiom(keyword.to_owned()));
    }
    is_outside("Import(<urn:y>)", "Import", Why::Import);
}

/// The byte is the first that the converter refuses: `Object` may begin a class.
#[test]
fn classes_of_other_kinds() {
    let vectors = [
        ("ObjectUnionOf(:a :b)", "UnionOf", "ObjectUnionOf"),
        (
            "ObjectComplementOf(:a)",
            "ComplementOf",
            "ObjectComplementOf",
        ),
        (
            "ObjectAllValuesFrom(:r :a)",
            "AllValues",
            "ObjectAllValuesFrom",
        ),
        ("ObjectOneOf(:i)", "OneOf", "ObjectOneOf"),
        (
            "DataSomeValuesFrom(:r xsd:string)",
            "Data",
            "DataSomeValuesFrom",
        ),
        (
            "ObjectSomeValuesFrom(ObjectInverseOf(:r) :a)",
            "ObjectInverseOf",
            "ObjectInverseOf",
        ),
        (
            "ObjectIntersectionOf(:b ObjectMinCardinality(2 :r))",
            "MinCardinality",
            "ObjectMinCardinality",
        ),
        ("Class(:a)", "Class(:a)", "Class"),
        ("Object   :b", "   :b", "Object"),
    ];
    for (class, mark, keyword) in vectors {
        let says = format!("SubClassOf(:a {class})");
        is_outside(&says, mark, Why::OtherKeyword(keyword.to_owned()));
    }
}

#[test]
fn names_that_are_no_words() {
    let vectors = [
        (":Clone", "Clone"),
        (":clonE", "E)"),
        (":abcdefghijklm", "m)"),
        (":game-set", "-set"),
        (":a_b", "_b"),
        (":a:b", ":b)"),
        (":é", "é"),
        ("ex:Clone", "Clone"),
        ("<http://x.org/g#Clone>", "Clone"),
        ("<http://x.org/g#abcdefghijklm>", "m>"),
        ("<http://x.org/g#>", "<http"),
        ("ex:", "ex:"),
        ("<http://x.org/g#b)(>", "<http"),
    ];
    for (name, mark) in vectors {
        let says = format!("SubClassOf(:a {name})");
        is_outside(&says, mark, Why::NoWord(name.to_owned()));
    }
    is_outside(
        "SubClassOf(ObjectSomeValuesFrom(:R :a) :b)",
        "R ",
        Why::NoWord(":R".to_owned()),
    );
}

/// With a base chosen, since the default would find two.
#[test]
fn names_under_another_base() {
    let options = Options {
        names: shelf::ontology::Names::Prefix("ex".to_owned()),
        ..Options::default()
    };
    for name in [
        "foaf:agent",
        "<http://x.org/h#b>",
        "rdfs:label",
        "owl:Thang",
        "xsd:string",
    ] {
        let document = document(&format!("SubClassOf(:a {name})"));
        let place = document.rfind(name).expect("it is there");
        let why = Why::OtherBase(name.to_owned());
        assert_eq!(outside(&document, &options), [Outside { place, why }]);
    }
}

#[test]
fn annotations_of_axioms() {
    let vectors = [
        ("Annotation(rdfs:label \"usual\")", "rdfs:label"),
        ("Annotation(:comment \"usual\")", ":comment"),
        ("Annotation(rdfs:comment \"Usual\")", "Usual"),
        ("Annotation(rdfs:comment \"usual \")", " \")"),
        ("Annotation(rdfs:comment \"usual\\\"\")", "\\\"\")"),
        ("Annotation(rdfs:comment \"usual\"@en)", "@en"),
        ("Annotation(rdfs:comment \"usual\"^^xsd:integer)", "^^"),
        ("Annotation(rdfs:comment \"usual\"^^rdf:PlainLiteral)", "^^"),
        ("Annotation(rdfs:comment :usual)", ":usual"),
        ("Annotation(rdfs:comment _:usual)", "_:usual"),
        (
            "Annotation(Annotation(rdfs:label \"x\") rdfs:comment \"usual\")",
            "Annotation(rdfs:label",
        ),
        (
            "Annotation(rdfs:comment \"usual\") Annotation(rdfs:label \"x\")",
            "Annotation(rdfs:label",
        ),
        ("Annotation()", ")"),
    ];
    for (annotation, mark) in vectors {
        let says = format!("SubClassOf({annotation} :a :b)");
        is_outside(&says, mark, Why::OtherAnnotation);
    }
    let usual = "Annotation(rdfs:comment \"usual\")";
    let twice = format!("SubClassOf({usual}{usual} :a :b)");
    is_outside(&twice, &twice[11 + usual.len()..], Why::OtherAnnotation);
}

/// What the fragment has, but not there.
#[test]
fn misplaced() {
    let vectors = [
        ("SubClassOf(:a :b :c)", ":c)", ":c"),
        ("SubClassOf(:a :b ex:c)", "ex:c", "ex:c"),
        (
            "SubClassOf(:a :b ObjectIntersectionOf(:c :d))",
            "Object",
            "ObjectIntersectionOf",
        ),
        ("SubClassOf(:a)", ")", ")"),
        ("SubClassOf()", ")", ")"),
        ("SubClassOf(:a ObjectIntersectionOf(:b))", "))", ")"),
        ("SubClassOf(:a ObjectIntersectionOf())", "))", ")"),
        ("SubClassOf(:a ObjectSomeValuesFrom(:b))", "))", ")"),
        ("SubClassOf(:a ObjectSomeValuesFrom(:r :b :c))", ":c", ":c"),
        (
            "SubClassOf(:a ObjectSomeValuesFrom(owl:Thing :b))",
            "owl:Thing",
            "owl:Thing",
        ),
        ("SubClassOf(:a (:b))", "(:b", "("),
        (
            "SubClassOf(:a rdfs:comment)",
            "rdfs:comment",
            "rdfs:comment",
        ),
        ("SubClassOf(:a \"b\")", "\"b\"", "\"b\""),
        ("SubClassOf(:a _:b)", "_:b", "_:b"),
        ("SubClassOf(:a 7)", "7", "7"),
        ("SubClassOf(:a = :b)", "=", "="),
        ("SubClassOf(:a ObjectIntersectionOf :b)", ":b)", ":b"),
        ("SubClassOf(:a ObjectIntersectionOf)", ")", ")"),
        ("SubClassOf(Annotation)", ")", ")"),
    ];
    for (says, mark, what) in vectors {
        is_outside(says, mark, Why::Misplaced(what.to_owned()));
    }
    let late = "SubClassOf(:a Annotation(rdfs:comment \"usual\") :b)";
    is_outside(
        late,
        "Annotation",
        Why::OtherKeyword("Annotation".to_owned()),
    );
}

/// An IRI with brackets makes no second axiom of one.
#[test]
fn brackets_in_a_name_are_no_brackets() {
    let name = "<http://x.org/g#b)SubClassOf(:c>";
    let says = format!("SubClassOf(:a {name} :d)");
    is_outside(&says, name, Why::NoWord(name.to_owned()));
}

/// All are listed, in order, in words.
#[test]
fn a_list_of_all() {
    let document = document(
        "Import(<urn:y>)\nSubClassOf(:a :B)\n  EquivalentClasses(:a :b)\nSubClassOf(:a :b)\n\
         SubClassOf(:a ObjectUnionOf(:b :c))",
    );
    let options = Options::default();
    let others = outside(&document, &options);
    let listed = "line 5, column 1: what an import brings in is not read\n\
                  line 6, column 16: the name :B is not 1 to 12 bytes from a-z and 0-9\n\
                  line 7, column 3: EquivalentClasses is not SubClassOf\n\
                  line 9, column 21: no class has ObjectUnionOf\n";
    assert_eq!(list(&others, document.as_bytes()), listed);
    let unconverted = super::common::unconverted(&document, &options);
    let shown = unconverted.show(document.as_bytes());
    assert_eq!(
        shown,
        format!("the document says what no book can:\n{}", listed.trim_end())
    );
}
