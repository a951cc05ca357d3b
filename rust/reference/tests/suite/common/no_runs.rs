//! Input that is no run of axioms, by hand. The tests of the wrapper use this file
//! too.

/// Inputs that are refused by 24 where the `!` stands, which is not part of them:
/// each with its reason.
pub const NO_RUNS: [(&str, &str); 78] = [
    // Names.
    ("a 13th byte", "SubClassOf(:abcdefghijkl!m :b)"),
    ("a 13th byte on the right", "SubClassOf(:a :abcdefghijkl!m)"),
    (
        "a 13th byte of a role",
        "SubClassOf(ObjectSomeValuesFrom(:012345678901!2 :a) :b)",
    ),
    ("a name of no byte", "SubClassOf(:! a :b)"),
    ("a name of no byte", "SubClassOf(:a :!)"),
    ("a name of no byte", "SubClassOf(:!:a :b)"),
    ("a capital", "SubClassOf(:!A :b)"),
    ("a capital", "SubClassOf(:a!A :b)"),
    ("the byte before the small letters", "SubClassOf(:a!` :b)"),
    ("the byte behind the small letters", "SubClassOf(:a!{ :b)"),
    ("an underscore", "SubClassOf(:a!_b :b)"),
    ("a sign of books", "SubClassOf(:!* :b)"),
    ("a byte over 127", "SubClassOf(:a!\u{e9} :b)"),
    ("another prefix", "SubClassOf(!a:b :b)"),
    ("a whole IRI", "SubClassOf(!<a> :b)"),
    // Behind a name or an owl: class.
    ("no gap between two names", "SubClassOf(:a!:b)"),
    (
        "a name that takes the next token's bytes",
        "SubClassOf(:aowl!:Thing)",
    ),
    (
        "no gap behind a name",
        "SubClassOf(:a!ObjectIntersectionOf(:a :b))",
    ),
    (
        "no gap behind a role",
        "SubClassOf(ObjectSomeValuesFrom(:r!:a) :b)",
    ),
    ("no gap behind an owl: class", "SubClassOf(owl:Thing!:b)"),
    (
        "no gap behind an owl: class",
        "SubClassOf(owl:Nothing!owl:Nothing)",
    ),
    ("an owl: class that goes on", "SubClassOf(owl:Thing!s :b)"),
    ("a bracket where none is due", "SubClassOf(:a!( :b)"),
    ("a bracket where none is due", "SubClassOf(owl:Thing !( :b)"),
    // Keywords in other letters.
    ("a small letter", "Sub!classOf(:a :b)"),
    ("a capital", "S!UBCLASSOF(:a :b)"),
    ("a capital", "SubClassO!F(:a :b)"),
    ("a capital", "SubClassOf(O!WL:Thing :b)"),
    ("a capital", "SubClassOf(owl:T!HING :b)"),
    ("a small letter", "SubClassOf(owl:!nothing :b)"),
    (
        "a small letter",
        "SubClassOf(o!bjectIntersectionOf(:a :b) :c)",
    ),
    (
        "a small letter",
        "SubClassOf(Object!intersectionOf(:a :b) :c)",
    ),
    (
        "a small letter",
        "SubClassOf(ObjectSome!valuesFrom(:r :a) :c)",
    ),
    (
        "a small letter",
        "SubClassOf(!annotation(rdfs:comment \"usual\") :a :b)",
    ),
    (
        "a capital",
        "SubClassOf(Annotation(!RDFS:comment \"usual\") :a :b)",
    ),
    (
        "a capital",
        "SubClassOf(Annotation(rdfs:!Comment \"usual\") :a :b)",
    ),
    // Words that are no token.
    ("no such owl: class", "SubClassOf(owl:!thing :b)"),
    ("no such owl: class", "SubClassOf(owl:T!op :b)"),
    ("a gap inside a token", "SubClassOf(owl:! Thing :b)"),
    ("a gap inside a token", "SubClass! Of(:a :b)"),
    ("no such class", "SubClassOf(Object!UnionOf(:a :b) :c)"),
    (
        "no such class",
        "SubClassOf(ObjectS!ameValuesFrom(:a :b) :c)",
    ),
    (
        "no such class",
        "SubClassOf(ObjectIntersectionOf!s(:a :b) :c)",
    ),
    ("no such axiom", "!EquivalentClasses(:a :b)"),
    ("no such axiom", "SubClassOf(:a :b)!DisjointClasses(:a :b)"),
    ("no such axiom", "Sub!ObjectPropertyOf(:a :b)"),
    (
        "a prefix declaration",
        "!Prefix(:=<http://a/>)SubClassOf(:a :b)",
    ),
    ("an ontology", "!Ontology(SubClassOf(:a :b))"),
    ("a comment", "!# a\nSubClassOf(:a :b)"),
    ("a small letter", "!subClassOf(:a :b)"),
    // Gaps are spaces and line feeds only.
    ("a tab", "SubClassOf(:a!\t:b)"),
    ("a tab", "!\t"),
    ("a carriage return", "SubClassOf(:a :b)!\r\n"),
    ("a form feed", "SubClassOf(:a :b) !\x0c"),
    ("a zero byte", "SubClassOf(:a :b)!\0"),
    // How many classes there are.
    ("no class", "SubClassOf(!)"),
    ("one class", "SubClassOf(owl:Thing!)"),
    ("one class", "SubClassOf(:a !)"),
    ("three classes", "SubClassOf(:a :b !:c)"),
    ("a bracket too many", "SubClassOf(:a :b)!)"),
    ("no part", "SubClassOf(ObjectIntersectionOf(!) :c)"),
    ("one part", "SubClassOf(ObjectIntersectionOf(:a!) :c)"),
    (
        "one part",
        "SubClassOf(:c ObjectIntersectionOf(ObjectIntersectionOf(:a :b)!))",
    ),
    ("no filler", "SubClassOf(ObjectSomeValuesFrom(:r !) :c)"),
    (
        "two fillers",
        "SubClassOf(ObjectSomeValuesFrom(:r :a !:b) :c)",
    ),
    (
        "a role that is no name",
        "SubClassOf(ObjectSomeValuesFrom(!owl:Thing :a) :c)",
    ),
    (
        "a role that is no name",
        "SubClassOf(ObjectSomeValuesFrom(!ObjectInverseOf(:r) :a) :c)",
    ),
    // The annotation.
    (
        "an annotation behind a class",
        "SubClassOf(:a !Annotation(rdfs:comment \"usual\") :b)",
    ),
    (
        "two annotations",
        "SubClassOf(Annotation(rdfs:comment \"usual\") !Annotation(rdfs:comment \"usual\") :a :b)",
    ),
    (
        "another comment",
        "SubClassOf(Annotation(rdfs:comment \"usual!ly\") :a :b)",
    ),
    (
        "another comment",
        "SubClassOf(Annotation(rdfs:comment \"!strict\") :a :b)",
    ),
    (
        "a space in the comment",
        "SubClassOf(Annotation(rdfs:comment \"! usual\") :a :b)",
    ),
    (
        "a capital in the comment",
        "SubClassOf(Annotation(rdfs:comment \"!Usual\") :a :b)",
    ),
    (
        "a type",
        "SubClassOf(Annotation(rdfs:comment \"usual\"!^^xsd:string) :a :b)",
    ),
    (
        "a language",
        "SubClassOf(Annotation(rdfs:comment \"usual\"!@en) :a :b)",
    ),
    (
        "another property",
        "SubClassOf(Annotation(rdfs:!label \"usual\") :a :b)",
    ),
    (
        "an annotation of the annotation",
        "SubClassOf(Annotation(!Annotation(rdfs:comment \"usual\") rdfs:comment \"usual\") :a :b)",
    ),
    ("an annotation alone", "!Annotation(rdfs:comment \"usual\")"),
];

/// The input, and the place where its mark stood.
pub fn unmarked(marked: &str) -> (String, usize) {
    let place = marked.find('!').expect("the place is marked");
    (marked.replacen('!', "", 1), place)
}
