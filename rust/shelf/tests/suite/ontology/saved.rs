//! Documents in the form in which ontology tools save them.

use super::common::book_of;

/// As the OWL API saves an ontology: every standard prefix, declarations, a
/// comment for each class, intersections sorted.
const OWL_API: &str = r#"Prefix(:=<http://example.org/shelf#>)
Prefix(owl:=<http://www.w3.org/2002/07/owl#>)
Prefix(rdf:=<http://www.w3.org/1999/02/22-rdf-syntax-ns#>)
Prefix(xml:=<http://www.w3.org/XML/1998/namespace>)
Prefix(xsd:=<http://www.w3.org/2001/XMLSchema#>)
Prefix(rdfs:=<http://www.w3.org/2000/01/rdf-schema#>)


Ontology(<http://example.org/shelf>

Declaration(Class(:art))
Declaration(Class(:clone))
Declaration(Class(:hidden))
Declaration(Class(:set))
Declaration(Class(:shown))
Declaration(Class(:text))
Declaration(ObjectProperty(:has))



############################
#   Classes
############################

# Class: <http://example.org/shelf#clone> (<http://example.org/shelf#clone>)

SubClassOf(:clone :set)
SubClassOf(Annotation(rdfs:comment "usual") :clone :hidden)

# Class: <http://example.org/shelf#set> (<http://example.org/shelf#set>)

SubClassOf(Annotation(rdfs:comment "usual") :set :art)
SubClassOf(Annotation(rdfs:comment "usual") :set :shown)


SubClassOf(Annotation(rdfs:comment "usual") ObjectIntersectionOf(:clone ObjectSomeValuesFrom(:has :text)) :shown)
SubClassOf(ObjectIntersectionOf(:hidden :shown) owl:Nothing)
)"#;

#[test]
fn by_the_owl_api() {
    let book = "\
S clone set
U clone hidden
U set art
U set shown
U & clone /has text shown
S & hidden shown -
";
    assert_eq!(book_of(OWL_API), book);
}

/// The same without a prefix of its own, so with full IRIs throughout.
#[test]
fn by_the_owl_api_without_a_prefix() {
    let in_full = |line: &str| match line.starts_with("SubClassOf") {
        false => line.to_owned(),
        true => full_names(line),
    };
    let lines: Vec<String> = OWL_API.lines().map(in_full).collect();
    let document = lines.join("\n");
    let document = document.replace("Prefix(:=<http://example.org/shelf#>)\n", "");
    assert!(document.contains("SubClassOf(<http://example.org/shelf#clone> <"));
    assert_eq!(book_of(document), book_of(OWL_API));
}

/// A line with each `:name` in full.
fn full_names(line: &str) -> String {
    let mut full = String::new();
    let mut parts = line.split_inclusive(['(', ' ', ')']);
    parts
        .by_ref()
        .for_each(|part| match part.strip_prefix(':') {
            None => full += part,
            Some(rest) => {
                let (name, end) = rest.split_at(rest.len() - 1);
                full += &format!("<http://example.org/shelf#{name}>{end}");
            }
        });
    full
}

/// As Protégé has it: a version, an import's place taken by annotations, labels
/// with brackets and quotes in comments and in strings, carriage returns.
#[test]
fn by_protege() {
    let document = r#"Prefix(:=<urn:games:>)
Prefix(owl:=<http://www.w3.org/2002/07/owl#>)
Prefix(rdfs:=<http://www.w3.org/2000/01/rdf-schema#>)
Prefix(games:=<urn:games:>)


Ontology(<http://www.example.org/games>
<http://www.example.org/games/1.0.0>
Annotation(rdfs:comment "Where did my \"game\" go? :-)"@en)
Annotation(rdfs:label "games (")

Declaration(Class(games:clone))
Declaration(Class(games:set))
Declaration(ObjectProperty(games:has))
Declaration(AnnotationProperty(games:note))

############################
#   Object Properties
############################

# Object Property: games:has (has (a part))

AnnotationAssertion(rdfs:label games:has "has (a \"part\\")

############################
#   Classes
############################

# Class: games:clone (A "clone)

AnnotationAssertion(rdfs:label games:clone "SubClassOf(games:never games:read)")
AnnotationAssertion(Annotation(games:note "twice") games:note games:clone <urn:elsewhere#(>)
SubClassOf(games:clone games:set)

# Class: games:set (set)

SubClassOf(Annotation(rdfs:comment "usual"^^xsd:string) games:set ObjectSomeValuesFrom(games:has owl:Thing))


)"#;
    let book = "S clone set\nU set /has *\n";
    assert_eq!(book_of(document), book);
    assert_eq!(book_of(document.replace('\n', "\r\n")), book);
}

/// An ontology that says nothing has the empty book, with a name and without.
#[test]
fn that_say_nothing() {
    for document in [
        "Ontology()",
        "Ontology(<http://x.org/g>)\n# nothing",
        "Prefix(:=<http://x.org/g#>)\n\nOntology(:g :g1\n\n)\n",
        "Prefix(:=<urn:x:>) Ontology(Declaration(Class(:a)))",
    ] {
        assert_eq!(book_of(document), "");
    }
}
