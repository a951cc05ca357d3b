//! Which base the words are under: found, or chosen.

use super::common::{book_of, document, skipping, unconverted, HEAD};
use shelf::ontology::{convert, BaseUse, Names, Options, Unconverted, Why};

fn by_prefix(prefix: &str) -> Options {
    Options {
        names: Names::Prefix(prefix.to_owned()),
        skip_others: true,
    }
}

fn by_base(iri: &str) -> Options {
    Options {
        names: Names::Base(iri.to_owned()),
        skip_others: true,
    }
}

/// Names of two bases, in one axiom and in another.
const TWO: &str = "SubClassOf(:clone :set)\n\
                   SubClassOf(foaf:agent foaf:member)\n\
                   SubClassOf(:clone foaf:member)";

/// Where no base is chosen and there are several, each is told with the first name
/// that is under it.
#[test]
fn several_bases() {
    let document = document(TWO);
    let found = unconverted(&document, &Options::default());
    let uses = [
        ("http://x.org/g#", ":clone"),
        ("http://xmlns.com/foaf/0.1/", "foaf:agent"),
    ];
    let uses = uses.map(|(base, name)| BaseUse {
        base: base.to_owned(),
        place: document.find(name).expect("the name is there"),
    });
    assert_eq!(found, Unconverted::SeveralBases(uses.to_vec()));
    let shown = "the names are under several bases, of which a book has one:\n\
                 <http://x.org/g#>, first at line 5, column 12\n\
                 <http://xmlns.com/foaf/0.1/>, first at line 6, column 12";
    assert_eq!(found.show(document.as_bytes()), shown);
}

/// One of them is chosen by any prefix of it, with its colon or without, or by the
/// IRI; names under another are outside.
#[test]
fn a_base_is_chosen() {
    let document = document(TWO);
    let vectors = [
        (by_prefix(":"), "S clone set\n"),
        (by_prefix(""), "S clone set\n"),
        (by_prefix("ex"), "S clone set\n"),
        (by_prefix("ex:"), "S clone set\n"),
        (by_prefix("foaf"), "S agent member\n"),
        (by_base("http://x.org/g#"), "S clone set\n"),
        (by_base("http://xmlns.com/foaf/0.1/"), "S agent member\n"),
        (by_base("http://x.org/"), ""),
    ];
    for (options, book) in vectors {
        let converted = convert(document.as_bytes(), &options).unwrap();
        assert_eq!(
            String::from_utf8_lossy(&converted.book),
            book,
            "{options:?}"
        );
        let whys = converted.skipped.iter().map(|it| &it.why);
        let elsewhere = whys.filter(|why| matches!(why, Why::OtherBase(_)));
        let inside = book.lines().count();
        assert_eq!(
            elsewhere.count(),
            if book.is_empty() { 1 } else { 3 - inside }
        );
    }
}

/// A base may be longer or shorter than what a prefix stands for: the IRI counts.
#[test]
fn a_base_that_is_no_prefix() {
    let document = document("SubClassOf(:game :gem)");
    let bases = [
        ("http://x.org/g#g", "S ame em\n"),
        ("http://x.org/g#", "S game gem\n"),
    ];
    for (base, book) in bases {
        let converted = convert(document.as_bytes(), &by_base(base)).unwrap();
        assert_eq!(String::from_utf8_lossy(&converted.book), book);
    }
    let document = "Prefix(g:=<urn:x:g>)Ontology(SubClassOf(g:ame g:em))";
    assert_eq!(book_of(document), "S ame em\n");
    let converted = convert(document.as_bytes(), &by_base("urn:x:")).unwrap();
    assert_eq!(String::from_utf8_lossy(&converted.book), "S game gem\n");
}

/// A prefix that the document doesn't declare can't be chosen.
#[test]
fn no_such_prefix() {
    let found = unconverted(document(""), &by_prefix("nope"));
    assert_eq!(found, Unconverted::NoSuchPrefix("nope:".to_owned()));
    let shown = "the document doesn't declare the prefix nope:";
    assert_eq!(found.show(HEAD.as_bytes()), shown);
}

/// The base of a full IRI ends with its last `#` or `/`, or else its last colon.
#[test]
fn the_base_of_a_full_iri() {
    for base in [
        "http://x.org/g#",
        "http://x.org/g/",
        "urn:x:",
        "urn:x:y:",
        "",
    ] {
        let document = format!("Ontology(SubClassOf(<{base}a> <{base}b>))");
        assert_eq!(book_of(document), "S a b\n", "{base}");
    }
    let document = "Ontology(SubClassOf(<urn:y:a> <urn:x:b>))";
    let Unconverted::SeveralBases(uses) = unconverted(document, &Options::default()) else {
        panic!("there are two bases");
    };
    let bases: Vec<&str> = uses.iter().map(|it| it.base.as_str()).collect();
    assert_eq!(bases, ["urn:y:", "urn:x:"], "in the order of the names");
}

/// Names in annotations, types of literals, OWL's own names and names in axioms of
/// another kind play no part in finding the base.
#[test]
fn names_that_find_no_base() {
    let says = "Annotation(foaf:maker foaf:me)\n\
                Declaration(Class(foaf:agent))\n\
                DisjointClasses(foaf:agent foaf:member)\n\
                SubClassOf(Annotation(foaf:note \"x\"^^foaf:kind) :a owl:Thing)\n\
                SubClassOf(:a ObjectSomeValuesFrom(owl:topObjectProperty :b))\n\
                SubClassOf(:a DataHasValue(:p \"x\"^^foaf:kind))\n\
                SubClassOf(:a :b)";
    let options = Options {
        skip_others: true,
        ..Options::default()
    };
    let converted = convert(document(says).as_bytes(), &options).unwrap();
    assert_eq!(converted.book, b"S a b\n");
    assert_eq!(converted.skipped.len(), 4);
}

/// Where others are left out their names play no part either: names in a class of
/// another kind, names of two bases in one axiom, names that are no words. Without
/// leaving out they do.
#[test]
fn names_of_axioms_that_are_left_out() {
    for other in [
        "SubClassOf(:a DataHasValue(foaf:age \"7\"))",
        "SubClassOf(:a foaf:agent)",
        "SubClassOf(foaf:Agent foaf:Person)",
        "SubClassOf(Annotation(rdfs:label \"x\") foaf:agent foaf:member)",
        "SubClassOf(foaf:agent)",
    ] {
        let document = document(&format!("{other}\nSubClassOf(:a ex:b)"));
        let found = unconverted(&document, &Options::default());
        assert!(matches!(found, Unconverted::SeveralBases(_)), "{other}");
        let converted = convert(document.as_bytes(), &skipping(&Options::default())).unwrap();
        assert_eq!(converted.book, b"S a b\n", "{other}");
        assert_eq!(converted.skipped.len(), 1, "{other}");
    }
}

/// Two bases of axioms that can be converted are still two, and where no axiom can
/// be, all names count.
#[test]
fn several_bases_where_others_are_left_out() {
    let options = skipping(&Options::default());
    for says in [
        TWO,
        "SubClassOf(:a foaf:b)",
        "SubClassOf(:a DataHasValue(foaf:age \"7\"))\nSubClassOf(owl:Nothing owl:Thing)",
    ] {
        let found = unconverted(document(says), &options);
        let Unconverted::SeveralBases(uses) = found else {
            panic!("{says}: {found:?}");
        };
        assert_eq!(uses.len(), 2, "{says}");
    }
}

/// Where no name of the author's stands in the axioms no base is needed.
#[test]
fn no_base() {
    let says = "SubClassOf(owl:Nothing owl:Thing)";
    assert_eq!(book_of(document(says)), "S - *\n");
    let found = super::common::outside(
        document("SubClassOf(owl:Nothing owl:Thong)"),
        &Options::default(),
    );
    assert_eq!(found[0].why, Why::OtherBase("owl:Thong".to_owned()));
}
