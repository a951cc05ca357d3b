//! Small documents.

use shelf::ontology::{convert, Converted, Options, Outside, Unconverted};

/// The prefixes of the small documents, and all up to the first axiom.
pub const HEAD: &str = "Prefix(:=<http://x.org/g#>)\n\
                        Prefix(ex:=<http://x.org/g#>)\n\
                        Prefix(foaf:=<http://xmlns.com/foaf/0.1/>)\n\
                        Ontology(<http://x.org/g>\n";

/// A document that says this.
pub fn document(says: &str) -> String {
    format!("{HEAD}{says}\n)\n")
}

/// A document's book, and nothing is skipped.
#[track_caller]
pub fn book_of(document: impl AsRef<[u8]>) -> String {
    let document = document.as_ref();
    match convert(document, &Options::default()) {
        Ok(Converted { book, skipped }) => {
            assert_eq!(skipped, []);
            String::from_utf8(book).expect("a book is ASCII")
        }
        Err(unconverted) => panic!("{}", unconverted.show(document)),
    }
}

/// What a document is not converted for.
#[track_caller]
pub fn unconverted(document: impl AsRef<[u8]>, options: &Options) -> Unconverted {
    let converted = convert(document.as_ref(), options);
    converted.expect_err("the document has no book")
}

/// What a document says that is outside; where it is skipped the same is listed.
#[track_caller]
pub fn outside(document: impl AsRef<[u8]>, options: &Options) -> Vec<Outside> {
    let document = document.as_ref();
    let found = match unconverted(document, options) {
        Unconverted::Outside(others) => others,
        other => panic!("{}", other.show(document)),
    };
    let skipped = convert(document, &skipping(options)).map(|it| it.skipped);
    assert_eq!(skipped.as_ref(), Ok(&found));
    found
}

/// The same, but for what is outside.
pub fn skipping(options: &Options) -> Options {
    Options {
        skip_others: true,
        ..options.clone()
    }
}
