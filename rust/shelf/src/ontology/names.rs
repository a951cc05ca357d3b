//! Names as IRIs: the prefixes of a document, and the names that the fragment
//! has of its own.

use std::collections::btree_map::{BTreeMap, Entry};

/// The prefixes that a document need not declare.
const STANDARD: [(&[u8], &[u8]); 4] = [
    (b"owl:", b"http://www.w3.org/2002/07/owl#"),
    (b"rdf:", b"http://www.w3.org/1999/02/22-rdf-syntax-ns#"),
    (b"rdfs:", b"http://www.w3.org/2000/01/rdf-schema#"),
    (b"xsd:", b"http://www.w3.org/2001/XMLSchema#"),
];

/// The names of OWL that a run of axioms has, each as it is written there.
const KNOWN: [(&str, &[u8]); 3] = [
    ("owl:Thing", b"http://www.w3.org/2002/07/owl#Thing"),
    ("owl:Nothing", b"http://www.w3.org/2002/07/owl#Nothing"),
    (
        "rdfs:comment",
        b"http://www.w3.org/2000/01/rdf-schema#comment",
    ),
];

/// The type of a text that is written without one.
pub(super) const STRING: &[u8] = b"http://www.w3.org/2001/XMLSchema#string";

/// How a run of axioms writes this IRI, if it is one that it has of its own.
pub(super) fn known(iri: &[u8]) -> Option<&'static str> {
    let mut known = KNOWN.iter();
    known.find(|it| it.1 == iri).map(|it| it.0)
}

/// Whether an IRI is of OWL's own vocabulary and so no name of the author's.
pub(super) fn is_reserved(iri: &[u8]) -> bool {
    STANDARD.iter().any(|(_, base)| iri.starts_with(base))
}

/// The prefixes of a document, each with its colon, and their IRIs.
#[derive(Default)]
pub(super) struct Prefixes {
    declared: BTreeMap<Vec<u8>, Vec<u8>>,
}

impl Prefixes {
    /// Adds a prefix. False if it is there already, for another IRI.
    pub fn declare(&mut self, prefix: &[u8], iri: &[u8]) -> bool {
        match self.declared.entry(prefix.to_vec()) {
            Entry::Occupied(before) => before.get() == iri,
            Entry::Vacant(place) => {
                place.insert(iri.to_vec());
                true
            }
        }
    }

    /// The IRI of a prefix: the document's, or else the standard one.
    pub fn iri(&self, prefix: &[u8]) -> Option<&[u8]> {
        let mut standard = STANDARD.iter();
        let declared = self.declared.get(prefix).map(Vec::as_slice);
        declared.or_else(|| standard.find(|it| it.0 == prefix).map(|it| it.1))
    }

    /// The IRI that a name stands for, in two parts: its base, and the rest. A
    /// full IRI is cut behind its last `#` or `/`, or else its last colon. None
    /// for a name whose prefix is not declared.
    pub fn parts<'a>(&'a self, name: &'a [u8]) -> Option<(&'a [u8], &'a [u8])> {
        if let Some(iri) = name.strip_prefix(b"<") {
            let iri = iri.strip_suffix(b">").unwrap_or(iri);
            return Some(iri.split_at(base_length(iri)));
        }
        let colon = name.iter().position(|byte| *byte == b':')?;
        let (prefix, rest) = name.split_at(colon + 1);
        Some((self.iri(prefix)?, rest))
    }
}

/// How much of a full IRI is its base.
fn base_length(iri: &[u8]) -> usize {
    let cut = iri.iter().rposition(|byte| matches!(byte, b'#' | b'/'));
    let cut = cut.or_else(|| iri.iter().rposition(|byte| *byte == b':'));
    cut.map_or(0, |last| last + 1)
}
