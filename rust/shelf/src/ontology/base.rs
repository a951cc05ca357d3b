//! Which base the names of a document are under.

use super::axioms::Axiom;
use super::document::Document;
use super::malformed::Malformed;
use super::picking::{items, judge, Item};
use super::{Names, Options, Unconverted};
use std::collections::BTreeMap;

/// A base that names of the document are under.
#[derive(Clone, Debug, PartialEq, Eq)]
pub struct BaseUse {
    /// The base.
    pub base: String,
    /// The offset in the document of the first name under it.
    pub place: usize,
}

/// The base that is meant, or none where the axioms have no name.
pub(super) fn choose(
    document: &Document,
    options: &Options,
) -> Result<Option<Vec<u8>>, Unconverted> {
    match &options.names {
        Names::Base(iri) => Ok(Some(iri.as_bytes().to_vec())),
        Names::Prefix(prefix) => declared(document, prefix).map(Some),
        Names::OneBase => only(&uses_that_count(document, options.skip_others)?),
    }
}

/// What the document declares for a prefix.
fn declared(document: &Document, prefix: &str) -> Result<Vec<u8>, Unconverted> {
    let prefix = prefix.strip_suffix(':').unwrap_or(prefix).to_owned() + ":";
    match document.prefixes.iri(prefix.as_bytes()) {
        Some(iri) => Ok(iri.to_vec()),
        None => Err(Unconverted::NoSuchPrefix(prefix)),
    }
}

/// The one base of all.
fn only(uses: &[Use]) -> Result<Option<Vec<u8>>, Unconverted> {
    match uses {
        [] => Ok(None),
        [(base, _)] => Ok(Some(base.to_vec())),
        _ => Err(Unconverted::SeveralBases(
            uses.iter()
                .map(|(base, place)| use_of(base, *place))
                .collect(),
        )),
    }
}

fn use_of(base: &[u8], place: usize) -> BaseUse {
    BaseUse {
        base: String::from_utf8_lossy(base).into_owned(),
        place,
    }
}

/// A base, and the place of the first name under it.
type Use<'a> = (&'a [u8], usize);

/// The bases of all SubClassOf axioms, or where others may be left out of those
/// that can be converted, if there are any.
fn uses_that_count<'a>(
    document: &'a Document<'a>,
    skip_others: bool,
) -> Result<Vec<Use<'a>>, Malformed> {
    if skip_others {
        let uses = uses(document, bases_if_converted)?;
        if !uses.is_empty() {
            return Ok(uses);
        }
    }
    uses(document, Axiom::bases)
}

/// The bases of an axiom's names if it can be converted: then they are all the
/// same.
fn bases_if_converted<'a>(axiom: &Axiom<'a>) -> Result<Vec<Use<'a>>, Malformed> {
    let bases = axiom.bases()?;
    let base = bases.first().map(|(base, _)| *base);
    let is_one = bases.iter().all(|it| Some(it.0) == base);
    if is_one && judge(axiom, &axiom.run(base)?, base).is_none() {
        return Ok(bases);
    }
    Ok(Vec::new())
}

/// Each base that the SubClassOf axioms have, in the order of the first names
/// under them.
fn uses<'a>(
    document: &'a Document<'a>,
    bases: impl Fn(&Axiom<'a>) -> Result<Vec<Use<'a>>, Malformed>,
) -> Result<Vec<Use<'a>>, Malformed> {
    let mut first = BTreeMap::new();
    for item in items(document) {
        if let Item::SubClassOf(axiom) = item {
            for (base, place) in bases(&axiom)? {
                first.entry(base).or_insert(place);
            }
        }
    }
    let mut uses: Vec<Use> = first.into_iter().collect();
    uses.sort_unstable_by_key(|(_, place)| *place);
    Ok(uses)
}
