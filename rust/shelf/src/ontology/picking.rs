//! The axioms of a document that a book can have, and all else that it says.

use super::axioms::Axiom;
use super::document::Document;
use super::malformed::Malformed;
use super::outside::{Outside, Why};
use super::run::Run;
use crate::limits::TEXT_BYTES;

/// What makes no rule: declarations, and what is only said about names.
const PASSED_OVER: [&[u8]; 6] = [
    b"Declaration",
    b"Annotation",
    b"AnnotationAssertion",
    b"SubAnnotationPropertyOf",
    b"AnnotationPropertyDomain",
    b"AnnotationPropertyRange",
];

/// Something that an ontology says.
pub(super) enum Item<'a> {
    SubClassOf(Axiom<'a>),
    PassedOver,
    Other(Outside),
}

/// All that the document's ontology says, in order.
pub(super) fn items<'a>(document: &'a Document<'a>) -> impl Iterator<Item = Item<'a>> {
    document.items.iter().map(|tokens| {
        let keyword = document.text(tokens.start);
        let why = match keyword {
            b"SubClassOf" => return Item::SubClassOf(Axiom::new(document, tokens.clone())),
            b"Import" => Why::Import,
            _ if PASSED_OVER.contains(&keyword) => return Item::PassedOver,
            _ => Why::OtherAxiom(String::from_utf8_lossy(keyword).into_owned()),
        };
        let place = document.tokens[tokens.start].start;
        Item::Other(Outside { place, why })
    })
}

/// The run of all axioms that the converter takes, and what is outside.
pub(super) fn pick(
    document: &Document,
    base: Option<&[u8]>,
) -> Result<(Run, Vec<Outside>), Malformed> {
    let (mut picked, mut others) = (Run::default(), Vec::new());
    for item in items(document) {
        match item {
            Item::PassedOver => {}
            Item::Other(outside) => others.push(outside),
            Item::SubClassOf(axiom) => {
                let run = axiom.run(base)?;
                match judge(&axiom, &run, base) {
                    None => picked.append(run),
                    Some(outside) => others.push(outside),
                }
            }
        }
    }
    Ok((picked, others))
}

/// Why the converter refuses an axiom, if it does. Of one that is too long the
/// beginning tells: where nothing in it is refused, the axiom is left to stand,
/// and its length is told of all together.
pub(super) fn judge(axiom: &Axiom, run: &Run, base: Option<&[u8]>) -> Option<Outside> {
    let beginning = &run.text[..run.text.len().min(TEXT_BYTES)];
    let refused = crate::convert(beginning).err()?;
    if refused.place == TEXT_BYTES {
        return None;
    }
    let found = run.find(refused.place);
    Some(Outside {
        place: found.place,
        why: axiom.why(found, base),
    })
}
