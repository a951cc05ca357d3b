//! The SubClassOf axioms of a document as runs over one base, and why one of
//! them is outside the fragment.

use super::document::{is_name, Document};
use super::malformed::{Damage, Malformed};
use super::names::{is_reserved, known, STRING};
use super::outside::Why;
use super::run::{Found, Piece, Run};
use super::tokens::Kind;
use std::ops::Range;

/// The keyword of an annotation.
const ANNOTATION: &[u8] = b"Annotation";

/// What is written for a name that isn't under the base: no run begins anything so.
const ELSEWHERE: &[u8] = b"<>";

/// What the keywords in a class are.
const CLASS_KEYWORDS: [&[u8]; 2] = [b"ObjectIntersectionOf", b"ObjectSomeValuesFrom"];

/// A SubClassOf axiom of a document.
pub(super) struct Axiom<'a> {
    document: &'a Document<'a>,
    /// All of its tokens.
    tokens: Range<usize>,
    /// Those behind its annotations.
    classes: Range<usize>,
}

impl<'a> Axiom<'a> {
    pub fn new(document: &'a Document<'a>, tokens: Range<usize>) -> Axiom<'a> {
        let mut start = tokens.start + 2;
        while document.text(start) == ANNOTATION && opens(document, start + 1) {
            start = behind_bracket(document, start + 1);
        }
        let classes = start..tokens.end;
        Axiom {
            document,
            tokens,
            classes,
        }
    }

    /// The base of each of the author's names in its classes, with the name's
    /// place.
    pub fn bases(&self) -> Result<Vec<(&'a [u8], usize)>, Malformed> {
        let mut bases = Vec::new();
        for token in self.classes.clone() {
            let is_type = self.document.tokens[token - 1].kind == Kind::Carets;
            if is_type || !self.names(token) {
                continue;
            }
            let (base, rest) = self.parts(token)?;
            if !is_reserved(&[base, rest].concat()) {
                bases.push((base, self.document.tokens[token].start));
            }
        }
        Ok(bases)
    }

    /// The axiom as a run, with `:rest` for each name under the base.
    pub fn run(&self, base: Option<&[u8]>) -> Result<Run, Malformed> {
        let mut run = Run::default();
        let mut token = self.tokens.start;
        while token < self.tokens.end {
            let (piece, text) = self.piece(token, base)?;
            run.push(piece, &text);
            token += if self.is_typed_string(token)? { 3 } else { 1 };
        }
        Ok(run)
    }

    /// A token of the document as it is written in a run.
    fn piece(&self, token: usize, base: Option<&[u8]>) -> Result<(Piece, Vec<u8>), Malformed> {
        let at = self.document.tokens[token];
        let mut piece = Piece::new(token, at.start..at.end);
        piece.is_word = matches!(at.kind, Kind::Word | Kind::Iri);
        if !self.names(token) {
            return Ok((piece, self.document.text(token).to_vec()));
        }
        let iri = self.iri(token)?;
        if let Some(known) = known(&iri) {
            return Ok((piece, known.into()));
        }
        match base.and_then(|base| iri.strip_prefix(base)) {
            Some(rest) if reads_as_name(rest) => {
                piece.is_name = true;
                piece.document.end -= usize::from(at.kind == Kind::Iri);
                Ok((piece, [b":", rest].concat()))
            }
            _ => Ok((piece, ELSEWHERE.to_vec())),
        }
    }

    /// Why a token can't stand where the converter refused its run.
    pub fn why(&self, found: Found, base: Option<&[u8]>) -> Why {
        let text = self.document.text(found.token);
        let shown = String::from_utf8_lossy(text).into_owned();
        if found.token < self.classes.start {
            return Why::OtherAnnotation;
        }
        if self.names(found.token) {
            return self.why_name(found, base, shown);
        }
        let is_keyword = text.iter().all(u8::is_ascii_alphabetic);
        if is_keyword && !CLASS_KEYWORDS.contains(&text) {
            return Why::OtherKeyword(shown);
        }
        Why::Misplaced(shown)
    }

    fn why_name(&self, found: Found, base: Option<&[u8]>, shown: String) -> Why {
        let iri = self.iri(found.token).unwrap_or_default();
        let rest = base.and_then(|base| iri.strip_prefix(base));
        match rest {
            _ if known(&iri).is_some() => Why::Misplaced(shown),
            None => Why::OtherBase(shown),
            // A name that is a word is taken whole, wherever it may stand.
            Some(rest) if found.at_start && reads_as_name(rest) => Why::Misplaced(shown),
            Some(_) => Why::NoWord(shown),
        }
    }

    /// Whether this is a text of the type that a text without one has.
    fn is_typed_string(&self, token: usize) -> Result<bool, Malformed> {
        let kind = |token: usize| self.document.tokens[token].kind;
        // A text is never the last token of an axiom: its bracket follows.
        if kind(token) != Kind::Text || kind(token + 1) != Kind::Carets {
            return Ok(false);
        }
        Ok(self.names(token + 2) && self.iri(token + 2)? == STRING)
    }

    fn names(&self, token: usize) -> bool {
        is_name(self.document.tokens[token], self.document.bytes)
    }

    /// The IRI of a name.
    fn iri(&self, name: usize) -> Result<Vec<u8>, Malformed> {
        let (base, rest) = self.parts(name)?;
        Ok([base, rest].concat())
    }

    fn parts(&self, name: usize) -> Result<(&'a [u8], &'a [u8]), Malformed> {
        let document = self.document;
        let undeclared = Damage::UndeclaredPrefix.at(document.tokens[name].start);
        let parts = document.prefixes.parts(document.text(name));
        parts.ok_or(undeclared)
    }
}

/// Whether the rest of an IRI, written behind a colon, is read as one name, if
/// perhaps not as a word: an IRI may have brackets, or end with its base.
fn reads_as_name(rest: &[u8]) -> bool {
    let is_bracket = |byte: &u8| matches!(byte, b'(' | b')');
    !rest.is_empty() && !rest.iter().any(is_bracket)
}

fn opens(document: &Document, token: usize) -> bool {
    document.tokens[token].kind == Kind::Open
}

/// The token behind the one that closes this bracket, of an item.
fn behind_bracket(document: &Document, bracket: usize) -> usize {
    let (mut open, mut next) = (1_usize, bracket + 1);
    while open > 0 {
        match document.tokens[next].kind {
            Kind::Open => open += 1,
            Kind::Close => open -= 1,
            _ => {}
        }
        next += 1;
    }
    next
}
