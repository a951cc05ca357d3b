//! A document taken apart: its prefixes, and the things that its ontology says.

use super::malformed::{Damage, Malformed};
use super::names::Prefixes;
use super::tokens::{tokens, Kind, Token};
use std::ops::Range;

/// A whole document.
pub(super) struct Document<'a> {
    pub bytes: &'a [u8],
    pub tokens: Vec<Token>,
    pub prefixes: Prefixes,
    /// The tokens of each thing that the ontology says, from its keyword to its
    /// closing bracket.
    pub items: Vec<Range<usize>>,
}

impl<'a> Document<'a> {
    /// Reads `Prefix(name: = <iri>) .. Ontology(<iri> <iri> item ..)`, where an
    /// item is a keyword and a bracket with anything in it.
    pub fn read(bytes: &'a [u8]) -> Result<Document<'a>, Malformed> {
        let tokens = tokens(bytes)?;
        let mut reader = Reader {
            bytes,
            tokens: &tokens,
            next: 0,
        };
        let prefixes = reader.prefixes()?;
        let items = reader.ontology()?;
        Ok(Document {
            bytes,
            tokens,
            prefixes,
            items,
        })
    }

    /// Where the thing that the ontology says with this token begins.
    pub fn axiom_of(&self, token: usize) -> usize {
        let before = self.items.partition_point(|item| item.end <= token);
        self.tokens[self.items[before].start].start
    }

    /// The bytes of a token.
    pub fn text(&self, token: usize) -> &'a [u8] {
        text(self.bytes, self.tokens[token])
    }
}

fn text(bytes: &[u8], token: Token) -> &[u8] {
    &bytes[token.start..token.end]
}

/// Reads token after token.
struct Reader<'a> {
    bytes: &'a [u8],
    tokens: &'a [Token],
    next: usize,
}

impl<'a> Reader<'a> {
    fn prefixes(&mut self) -> Result<Prefixes, Malformed> {
        let mut prefixes = Prefixes::default();
        while self.takes_keyword(b"Prefix") {
            self.take(Kind::Open, "(")?;
            let place = self.place();
            let name = self.take_prefix_name()?;
            self.take(Kind::Equals, "=")?;
            let iri = self.take(Kind::Iri, "a full IRI")?;
            self.take(Kind::Close, ")")?;
            if !prefixes.declare(name, &iri[1..iri.len() - 1]) {
                return Err(Damage::PrefixTwice.at(place));
            }
        }
        Ok(prefixes)
    }

    /// A name with a colon at its end.
    fn take_prefix_name(&mut self) -> Result<&'a [u8], Malformed> {
        let due = "a prefix with its colon";
        let place = self.place();
        let name = self.take(Kind::Word, due)?;
        match name.iter().position(|byte| *byte == b':') {
            Some(colon) if colon + 1 == name.len() => Ok(name),
            _ => Err(Damage::Due(due).at(place)),
        }
    }

    fn ontology(&mut self) -> Result<Vec<Range<usize>>, Malformed> {
        if !self.takes_keyword(b"Ontology") {
            return Err(Damage::Due("Prefix( or Ontology(").at(self.place()));
        }
        let bracket = self.place();
        self.take(Kind::Open, "(")?;
        self.take_ontology_names();
        let mut items = Vec::new();
        while !self.takes(Kind::Close) {
            if self.next == self.tokens.len() {
                return Err(Damage::UnclosedBracket.at(bracket));
            }
            items.push(self.item()?);
        }
        if self.next < self.tokens.len() {
            return Err(Damage::Due("the end").at(self.place()));
        }
        Ok(items)
    }

    /// The ontology's own IRI and its version's, where they are given.
    fn take_ontology_names(&mut self) {
        for _ in 0..2 {
            let Some(token) = self.tokens.get(self.next) else {
                return;
            };
            if is_name(*token, self.bytes) {
                self.next += 1;
            }
        }
    }

    /// The tokens of a keyword and its bracket.
    fn item(&mut self) -> Result<Range<usize>, Malformed> {
        let due = "an axiom";
        let (start, place) = (self.next, self.place());
        let keyword = self.take(Kind::Word, due)?;
        if !keyword.iter().all(u8::is_ascii_alphabetic) {
            return Err(Damage::Due(due).at(place));
        }
        let bracket = self.place();
        self.take(Kind::Open, "(")?;
        self.close(bracket)?;
        Ok(start..self.next)
    }

    /// Goes behind the bracket that closes the one at this place.
    fn close(&mut self, bracket: usize) -> Result<(), Malformed> {
        let mut open = 1_usize;
        while open > 0 {
            match self.tokens.get(self.next).map(|token| token.kind) {
                Some(Kind::Open) => open += 1,
                Some(Kind::Close) => open -= 1,
                Some(_) => {}
                None => return Err(Damage::UnclosedBracket.at(bracket)),
            }
            self.next += 1;
        }
        Ok(())
    }

    /// Takes the next token if it is of this kind.
    fn takes(&mut self, kind: Kind) -> bool {
        let next = self.tokens.get(self.next);
        let takes = next.is_some_and(|token| token.kind == kind);
        self.next += usize::from(takes);
        takes
    }

    /// Takes the next token if it is this word.
    fn takes_keyword(&mut self, keyword: &[u8]) -> bool {
        let next = self.tokens.get(self.next);
        let takes = next.is_some_and(|token| text(self.bytes, *token) == keyword);
        self.next += usize::from(takes);
        takes
    }

    /// The bytes of the next token, which is to be of this kind.
    fn take(&mut self, kind: Kind, due: &'static str) -> Result<&'a [u8], Malformed> {
        let place = self.place();
        if !self.takes(kind) {
            return Err(Damage::Due(due).at(place));
        }
        Ok(text(self.bytes, self.tokens[self.next - 1]))
    }

    /// Where the next token begins, or the document's end.
    fn place(&self) -> usize {
        let next = self.tokens.get(self.next);
        next.map_or(self.bytes.len(), |token| token.start)
    }
}

/// Whether a token names something: a full IRI, or a word with a colon that is
/// not a blank node's.
pub(super) fn is_name(token: Token, bytes: &[u8]) -> bool {
    let text = text(bytes, token);
    match token.kind {
        Kind::Iri => true,
        Kind::Word => text.contains(&b':') && !text.starts_with(b"_:"),
        _ => false,
    }
}
