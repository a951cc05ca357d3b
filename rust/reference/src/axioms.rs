//! Axioms of an ontology editor: a run of SubClassOf axioms in OWL 2
//! functional-style syntax, read by recursive descent.
//!
//! There is a function for each thing that can stand in a run. It takes the
//! bytes of that thing and the gaps behind it, or fails at the first byte that
//! no run could have there. Whatever was taken can be completed to a run, so
//! that place is also the first of all.

use crate::bytes::is_word_byte;
use crate::limits::WORD_BYTES;

/// A class, as an axiom writes it.
#[derive(Clone, Debug, PartialEq, Eq)]
pub enum Class {
    /// `owl:Thing`: everything.
    Thing,
    /// `owl:Nothing`: nothing.
    Nothing,
    /// `:name`
    Named(String),
    /// `ObjectIntersectionOf( C C .. )`: what is in all of its parts, of which
    /// there are two or more.
    Intersection(Vec<Class>),
    /// `ObjectSomeValuesFrom( :role C )`: what has, by that role, some C.
    SomeValues(String, Box<Class>),
}

/// `SubClassOf( sub sup )`: every sub is sup, or a sub is usually sup.
#[derive(Clone, Debug, PartialEq, Eq)]
pub struct Axiom {
    /// Whether it has the annotation that says "usual".
    pub usual: bool,
    /// The class that is said to be within the other.
    pub sub: Class,
    /// The other one.
    pub sup: Class,
}

/// The tokens of the annotation that says "usual".
const USUAL: [&str; 5] = ["Annotation", "(", "rdfs:comment", "\"usual\"", ")"];

/// How a class begins.
const CLASS_STARTS: [&str; 5] = [
    ":",
    "owl:Thing",
    "owl:Nothing",
    "ObjectIntersectionOf",
    "ObjectSomeValuesFrom",
];

/// The fewest parts of an intersection.
const LEAST_PARTS: usize = 2;

/// Reads an input as a run of axioms. Classes in each other are calls in each
/// other: there is no limit on them here, so the caller's limit on the input's
/// length is one on the stack.
///
/// # Errors
/// The offset of the first byte that no run could have there, or the input's
/// length where it ends too early.
pub fn read_run(input: &[u8]) -> Result<Vec<Axiom>, usize> {
    let mut reader = Reader { input, place: 0 };
    reader.gaps();
    let mut axioms = Vec::new();
    while reader.next().is_some() {
        axioms.push(reader.axiom()?);
    }
    Ok(axioms)
}

fn is_gap(byte: u8) -> bool {
    matches!(byte, b' ' | b'\n')
}

fn is_bracket(byte: u8) -> bool {
    matches!(byte, b'(' | b')')
}

struct Reader<'a> {
    input: &'a [u8],
    place: usize,
}

impl Reader<'_> {
    fn next(&self) -> Option<u8> {
        self.input.get(self.place).copied()
    }

    fn gaps(&mut self) {
        while self.next().is_some_and(is_gap) {
            self.place += 1;
        }
    }

    fn axiom(&mut self) -> Result<Axiom, usize> {
        self.token("SubClassOf")?;
        self.token("(")?;
        let usual = self.next() == Some(b'A'); // no class begins so
        if usual {
            USUAL.iter().try_for_each(|token| self.token(token))?;
        }
        let (sub, sup) = (self.class()?, self.class()?);
        self.token(")")?;
        Ok(Axiom { usual, sub, sup })
    }

    fn class(&mut self) -> Result<Class, usize> {
        match self.one_of(&CLASS_STARTS)? {
            ":" => Ok(Class::Named(self.name()?)),
            "owl:Thing" => self.apart().map(|()| Class::Thing),
            "owl:Nothing" => self.apart().map(|()| Class::Nothing),
            "ObjectIntersectionOf" => self.intersection(),
            _ => self.some_values(),
        }
    }

    /// The rest of an intersection, behind its first word.
    fn intersection(&mut self) -> Result<Class, usize> {
        self.gaps();
        self.token("(")?;
        let mut parts = Vec::new();
        while parts.len() < LEAST_PARTS || self.next() != Some(b')') {
            parts.push(self.class()?);
        }
        self.token(")")?;
        Ok(Class::Intersection(parts))
    }

    /// The rest of a restriction, behind its first word.
    fn some_values(&mut self) -> Result<Class, usize> {
        self.gaps();
        self.token("(")?;
        self.one_of(&[":"])?;
        let role = self.name()?;
        let filler = Box::new(self.class()?);
        self.token(")")?;
        Ok(Class::SomeValues(role, filler))
    }

    /// A name, behind its colon.
    fn name(&mut self) -> Result<String, usize> {
        let mut name = String::new();
        while name.len() < WORD_BYTES {
            let Some(byte) = self.next().filter(|byte| is_word_byte(*byte)) else {
                break;
            };
            name.push(char::from(byte));
            self.place += 1;
        }
        if name.is_empty() {
            return Err(self.place);
        }
        self.apart()?;
        Ok(name)
    }

    /// What a name or an owl: class needs behind it: a gap or a bracket.
    fn apart(&mut self) -> Result<(), usize> {
        match self.next() {
            Some(byte) if is_gap(byte) || is_bracket(byte) => {
                self.gaps();
                Ok(())
            }
            _ => Err(self.place),
        }
    }

    /// This token, with the gaps behind it.
    fn token(&mut self, token: &str) -> Result<(), usize> {
        self.one_of(&[token])?;
        self.gaps();
        Ok(())
    }

    /// One of these words, of which none begins another. Fails at the first
    /// byte that goes on with none of them.
    fn one_of<'w>(&mut self, words: &[&'w str]) -> Result<&'w str, usize> {
        let start = self.place;
        let mut possible = words.to_vec();
        loop {
            let taken = self.place - start;
            if let Some(whole) = possible.iter().find(|word| word.len() == taken) {
                return Ok(whole);
            }
            let next = self.next();
            possible.retain(|word| word.as_bytes().get(taken).copied() == next);
            if possible.is_empty() {
                return Err(self.place);
            }
            self.place += 1;
        }
    }
}
