//! The grammar alone, with words and levels of any size: a text becomes
//! tokens up to the first byte that no book can have there.

use crate::bytes::{class_of, is_word_byte, ByteClass};
use crate::concept::Kind;

/// What a token is.
#[derive(Clone, Copy, Debug, PartialEq, Eq)]
pub enum Symbol<'a> {
    /// A line's letter.
    Letter(Kind),
    /// `*`
    Top,
    /// `-`
    Bottom,
    /// A concept name.
    Word(&'a [u8]),
    /// `&`
    And,
    /// `/`
    Exists,
    /// A role's word, just behind its `/`.
    Role(&'a [u8]),
}

/// A token with the place of its first byte.
#[derive(Clone, Copy, Debug, PartialEq, Eq)]
pub struct Token<'a> {
    /// What it is.
    pub symbol: Symbol<'a>,
    /// The offset of its first byte.
    pub offset: usize,
    /// The level of the concept that begins here; 0 where none begins.
    pub level: usize,
}

/// What the grammar makes of a text.
#[derive(Clone, Debug, PartialEq, Eq)]
pub struct Scan<'a> {
    /// The tokens, left to right, up to the broken place if there is one.
    pub tokens: Vec<Token<'a>>,
    /// The first offset whose byte, or whose end of text, no book has there.
    pub broken_at: Option<usize>,
}

/// A part of a book that has to come next.
enum Part {
    Line,
    Letter,
    Concept(usize),
    Role,
    /// One byte of this class.
    Byte(ByteClass),
}

/// What is due between two fields.
const SPACE: Part = Part::Byte(ByteClass::Space);
/// What is due at the end of a line.
const LINE_END: Part = Part::Byte(ByteClass::LineEnd);

struct Scanner<'a> {
    text: &'a [u8],
    place: usize,
    tokens: Vec<Token<'a>>,
    /// The parts still to come, the next one last.
    ahead: Vec<Part>,
}

/// Reads a text by the grammar.
pub fn scan(text: &[u8]) -> Scan<'_> {
    let mut scanner = Scanner {
        text,
        place: 0,
        tokens: Vec::new(),
        ahead: Vec::new(),
    };
    let mut broken_at = None;
    while scanner.place < text.len() || !scanner.ahead.is_empty() {
        let part = scanner.ahead.pop().unwrap_or(Part::Line);
        if !scanner.take(part) {
            broken_at = Some(scanner.place);
            break;
        }
    }
    Scan {
        tokens: scanner.tokens,
        broken_at,
    }
}

impl<'a> Scanner<'a> {
    /// Takes one part at the present place. False, with the place kept, when
    /// the byte or the text's end there can't begin it.
    fn take(&mut self, part: Part) -> bool {
        match part {
            Part::Line => self.take_line(),
            Part::Letter => self.take_letter(),
            Part::Concept(level) => self.take_concept(level),
            Part::Role => self.take_role(),
            Part::Byte(class) => self.take_byte(class),
        }
    }

    fn next_byte(&self) -> Option<u8> {
        self.text.get(self.place).copied()
    }

    /// Puts parts before all that is still to come, in the order given.
    fn expect<const COUNT: usize>(&mut self, parts: [Part; COUNT]) {
        self.ahead.extend(parts.into_iter().rev());
    }

    fn take_line(&mut self) -> bool {
        self.expect([
            Part::Letter,
            SPACE,
            Part::Concept(1),
            SPACE,
            Part::Concept(1),
            LINE_END,
        ]);
        true
    }

    fn take_byte(&mut self, class: ByteClass) -> bool {
        let fits = self.next_byte().map(class_of) == Some(class);
        self.place += usize::from(fits);
        fits
    }

    fn take_letter(&mut self) -> bool {
        let Some(kind) = self.next_byte().and_then(Kind::of_letter) else {
            return false;
        };
        self.push(Symbol::Letter(kind), 1, 0);
        true
    }

    fn take_concept(&mut self, level: usize) -> bool {
        match self.next_byte() {
            Some(b'*') => self.push(Symbol::Top, 1, level),
            Some(b'-') => self.push(Symbol::Bottom, 1, level),
            Some(b'&') => {
                self.push(Symbol::And, 1, level);
                self.expect([
                    SPACE,
                    Part::Concept(level + 1),
                    SPACE,
                    Part::Concept(level + 1),
                ]);
            }
            Some(b'/') => {
                self.push(Symbol::Exists, 1, level);
                self.expect([Part::Role, SPACE, Part::Concept(level + 1)]);
            }
            Some(byte) if is_word_byte(byte) => {
                let word = self.word();
                self.push(Symbol::Word(word), word.len(), level);
            }
            _ => return false,
        }
        true
    }

    fn take_role(&mut self) -> bool {
        let word = self.word();
        if word.is_empty() {
            return false;
        }
        self.push(Symbol::Role(word), word.len(), 0);
        true
    }

    /// The longest run of word bytes at the present place.
    fn word(&self) -> &'a [u8] {
        let rest = &self.text[self.place..];
        let length = rest.iter().take_while(|byte| is_word_byte(**byte)).count();
        &rest[..length]
    }

    fn push(&mut self, symbol: Symbol<'a>, length: usize, level: usize) {
        self.tokens.push(Token {
            symbol,
            offset: self.place,
            level,
        });
        self.place += length;
    }
}
