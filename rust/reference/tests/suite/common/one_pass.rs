//! A second reader, written as one pass with an early return at the first
//! refusal: another structure than the engine's, for comparison.

use std::collections::BTreeSet;

/// A refusal's number and place.
pub type Refused = (u64, usize);

struct Reader<'t> {
    text: &'t [u8],
    at: usize,
    words: BTreeSet<&'t [u8]>,
    roles: BTreeSet<&'t [u8]>,
    numbers: usize,
    rows: usize,
}

/// Reads a text; gives its counts of rows, numbers and roles.
pub fn read(text: &[u8]) -> Result<[usize; 3], Refused> {
    if text.len() > 16_384 {
        return Err((1, 0));
    }
    let mut reader = Reader {
        text,
        at: 0,
        words: BTreeSet::new(),
        roles: BTreeSet::new(),
        numbers: 2,
        rows: 0,
    };
    while reader.at < text.len() {
        reader.line()?;
    }
    if reader.rows > 1_024 {
        return Err((8, text.len()));
    }
    Ok([reader.rows, reader.numbers, reader.roles.len()])
}

impl<'t> Reader<'t> {
    fn line(&mut self) -> Result<(), Refused> {
        self.one_of(b"SUQK")?;
        self.one_of(b" ")?;
        self.description(1)?;
        self.one_of(b" ")?;
        self.description(1)?;
        self.one_of(b"\n")?;
        self.rows += 1;
        Ok(())
    }

    fn one_of(&mut self, bytes: &[u8]) -> Result<u8, Refused> {
        match self.text.get(self.at) {
            Some(byte) if bytes.contains(byte) => {
                self.at += 1;
                Ok(*byte)
            }
            _ => Err((3, self.at)),
        }
    }

    fn description(&mut self, level: usize) -> Result<(), Refused> {
        let start = self.at;
        let first = self.one_of(b"*-&/abcdefghijklmnopqrstuvwxyz0123456789")?;
        if level == 17 {
            return Err((5, start));
        }
        match first {
            b'*' | b'-' => Ok(()),
            b'&' => {
                self.number(start)?;
                self.rows += 3;
                self.one_of(b" ")?;
                self.description(level + 1)?;
                self.one_of(b" ")?;
                self.description(level + 1)
            }
            b'/' => {
                self.number(start)?;
                self.rows += 2;
                self.role()?;
                self.one_of(b" ")?;
                self.description(level + 1)
            }
            _ => {
                self.at = start;
                let word = self.word()?;
                if self.words.insert(word) {
                    self.number(start)?;
                }
                Ok(())
            }
        }
    }

    fn role(&mut self) -> Result<(), Refused> {
        let start = self.at;
        let word = self.word()?;
        if self.roles.insert(word) && self.roles.len() > 64 {
            return Err((7, start));
        }
        Ok(())
    }

    fn number(&mut self, start: usize) -> Result<(), Refused> {
        self.numbers += 1;
        if self.numbers > 256 {
            return Err((6, start));
        }
        Ok(())
    }

    fn word(&mut self) -> Result<&'t [u8], Refused> {
        let start = self.at;
        let letters = b"abcdefghijklmnopqrstuvwxyz0123456789";
        self.one_of(letters)?;
        while self.one_of(letters).is_ok() {}
        if self.at - start > 12 {
            return Err((4, start));
        }
        Ok(&self.text[start..self.at])
    }
}
