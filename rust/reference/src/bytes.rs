//! What a byte is to a book, told by comparing.

/// The classes of bytes.
#[derive(Clone, Copy, Debug, PartialEq, Eq, Hash)]
pub enum ByteClass {
    /// A byte that words are made of.
    Word,
    /// `*`, `-`, `&` or `/`: a description may start with it.
    Sign,
    /// What stands between two fields.
    Space,
    /// What ends a line.
    LineEnd,
    /// None of these; the letters that lines start with are of this class.
    Other,
}

/// The class of a byte.
pub fn class_of(byte: u8) -> ByteClass {
    match byte {
        b'a'..=b'z' | b'0'..=b'9' => ByteClass::Word,
        b'*' | b'-' | b'&' | b'/' => ByteClass::Sign,
        b' ' => ByteClass::Space,
        b'\n' => ByteClass::LineEnd,
        _ => ByteClass::Other,
    }
}

/// Whether a word can have this byte.
pub(crate) fn is_word_byte(byte: u8) -> bool {
    class_of(byte) == ByteClass::Word
}
