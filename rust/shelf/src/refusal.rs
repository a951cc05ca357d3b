//! The refusals: number, meaning, and who causes them.

use crate::limits::{ANSWER_WORDS, DEPTH, KINDS, LEAST_NUMBERS, NUMBERS, ROLES, ROWS};
use crate::limits::{SCORE_NUMBERS, SET_WORDS, SHEETS, TABLE_WORDS, TEXT_BYTES, WORD_BYTES};
use std::fmt;

/// Who can cause a refusal.
///
/// Not exhaustive, because a later operation may take input from others, as
/// marking takes sheets.
#[derive(Clone, Copy, Debug, PartialEq, Eq, Hash)]
#[non_exhaustive]
pub enum Cause {
    /// The book's author, or the author of the axioms that are converted to it:
    /// either writes the rules.
    Author,
    /// The calling frontend.
    Frontend,
    /// Whoever stored the deck.
    Storer,
    /// Whoever handed the sheet in.
    Submitter,
}

/// What a refusal's place is.
#[derive(Clone, Copy, PartialEq, Eq)]
enum Place {
    /// 0: it points nowhere.
    Zero,
    /// An offset of the text or of the axioms, or their end.
    Byte,
    /// The text's length.
    Length,
    /// A row's index.
    Row,
    /// A sheet's index.
    Sheet,
}

/// Declares the refusals, an entry each: number, cause, place, meaning.
macro_rules! refusals {
    ($(
        $(#[$doc:meta])*
        $name:ident = $number:literal, $cause:ident, $place:ident, $meaning:literal;
    )*) => {
        /// Why the engine refuses an input.
        ///
        /// Compiling a book, alone or before settling it, refuses by 1 to 8;
        /// settling a deck by 11 to 18; marking the sheets of a class by 1 to
        /// 8 and, behind these, by 21 to 23; converting axioms by 24 and 25.
        /// Every call refuses by 2 when its slice for the answer is short.
        ///
        /// Not exhaustive, because each later operation brings refusals of its
        /// own. The numbers of those that are here stay.
        #[derive(Clone, Copy, Debug, PartialEq, Eq, PartialOrd, Ord, Hash)]
        #[non_exhaustive]
        #[repr(u8)]
        pub enum Refusal {
            $($(#[$doc])* $name = $number,)*
        }

        impl Refusal {
            /// Every refusal, by rising number.
            pub const ALL: &'static [Refusal] = &[$(Refusal::$name),*];

            /// Who causes it.
            pub fn cause(self) -> Cause {
                match self {
                    $(Refusal::$name => Cause::$cause,)*
                }
            }

            /// What its place is.
            fn place(self) -> Place {
                match self {
                    $(Refusal::$name => Place::$place,)*
                }
            }

            /// What is wrong, in a few words.
            pub fn meaning(self) -> String {
                match self {
                    $(Refusal::$name => format!($meaning),)*
                }
            }
        }
    };
}

refusals! {
    /// 1: the text is over [`TEXT_BYTES`] bytes. The book's author causes it;
    /// its place is 0.
    TextTooLong = 1, Author, Zero,
        "the text is over {TEXT_BYTES} bytes";
    /// 2: a buffer of a fixed least length is shorter than that: the slice
    /// for the answer under [`ANSWER_WORDS`], or lent with a text the table
    /// under [`TABLE_WORDS`] or the deck, results or order under [`ROWS`]. The
    /// calling frontend causes it; its place is 0, written only where the
    /// slice for the answer is long enough.
    BufferTooShort = 2, Frontend, Zero,
        "a lent buffer is too short: the answer under {ANSWER_WORDS}, the table under \
         {TABLE_WORDS}, or the deck, results or order under {ROWS}";
    /// 3: a byte, or the text's end, that the grammar can't have there. The
    /// book's author causes it; its place is the byte's offset.
    SyntaxError = 3, Author, Byte,
        "a byte, or the text's end, that the grammar can't have there";
    /// 4: a word over [`WORD_BYTES`] bytes. The book's author causes it; its
    /// place is the word's first byte.
    WordTooLong = 4, Author, Byte,
        "a word over {WORD_BYTES} bytes";
    /// 5: a description deeper than level [`DEPTH`]. The book's author causes it;
    /// its place is the description's first byte.
    TooDeep = 5, Author, Byte,
        "a description deeper than level {DEPTH}";
    /// 6: the book takes over [`NUMBERS`] numbers. Its author causes it; its
    /// place is the first byte of what would take one too many.
    TooManyNumbers = 6, Author, Byte,
        "the book takes over {NUMBERS} numbers";
    /// 7: the book takes over [`ROLES`] roles. Its author causes it; its place
    /// is the first byte of the role word that is one too many.
    TooManyRoles = 7, Author, Byte,
        "the book takes over {ROLES} roles";
    /// 8: the book takes over [`ROWS`] rows. Its author causes it; its place is
    /// the text's length.
    TooManyRows = 8, Author, Length,
        "the book takes over {ROWS} rows";
    /// 11: the count of numbers is under [`LEAST_NUMBERS`] or over
    /// [`NUMBERS`]. The calling frontend causes it; its place is 0.
    NumberCount = 11, Frontend, Zero,
        "the count of numbers is under {LEAST_NUMBERS} or over {NUMBERS}";
    /// 12: the count of roles is over [`ROLES`]. The calling frontend causes
    /// it; its place is 0.
    RoleCount = 12, Frontend, Zero,
        "the count of roles is over {ROLES}";
    /// 13: the deck has over [`ROWS`] rows. The calling frontend causes it; its
    /// place is 0.
    RowCount = 13, Frontend, Zero,
        "the deck has over {ROWS} rows";
    /// 14: the table has under [`SET_WORDS`] words a number, or the results or
    /// the order are shorter than the deck. The calling frontend causes it;
    /// its place is 0.
    BufferLength = 14, Frontend, Zero,
        "the table has under {SET_WORDS} words a number, or the results or the order are \
         shorter than the deck";
    /// 15: a row of kind 0 or over [`KINDS`]. Whoever stored the deck causes
    /// it; its place is the row's index.
    UnknownKind = 15, Storer, Row,
        "a row of kind 0 or over {KINDS}";
    /// 16: a field that the row's kind doesn't use is not 0. Whoever stored
    /// the deck causes it; its place is the row's index.
    UnusedField = 16, Storer, Row,
        "a row with an unused field that is not 0";
    /// 17: a number of a row is not under the count of numbers. Whoever
    /// stored the deck causes it; its place is the row's index.
    NumberOutOfRange = 17, Storer, Row,
        "a row with a number not under the count of numbers";
    /// 18: the role of a row is not under the count of roles. Whoever stored
    /// the deck causes it; its place is the row's index.
    RoleOutOfRange = 18, Storer, Row,
        "a row with a role not under the count of roles";
    /// 21: the book that a class is marked on has no question. Its author
    /// causes it; its place is 0.
    NoQuestion = 21, Author, Zero,
        "the book has no question";
    /// 22: there are over [`SHEETS`] sheets, or the lent report has under
    /// [`SCORE_NUMBERS`] numbers a sheet. The calling frontend causes it; its
    /// place is 0.
    TooManySheets = 22, Frontend, Zero,
        "there are over {SHEETS} sheets, or the report has under {SCORE_NUMBERS} numbers a sheet";
    /// 23: a sheet has a byte other than y or n, is longer or shorter than the
    /// book has questions, or doesn't end with a line feed. Whoever handed it
    /// in causes it; its place is the sheet's index, the lowest of such sheets.
    WrongSheet = 23, Submitter, Sheet,
        "a sheet with a byte other than y or n, of another length than the book has questions, \
         or without its line feed";
    /// 24: what is to be converted is no run of axioms, or has over
    /// [`TEXT_BYTES`] bytes. Its author causes it; its place is the offset of
    /// the first byte that no run could have there, or the end where it is cut
    /// short, and [`TEXT_BYTES`] where it is too long, which comes first.
    NoRun = 24, Author, Byte,
        "a byte, or the end, that no run of axioms could have there, or axioms of over \
         {TEXT_BYTES} bytes";
    /// 25: the lent text is too short for the book that axioms are converted
    /// to. The calling frontend causes it; its place is 0.
    BookRoom = 25, Frontend, Zero,
        "the lent text is too short for the book";
}

impl Refusal {
    /// The refusal's number, as the engine returns it.
    pub fn number(self) -> u64 {
        self as u64
    }

    /// The refusal with this number, if there is one.
    pub fn from_number(number: u64) -> Option<Refusal> {
        let mut all = Refusal::ALL.iter().copied();
        all.find(|refusal| refusal.number() == number)
    }
}

/// A refusal with its place: an offset of the text or of the axioms, a row's or
/// a sheet's index, or 0.
#[derive(Clone, Copy, Debug, PartialEq, Eq, PartialOrd, Ord, Hash)]
pub struct Refused {
    /// Why.
    pub refusal: Refusal,
    /// Where.
    pub place: usize,
}

/// A place in a text, for people.
#[derive(Clone, Copy, Debug, PartialEq, Eq, PartialOrd, Ord, Hash)]
pub struct Position {
    /// The line, from 1.
    pub line: usize,
    /// The byte of that line, from 1. The line feed, or the text's end, is one
    /// behind the last.
    pub column: usize,
}

/// How many bytes of a line are shown before a marked byte, and from it on.
const SHOWN_BEFORE: usize = 60;
const SHOWN_FROM: usize = 40;
/// What stands where a line goes on that is not shown.
const CUT: &str = "...";
/// What some editors put before a text's first byte, and what is said of it.
pub(crate) const BYTE_ORDER_MARK: &[u8] = b"\xEF\xBB\xBF";
const MARKED: &str = " (the first three bytes are a byte order mark)";

impl Position {
    /// The position in words, the line of the text that it is in, and a mark
    /// below the byte. Bytes that have no form in print are shown as dots; of a
    /// long line only what stands near the byte is shown, between three dots. A
    /// byte order mark has no form in print either: where it is shown that is said.
    ///
    /// ```
    /// let position = shelf::Position { line: 2, column: 3 };
    /// assert_eq!(position.show(b"yn\nny?\n"), "line 2, column 3\nny?\n  ^");
    /// ```
    pub fn show(&self, text: &[u8]) -> String {
        let mut lines = text.split(|byte| *byte == b'\n');
        let line = lines.nth(self.line.saturating_sub(1)).unwrap_or_default();
        let column = self.column.saturating_sub(1);
        let start = column.saturating_sub(SHOWN_BEFORE).min(line.len());
        let end = line.len().min(column + SHOWN_FROM);
        let before = if start > 0 { CUT } else { "" };
        let behind = if end < line.len() { CUT } else { "" };
        let shown: String = line[start..end].iter().copied().map(printable).collect();
        let mark = " ".repeat(before.len() + column - start) + "^";
        let has_mark = self.line == 1 && start == 0 && text.starts_with(BYTE_ORDER_MARK);
        let marked = if has_mark { MARKED } else { "" };
        format!("{self}{marked}\n{before}{shown}{behind}\n{mark}")
    }
}

impl fmt::Display for Position {
    fn fmt(&self, out: &mut fmt::Formatter<'_>) -> fmt::Result {
        write!(out, "line {}, column {}", self.line, self.column)
    }
}

impl Refused {
    /// Line and column of the place in the refused book, for 24 in the refused
    /// axioms. None for refusals that point at no byte of them: only 3 to 7 and
    /// 24 do.
    ///
    /// ```
    /// let text = b"S a b\nU & a b\n";
    /// let refused = shelf::compile(text).unwrap_err();
    /// let position = refused.position(text).unwrap();
    /// assert_eq!((position.line, position.column), (2, 8));
    /// ```
    pub fn position(&self, text: &[u8]) -> Option<Position> {
        if self.refusal.place() != Place::Byte {
            return None;
        }
        let before = text.get(..self.place)?;
        let lines = before.split(|byte| *byte == b'\n');
        let column = 1 + lines.clone().next_back()?.len();
        let line = lines.count();
        Some(Position { line, column })
    }

    /// The refusal in words, and where it points at a byte of the text its
    /// position, that line and a mark below the byte.
    ///
    /// ```
    /// let text = b"S a b\nU & a b\n";
    /// let refused = shelf::compile(text).unwrap_err();
    /// assert_eq!(
    ///     refused.show(text),
    ///     "refused 3 13: a byte, or the text's end, that the grammar can't have there\n\
    ///      line 2, column 8\n\
    ///      U & a b\n\
    ///      \x20      ^"
    /// );
    /// ```
    pub fn show(&self, text: &[u8]) -> String {
        match self.position(text) {
            Some(position) => format!("{self}\n{}", position.show(text)),
            None => self.to_string(),
        }
    }
}

/// A byte as one character: itself, or a dot where it has no form in print.
fn printable(byte: u8) -> char {
    match byte {
        b' '..=b'~' => char::from(byte),
        _ => '.',
    }
}

impl fmt::Display for Refused {
    fn fmt(&self, out: &mut fmt::Formatter<'_>) -> fmt::Result {
        let Refused { refusal, place } = self;
        let number = refusal.number();
        write!(out, "refused {number} {place}: {}", refusal.meaning())
    }
}

impl std::error::Error for Refused {}
