//! The refusals, each with its number and place.

use std::fmt;

/// Why an input is refused.
///
/// Not exhaustive, because each later operation brings refusals of its own.
#[derive(Clone, Copy, Debug, PartialEq, Eq, PartialOrd, Ord, Hash)]
#[non_exhaustive]
pub enum Refusal {
    /// 1, by the book's author: the text is too long.
    TextTooLong,
    /// 2, by the calling frontend: a buffer of fixed least length is too short.
    BufferTooShort,
    /// 3, by the book's author: a byte, or the text's end, that the grammar can't have there.
    SyntaxError,
    /// 4, by the book's author: a word over 12 bytes.
    WordTooLong,
    /// 5, by the book's author: a concept at level 17.
    TooDeep,
    /// 6, by the book's author: a 257th number.
    TooManyNumbers,
    /// 7, by the book's author: a 65th role.
    TooManyRoles,
    /// 8, by the book's author: over 1,024 rows.
    TooManyRows,
    /// 11, by the calling frontend: the count of numbers is under 2 or over 256.
    NumberCount,
    /// 12, by the calling frontend: the count of roles is over 64.
    RoleCount,
    /// 13, by the calling frontend: the deck has over 1,024 rows.
    RowCount,
    /// 14, by the calling frontend: table, results or order is too short for this deck.
    BufferLength,
    /// 15, by whoever stored the deck: kind 0 or 8 to 15.
    UnknownKind,
    /// 16, by whoever stored the deck: an unused field is not 0.
    UnusedField,
    /// 17, by whoever stored the deck: a number is not under the count of numbers.
    NumberOutOfRange,
    /// 18, by whoever stored the deck: a role is not under the count of roles.
    RoleOutOfRange,
    /// 21, by the book's author: the book that a class is marked on has no question.
    NoQuestion,
    /// 22, by the calling frontend: over 64 sheets, or a report of under three numbers a sheet.
    TooManySheets,
    /// 23, by whoever handed the sheet in: a byte other than y or n, another length, or unended.
    WrongSheet,
    /// 24, by the book's author: input that is no run of axioms, or is too long.
    NoRun,
    /// 25, by the calling frontend: the lent text is too short for the book.
    BookRoom,
}

impl Refusal {
    /// Every refusal, by rising number.
    pub const ALL: &'static [Refusal] = &[
        Refusal::TextTooLong,
        Refusal::BufferTooShort,
        Refusal::SyntaxError,
        Refusal::WordTooLong,
        Refusal::TooDeep,
        Refusal::TooManyNumbers,
        Refusal::TooManyRoles,
        Refusal::TooManyRows,
        Refusal::NumberCount,
        Refusal::RoleCount,
        Refusal::RowCount,
        Refusal::BufferLength,
        Refusal::UnknownKind,
        Refusal::UnusedField,
        Refusal::NumberOutOfRange,
        Refusal::RoleOutOfRange,
        Refusal::NoQuestion,
        Refusal::TooManySheets,
        Refusal::WrongSheet,
        Refusal::NoRun,
        Refusal::BookRoom,
    ];

    /// The refusal's number in the scope.
    pub fn number(self) -> u64 {
        match self {
            Refusal::TextTooLong => 1,
            Refusal::BufferTooShort => 2,
            Refusal::SyntaxError => 3,
            Refusal::WordTooLong => 4,
            Refusal::TooDeep => 5,
            Refusal::TooManyNumbers => 6,
            Refusal::TooManyRoles => 7,
            Refusal::TooManyRows => 8,
            Refusal::NumberCount => 11,
            Refusal::RoleCount => 12,
            Refusal::RowCount => 13,
            Refusal::BufferLength => 14,
            Refusal::UnknownKind => 15,
            Refusal::UnusedField => 16,
            Refusal::NumberOutOfRange => 17,
            Refusal::RoleOutOfRange => 18,
            Refusal::NoQuestion => 21,
            Refusal::TooManySheets => 22,
            Refusal::WrongSheet => 23,
            Refusal::NoRun => 24,
            Refusal::BookRoom => 25,
        }
    }

    /// This refusal at a place.
    pub fn at(self, place: usize) -> Refused {
        Refused {
            refusal: self,
            place,
        }
    }
}

/// A refusal with its place: an offset of the text or the axioms, a row's or a
/// sheet's index, or 0.
#[derive(Clone, Copy, Debug, PartialEq, Eq, PartialOrd, Ord, Hash)]
pub struct Refused {
    /// Why.
    pub refusal: Refusal,
    /// Where.
    pub place: usize,
}

impl Refused {
    /// The refusal's number in the scope.
    pub fn number(self) -> u64 {
        self.refusal.number()
    }
}

impl fmt::Display for Refused {
    fn fmt(&self, out: &mut fmt::Formatter<'_>) -> fmt::Result {
        write!(out, "refused {} {}", self.number(), self.place)
    }
}

impl std::error::Error for Refused {}
