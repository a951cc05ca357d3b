//! Every limit of the scope, by name.

/// The most bytes a book may have.
pub const TEXT_BYTES: usize = 16_384;
/// The most bytes a word may have.
pub const WORD_BYTES: usize = 12;
/// The deepest level a concept may stand at.
pub const DEPTH: usize = 16;
/// The most numbers of a deck, counting 0 (everything) and 1 (nothing).
pub const NUMBERS: usize = 256;
/// The fewest numbers of a deck: 0 and 1 are always there.
pub const LEAST_NUMBERS: usize = 2;
/// The most roles of a deck.
pub const ROLES: usize = 64;
/// The most rows of a deck, and the least length of the deck, the results and
/// the order that are lent with a text.
pub const ROWS: usize = 1_024;
/// The least length of the table that is lent with a text.
pub const TABLE_WORDS: usize = 1_024;
/// The 64-bit words that one row of the strict table takes.
pub const SET_WORDS: usize = 4;
/// The least length of the slice that takes a call's answer.
pub const ANSWER_WORDS: usize = 32;
/// The most sheets of a class.
pub const SHEETS: usize = 64;
/// The numbers that one sheet takes in the report: right, wrong, percent.
pub const SCORE_NUMBERS: usize = 3;
