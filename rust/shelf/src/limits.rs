//! The limits that a caller meets, by name.
//!
//! Their numbers stand here and nowhere else in this crate; tests hold them to
//! the engine's source and to the plain engine's, and [`KINDS`] to what the
//! engine refuses.

/// The most bytes of a book's text, and of the axioms that are converted to
/// one.
pub const TEXT_BYTES: usize = 16_384;
/// The most bytes of a word.
pub const WORD_BYTES: usize = 12;
/// The deepest level of a description; a side of a line stands at level 1.
pub const DEPTH: usize = 16;
/// The fewest numbers of a deck: 0 (everything) and 1 (nothing) are always
/// there.
pub const LEAST_NUMBERS: usize = 2;
/// The most numbers of a deck, counting 0 and 1.
pub const NUMBERS: usize = 256;
/// The most roles of a deck.
pub const ROLES: usize = 64;
/// The last kind of a row; the first is 1.
pub const KINDS: usize = 7;
/// The most rows of a deck, and the least length of the deck, the results and
/// the order that are lent with a text.
pub const ROWS: usize = 1_024;
/// The 64-bit words that each number takes in the table: a bit for every
/// number that there can be.
pub const SET_WORDS: usize = NUMBERS.div_ceil(u64::BITS as usize);
/// The least length of the table that is lent with a text.
pub const TABLE_WORDS: usize = SET_WORDS * NUMBERS;
/// The least length of the slice that takes a call's answer.
pub const ANSWER_WORDS: usize = 32;
/// The most sheets of a class.
pub const SHEETS: usize = 64;
/// The numbers that each sheet takes in the report: right, wrong and percent.
pub const SCORE_NUMBERS: usize = 3;
/// The length of a lent text that is enough for the book of any run of axioms.
///
/// A part of an intersection takes 3 bytes beside its own in the book, as in
/// `& a `, but for the last part. A name of k bytes so takes k + 3 bytes there
/// and, with its colon and its gap, k + 2 in the axioms: at most 4 for 3. All
/// else takes fewer bytes in the book than in the axioms. So a book may be
/// longer than its axioms, even over [`TEXT_BYTES`], and is then refused by 1
/// where it is compiled.
pub const CONVERTED_BYTES: usize = TEXT_BYTES * 4 / 3;
/// The bytes of stack that are enough for any call, however deep a description
/// or a class is: marking and converting need most. It is tested and not proved.
pub const STACK_BYTES: usize = 64 * 1024;
