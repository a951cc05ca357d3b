//! Answers a book of strict and usual rules with the proved shelf engine.
//!
//! A book says what is always so and what is usually so, and asks questions.
//! It is compiled to a deck of rows, and settling the deck gives each usual
//! rule its rank by rational closure for the description logic EL with bottom,
//! answers each question, and tables what is strictly within what. The sheets
//! of a class are marked by the replies, and axioms of an ontology editor are
//! converted to a book. The work is done by a library that is proved to meet its
//! definitions and linked statically; this crate lends it buffers and takes its
//! answer apart.
//!
//! ```
//! use shelf::{evaluate, Rank};
//!
//! let book = b"S clone set
//! S & shown hidden -
//! U set shown
//! U clone hidden
//! Q clone shown
//! K clone set
//! ";
//! let settled = evaluate(book)?.classified;
//! assert_eq!((settled.counts.levels, settled.counts.passes), (2, 1));
//! assert_eq!(settled.rank(2), Some(Rank::Finite(0))); // a set is usually shown
//! assert_eq!(settled.rank(3), Some(Rank::Finite(1))); // a clone usually hidden
//! assert_eq!(settled.reply(4), Some(false)); // no clone is usually shown
//! assert_eq!(settled.reply(5), Some(true)); // every clone is a set
//! assert_eq!(settled.order, [2, 3]);
//! # Ok::<(), shelf::Refused>(())
//! ```
//!
//! There are five operations, each in buffers of its own and in buffers that
//! the caller lends:
//!
//! | operation | in its own | in lent ones |
//! |---|---|---|
//! | a book to its deck | [`compile()`] | [`compile_into`] |
//! | a deck to its ranks and replies | [`classify`] | [`classify_into`] |
//! | a book to both | [`evaluate`] | [`evaluate_into`] |
//! | a book and the sheets of a class to their scores | [`mark`] | [`mark_into`] |
//! | a run of axioms to its book | [`convert`] | [`convert_into`] |
//!
//! Besides:
//! - [`Refused`]: which input is refused, where, and who caused it
//! - [`limits`]: every limit by name
//! - [`ontology`]: a whole document of an ontology editor to its book
//! - [`ffi`]: the engine's own calls, with the slice for the answer
//!
//! The book, the sheets, the axioms, and the layout of rows, results, table and
//! report are docs/FORMAT.md of the repository.
//!
//! A call works on its own stack and on what it is lent, and asks for no heap:
//! [`limits::STACK_BYTES`] of stack are enough for any input.
//!
//! Only linking needs the library, libengine.a: `rt lib` in the repository's
//! crates/engine writes it to the folder out there, where it is looked for
//! unless SHELF_ENGINE_DIR names another folder.

#![deny(unsafe_code)]
#![warn(missing_docs)]

#[allow(unsafe_code)]
pub mod ffi;
pub mod limits;
pub mod ontology;
mod outcome;
mod refusal;

pub use outcome::{Classified, Compiled, Counts, Evaluated, EvaluationCounts};
pub use outcome::{Marks, Rank, Score, Sizes, Totals};
pub use refusal::{Cause, Position, Refusal, Refused};

use limits::{ANSWER_WORDS, CONVERTED_BYTES, NUMBERS, ROWS};
use limits::{SCORE_NUMBERS, SET_WORDS, SHEETS, TABLE_WORDS};

/// Compiles a book.
///
/// # Errors
/// Refusals 1 and 3 to 8.
///
/// ```
/// let compiled = shelf::compile(b"S clone set\n")?;
/// assert_eq!(compiled.deck, [0x1000_0002_0000_0003]);
///
/// let refused = shelf::compile(b"S a b").unwrap_err();
/// assert_eq!((refused.refusal, refused.place), (shelf::Refusal::SyntaxError, 5));
/// # Ok::<(), shelf::Refused>(())
/// ```
pub fn compile(text: &[u8]) -> Result<Compiled, Refused> {
    let mut deck = vec![0; ROWS];
    let sizes = compile_into(text, &mut deck)?;
    Ok(Compiled::new(sizes, deck))
}

/// Compiles a book into a lent deck and returns its counts.
///
/// The deck is to be at least [`ROWS`] long. Its first rows are those of the
/// book; what is beyond them is kept.
///
/// # Errors
/// Refusals 1 to 8; the deck is not changed then.
///
/// ```
/// let mut deck = [7; shelf::limits::ROWS];
/// let sizes = shelf::compile_into(b"S clone set\nQ clone /has art\n", &mut deck)?;
/// assert_eq!((sizes.lines, sizes.rows), (2, 4));
/// assert_eq!((sizes.numbers, sizes.roles), (6, 1));
/// assert_eq!(deck[..2], [0x1000_0002_0000_0003, 0x6000_0002_0000_0004]);
/// assert_eq!(deck[4], 7);
/// # Ok::<(), shelf::Refused>(())
/// ```
pub fn compile_into(text: &[u8], deck: &mut [u64]) -> Result<Sizes, Refused> {
    let [lines, rows, numbers, roles] = answer(|answer| ffi::compile(text, deck, answer))?;
    Ok(Sizes {
        lines,
        rows,
        numbers,
        roles,
    })
}

/// Settles a deck of so many numbers and roles.
///
/// # Errors
/// Refusals 11 to 13 and 15 to 18.
///
/// ```
/// let compiled = shelf::compile(b"U * shown\nQ a shown\n")?;
/// let sizes = compiled.sizes;
/// let settled = shelf::classify(&compiled.deck, sizes.numbers, sizes.roles)?;
/// assert_eq!(settled.reply(1), Some(true));
///
/// let refused = shelf::classify(&[0], 2, 0).unwrap_err();
/// assert_eq!((refused.refusal, refused.place), (shelf::Refusal::UnknownKind, 0));
/// # Ok::<(), shelf::Refused>(())
/// ```
pub fn classify(rows: &[u64], numbers: usize, roles: usize) -> Result<Classified, Refused> {
    // More numbers than there can be are refused before the table is looked at.
    let mut table = vec![0; SET_WORDS * numbers.min(NUMBERS)];
    let (mut results, mut order) = (vec![0; rows.len()], vec![0; rows.len()]);
    let counts = classify_into(rows, numbers, roles, &mut table, &mut results, &mut order)?;
    Ok(Classified::new(
        rows, numbers, counts, table, results, order,
    ))
}

/// Settles a deck into lent buffers and returns its counts.
///
/// `table` takes [`SET_WORDS`] words a number, `results` one number a row,
/// `order` the index of each usual row, by rank and within a rank as in the deck;
/// whatever they held before plays no part. What is beyond that is kept. `results`
/// and `order` are both to be at least as long as the deck.
///
/// # Errors
/// Refusals 11 to 18; no lent buffer is changed then.
///
/// ```
/// use shelf::{classify_into, limits::SET_WORDS};
///
/// let rows = [0x5000_0000_0000_0002]; // everything is usually 2
/// let (mut table, mut results, mut order) = ([7; 3 * SET_WORDS], [7; 1], [7; 1]);
/// let counts = classify_into(&rows, 3, 0, &mut table, &mut results, &mut order)?;
/// assert_eq!((counts.levels, counts.passes, counts.yes), (1, 1, 0));
/// assert_eq!((results, order), ([0x8000], [0]));
///
/// let short = classify_into(&rows, 3, 0, &mut table[1..], &mut results, &mut order);
/// assert_eq!(short.unwrap_err().refusal, shelf::Refusal::BufferLength);
/// # Ok::<(), shelf::Refused>(())
/// ```
pub fn classify_into(
    rows: &[u64],
    numbers: usize,
    roles: usize,
    table: &mut [u64],
    results: &mut [u16],
    order: &mut [u16],
) -> Result<Counts, Refused> {
    let [levels, passes, yes] =
        answer(|answer| ffi::classify(rows, numbers, roles, table, results, order, answer))?;
    Ok(Counts {
        levels,
        passes,
        yes,
    })
}

/// Compiles a book and settles it.
///
/// # Errors
/// Refusals 1 and 3 to 8.
///
/// ```
/// let book = b"U stick rare\nS shmup /needs stick\nS /needs rare gem\nQ shmup gem\n";
/// assert_eq!(shelf::evaluate(book)?.classified.reply(3), Some(false));
/// # Ok::<(), shelf::Refused>(())
/// ```
pub fn evaluate(text: &[u8]) -> Result<Evaluated, Refused> {
    let (mut deck, mut table) = (vec![0; ROWS], vec![0; TABLE_WORDS]);
    let (mut results, mut order) = (vec![0; ROWS], vec![0; ROWS]);
    let done = evaluate_into(text, &mut deck, &mut table, &mut results, &mut order)?;
    let EvaluationCounts { sizes, counts } = done;
    let compiled = Compiled::new(sizes, deck);
    let classified = Classified::new(&compiled.deck, sizes.numbers, counts, table, results, order);
    Ok(Evaluated {
        compiled,
        classified,
    })
}

/// Compiles a book and settles it, into lent buffers, and returns the counts of
/// both.
///
/// The table is to be at least [`TABLE_WORDS`] long, each other buffer [`ROWS`].
/// The deck takes the book's rows, the others what [`classify_into`] puts there;
/// what they held before plays no part, and what is beyond is kept.
///
/// # Errors
/// Refusals 1 to 8; no lent buffer is changed then.
///
/// ```
/// use shelf::evaluate_into;
/// use shelf::limits::{ROWS, TABLE_WORDS};
///
/// let (mut deck, mut table) = ([0; ROWS], [0; TABLE_WORDS]);
/// let (mut results, mut order) = ([0; ROWS], [0; ROWS]);
/// let book = b"U * shown\nQ a shown\n";
/// let done = evaluate_into(book, &mut deck, &mut table, &mut results, &mut order)?;
/// assert_eq!((done.sizes.numbers, done.counts.levels), (4, 1));
/// assert_eq!(results[..2], [0x8000, 0x8000]);
///
/// let short = evaluate_into(book, &mut deck, &mut table, &mut results, &mut order[1..]);
/// assert_eq!(short.unwrap_err().refusal, shelf::Refusal::BufferTooShort);
/// # Ok::<(), shelf::Refused>(())
/// ```
pub fn evaluate_into(
    text: &[u8],
    deck: &mut [u64],
    table: &mut [u64],
    results: &mut [u16],
    order: &mut [u16],
) -> Result<EvaluationCounts, Refused> {
    let [lines, rows, numbers, roles, levels, passes, yes] =
        answer(|answer| ffi::evaluate(text, deck, table, results, order, answer))?;
    let sizes = Sizes {
        lines,
        rows,
        numbers,
        roles,
    };
    let counts = Counts {
        levels,
        passes,
        yes,
    };
    Ok(EvaluationCounts { sizes, counts })
}

/// Marks the sheets of a class on a book.
///
/// The sheets are one text. Each is one byte a question, y or n, in the order
/// of the book's lines, and then a line feed; there are at most [`SHEETS`].
///
/// # Errors
/// Refusals 1, 3 to 8 and 21 to 23.
///
/// ```
/// use shelf::{mark, Refusal, Score, Totals};
///
/// let book = b"S clone set\nU set shown\nQ clone shown\nK set clone\n";
/// let marks = mark(book, b"yn\nyy\n")?; // the replies are yes and no
/// assert_eq!(marks.scores[0], Score { right: 2, wrong: 0, percent: 100 });
/// assert_eq!(marks.scores[1], Score { right: 1, wrong: 1, percent: 50 });
/// assert_eq!(marks.totals, Totals { right: 3, wrong: 1 });
///
/// let refused = mark(book, b"yn\nyes\n").unwrap_err();
/// assert_eq!((refused.refusal, refused.place), (Refusal::WrongSheet, 1));
/// # Ok::<(), shelf::Refused>(())
/// ```
pub fn mark(text: &[u8], sheets: &[u8]) -> Result<Marks, Refused> {
    let (mut deck, mut table) = (vec![0; ROWS], vec![0; TABLE_WORDS]);
    let (mut results, mut order) = (vec![0; ROWS], vec![0; ROWS]);
    let mut report = [0; SCORE_NUMBERS * SHEETS];
    let totals = mark_into(
        text,
        sheets,
        &mut deck,
        &mut table,
        &mut results,
        &mut order,
        &mut report,
    )?;
    // Every sheet that is accepted ends with its line feed.
    let count = sheets.iter().filter(|byte| **byte == b'\n').count();
    Ok(Marks::new(count, &report, totals))
}

/// Marks the sheets of a class on a book, into lent buffers, and returns the
/// totals of right and of wrong.
///
/// The report takes [`SCORE_NUMBERS`] numbers a sheet, right, wrong and
/// percent, and is to be at least that long. The other buffers are to be as
/// long as for [`evaluate_into`] and take what it puts there. What they held
/// before plays no part, and what is beyond is kept.
///
/// # Errors
/// Refusals 1 to 8 and 21 to 23; no lent buffer is changed then.
///
/// ```
/// use shelf::limits::{ROWS, TABLE_WORDS};
/// use shelf::mark_into;
///
/// let (mut deck, mut table) = ([0; ROWS], [0; TABLE_WORDS]);
/// let (mut results, mut order, mut report) = ([0; ROWS], [0; ROWS], [7; 8]);
/// let totals = mark_into(
///     b"U * shown\nQ a shown\n",
///     b"y\nn\n",
///     &mut deck,
///     &mut table,
///     &mut results,
///     &mut order,
///     &mut report,
/// )?;
/// assert_eq!((totals.right, totals.wrong), (1, 1));
/// assert_eq!(report, [1, 0, 100, 0, 1, 0, 7, 7]);
/// assert_eq!(results[..2], [0x8000, 0x8000]);
/// # Ok::<(), shelf::Refused>(())
/// ```
pub fn mark_into(
    text: &[u8],
    sheets: &[u8],
    deck: &mut [u64],
    table: &mut [u64],
    results: &mut [u16],
    order: &mut [u16],
    report: &mut [u16],
) -> Result<Totals, Refused> {
    let [right, wrong] =
        answer(|answer| ffi::mark(text, sheets, deck, table, results, order, report, answer))?;
    Ok(Totals {
        right: right as u64,
        wrong: wrong as u64,
    })
}

/// Converts a run of axioms to its book.
///
/// The axioms are `SubClassOf` in OWL 2 functional-style syntax, over `:name`,
/// `owl:Thing`, `owl:Nothing`, `ObjectIntersectionOf` and
/// `ObjectSomeValuesFrom`. Each becomes a line, in order: a usual rule where it
/// has the annotation that says so, else a strict one.
///
/// The limits of a book apply when it is compiled: this book may be over them.
///
/// # Errors
/// Refusal 24.
///
/// ```
/// use shelf::{convert, Refusal};
///
/// let axioms = b"SubClassOf(:clone :set)
/// SubClassOf(ObjectIntersectionOf(:shown :hidden) owl:Nothing)
/// SubClassOf(Annotation(rdfs:comment \"usual\") :set ObjectSomeValuesFrom(:has :art))
/// ";
/// let book = b"S clone set\nS & shown hidden -\nU set /has art\n";
/// assert_eq!(convert(axioms)?, book);
///
/// let refused = convert(b"SubClassOf(:clone)").unwrap_err();
/// assert_eq!((refused.refusal, refused.place), (Refusal::NoRun, 17));
/// # Ok::<(), shelf::Refused>(())
/// ```
pub fn convert(input: &[u8]) -> Result<Vec<u8>, Refused> {
    // Enough for the book of any run, so 25 is not met.
    let mut text = vec![0; CONVERTED_BYTES];
    let length = convert_into(input, &mut text)?;
    text.truncate(length);
    Ok(text)
}

/// Converts a run of axioms to its book, into a lent text, and returns the
/// book's length.
///
/// A text of [`CONVERTED_BYTES`] is always long enough. It begins with the
/// book; what is beyond is kept.
///
/// # Errors
/// Refusals 24 and 25; the text is not changed then.
///
/// ```
/// use shelf::{convert_into, Refusal};
///
/// let mut text = [b'.'; 10];
/// assert_eq!(convert_into(b"SubClassOf(:a owl:Thing)", &mut text)?, 6);
/// assert_eq!(&text, b"S a *\n....");
///
/// let short = convert_into(b"SubClassOf(:a owl:Thing)", &mut text[..5]);
/// assert_eq!(short.unwrap_err().refusal, Refusal::BookRoom);
/// # Ok::<(), shelf::Refused>(())
/// ```
pub fn convert_into(input: &[u8], text: &mut [u8]) -> Result<usize, Refused> {
    let [length] = answer(|answer| ffi::convert(input, text, answer))?;
    Ok(length)
}

/// The first numbers of a call's answer, or its refusal.
fn answer<const COUNT: usize>(
    call: impl FnOnce(&mut [u64]) -> u64,
) -> Result<[usize; COUNT], Refused> {
    let mut answer = [0; ANSWER_WORDS];
    let number = call(&mut answer);
    let said = |index: usize| usize::try_from(answer[index]).expect("a count or a place fits");
    if number == 0 {
        return Ok(std::array::from_fn(said));
    }
    Err(Refused {
        refusal: Refusal::from_number(number).expect("the engine returns a known number"),
        place: said(0),
    })
}
