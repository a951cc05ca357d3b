//! The engine's own calls, on lent slices: the one place with unsafe code.
//!
//! Each call returns the refusal's number, or 0. Accepted, its last slice,
//! `answer`, begins with the counts, totals or length; refused, the first slot of `answer`
//! takes the place. No other lent number is changed than the call says. An `answer`
//! under [`ANSWER_WORDS`] long is refused by 2 before all else, and then nothing
//! at all is written. The functions of the crate's root make the same calls and
//! give a `Result`.
//!
//! The engine takes each slice as two arguments, a pointer and then the count
//! of its elements. The linker looks at names only, so a test holds these
//! declarations to the engine's source, and each has one call, here.
//!
//! Why each call is sound: the engine asks nothing of its arguments beyond that
//! they are slices, and keeps no pointer. Each pointer comes with the count of
//! the slice it is of, so it is not null, aligned and good for that many
//! elements. A slice that is written is borrowed as `&mut`, so it overlaps
//! neither one that is only read nor another that is written.
//!
//! [`ANSWER_WORDS`]: crate::limits::ANSWER_WORDS

// SAFETY: these are the signatures that the archive of crates/engine exports,
// where a slice is a pointer, then a count, for
// `pub extern "C" fn shelf_compile(text: &[u8], deck: &mut [u64],
// answer: &mut [u64]) -> u64`,
// `pub extern "C" fn shelf_classify(rows: &[u64], numbers: usize, roles: usize,
// table: &mut [u64], results: &mut [u16], order: &mut [u16],
// answer: &mut [u64]) -> u64`,
// `pub extern "C" fn shelf_evaluate(text: &[u8], deck: &mut [u64],
// table: &mut [u64], results: &mut [u16], order: &mut [u16],
// answer: &mut [u64]) -> u64`,
// `pub extern "C" fn shelf_mark(text: &[u8], sheets: &[u8], deck: &mut [u64],
// table: &mut [u64], results: &mut [u16], order: &mut [u16],
// report: &mut [u16], answer: &mut [u64]) -> u64` and
// `pub extern "C" fn shelf_convert(input: &[u8], text: &mut [u8],
// answer: &mut [u64]) -> u64`.
unsafe extern "C" {
    fn shelf_compile(
        text: *const u8,
        text_len: usize,
        deck: *mut u64,
        deck_len: usize,
        answer: *mut u64,
        answer_len: usize,
    ) -> u64;

    fn shelf_classify(
        rows: *const u64,
        rows_len: usize,
        numbers: usize,
        roles: usize,
        table: *mut u64,
        table_len: usize,
        results: *mut u16,
        results_len: usize,
        order: *mut u16,
        order_len: usize,
        answer: *mut u64,
        answer_len: usize,
    ) -> u64;

    fn shelf_evaluate(
        text: *const u8,
        text_len: usize,
        deck: *mut u64,
        deck_len: usize,
        table: *mut u64,
        table_len: usize,
        results: *mut u16,
        results_len: usize,
        order: *mut u16,
        order_len: usize,
        answer: *mut u64,
        answer_len: usize,
    ) -> u64;

    fn shelf_mark(
        text: *const u8,
        text_len: usize,
        sheets: *const u8,
        sheets_len: usize,
        deck: *mut u64,
        deck_len: usize,
        table: *mut u64,
        table_len: usize,
        results: *mut u16,
        results_len: usize,
        order: *mut u16,
        order_len: usize,
        report: *mut u16,
        report_len: usize,
        answer: *mut u64,
        answer_len: usize,
    ) -> u64;

    fn shelf_convert(
        input: *const u8,
        input_len: usize,
        text: *mut u8,
        text_len: usize,
        answer: *mut u64,
        answer_len: usize,
    ) -> u64;
}

/// Compiles a book: `shelf_compile`.
///
/// Accepted, the deck begins with the book's rows and `answer` with lines,
/// rows, numbers and roles; what is beyond is kept.
pub fn compile(text: &[u8], deck: &mut [u64], answer: &mut [u64]) -> u64 {
    // SAFETY: as said above; deck and answer are written.
    unsafe {
        shelf_compile(
            text.as_ptr(),
            text.len(),
            deck.as_mut_ptr(),
            deck.len(),
            answer.as_mut_ptr(),
            answer.len(),
        )
    }
}

/// Settles a deck: `shelf_classify`.
///
/// Accepted, the table takes the words of each number, `results` one number a
/// row, `order` the index of each usual row, by rank and within a rank as in the
/// deck, and `answer` begins with levels, passes and the count of yes; what is
/// beyond is kept.
pub fn classify(
    rows: &[u64],
    numbers: usize,
    roles: usize,
    table: &mut [u64],
    results: &mut [u16],
    order: &mut [u16],
    answer: &mut [u64],
) -> u64 {
    // SAFETY: as said above; table, results, order and answer are written.
    unsafe {
        shelf_classify(
            rows.as_ptr(),
            rows.len(),
            numbers,
            roles,
            table.as_mut_ptr(),
            table.len(),
            results.as_mut_ptr(),
            results.len(),
            order.as_mut_ptr(),
            order.len(),
            answer.as_mut_ptr(),
            answer.len(),
        )
    }
}

/// Compiles a book and settles it: `shelf_evaluate`.
///
/// Accepted, the deck begins with the book's rows, the other three are written
/// as by [`classify`], and `answer` begins with lines, rows, numbers, roles,
/// levels, passes and the count of yes; what is beyond is kept.
pub fn evaluate(
    text: &[u8],
    deck: &mut [u64],
    table: &mut [u64],
    results: &mut [u16],
    order: &mut [u16],
    answer: &mut [u64],
) -> u64 {
    // SAFETY: as said above; all but the text are written.
    unsafe {
        shelf_evaluate(
            text.as_ptr(),
            text.len(),
            deck.as_mut_ptr(),
            deck.len(),
            table.as_mut_ptr(),
            table.len(),
            results.as_mut_ptr(),
            results.len(),
            order.as_mut_ptr(),
            order.len(),
            answer.as_mut_ptr(),
            answer.len(),
        )
    }
}

/// Marks the sheets of a class on a book: `shelf_mark`.
///
/// Accepted, the deck, table, results and order are written as by
/// [`evaluate`], the report begins with right, wrong and percent of each sheet,
/// and `answer` with the totals of right and of wrong; what is beyond is kept.
#[expect(clippy::too_many_arguments, reason = "the call has as many")]
pub fn mark(
    text: &[u8],
    sheets: &[u8],
    deck: &mut [u64],
    table: &mut [u64],
    results: &mut [u16],
    order: &mut [u16],
    report: &mut [u16],
    answer: &mut [u64],
) -> u64 {
    // SAFETY: as said above; all but the text and the sheets are written.
    unsafe {
        shelf_mark(
            text.as_ptr(),
            text.len(),
            sheets.as_ptr(),
            sheets.len(),
            deck.as_mut_ptr(),
            deck.len(),
            table.as_mut_ptr(),
            table.len(),
            results.as_mut_ptr(),
            results.len(),
            order.as_mut_ptr(),
            order.len(),
            report.as_mut_ptr(),
            report.len(),
            answer.as_mut_ptr(),
            answer.len(),
        )
    }
}

/// Converts a run of axioms to its book: `shelf_convert`.
///
/// Accepted, the text begins with the book and `answer` with the book's
/// length; what is beyond is kept.
pub fn convert(input: &[u8], text: &mut [u8], answer: &mut [u64]) -> u64 {
    // SAFETY: as said above; text and answer are written.
    unsafe {
        shelf_convert(
            input.as_ptr(),
            input.len(),
            text.as_mut_ptr(),
            text.len(),
            answer.as_mut_ptr(),
            answer.len(),
        )
    }
}
