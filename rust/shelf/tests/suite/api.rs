//! The safe functions over the calls, what their types say, and the limits by
//! name.

use crate::common::books::{each_number, MOST_WORDS, P1, TOO_LONG};
use crate::common::classes::SafeLent;
use crate::common::decks::{query, strict_query, usually, within, BOTTOM, TOP};
use shelf::limits::{self, DEPTH, NUMBERS, ROLES, ROWS, SCORE_NUMBERS, SET_WORDS};
use shelf::limits::{SHEETS, TABLE_WORDS};
use shelf::{classify, classify_into, compile, compile_into, convert, convert_into};
use shelf::{
    evaluate, evaluate_into, mark, Cause, Counts, Position, Rank, Refusal, Score, Sizes, Totals,
};
use shelf_reference::{deck, limits as plain_limits};

/// Every limit that a caller can name is the plain engine's.
#[test]
fn limits_are_those_of_the_plain_engine() {
    macro_rules! alike {
        ($($name:ident)*) => {
            $(assert_eq!(limits::$name, plain_limits::$name, stringify!($name));)*
        };
    }
    alike!(TEXT_BYTES WORD_BYTES DEPTH LEAST_NUMBERS NUMBERS ROLES ROWS);
    alike!(SET_WORDS TABLE_WORDS ANSWER_WORDS SHEETS SCORE_NUMBERS);
    assert_eq!(limits::KINDS, usize::from(deck::STRICT_QUERY));
}

/// The numbers are those of the scope, and of the plain engine.
#[test]
fn refusals_have_their_numbers() {
    let numbers: Vec<u64> = Refusal::ALL.iter().map(|it| it.number()).collect();
    let expected: Vec<u64> = (1..=8).chain(11..=18).chain(21..=25).collect();
    assert_eq!(numbers, expected);
    let plain = shelf_reference::Refusal::ALL.iter();
    let plain: Vec<u64> = plain.map(|it| it.number()).collect();
    assert_eq!(numbers, plain);
    for refusal in Refusal::ALL {
        assert_eq!(Refusal::from_number(refusal.number()), Some(*refusal));
    }
    for number in [0, 9, 10, 19, 20, 26, 257, u64::MAX] {
        assert_eq!(Refusal::from_number(number), None);
    }
}

/// A refusal has the plain engine's name too, and its words have the limit it
/// is about.
#[test]
fn refusals_have_their_names_and_words() {
    for (refusal, plain) in Refusal::ALL.iter().zip(shelf_reference::Refusal::ALL) {
        assert_eq!(format!("{refusal:?}"), format!("{plain:?}"));
    }
    let about = [
        (Refusal::TextTooLong, limits::TEXT_BYTES),
        (Refusal::BufferTooShort, limits::ANSWER_WORDS),
        (Refusal::BufferTooShort, TABLE_WORDS),
        (Refusal::BufferTooShort, ROWS),
        (Refusal::WordTooLong, limits::WORD_BYTES),
        (Refusal::TooDeep, DEPTH),
        (Refusal::TooManyNumbers, NUMBERS),
        (Refusal::TooManyRoles, ROLES),
        (Refusal::TooManyRows, ROWS),
        (Refusal::NumberCount, limits::LEAST_NUMBERS),
        (Refusal::NumberCount, NUMBERS),
        (Refusal::RoleCount, ROLES),
        (Refusal::RowCount, ROWS),
        (Refusal::BufferLength, SET_WORDS),
        (Refusal::UnknownKind, limits::KINDS),
        (Refusal::TooManySheets, SHEETS),
        (Refusal::TooManySheets, SCORE_NUMBERS),
        (Refusal::NoRun, limits::TEXT_BYTES),
    ];
    for (refusal, limit) in about {
        let meaning = refusal.meaning();
        let mut numbers = meaning.split(|it: char| !it.is_ascii_digit());
        assert!(numbers.any(|it| it == limit.to_string()), "{meaning}");
    }
}

/// Who causes each refusal, as the scope lists them.
#[test]
fn refusals_have_their_causes() {
    for refusal in Refusal::ALL {
        let cause = match refusal.number() {
            1 | 3 | 4 | 5 | 6 | 7 | 8 | 21 | 24 => Cause::Author,
            2 | 11 | 12 | 13 | 14 | 22 | 25 => Cause::Frontend,
            23 => Cause::Submitter,
            _ => Cause::Storer,
        };
        assert_eq!(refusal.cause(), cause);
    }
}

/// The counts of a compiled book, from their fields.
fn sizes(sizes: Sizes) -> [usize; 4] {
    [sizes.lines, sizes.rows, sizes.numbers, sizes.roles]
}

/// The counts of a settled deck, from their fields.
fn counts(counts: Counts) -> [usize; 3] {
    [counts.levels, counts.passes, counts.yes]
}

/// P1 through each of the safe functions: every count in its own field, the same
/// rows and results from each, and a lent buffer's rest kept.
#[test]
fn p1_through_the_safe_functions() {
    let p1 = P1.as_bytes();
    let compiled = compile(p1).unwrap();
    let deck = &compiled.deck;
    assert_eq!(sizes(compiled.sizes), [10, 23, 13, 1]);
    assert_eq!(deck.len(), 23);
    assert_eq!(deck[0], 0x1000_0002_0000_0003);
    assert_eq!(deck[5], 0x5000_0008_0000_0005);
    let settled = classify(deck, 13, 1).unwrap();
    assert_eq!(counts(settled.counts), [3, 1, 2]);
    assert_eq!(settled.table.len(), 13 * SET_WORDS);
    assert_eq!(settled.results.len(), 23);
    let both = evaluate(p1).unwrap();
    assert_eq!((&both.compiled, &both.classified), (&compiled, &settled));

    let (mut rows, mut table) = ([7; ROWS], [7; TABLE_WORDS]);
    let (mut results, mut order) = ([7; ROWS], [7; ROWS]);
    assert_eq!(compile_into(p1, &mut rows).unwrap(), compiled.sizes);
    assert_eq!(rows, filled_up(deck));
    rows = [7; ROWS];
    let done = evaluate_into(p1, &mut rows, &mut table, &mut results, &mut order).unwrap();
    assert_eq!((done.sizes, done.counts), (compiled.sizes, settled.counts));
    assert_eq!(rows, filled_up(deck));
    assert_eq!(table, filled_up(&settled.table));
    assert_eq!(results, filled_up(&settled.results));
    assert_eq!(order, filled_up(&settled.order));
    (table, results, order) = ([7; TABLE_WORDS], [7; ROWS], [7; ROWS]);
    let again = classify_into(deck, 13, 1, &mut table, &mut results, &mut order).unwrap();
    assert_eq!(again, settled.counts);
    assert_eq!(table, filled_up(&settled.table));
    assert_eq!(results, filled_up(&settled.results));
    assert_eq!(order, filled_up(&settled.order));
}

/// A class on P1 through both functions that mark: each number in its own field,
/// and the lent buffers as a sitting leaves them.
#[test]
fn a_class_through_the_safe_functions() {
    let (p1, sheets) = (P1.as_bytes(), b"nnyy\nynyn\n");
    let marks = mark(p1, sheets).unwrap();
    let score = |right, wrong, percent| Score {
        right,
        wrong,
        percent,
    };
    assert_eq!(marks.scores, [score(4, 0, 100), score(2, 2, 50)]);
    assert_eq!(marks.totals, Totals { right: 6, wrong: 2 });
    assert_eq!(mark(p1, b"").unwrap().scores, []);

    let mut lent = SafeLent::of_sevens(9);
    assert_eq!(lent.mark(p1, sheets).unwrap(), marks.totals);
    let settled = evaluate(p1).unwrap();
    assert_eq!(lent.deck, filled_up(&settled.compiled.deck));
    assert_eq!(lent.table, filled_up(&settled.classified.table));
    assert_eq!(lent.results, filled_up(&settled.classified.results));
    assert_eq!(lent.order, filled_up(&settled.classified.order));
    assert_eq!(lent.report, [4, 0, 100, 2, 2, 50, 7, 7, 7]);
}

/// Each refusal of marking comes out of the safe functions with its place, changes
/// no lent buffer, and points at no byte of the book but where reading does.
#[test]
fn refusals_of_a_class_come_out_of_the_safe_functions() {
    let (p1, no_question) = (P1.as_bytes(), &b"S a b\n"[..]);
    let crowd = b"nnyy\n".repeat(SHEETS + 1);
    let vectors: [(&[u8], &[u8], Refusal, usize); 6] = [
        (b"S a b", b"", Refusal::SyntaxError, 5),
        (no_question, b"", Refusal::NoQuestion, 0),
        (no_question, &crowd, Refusal::NoQuestion, 0),
        (p1, &crowd, Refusal::TooManySheets, 0),
        (p1, b"nnyy\nnnyy\nnny?\n", Refusal::WrongSheet, 2),
        (p1, b"nnyy\nnnyy", Refusal::WrongSheet, 1),
    ];
    for (text, sheets, refusal, place) in vectors {
        let refused = mark(text, sheets).unwrap_err();
        assert_eq!((refused.refusal, refused.place), (refusal, place));
        let shown = format!("refused {} {place}: ", refusal.number());
        assert!(refused.show(text).starts_with(&shown));
        let points = refusal == Refusal::SyntaxError;
        assert_eq!(refused.position(text).is_some(), points);
        assert_eq!(refused.show(text) != refused.to_string(), points);
        let before = SafeLent::of_sevens(SCORE_NUMBERS * SHEETS + 3);
        let mut lent = before.clone();
        assert_eq!(lent.mark(text, sheets).unwrap_err(), refused);
        assert_eq!(lent, before);
    }
}

/// Axioms through both functions that convert: the same book, and the rest of a
/// lent text kept.
#[test]
fn axioms_through_the_safe_functions() {
    let axioms = b"SubClassOf(:a ObjectIntersectionOf(:b :c owl:Thing))\nSubClassOf(:a :b)";
    let book = b"S a & b & c *\nS a b\n";
    assert_eq!(convert(axioms).unwrap(), book);
    assert_eq!(convert(b"").unwrap(), b"");
    let mut text = [7; 100];
    assert_eq!(convert_into(axioms, &mut text).unwrap(), book.len());
    assert_eq!(text, filled_up(book));
    let mut text = [7; 20];
    assert_eq!(convert_into(axioms, &mut text).unwrap(), text.len());
    assert_eq!(&text, book);
}

/// Each refusal of converting comes out of the safe functions with its place, and
/// changes no lent byte. 24 points at a byte of the axioms, or at their end; where
/// they are too long, at the first byte that is too much.
#[test]
fn refusals_of_axioms_come_out_of_the_safe_functions() {
    let mut too_long = b"SubClassOf(:a :b)\n".repeat(1_000);
    let broken = b"SubClassOf(:a :b)\nSubClassOf(:a  )\n";
    let vectors: [(&[u8], usize, (usize, usize)); 4] = [
        (b"!", 0, (1, 1)),
        (broken, 33, (2, 16)),
        (b"SubClassOf(:a :b)\n\nSubClassOf(:a ", 33, (3, 15)),
        (&too_long, limits::TEXT_BYTES, (911, 5)),
    ];
    for (axioms, place, position) in vectors {
        let refused = convert(axioms).unwrap_err();
        assert_eq!((refused.refusal, refused.place), (Refusal::NoRun, place));
        let found = refused.position(axioms).unwrap();
        assert_eq!((found.line, found.column), position);
        let mut text = [7; 100];
        assert_eq!(convert_into(axioms, &mut text).unwrap_err(), refused);
        assert_eq!(text, [7; 100]);
    }
    let shown = convert(broken).unwrap_err().show(broken);
    let end = "\nline 2, column 16\nSubClassOf(:a  )\n               ^";
    assert!(shown.starts_with("refused 24 33: a byte, or the end, that no run of axioms "));
    assert!(shown.ends_with(end), "{shown}");
    too_long.truncate(limits::TEXT_BYTES);
    assert_eq!(convert(&too_long).unwrap_err().place, limits::TEXT_BYTES);
    let mut text = [7; 5];
    let short = convert_into(b"SubClassOf(:a :b)", &mut text).unwrap_err();
    assert_eq!((short.refusal, short.place), (Refusal::BookRoom, 0));
    assert_eq!((short.position(b"SubClassOf(:a :b)"), text), (None, [7; 5]));
}

/// The values at the start of a buffer that held 7 throughout.
fn filled_up<T: Copy + From<u8>, const LENGTH: usize>(values: &[T]) -> [T; LENGTH] {
    let mut buffer = [T::from(7); LENGTH];
    buffer[..values.len()].copy_from_slice(values);
    buffer
}

/// Each refusal of settling comes out of the safe functions with its place.
#[test]
fn refusals_come_out_of_the_safe_functions() {
    let good = within(0, 0);
    let long = vec![good; ROWS + 1];
    let vectors: [(&[u64], usize, usize, Refusal, usize); 8] = [
        (&[], 1, 0, Refusal::NumberCount, 0),
        (&[], usize::MAX, 0, Refusal::NumberCount, 0),
        (&[], 2, ROLES + 1, Refusal::RoleCount, 0),
        (&long, 2, 0, Refusal::RowCount, 0),
        (&[good, 0], 2, 0, Refusal::UnknownKind, 1),
        (&[good, good | 1 << 48], 2, 0, Refusal::UnusedField, 1),
        (&[good, good, 2 | good], 2, 0, Refusal::NumberOutOfRange, 2),
        (&[3 << 60], 2, 0, Refusal::RoleOutOfRange, 0),
    ];
    for (rows, numbers, roles, refusal, place) in vectors {
        let refused = classify(rows, numbers, roles).unwrap_err();
        assert_eq!((refused.refusal, refused.place), (refusal, place));
        let before = ([7; TABLE_WORDS], [7; ROWS + 1], [7; ROWS + 1]);
        let (mut table, mut results, mut order) = before;
        let lent = classify_into(rows, numbers, roles, &mut table, &mut results, &mut order);
        assert_eq!(lent.unwrap_err(), refused);
        assert_eq!((table, results, order), before);
    }
    let mut table = [7; 2 * SET_WORDS];
    let short = classify_into(&[good], 2, 0, &mut table, &mut [7; 1], &mut []).unwrap_err();
    assert_eq!(short.refusal, Refusal::BufferLength);
    let printed = short.to_string();
    assert!(printed.starts_with("refused 14 0: "), "{printed}");
}

/// Each line has its letter, definitions have none, and the questions are counted.
#[test]
fn letters_and_questions() {
    let settled = evaluate(P1.as_bytes()).unwrap();
    let letters: String = (0..=23).filter_map(|line| settled.letter(line)).collect();
    assert_eq!(letters, "SSUUUUQQQK");
    assert_eq!(settled.letter(9), Some('K'));
    assert_eq!(settled.letter(10), None);
    assert_eq!(settled.classified.questions(), 4);
    let empty = evaluate(b"").unwrap();
    assert_eq!((empty.letter(0), empty.classified.questions()), (None, 0));
}

/// A settled deck gives replies to questions only, ranks to usual rows and usual
/// questions only, and nothing beyond the deck.
#[test]
fn results_are_taken_apart() {
    let rows = [
        within(2, 3),
        usually(3, 4),
        usually(5, BOTTOM),
        query(2, 4),
        query(5, 2),
        query(TOP, 2),
        strict_query(2, 3),
        strict_query(5, BOTTOM),
    ];
    let settled = classify(&rows, 6, 0).unwrap();
    let replies: Vec<Option<bool>> = (0..9).map(|row| settled.reply(row)).collect();
    let (yes, no) = (Some(true), Some(false));
    assert_eq!(replies, [None, None, None, yes, yes, no, yes, no, None]);
    let ranks: Vec<Option<Rank>> = (0..9).map(|row| settled.rank(row)).collect();
    let (zero, infinite) = (Some(Rank::Finite(0)), Some(Rank::Infinite));
    let expected = [None, zero, infinite, zero, infinite, zero, None, None, None];
    assert_eq!(ranks, expected);
    assert_eq!(settled.order, [1, 2]);
    assert_eq!(settled.counts.yes, 3);
    assert_eq!(settled.numbers(), 6);
    assert!(settled.is_within(2, 3) && settled.is_within(5, 1) && settled.is_within(1, 4));
    assert!(!settled.is_within(3, 2) && !settled.is_within(0, 1));
}

/// Asking about a number that the deck doesn't have panics.
#[test]
#[should_panic(expected = "there are 6 numbers")]
fn there_is_no_number_beyond_the_deck() {
    classify(&[], 6, 0).unwrap().is_within(0, 6);
}

/// A refusal's number, its place, and a text.
type Vector = (u64, usize, String);

/// Each refusal of a text comes out of the safe functions with its place, and
/// shows it by line and column where it points at a byte.
#[test]
fn refusals_of_a_text_come_out_with_their_position() {
    // Of each number that refuses: 1 and 3 to 8.
    let positions = [
        None,
        Some((1, 6)),
        Some((1, 3)),
        Some((1, 3 + 3 * DEPTH)),
        Some((MOST_WORDS + 1, 3)),
        Some((ROLES + 1, 4)),
        None,
    ];
    let each: Vec<Vector> = each_number().into_iter().skip(1).collect();
    let numbers: Vec<u64> = each.iter().map(|(number, ..)| *number).collect();
    assert_eq!(numbers, [1, 3, 4, 5, 6, 7, 8]);
    let further: [(Vector, Option<(usize, usize)>); 4] = [
        ((3, 6, "S a b\n\n".to_owned()), Some((2, 1))),
        ((3, 11, "S a b\nU a b".to_owned()), Some((2, 6))),
        ((3, 17, "S a b\nU a b\nQ a &b".to_owned()), Some((3, 6))),
        ((4, 8, format!("S a b\nS {TOO_LONG} b\n")), Some((2, 3))),
    ];
    for ((number, place, text), position) in each.into_iter().zip(positions).chain(further) {
        let text = text.as_bytes();
        let refused = compile(text).unwrap_err();
        assert_eq!((refused.refusal.number(), refused.place), (number, place));
        assert_eq!(evaluate(text).unwrap_err(), refused);
        let found = refused.position(text);
        assert_eq!(found.map(|found| (found.line, found.column)), position);
        let shown = refused.show(text);
        let start = format!("refused {number} {place}: {}", refused.refusal.meaning());
        assert!(shown.starts_with(&start), "{shown}");
        assert_eq!(
            shown.lines().count(),
            if position.is_some() { 4 } else { 1 }
        );
        let before = ([7; ROWS], [7; TABLE_WORDS], [7; ROWS], [7; ROWS]);
        let (mut deck, mut table, mut results, mut order) = before;
        assert_eq!(compile_into(text, &mut deck).unwrap_err(), refused);
        let lent = evaluate_into(text, &mut deck, &mut table, &mut results, &mut order);
        assert_eq!(lent.unwrap_err(), refused);
        assert_eq!((deck, table, results, order), before);
    }
}

/// A buffer one too short among those lent with a text is refused by 2,
/// whichever it is, and points at no byte of the text.
#[test]
fn short_buffers_come_out_of_the_safe_functions() {
    let short = compile_into(b"!", &mut [7; ROWS - 1]).unwrap_err();
    assert_eq!((short.refusal, short.place), (Refusal::BufferTooShort, 0));
    assert_eq!(short.position(b"!"), None);
    for shortened in 0..4 {
        let less = |buffer| usize::from(buffer == shortened);
        let (mut deck, mut table) = (vec![7; ROWS - less(0)], vec![7; TABLE_WORDS - less(1)]);
        let (mut results, mut order) = (vec![7; ROWS - less(2)], vec![7; ROWS - less(3)]);
        let lent = evaluate_into(b"!", &mut deck, &mut table, &mut results, &mut order);
        assert_eq!(lent.unwrap_err(), short, "buffer {shortened}");
    }
}

/// A place beyond the text it is shown in has no position, and bytes that have
/// no form in print show as dots.
#[test]
fn positions_in_odd_texts() {
    let refused = compile(b"S a\t\xFF").unwrap_err();
    assert!(refused.show(b"S a\t\xFF").ends_with("\nS a..\n   ^"));
    assert_eq!(refused.position(b"S"), None);
    let early = compile(b"\xFF").unwrap_err();
    let position = early.position(b"\xFF").unwrap();
    assert_eq!(position.to_string(), "line 1, column 1");
    let beyond = Position { line: 3, column: 1 };
    assert_eq!(beyond.show(b"y\n"), "line 3, column 1\n\n^");
}

/// Of a long line what stands near the byte is shown, and the mark stays below it.
#[test]
fn positions_in_long_lines() {
    let line = |length| [vec![b'a'; length], vec![b'!'], vec![b'z'; length]].concat();
    for (length, start, end) in [
        (39, "a", "z"),
        (40, "a", "z..."),
        (60, "a", "z..."),
        (61, "...a", "z..."),
        (20_000, "...a", "z..."),
    ] {
        let text = [b"short\n", &line(length)[..], b"\nshort"].concat();
        let column = length + 1;
        let shown = Position { line: 2, column }.show(&text);
        let [words, line, mark] = shown.lines().collect::<Vec<_>>()[..] else {
            panic!("{shown}");
        };
        assert_eq!(words, format!("line 2, column {column}"));
        assert!(line.starts_with(start) && line.ends_with(end), "{line}");
        assert_eq!(line.find('!'), mark.find('^'), "{shown}");
        assert!(line.len() <= 106, "{line}");
        let kept = line.bytes().filter(|byte| *byte == b'a').count();
        assert_eq!(kept, length.min(60));
    }
    let beyond = Position { line: 1, column: 9 }.show(b"short");
    assert_eq!(beyond, "line 1, column 9\nshort\n        ^");
    let column = 1_000;
    let far = Position { line: 1, column }.show(b"short");
    assert_eq!(far.lines().nth(1), Some("..."));
}

/// A byte order mark at the start is named where it is shown, since its dots look like
/// a line that is cut; behind it, and for bytes that are none, nothing is said.
#[test]
fn positions_behind_a_byte_order_mark() {
    let at = |line, column| Position { line, column };
    let text = b"\xEF\xBB\xBFS a\nU b";
    let first = "line 1, column 6 (the first three bytes are a byte order mark)\n...S a\n     ^";
    assert_eq!(at(1, 6).show(text), first);
    assert_eq!(at(2, 3).show(text), "line 2, column 3\nU b\n  ^");
    assert_eq!(at(1, 3).show(&text[1..]), "line 1, column 3\n..S a\n  ^");
    let long = [&text[..3], &[b'a'; 200]].concat();
    assert!(at(1, 100)
        .show(&long)
        .starts_with("line 1, column 100\n..."));
    let marked = convert(b"\xEF\xBB\xBFSubClassOf(:a :b)").unwrap_err();
    assert_eq!(marked.place, 0);
}
