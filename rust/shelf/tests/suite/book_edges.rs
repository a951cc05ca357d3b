//! The edges of the scope: each limit met and passed, each refusal of a text
//! with its place, and buffers one too short.

use crate::common::books::{below_roles, each_number, lines, roles, simple, ties, used_up, words};
use crate::common::books::{LONGEST, MOST_WORDS, TOO_LONG};
use crate::common::decks::Random;
use crate::common::one_hash;
use crate::common::texts::{compare_book, compare_calls, compare_text, compare_with_lines};
use crate::common::texts::{Call, TextCase, TextLent, CALLS};
use shelf::limits::{ANSWER_WORDS, DEPTH, NUMBERS, ROLES, ROWS, TABLE_WORDS, TEXT_BYTES};

/// The text is refused so by both calls, and by the plain engine's.
fn refused(text: impl AsRef<[u8]>, number: u64, place: usize) {
    let text = text.as_ref();
    let found = compare_book(text, &mut Random(110)).refused();
    assert_eq!(found, (number, place), "{}", text.escape_ascii());
}

/// The text is accepted by both calls, with lines, rows, numbers and roles. All
/// that they return and write is the plain engine's: of compiling the counts
/// and the deck, of the sitting its counts, deck, table, results and order too,
/// and its results and counts are those of the text's own nested lines.
fn accepted(text: impl AsRef<[u8]>, counts: [usize; 4]) {
    let text = text.as_ref();
    let found: [usize; 4] = compare_book(text, &mut Random(111)).counts();
    assert_eq!(found, counts, "{}", text.escape_ascii());
    compare_with_lines(text, &shelf::evaluate(text).unwrap().classified);
}

#[test]
fn the_empty_text_is_a_book() {
    accepted("", [0, 0, 2, 0]);
    refused("\n", 3, 0);
}

/// Every beginning of a book that isn't whole lines is 3 at its end.
#[test]
fn a_text_that_ends_too_early_is_3_at_its_end() {
    refused("S a b", 3, 5);
    accepted("S a b\n", [1, 1, 4, 0]);
    let book = "S & a /r b *\nK - abc\n";
    for end in 0..book.len() {
        match end {
            0 => accepted("", [0, 0, 2, 0]),
            13 => accepted(&book[..end], [1, 6, 6, 1]),
            _ => refused(&book[..end], 3, end),
        }
    }
}

/// Each of the 256 bytes at each place of a line, compared whole.
#[test]
fn every_byte_at_every_place_of_a_line() {
    let mut random = Random(112);
    let line = b"S & a /r b *\n";
    for place in 0..line.len() {
        for byte in 0..=u8::MAX {
            let mut text = line.to_vec();
            text[place] = byte;
            let case = TextCase::new(text);
            for call in CALLS {
                compare_text(call, &case, &mut random);
            }
        }
    }
}

/// A space that is due is missing, or one stands where none is due.
#[test]
fn spaces_are_one_each_and_where_they_are_due() {
    refused("S &a b c\n", 3, 3);
    refused("S & a  b c\n", 3, 6);
    refused("S / r a b\n", 3, 3);
    refused("S  a b\n", 3, 2);
    refused("S a b \n", 3, 5);
    refused(" S a b\n", 3, 0);
    refused("S a\tb\n", 3, 3);
}

#[test]
fn words_of_the_most_bytes_and_one_more() {
    accepted(format!("S {LONGEST} b\n"), [1, 1, 4, 0]);
    accepted(format!("S a {LONGEST}\n"), [1, 1, 4, 0]);
    accepted(format!("S /{LONGEST} a b\n"), [1, 3, 5, 1]);
    refused(format!("S {TOO_LONG} b\n"), 4, 2);
    refused(format!("S a {TOO_LONG}\n"), 4, 4);
    refused(format!("S /{TOO_LONG} a b\n"), 4, 3);
    refused(format!("S {LONGEST} b\nU a & b {TOO_LONG}\n"), 4, 25);
    // The first byte of a word that is too long lies before the wrong byte.
    refused(format!("S a {TOO_LONG}A\n"), 4, 4);
    refused(format!("S a {TOO_LONG}"), 4, 4);
}

#[test]
fn the_deepest_level_and_one_more() {
    let roles = DEPTH - 1;
    let below = 2 + 3 * DEPTH;
    let deepest = |innermost| below_roles(DEPTH, innermost);
    let too_deep = |innermost| below_roles(DEPTH + 1, innermost);
    let (rows, numbers) = (1 + 2 * roles, 4 + roles);
    accepted(format!("S {} b\n", deepest("a")), [1, rows, numbers, 1]);
    accepted(format!("S b {}\n", deepest("*")), [1, rows, numbers - 1, 1]);
    refused(format!("S {} b\n", too_deep("a")), 5, below);
    refused(format!("S b {}\n", too_deep("-")), 5, below + 2);
    refused(format!("S {} b\n", too_deep(TOO_LONG)), 5, below);
    refused(format!("S {} b\n", too_deep("& a a")), 5, below);
    refused(format!("S {} b\n", deepest("& a a")), 5, below - 1);
    refused(format!("S {} b\n", too_deep("A")), 3, below);
    let pairs = |level: usize| "& ".repeat(level - 1) + "a" + &" a".repeat(level - 1);
    let (rows, numbers) = (1 + 3 * (DEPTH - 1), 4 + DEPTH - 1);
    accepted(format!("S {} b\n", pairs(DEPTH)), [1, rows, numbers, 0]);
    refused(format!("S {} b\n", pairs(DEPTH + 1)), 5, 2 + 2 * DEPTH);
}

#[test]
fn the_most_numbers_and_one_more() {
    let most = MOST_WORDS;
    accepted(words(most), [most, most, NUMBERS, 0]);
    refused(words(most + 1), 6, words(most).len() + 2);
    let pairs = |count| lines(count, |_| "U & * - *\n".to_owned());
    accepted(pairs(most), [most, 4 * most, NUMBERS, 0]);
    refused(pairs(most + 1), 6, pairs(most).len() + 2);
    let somes = |count| lines(count, |_| "K /r * -\n".to_owned());
    accepted(somes(most), [most, 3 * most, NUMBERS, 1]);
    refused(somes(most + 1), 6, somes(most).len() + 2);
    // A word that is known takes no number.
    let known = format!("Q w0 w{}\n", most - 1);
    accepted(words(most) + &known, [most + 1, most + 1, NUMBERS, 0]);
}

#[test]
fn the_most_roles_and_one_more() {
    let sizes = |count| [count, 3 * count, count + 3, ROLES];
    accepted(roles(ROLES), sizes(ROLES));
    refused(roles(ROLES + 1), 7, roles(ROLES).len() + 3);
    let known = format!("Q /r{} * a\n", ROLES - 1);
    accepted(roles(ROLES) + &known, sizes(ROLES + 1));
}

#[test]
fn the_most_rows_and_one_more() {
    accepted(simple(ROWS), [ROWS, ROWS, 4, 0]);
    refused(simple(ROWS + 1), 8, simple(ROWS + 1).len());
    // Lines that take more rows than one, and the rest by lines that take one.
    let count = NUMBERS - 6;
    for (line, rows, roles) in [("S a & a b\n", 4, 0), ("S a /r b\n", 3, 1)] {
        let nested = line.repeat(count);
        let rest = ROWS - rows * count;
        let sizes = [count + rest, ROWS, count + 4, roles];
        accepted(nested.clone() + &simple(rest), sizes);
        let over = nested + &simple(rest + 1);
        refused(&over, 8, over.len());
    }
}

#[test]
fn the_most_bytes_and_one_more() {
    let line = "S abcdefg hijkl\n";
    let count = TEXT_BYTES / line.len();
    assert_eq!(line.len() * count, TEXT_BYTES);
    accepted(line.repeat(count), [count, count, 4, 0]);
    let longer = line.repeat(count - 1) + "S abcdefgh hijkl\n";
    assert_eq!(longer.len(), TEXT_BYTES + 1);
    refused(longer, 1, 0);
    // 1 comes before all that is in the text.
    refused("!".repeat(TEXT_BYTES + 1), 1, 0);
    refused("!".repeat(TEXT_BYTES), 3, 0);
    let fitting = TEXT_BYTES / simple(1).len();
    refused(simple(fitting + 1), 1, 0);
    refused(simple(fitting), 8, simple(fitting).len());
    let cut = line.repeat(count - 1) + "S abcdefg hijklm";
    assert_eq!(cut.len(), TEXT_BYTES);
    refused(cut, 3, TEXT_BYTES);
}

/// The least offset comes first, at one offset 3, 5, 4, 6, 7, and 8 last.
#[test]
fn refusals_in_their_order() {
    let mut random = Random(113);
    let mut met = [0; 9];
    for text in ties() {
        let case = TextCase::new(text);
        let compiled = compare_text(Call::Compile, &case, &mut random);
        met[compiled.number as usize] += 1;
        if compiled.number != 0 {
            compare_text(Call::Evaluate, &case, &mut random);
        }
    }
    for number in [3, 4, 5, 6, 7] {
        assert!(met[number] > 2, "{number}: {met:?}");
    }
}

/// What meets at one offset, or stands before and behind, in the last line of a
/// text that leaves so many numbers and roles.
#[test]
fn refusals_that_meet() {
    let deep = "/r0 ".repeat(DEPTH);
    let below = "S ".len() + deep.len();
    let vectors = [
        // One number more than there can be, and what comes before it at its offset.
        (0, 1, "S new *\n".to_owned(), 6, 2),
        (0, 1, "S & * * *\n".to_owned(), 6, 2),
        (0, 1, "S /r0 * *\n".to_owned(), 6, 2),
        (0, 1, "S w0 *\n".to_owned(), 0, 0),
        (0, 1, format!("S {TOO_LONG} *\n"), 4, 2),
        (DEPTH, 1, format!("S {deep}new *\n"), 5, below),
        (DEPTH, 1, format!("S {deep}& * * *\n"), 5, below),
        (DEPTH, 1, format!("S {deep}{TOO_LONG} *\n"), 5, below),
        (DEPTH, 1, format!("S {deep}! *\n"), 3, below),
        (DEPTH, 1, format!("S {deep}"), 3, below),
        (DEPTH - 1, 1, format!("S {deep}new *\n"), 6, below - 4),
        // One role more than there can be, and what comes before it at its offset.
        (2, 0, "S /new * *\n".to_owned(), 7, 3),
        (2, 0, "S /r0 * *\n".to_owned(), 0, 0),
        (2, 0, format!("S /{TOO_LONG} * *\n"), 4, 3),
        (2, 0, "S / * *\n".to_owned(), 3, 3),
        // The lesser offset counts, whatever its number.
        (0, 0, "S /new * *\n".to_owned(), 6, 2),
        (0, 1, "S new!*\n".to_owned(), 6, 2),
        (0, 1, "S *!new\n".to_owned(), 3, 3),
        (2, 0, "S /new!* *\n".to_owned(), 7, 3),
        (2, 0, format!("S {TOO_LONG} /new *\n"), 4, 2),
        (2, 0, format!("S /new {TOO_LONG} *\n"), 7, 3),
    ];
    for (numbers, roles, last, number, place) in vectors {
        let used = used_up(numbers, roles);
        let text = used.clone() + &last;
        match number {
            0 => assert_eq!(compare_book(&text, &mut Random(116)).number, 0, "{last}"),
            _ => refused(&text, number, used.len() + place),
        }
    }
    // 8 comes last.
    let rows = simple(ROWS + 1);
    refused(format!("{rows}S {TOO_LONG} *\n"), 4, rows.len() + 2);
    refused(rows.clone() + "S a", 3, rows.len() + 3);
    refused(format!("{rows}S {deep}a *\n"), 5, rows.len() + below);
}

/// A buffer one too short is 2 behind 1 and before all that is in the text;
/// compiling asks for the deck only.
#[test]
fn buffers_one_too_short() {
    let mut random = Random(114);
    let shorten: [fn(&mut TextCase); 4] = [
        |case| case.deck = ROWS - 1,
        |case| case.table = TABLE_WORDS - 1,
        |case| case.results = ROWS - 1,
        |case| case.order = ROWS - 1,
    ];
    for (number, _, text) in each_number() {
        for (index, shorten) in shorten.iter().enumerate() {
            let mut case = TextCase::new(&text);
            shorten(&mut case);
            let two = if number == 1 { 1 } else { 2 };
            let settled = compare_text(Call::Evaluate, &case, &mut random);
            assert_eq!(settled.refused(), (two, 0), "{case:?}");
            let compiled = compare_text(Call::Compile, &case, &mut random);
            let expected = if index == 0 { two } else { number };
            assert_eq!(compiled.number, expected, "{case:?}");
        }
        let mut case = TextCase::new(&text);
        shorten.iter().for_each(|shorten| shorten(&mut case));
        compare_text(Call::Evaluate, &case, &mut random);
        for length in [0, 1, ROWS - 2] {
            let mut case = TextCase::new(&text);
            (case.deck, case.table) = (length, length);
            (case.results, case.order) = (length, length);
            for call in CALLS {
                compare_text(call, &case, &mut random);
            }
        }
    }
}

/// Buffers far longer than asked for are taken, and hold no more: one row too
/// many is too many for a far longer deck too.
#[test]
fn buffers_far_longer_than_asked_for() {
    let mut random = Random(117);
    for (number, place, text) in each_number() {
        let mut case = TextCase::new(&text);
        (case.deck, case.table) = (5 * ROWS, 4 * TABLE_WORDS);
        (case.results, case.order) = (3 * ROWS, 2 * ROWS);
        case.answer = 31 * ANSWER_WORDS;
        let settled = compare_calls(&case, &mut random);
        match number {
            0 => assert_eq!(settled.counts(), [4, 9, 6, 1, 1, 1, 0]),
            _ => assert_eq!(settled.refused(), (number, place), "{case:?}"),
        }
    }
}

/// An answer slice that is too short is refused by 2 before all else and kept
/// whole; a longer one keeps its rest.
#[test]
fn answers_one_too_short_and_one_longer() {
    let mut random = Random(115);
    for (number, _, text) in each_number() {
        let short = [0, 1, ANSWER_WORDS - 1].map(|length| (length, 2));
        let long = [ANSWER_WORDS, ANSWER_WORDS + 1].map(|length| (length, number));
        for (length, expected) in short.into_iter().chain(long) {
            let mut case = TextCase::new(&text);
            case.answer = length;
            for call in CALLS {
                let compared = compare_text(call, &case, &mut random);
                assert_eq!(compared.number, expected, "{call:?}: {case:?}");
            }
            case.deck = ROWS - 1;
            for call in CALLS {
                compare_text(call, &case, &mut random);
            }
        }
    }
}

/// Over buffers all of zeros and all of ones a refusal writes its place and
/// nothing besides.
#[test]
fn a_refusal_writes_its_place_and_nothing_else() {
    for (number, place, text) in each_number().into_iter().skip(1) {
        let case = TextCase::new(text);
        for call in CALLS {
            for bits in [0, u64::MAX] {
                let mut expected = TextLent::filled(&case, bits);
                let mut lent = expected.clone();
                assert_eq!(lent.call(call), number, "{call:?}: {case:?}");
                expected.answer.lent_mut()[0] = place as u64;
                assert!(lent == expected, "{call:?}: {case:?}");
            }
        }
    }
}

/// The most words, all of one hash, which is the engine's own.
#[test]
fn words_of_one_hash() {
    let words = include_str!("../../../../crates/words/src/lib.rt");
    assert!(words.contains("const HASHES: usize = 256;"));
    let word = include_str!("../../../../crates/words/src/word.rt");
    assert!(word.contains("hash = (9 * hash + b as usize) % HASHES;"));
    accepted(one_hash::book(), [ROWS, ROWS, NUMBERS, 0]);
}
