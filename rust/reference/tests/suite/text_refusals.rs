//! Refusals 1 to 8: each alone, at its edge, and where several meet.

use shelf_reference::{
    compile, compile_lent, evaluate_lent, read, settle_text, shelf, shelf_by_deck, Refusal,
};

/// Asserts the refusal's number and place, by every way that reads a text.
#[track_caller]
fn refused(text: impl AsRef<[u8]>, number: u64, place: usize) {
    let text = text.as_ref();
    let expected = (number, place);
    let found = compile(text).expect_err("compiling refuses");
    assert_eq!((found.number(), found.place), expected);
    assert_eq!(read(text).expect_err("reading refuses"), found);
    assert_eq!(settle_text(text).expect_err("settling refuses"), found);
    let sat = evaluate_lent(text, 1024, 1024, 1024, 1024);
    assert_eq!(sat.expect_err("a sitting refuses"), found);
    let printed = format!("refused {number} {place}\n");
    assert_eq!(shelf(text), printed);
    assert_eq!(shelf_by_deck(text), printed);
}

/// Asserts the counts lines, rows, numbers, roles of an accepted text.
#[track_caller]
fn accepted(text: impl AsRef<[u8]>, counts: [usize; 4]) {
    let compiled = compile(text.as_ref()).expect("the text is accepted");
    let sizes = compiled.sizes;
    let found = [sizes.lines, sizes.rows, sizes.numbers, sizes.roles];
    assert_eq!(found, counts);
    assert_eq!(compiled.deck.len(), sizes.rows);
}

/// Lines `S w0 w1`, .. with so many different words, two a line; the last
/// word may stand alone before `*`.
fn words_book(words: usize) -> String {
    let mut text = String::new();
    for word in 0..words {
        if word % 2 == 0 {
            text.push_str(&format!("S w{word} "));
        } else {
            text.push_str(&format!("w{word}\n"));
        }
    }
    if words % 2 == 1 {
        text.push_str("*\n");
    }
    text
}

/// `/r /r .. a` with the innermost concept at this level.
fn nested(level: usize, innermost: &str) -> String {
    format!("{}{innermost}", "/r ".repeat(level - 1))
}

/// The refusals have the scope's numbers: 1 to 8, 11 to 18 and 21 to 25.
#[test]
fn refusals_have_the_numbers_of_the_scope() {
    let numbers: Vec<u64> = Refusal::ALL
        .iter()
        .map(|refusal| refusal.number())
        .collect();
    let expected: Vec<u64> = (1..=8).chain(11..=18).chain(21..=25).collect();
    assert_eq!(numbers, expected);
}

/// `S a b` without its line feed is 3 at 5, the text's end.
#[test]
fn a_missing_line_feed_is_3_at_the_end() {
    refused("S a b", 3, 5);
    accepted("S a b\n", [1, 1, 4, 0]);
}

/// Every cut of a book that isn't at a line's end is 3 at the cut.
#[test]
fn every_cut_is_3_at_the_cut() {
    let book = "S & a /r - *\nU ab c\n";
    for cut in 1..book.len() {
        if book.as_bytes()[cut - 1] != b'\n' {
            refused(&book[..cut], 3, cut);
        }
    }
    accepted(book, [2, 7, 7, 1]);
}

/// A byte that the grammar can't have at its place is 3 there.
#[test]
fn a_wrong_byte_is_3_at_its_offset() {
    refused("\n", 3, 0);
    refused(" S a b\n", 3, 0);
    refused("s a b\n", 3, 0);
    refused("X a b\n", 3, 0);
    refused("Sa b\n", 3, 1);
    refused("S  a b\n", 3, 2);
    refused("S A b\n", 3, 2);
    refused("S a  b\n", 3, 4);
    refused("S a\n", 3, 3);
    refused("S a b \n", 3, 5);
    refused("S a b\r\n", 3, 5);
    refused("S a b\n\n", 3, 6);
    refused("S a b\nT a b\n", 3, 6);
    refused("S a b\nS a b", 3, 11);
    refused("S a_b c\n", 3, 3);
    refused("S *a b\n", 3, 3);
    refused("S ** b\n", 3, 3);
    refused("S - -x\n", 3, 5);
    refused("S &a b c\n", 3, 3);
    refused("S & a b\n", 3, 7);
    refused("S & a  b c\n", 3, 6);
    refused("S /r\n", 3, 4);
    refused("S / a b\n", 3, 3);
    refused("S /* a b\n", 3, 3);
    refused("S /r/s a b\n", 3, 4);
    refused("S a b\0", 3, 5);
    refused([b'S', b' ', 0xC3, 0xA9, b' ', b'b', b'\n'], 3, 2);
}

/// Words of 12 bytes are words; a word of 13 is 4 at its first byte.
#[test]
fn words_of_12_and_13() {
    let word12 = "abcdefghij09";
    let word13 = "abcdefghij09z";
    accepted(format!("S {word12} b\n"), [1, 1, 4, 0]);
    accepted(format!("S a /{word12} b\n"), [1, 3, 5, 1]);
    refused(format!("S {word13} b\n"), 4, 2);
    refused(format!("S a {word13}\n"), 4, 4);
    refused(format!("S /{word13} a b\n"), 4, 3);
    refused(format!("S a b\nQ & {word12} {word13} b\n"), 4, 23);
}

/// Level 16 is allowed; a concept at level 17 is 5 at its first byte.
#[test]
fn levels_16_and_17() {
    for innermost in ["a", "*", "-"] {
        assert!(compile(format!("S {} b\n", nested(16, innermost)).as_bytes()).is_ok());
        let deep = nested(17, innermost);
        refused(format!("S {deep} b\n"), 5, 2 + 16 * 3);
        refused(format!("S a {deep}\n"), 5, 4 + 16 * 3);
    }
    refused(format!("S {} b\n", nested(17, "& a b")), 5, 50);
    refused(format!("S {} b\n", nested(17, "/r a")), 5, 50);
}

/// Both sides of `&` are one level deeper than it.
#[test]
fn both_sides_of_and_are_one_level_deeper() {
    let and_at_15 = format!("S {} b\n", nested(15, "& a b"));
    assert!(compile(and_at_15.as_bytes()).is_ok());
    // `& a b` at level 16: its left side is at level 17.
    refused(format!("S {} b\n", nested(16, "& a b")), 5, 2 + 15 * 3 + 2);
    // At level 15 the left side at 16 is fine, the right one holds a deeper.
    refused(
        format!("S {} b\n", nested(15, "& a /r b")),
        5,
        2 + 14 * 3 + 7,
    );
    // Left-nested `&`: the first word of 16 of them stands at level 17.
    let deep_left = format!("S {}a{} b\n", "& ".repeat(16), " a".repeat(16));
    refused(deep_left, 5, 2 + 32);
    let just_left = format!("S {}a{} b\n", "& ".repeat(15), " a".repeat(15));
    assert!(compile(just_left.as_bytes()).is_ok());
}

/// 256 numbers counting 0 and 1 are allowed; the 257th is 6 at its first byte.
#[test]
fn numbers_256_and_257() {
    accepted(words_book(254), [127, 127, 256, 0]);
    let over = words_book(255);
    refused(&over, 6, over.find("w254").unwrap());
    let full = words_book(254);
    refused(format!("{full}S & w0 w1 w2\n"), 6, full.len() + 2);
    refused(format!("{full}S w0 /r w1\n"), 6, full.len() + 5);
    refused(format!("{full}S w0 x\n"), 6, full.len() + 5);
    accepted(format!("{full}S w0 *\nQ - w253\n"), [129, 129, 256, 0]);
}

/// Each occurrence of `&` and `/` takes a number of its own, a word only once.
#[test]
fn every_and_and_exists_takes_a_number() {
    accepted("S & a a & a a\n", [1, 7, 5, 0]);
    accepted("S /r a /r a\n", [1, 5, 5, 1]);
    accepted("S a /a a\n", [1, 3, 4, 1]);
    let full = format!("{}Q a a\n", "S /r a a\n".repeat(253));
    accepted(&full, [254, 254 + 506, 256, 1]);
    refused(format!("{full}S /r a a\n"), 6, full.len() + 2);
}

/// 64 roles are allowed; the 65th is 7 at its word's first byte.
#[test]
fn roles_64_and_65() {
    let mut text = String::new();
    for role in 0..64 {
        text.push_str(&format!("S /r{role} a b\n"));
    }
    accepted(&text, [64, 64 + 128, 2 + 64 + 2, 64]);
    let more = format!("{text}S /r0 a /r63 b\n");
    accepted(&more, [65, 65 + 132, 70, 64]);
    refused(format!("{text}S /r64 a b\n"), 7, text.len() + 3);
    refused(format!("{text}S a /x b\n"), 7, text.len() + 5);
}

/// 1,024 rows are allowed; over them is 8 at the text's length.
#[test]
fn rows_1024_and_1025() {
    let lines = "S a b\n".repeat(1024);
    accepted(&lines, [1024, 1024, 4, 0]);
    let over = "S a b\n".repeat(1025);
    refused(&over, 8, over.len());
    // Definition rows count: a line with `&` takes 4 rows, with `/` 3.
    let with_and = format!("{}S & a b a\n", "S a b\n".repeat(1020));
    accepted(&with_and, [1021, 1024, 5, 0]);
    let with_and = format!("{with_and}S a b\n");
    refused(&with_and, 8, with_and.len());
    let with_exists = format!("{}S /r b a\n", "S a b\n".repeat(1021));
    accepted(&with_exists, [1022, 1024, 5, 1]);
    let with_exists = format!("S a b\n{with_exists}");
    refused(&with_exists, 8, with_exists.len());
}

/// 16,384 bytes are allowed; one more is 1 at 0, whatever the bytes are.
#[test]
fn bytes_16384_and_16385() {
    // 1,024 lines of 16 bytes each.
    let full = "S aaaaaa bbbbbb\n".repeat(1024);
    assert_eq!(full.len(), 16_384);
    accepted(&full, [1024, 1024, 4, 0]);
    let over = format!("{}S aaaaaa bbbbbbb\n", "S aaaaaa bbbbbb\n".repeat(1023));
    assert_eq!(over.len(), 16_385);
    refused(&over, 1, 0);
    refused(vec![b'!'; 16_385], 1, 0);
    refused(vec![b'!'; 16_384], 3, 0);
    refused(&full[..16_383], 3, 16_383);
}

/// A text of 16,384 bytes may be one word or one nesting of any size for the
/// grammar; the word is refused by 4 and the nesting by 5, not by 3.
#[test]
fn the_grammar_has_words_and_levels_of_any_size() {
    let mut word = vec![b'a'; 16_384];
    word[..2].copy_from_slice(b"S ");
    refused(&word, 4, 2);
    let nesting = format!("S {}", "& ".repeat(8191));
    assert_eq!(nesting.len(), 16_384);
    refused(&nesting, 5, 2 + 32);
}

/// 2 comes behind 1 and before all that reading refuses.
#[test]
fn a_short_buffer_is_2_at_0() {
    let number = |text: &[u8], length| compile_lent(text, length).unwrap_err();
    let two = number(b"S a b\n", 1023);
    assert_eq!((two.number(), two.place), (2, 0));
    assert_eq!(number(b"bad", 1023).number(), 2);
    assert_eq!(number(b"bad", 1024).number(), 3);
    assert_eq!(number(&[b'a'; 16_385], 0).number(), 1);
    assert!(compile_lent(b"S a b\n", 1024).is_ok());
}

/// A sitting's four buffers each have to be 1,024 long.
#[test]
fn a_sitting_refuses_each_short_buffer_by_2() {
    for short in 0..4 {
        let mut lengths = [1024; 4];
        lengths[short] = 1023;
        let [deck, table, results, order] = lengths;
        for text in [&b""[..], b"S a b\n", b"bad"] {
            let two = evaluate_lent(text, deck, table, results, order).unwrap_err();
            assert_eq!((two.number(), two.place), (2, 0));
        }
        let one = evaluate_lent(&[b'S'; 16_385], deck, table, results, order).unwrap_err();
        assert_eq!((one.number(), one.place), (1, 0));
    }
    assert!(evaluate_lent(b"", 1024, 1024, 1024, 1024).is_ok());
}

/// A wrong byte where a concept at level 17 would begin is 3, not 5.
#[test]
fn at_level_17_a_wrong_byte_is_3() {
    let deep = format!("S {}", "/r ".repeat(16));
    refused(format!("{deep}!\n"), 3, deep.len());
    refused(&deep, 3, deep.len());
    refused(format!("{deep}a"), 5, deep.len());
    refused(format!("{deep}&"), 5, deep.len());
    refused(format!("{deep}/!"), 5, deep.len());
}

/// At one offset 5 comes before 4 and before 6.
#[test]
fn at_one_offset_5_comes_before_4_and_6() {
    let deep = format!("S {}", "/r ".repeat(16));
    refused(format!("{deep}aaaaaaaaaaaaa b\n"), 5, deep.len());
    // 16 `/` take numbers 240 to 255, so the word inside would be the 257th.
    let mut text = words_book(238);
    text.push_str("S ");
    text.push_str(&"/r ".repeat(16));
    let inside = text.len();
    refused(format!("{text}new w0\n"), 5, inside);
    refused(format!("{text}w0 w0\n"), 5, inside);
    refused(format!("{text}newnewnewnewnew w0\n"), 5, inside);
}

/// At one offset 4 comes before 6 and before 7.
#[test]
fn at_one_offset_4_comes_before_6_and_7() {
    let full = words_book(254);
    refused(format!("{full}S abcdefghijklm w0\n"), 4, full.len() + 2);
    let mut roles = String::new();
    for role in 0..64 {
        roles.push_str(&format!("S /r{role} a b\n"));
    }
    refused(format!("{roles}S /abcdefghijklm a b\n"), 4, roles.len() + 3);
}

/// A 257th number at `/` stands before a 65th role, a long role or a wrong
/// byte behind it.
#[test]
fn a_number_at_the_slash_comes_before_its_role() {
    let mut text = String::new();
    for role in 0..64 {
        text.push_str(&format!("S /r{role} w0 w1\n"));
    }
    for pair in 1..95 {
        text.push_str(&format!("S w{} w{}\n", 2 * pair, 2 * pair + 1));
    }
    // 2 + 64 + 190 = 256 numbers and 64 roles.
    accepted(&text, [158, 158 + 128, 256, 64]);
    let slash = text.len() + 2;
    refused(format!("{text}S /new w0 w1\n"), 6, slash);
    refused(format!("{text}S /newnewnewnewnew w0 w1\n"), 6, slash);
    refused(format!("{text}S /"), 6, slash);
    refused(format!("{text}S &!"), 6, slash);
    refused(format!("{text}S !"), 3, slash);
}

/// The least offset decides between refusals of different places.
#[test]
fn the_least_offset_decides() {
    let long = "abcdefghijklm";
    let deep = nested(17, "a");
    // A long word, then a wrong byte, and the other way round.
    refused(format!("S {long}!\n"), 4, 2);
    refused(format!("S {long}"), 4, 2);
    refused(format!("S ! {long}\n"), 3, 2);
    refused(format!("S abcdefghijkl!{long}\n"), 3, 14);
    // A long word, then a concept too deep, and the other way round.
    refused(format!("S {long} {deep}\n"), 4, 2);
    refused(format!("S {deep} {long}\n"), 5, 50);
    // A concept too deep, then a wrong byte.
    refused(format!("S {deep}!\n"), 5, 50);
    // A 257th number, then a long word, a deep concept, a wrong byte.
    let full = words_book(254);
    refused(format!("{full}S new {long}\n"), 6, full.len() + 2);
    refused(format!("{full}S new {deep}\n"), 6, full.len() + 2);
    refused(format!("{full}S new!\n"), 6, full.len() + 2);
    refused(format!("{full}S new"), 6, full.len() + 2);
    refused(format!("{full}S w0!\n"), 3, full.len() + 4);
    // 8 comes behind all of them, though its place is often greater.
    let rows = "S a b\n".repeat(1025);
    refused(format!("{rows}S {long} b\n"), 4, rows.len() + 2);
    refused(format!("{rows}S {deep} b\n"), 5, rows.len() + 50);
    refused(format!("{rows}S a b"), 3, rows.len() + 5);
}

/// A 65th role stands before what follows it, and behind what precedes it.
#[test]
fn a_65th_role_and_its_neighbours() {
    let mut roles = String::new();
    for role in 0..64 {
        roles.push_str(&format!("S /r{role} a b\n"));
    }
    let role = roles.len() + 3;
    refused(format!("{roles}S /new abcdefghijklm b\n"), 7, role);
    refused(format!("{roles}S /new!"), 7, role);
    refused(format!("{roles}S /new"), 7, role);
    refused(format!("{roles}S /!"), 3, role);
    refused(format!("{roles}S /r1!"), 3, role + 2);
    refused(format!("{roles}S abcdefghijklm /new b\n"), 4, role - 1);
}
