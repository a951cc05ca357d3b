//! The finder: a number's word, or an empty part.

use crate::common::{random_lines, write_lines, Random, Words};
use shelf_reference::{compile, find_name, Concept};
use std::collections::BTreeMap;

/// The book of the printed sitting has a word for six of its numbers.
#[test]
fn finds_the_words_of_a_book() {
    let book = b"S clone set\nS & shown hidden -\nU & clone /has text shown\n";
    let expected: [&[u8]; 11] = [
        b"", b"", b"clone", b"set", b"", b"shown", b"hidden", b"", b"", b"text", b"",
    ];
    for (number, word) in expected.into_iter().enumerate() {
        assert_eq!(find_name(book, number), word, "number {number}");
    }
    for number in [11, 255, 256, 257, 65_538, usize::MAX] {
        assert_eq!(find_name(book, number), b"");
    }
}

/// The part is the word's first place as a concept name, not as a role.
#[test]
fn finds_the_first_place_as_a_concept_name() {
    let book = b"S /a b a\nS a b\n";
    let place = |number| {
        let part = find_name(book, number);
        (part.as_ptr() as usize - book.as_ptr() as usize, part.len())
    };
    assert_eq!(place(2).1, 0);
    assert_eq!(place(3), (5, 1));
    assert_eq!(place(4), (7, 1));
}

/// A text that compiling refuses has no words to find.
#[test]
fn finds_nothing_in_a_refused_text() {
    let mut texts: Vec<Vec<u8>> = vec![
        b"S a b".to_vec(),
        b"S a abcdefghijklm\n".to_vec(),
        format!("S a {}b\n", "/r ".repeat(16)).into_bytes(),
        "S a b\n".repeat(1025).into_bytes(),
        "S aaaaaa bbbbbb\n".repeat(1025).into_bytes(),
    ];
    texts.push(
        (0..255)
            .map(|n| format!("S w{n} w0\n"))
            .collect::<String>()
            .into_bytes(),
    );
    texts.push(
        (0..65)
            .map(|n| format!("S a /r{n} b\n"))
            .collect::<String>()
            .into_bytes(),
    );
    let mut numbers = Vec::new();
    for text in texts {
        numbers.push(compile(&text).unwrap_err().number());
        assert_eq!(find_name(&text, 2), b"");
    }
    assert_eq!(numbers, [3, 4, 5, 8, 1, 6, 7]);
}

/// Every number up to the edge of 256 finds its word.
#[test]
fn finds_words_up_to_number_255() {
    let text: String = (0..254).map(|n| format!("S w{n} w0\n")).collect();
    assert_eq!(find_name(text.as_bytes(), 2), b"w0");
    assert_eq!(find_name(text.as_bytes(), 255), b"w253");
    assert_eq!(find_name(text.as_bytes(), 256), b"");
}

/// On random books the finder and the compiler's rows speak of one numbering:
/// each U, Q, K or S row over two plain words has just their numbers.
#[test]
fn agrees_with_the_rows_of_random_books() {
    let mut random = Random(41);
    let words = Words {
        names: &["a", "b", "cc", "d0"],
        roles: &["a", "r"],
    };
    let mut seen = 0;
    for _ in 0..2000 {
        let lines = random_lines(&mut random, &words, 8);
        let text = write_lines(&lines);
        let compiled = compile(text.as_bytes()).unwrap();
        let mut numbers: BTreeMap<&[u8], usize> = BTreeMap::new();
        for number in 0..compiled.sizes.numbers {
            let word = find_name(text.as_bytes(), number);
            if !word.is_empty() {
                assert_eq!(numbers.insert(word, number), None, "one number a word");
            }
        }
        for (line, row) in lines.iter().zip(&compiled.deck) {
            for (side, shift) in [(&line.inclusion.left, 32), (&line.inclusion.right, 0)] {
                if let Concept::Name(word) = side {
                    assert_eq!(numbers[word.as_bytes()] as u64, (row >> shift) & 0xFFFF);
                    seen += 1;
                }
            }
        }
    }
    assert!(seen > 5000);
}
