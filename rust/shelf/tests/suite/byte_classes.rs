//! The table of byte classes, three times: the one that docs/FORMAT.md prints, a
//! letter for each byte, the one of the engine's own source, a number for each, and
//! the one that the plain engine's formula gives.

use crate::common::{between, block_of, FORMAT};
use shelf_reference::bytes::{class_of, ByteClass};

const SOURCE: &str = include_str!("../../../../crates/words/src/classes.rt");

/// The line before the rows of the source's table.
const SOURCE_HEAD: &str = "const CLASSES: [u8; 256] = *b\"\\";

/// What stands before the number of an entry there.
const ENTRY_HEAD: &str = "\\x0";

/// The line before the rows of the printed table: the second digits of the bytes.
const PRINTED_HEAD: &str = "       0123456789abcdef";

/// Where a table's entries stand: below which line, and the first and each next one
/// of a row so many characters on.
type Layout = (&'static str, usize, usize);

const PRINTED_LAYOUT: Layout = (PRINTED_HEAD, PRINTED_HEAD.len() - 16, 1);
const SOURCE_LAYOUT: Layout = (SOURCE_HEAD, ENTRY_HEAD.len(), ENTRY_HEAD.len() + 1);

/// The class of each byte, in their order.
type Table = Vec<ByteClass>;

/// How a class is written: its number in the source, its letter in the document,
/// and the rest of its row in the document's legend.
struct Written {
    class: ByteClass,
    number: char,
    letter: char,
    row: &'static str,
}

const LEGEND: [Written; 5] = [
    written(ByteClass::Word, '0', 'W', "word byte | a-z, 0-9"),
    written(ByteClass::Sign, '1', 'G', "sign | `*`, `-`, `&`, `/`"),
    written(ByteClass::Space, '2', 'B', "space, a blank | 32"),
    written(ByteClass::LineEnd, '3', 'L', "line end | the line feed, 10"),
    written(ByteClass::Other, '4', 'n', NONE_OF_THESE),
];

const NONE_OF_THESE: &str =
    "none of these | all others, among them 13, `#` and the letters that lines start with";

const fn written(class: ByteClass, number: char, letter: char, row: &'static str) -> Written {
    Written {
        class,
        number,
        letter,
        row,
    }
}

/// The classes that sixteen rows of sixteen characters stand for.
fn table(rows: &[String], is: impl Fn(&Written, char) -> bool) -> Table {
    assert_eq!(rows.len(), 16);
    assert!(rows.iter().all(|row| row.len() == 16));
    let class = |found| LEGEND.iter().find(|written| is(written, found));
    let classes = rows.concat();
    let classes = classes.chars().map(|c| class(c).expect("a class").class);
    classes.collect()
}

/// As a document prints it: a line with the second digits of the bytes, and one
/// for each first digit.
fn printed(document: &str) -> Table {
    let lines = block_of(document, "The class of each byte");
    let [head, rows @ ..] = &lines[..] else {
        panic!("the document prints a table");
    };
    assert_eq!(head[..], [PRINTED_HEAD.trim()]);
    let letters = |(first, line): (usize, &Vec<&str>)| {
        let [digit, letters] = line[..] else {
            panic!("a row is a digit and its letters");
        };
        assert_eq!(digit, format!("{first:x}"));
        letters.to_owned()
    };
    let rows: Vec<String> = rows.iter().enumerate().map(letters).collect();
    table(&rows, |written, letter| written.letter == letter)
}

/// As a source has it: sixteen lines of a byte string, with sixteen numbers each.
fn of_source(source: &str) -> Table {
    let [rows] = between(source, &format!("{SOURCE_HEAD}\n"), "\";")[..] else {
        panic!("the source has one table");
    };
    let numbers = |line: &str| {
        let entries: Vec<&str> = line.trim_end_matches('\\').split(ENTRY_HEAD).collect();
        assert!(entries[0].is_empty() && entries[1..].iter().all(|entry| entry.len() == 1));
        entries.concat()
    };
    let rows: Vec<String> = rows.lines().map(numbers).collect();
    table(&rows, |written, number| written.number == number)
}

/// By the plain engine's formula.
fn formula() -> Table {
    (0..=u8::MAX).map(class_of).collect()
}

/// The bytes to which two tables give different classes.
fn differing(one: &Table, other: &Table) -> Vec<u8> {
    assert_eq!((one.len(), other.len()), (256, 256));
    let differs = |byte: &u8| one[usize::from(*byte)] != other[usize::from(*byte)];
    (0..=u8::MAX).filter(differs).collect()
}

#[test]
fn the_printed_table_the_source_and_the_formula_are_one() {
    assert_eq!(differing(&printed(FORMAT), &formula()), []);
    assert_eq!(differing(&of_source(SOURCE), &formula()), []);
}

/// The text with another character at the place of a byte in its table, whose rows
/// stand below the head, and begin and step on by so many characters.
fn damaged(text: &str, (head, first, step): Layout, byte: u8, character: char) -> String {
    let (before, table) = text.split_once(&format!("{head}\n")).unwrap();
    let row: usize = table
        .lines()
        .take(usize::from(byte / 16))
        .map(|l| l.len() + 1)
        .sum();
    let place = before.len() + head.len() + 1 + row + first + step * usize::from(byte % 16);
    let mut text = text.to_owned();
    text.replace_range(place..=place, &character.to_string());
    text
}

/// Each entry of the document and of the source, with each other class in its
/// place, is told from the formula, at its byte and no other.
#[test]
fn one_wrong_entry_is_found() {
    let formula = formula();
    for byte in 0..=u8::MAX {
        for written in &LEGEND {
            let wrong = class_of(byte) != written.class;
            let found: &[u8] = if wrong { &[byte] } else { &[] };
            let document = damaged(FORMAT, PRINTED_LAYOUT, byte, written.letter);
            assert_eq!(differing(&printed(&document), &formula), found);
            let source = damaged(SOURCE, SOURCE_LAYOUT, byte, written.number);
            assert_eq!(differing(&of_source(&source), &formula), found);
        }
    }
}

/// The numbers mean in the source, and the letters in the document, what they mean
/// here; the legend's rows stand in the order of the numbers. The last of the
/// source's arms is for all other numbers.
#[test]
fn numbers_and_letters_stand_for_the_classes() {
    let mut legend = String::from("| mark | class | bytes |\n|---|---|---|\n");
    for Written {
        class,
        number,
        letter,
        row,
    } in &LEGEND
    {
        let number = if *number == '4' { '_' } else { *number };
        assert!(SOURCE.contains(&format!("        {number} => ByteClass::{class:?},\n")));
        legend += &format!("| `{letter}` | {row} |\n");
    }
    assert!(FORMAT.contains(&format!("\n{legend}\n")));
}

/// The lines of a source that name a byte, or tell one apart.
fn named_bytes(source: &str) -> Vec<&str> {
    let code = source.lines().filter(|line| !line.trim().starts_with("//"));
    let names = |line: &&str| {
        ["b'", "if b ", "match b ", "match text.byte_at"]
            .iter()
            .any(|part| line.contains(part))
    };
    code.filter(names).map(str::trim).collect()
}

/// What the reader is made of, but for the table's own file.
const READER: [&str; 15] = [
    include_str!("../../../../crates/words/src/lib.rt"),
    include_str!("../../../../crates/words/src/text.rt"),
    include_str!("../../../../crates/words/src/word.rt"),
    include_str!("../../../../crates/chains/src/lib.rt"),
    include_str!("../../../../crates/chains/src/entries.rt"),
    include_str!("../../../../crates/chains/src/layout.rt"),
    include_str!("../../../../crates/chains/src/lookup.rt"),
    include_str!("../../../../crates/names/src/lib.rt"),
    include_str!("../../../../crates/names/src/lent.rt"),
    include_str!("../../../../crates/names/src/sides.rt"),
    include_str!("../../../../crates/concepts/src/lib.rt"),
    include_str!("../../../../crates/source/src/lib.rt"),
    include_str!("../../../../crates/source/src/text.rt"),
    include_str!("../../../../crates/definitions/src/lib.rt"),
    include_str!("../../../../crates/finder/src/lib.rt"),
];

const FORMS: &str = include_str!("../../../../crates/forms/src/lib.rt");
const LINE: &str = include_str!("../../../../crates/source/src/line.rt");

/// A class is one look-up. Beside it the reader tells bytes apart in two places:
/// `sign_form`, the signs, and `read_letter`, the letters of lines.
#[test]
fn bytes_are_told_apart_by_the_table() {
    assert!(SOURCE.contains("{\n    entry_class(classes[b as usize])\n}\n"));
    for source in [SOURCE].iter().chain(&READER) {
        assert_eq!(named_bytes(source), [""; 0]);
    }
    let signs = [
        "match b {",
        "b'*' => Form::Top,",
        "b'-' => Form::Bottom,",
        "b'&' => Form::Conjunction,",
    ];
    assert_eq!(named_bytes(FORMS), signs);
    let letters = [
        "let kind = match text.byte_at(at) {",
        "b'S' => RowKind::Strict,",
        "b'U' => RowKind::Defeasible,",
        "b'Q' => RowKind::Query,",
        "b'K' => RowKind::StrictQuery,",
    ];
    assert_eq!(named_bytes(LINE), letters);
}
