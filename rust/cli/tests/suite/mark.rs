//! `mark`: the table, and refusals in words, those of a sheet with its line.

use crate::common::{call, done, failed, Ended, P1};

/// The sheets are marked on P1, whose replies are no, no, yes, yes.
fn mark_p1(sheets: &str) -> Ended {
    call(&["mark", "p1.book", "-"], sheets)
}

#[test]
fn a_class_on_p1() {
    let table = "\
sheet  right  wrong  percent
    1      4      0      100
    2      0      4        0
    3      3      1       75
total      7      5
";
    done(mark_p1("nnyy\nyynn\nynyy\n"), table);
}

/// The book may come from standard input in place of the sheets: here its own file
/// serves as sheets, and is refused as such.
#[test]
fn either_file_may_be_standard_input() {
    let said = failed(call(&["mark", "-", "p1.book"], P1), 1);
    assert!(said.starts_with("refused 23 0: "), "{said}");
}

#[test]
fn no_sheets() {
    let table = "sheet  right  wrong  percent\ntotal      0      0\n";
    done(mark_p1(""), table);
}

/// The longest numbers stand in their columns.
#[test]
fn the_largest_class() {
    let book = std::path::Path::new(env!("CARGO_TARGET_TMPDIR")).join("largest.book");
    std::fs::write(&book, "K a a\n".repeat(1_024)).expect("a file can be written");
    let book = book.to_str().expect("its name is text");
    let sheets = ("y".repeat(1_024) + "\n").repeat(64);
    let ended = call(&["mark", book, "-"], sheets);
    let lines: Vec<&str> = ended.printed.lines().collect();
    assert_eq!((ended.status, lines.len()), (0, 66));
    assert_eq!(lines[1], "    1   1024      0      100");
    assert_eq!(lines[64], "   64   1024      0      100");
    assert_eq!(lines[65], "total  65536      0");
}

/// What the book is refused for comes first, and is shown in the book.
#[test]
fn a_refused_book() {
    let said = failed(call(&["mark", "-", "p1.book"], "S a b\nU a\n"), 1);
    assert!(said.starts_with("refused 3 9: "), "{said}");
    assert!(said.ends_with("\nline 2, column 4\nU a\n   ^\n"), "{said}");
    let said = failed(call(&["mark", "-", "p1.book"], "S a b\n"), 1);
    assert_eq!(said, "refused 21 0: the book has no question\n");
}

#[test]
fn too_many_sheets() {
    let said = failed(mark_p1(&"nnyy\n".repeat(65)), 1);
    let expected = "refused 22 0: there are over 64 sheets, or the report has under 3 numbers \
                    a sheet\n";
    assert_eq!(said, expected);
}

/// A wrong sheet is told by its number from 1 and shown with a mark below its first
/// wrong byte.
#[test]
fn a_wrong_sheet_is_shown() {
    let vectors = [
        ("nny?", "a byte that is neither y nor n", "nny?\n   ^"),
        ("nnYy", "a byte that is neither y nor n", "nnYy\n  ^"),
        (" nnyy", "a byte that is neither y nor n", " nnyy\n^"),
        ("nny", "it ends after 3 of 4 answers", "nny\n   ^"),
        ("", "it ends after 0 of 4 answers", "\n^"),
        ("nnyyn", "it goes on after 4 answers", "nnyyn\n    ^"),
        ("nnyy\r", "it goes on after 4 answers", "nnyy.\n    ^"),
    ];
    for (sheet, what, shown) in vectors {
        for (before, number) in [("", 1), ("nnyy\nyynn\n", 3)] {
            let said = failed(mark_p1(&format!("{before}{sheet}\nnnyy\n?\n")), 1);
            let column = shown.lines().last().unwrap_or_default().len();
            let start = format!("refused 23 {}: a sheet ", number - 1);
            assert!(said.starts_with(&start), "{said}");
            let end =
                format!("\nsheet {number}: {what}\nline {number}, column {column}\n{shown}\n");
            assert!(said.ends_with(&end), "{said}");
        }
    }
}

/// A sheet without its line feed is wrong at its end.
#[test]
fn an_unended_sheet_is_shown() {
    let said = failed(mark_p1("nnyy\nnnyy"), 1);
    let end = "\nsheet 2: its line feed is missing\nline 2, column 5\nnnyy\n    ^\n";
    assert!(said.ends_with(end), "{said}");
    let said = failed(mark_p1("nnyy\nnn"), 1);
    let end = "\nsheet 2: it ends after 2 of 4 answers\nline 2, column 3\nnn\n  ^\n";
    assert!(said.ends_with(end), "{said}");
}

/// Of a sheet that is far too long only the beginning is shown.
#[test]
fn a_very_long_sheet_is_cut() {
    let said = failed(mark_p1(&"y".repeat(1 << 20)), 1);
    assert!(said.contains("\nsheet 1: it goes on after 4 answers\n"));
    assert!(said.len() < 400, "{} bytes", said.len());
}
