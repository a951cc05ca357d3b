//! The built program `shelf`, on standard input and output: what it prints is
//! what the scope and the documents say, and what the plain engine prints, to
//! the byte.

use crate::common::books::{below_roles, damage, each_number, lines, roles, ties};
use crate::common::books::{FAMILIES, LONGEST, MOST_WORDS, P1, P1_PRINTED, STUCK_IN_TURN};
use crate::common::decks::Random;
use shelf::limits::{DEPTH, ROLES, ROWS, TEXT_BYTES};
use shelf_reference::shelf;
use std::fs::{File, OpenOptions};
use std::io::{ErrorKind, Write};
use std::path::PathBuf;
use std::process::{Command, Stdio};
use std::thread::sleep;
use std::time::Duration;

/// How long the next piece of a text is in coming.
const PAUSE: Duration = Duration::from_millis(5);

/// The program, where `rt ci` and `rt run` write it.
fn program() -> PathBuf {
    let root = PathBuf::from(env!("CARGO_MANIFEST_DIR")).join("../..");
    root.join("crates/shelf/out/shelf")
}

/// Runs the program on a text that comes in these pieces. Of a text that is too
/// long it may leave a rest unread.
fn run(pieces: &[&[u8]]) -> String {
    let mut child = Command::new(program())
        .stdin(Stdio::piped())
        .stdout(Stdio::piped())
        .stderr(Stdio::piped())
        .spawn()
        .expect("the program is built: `rt run` in crates/shelf builds it");
    let mut stdin = child.stdin.take().expect("standard input is piped");
    let too_long = pieces.concat().len() > TEXT_BYTES;
    for (index, piece) in pieces.iter().enumerate() {
        if index > 0 {
            sleep(PAUSE);
        }
        match stdin.write_all(piece).and_then(|()| stdin.flush()) {
            Err(error) if too_long && error.kind() == ErrorKind::BrokenPipe => break,
            written => written.expect("the program reads its input"),
        }
    }
    drop(stdin);
    let output = child.wait_with_output().expect("the program ends");
    assert!(output.status.success(), "{}", output.status);
    assert_eq!(output.stderr.escape_ascii().to_string(), "");
    String::from_utf8(output.stdout).expect("it prints text")
}

#[track_caller]
fn compare(text: impl AsRef<[u8]>) -> String {
    let text = text.as_ref();
    let printed = run(&[text]);
    assert_eq!(printed, shelf(text), "{}", text.escape_ascii());
    printed
}

/// P1, the printed sitting, byte for byte; the gate runs the program on the same.
#[test]
fn the_printed_sitting() {
    assert_eq!(compare(P1), P1_PRINTED);
    assert_eq!(include_str!("../../../../crates/shelf/stdin"), P1);
    assert_eq!(include_str!("../../../../crates/shelf/stdout"), P1_PRINTED);
}

/// A line, and how often it makes the longest text.
const LINE: &str = "S abcdefg hijkl\n";
const LINES: usize = TEXT_BYTES / LINE.len();
const _: () = assert!(LINE.len() * LINES == TEXT_BYTES);

/// The longest text is read whole, and a longer one is refused by 1, be it one
/// byte longer or far more than the program reads.
#[test]
fn the_longest_text_and_longer_ones() {
    let longest = LINE.repeat(LINES);
    let end = format!("\n{LINES} S\nlevels 0 passes 1 yes 0\n");
    assert!(compare(&longest).ends_with(&end));
    let longer = [
        longest.clone() + "\n",
        longest + LINE,
        LINE.repeat(20 * LINES),
        "!".repeat(25 * TEXT_BYTES),
    ];
    for text in longer {
        assert_eq!(run(&[text.as_bytes()]), "refused 1 0\n");
    }
}

/// A text that comes in pieces prints what it does in one: lines that come one
/// by one, cuts inside words, and each byte by itself.
#[test]
fn a_text_in_pieces() {
    let cut_behind = |byte: u8| P1.as_bytes().split_inclusive(move |next| *next == byte);
    let lines: Vec<&[u8]> = cut_behind(b'\n').collect();
    let cut_in_words: Vec<&[u8]> = cut_behind(b'e').collect();
    assert_eq!(cut_in_words[1], b" se", "`set` is cut");
    let bytes: Vec<&[u8]> = P1.as_bytes().chunks(1).collect();
    for pieces in [lines, cut_in_words, bytes] {
        assert_eq!(run(&pieces), P1_PRINTED, "{} pieces", pieces.len());
    }
    assert_eq!(run(&[b"S a", b"b ", b"cd"]), "refused 3 7\n");
}

/// The limit is on the whole text, however it comes: a byte too many that comes
/// later is a byte too many.
#[test]
fn the_longest_text_in_pieces() {
    let longest = LINE.repeat(LINES).into_bytes();
    let (first, second) = longest.split_at(TEXT_BYTES / 2 + 3);
    assert_eq!(run(&[first, second]), compare(&longest));
    assert_eq!(run(&[first, second, b"\n"]), "refused 1 0\n");
    assert_eq!(run(&[&longest, &longest.repeat(25)]), "refused 1 0\n");
}

/// P2 to P9, and what the scope says of each; and a book with a stuck set in two
/// passes.
#[test]
fn the_marked_books() {
    let marked = [
        ("", "levels 0 passes 1 yes 0\n"),
        ("Q a a\n", "1 Q yes 0\nlevels 0 passes 1 yes 1\n"),
        ("Q a b\n", "1 Q no 0\nlevels 0 passes 1 yes 0\n"),
        (
            "S * -\nQ a b\n",
            "1 S\n2 Q yes oo\nlevels 0 passes 1 yes 1\n",
        ),
        ("U - a\n", "1 U oo\nlevels 0 passes 2 yes 0\n"),
        (
            "U * shown\nQ a shown\n",
            "1 U 0\n2 Q yes 0\nlevels 1 passes 1 yes 1\n",
        ),
        (
            "U a b\nU a c\nS & b c -\nS x /r a\nU x y\n",
            "1 U oo\n2 U oo\n3 S\n4 S\n5 U oo\nlevels 0 passes 3 yes 0\n",
        ),
        (
            "U stick rare\nS shmup /needs stick\nS /needs rare gem\nQ shmup gem\n",
            "1 U 0\n2 S\n3 S\n4 Q no 0\nlevels 1 passes 1 yes 0\n",
        ),
        (
            STUCK_IN_TURN,
            "1 U oo\n2 U oo\n3 Q yes oo\nlevels 0 passes 3 yes 1\n",
        ),
    ];
    for (book, printed) in marked {
        assert_eq!(compare(book), printed);
    }
}

/// A refusal prints its number and its place, and nothing besides.
#[test]
fn every_refusal() {
    for (number, place, text) in each_number() {
        if number != 0 {
            assert_eq!(compare(text), format!("refused {number} {place}\n"));
        }
    }
    let cut = LINE.repeat(LINES - 1) + "S abcdefg hijklm";
    assert_eq!(compare(cut), format!("refused 3 {TEXT_BYTES}\n"));
    assert_eq!(compare(b"S a b\r\n"), "refused 3 5\n");
    assert_eq!(compare(b"S a\0b\n"), "refused 3 3\n");
}

/// Each limit that the scope has run, met: a line is printed for each, and then
/// these counts.
#[test]
fn the_limits_met() {
    let deepest = below_roles(DEPTH, "a");
    let all_yes = format!("levels 0 passes 1 yes {ROWS}");
    let met: [(String, &str); 5] = [
        (
            format!("S {LONGEST} /{LONGEST} *\n"),
            "levels 0 passes 1 yes 0",
        ),
        (
            format!("K {deepest} {deepest}\n"),
            "levels 0 passes 1 yes 1",
        ),
        (
            lines(MOST_WORDS, |word| format!("U w{word} *\n")),
            "levels 1 passes 1 yes 0",
        ),
        (roles(ROLES), "levels 0 passes 1 yes 0"),
        ("K a a\n".repeat(ROWS), &all_yes),
    ];
    for (book, counts) in met {
        let printed = compare(&book);
        assert_eq!(printed.lines().count(), book.lines().count() + 1);
        assert_eq!(printed.lines().last(), Some(counts));
    }
}

/// Levels, ranks and passes of three digits.
#[test]
fn long_numbers() {
    let mut ladder = "S & yes no -\nU k0 yes\n".to_owned();
    let mut chain = "U d0 -\n".to_owned();
    for next in 1..=101 {
        let side = ["yes", "no"][next % 2];
        ladder += &format!("S k{next} k{}\nU k{next} {side}\n", next - 1);
        chain += &format!("U d{next} /r d{}\n", next - 1);
    }
    ladder += "Q k101 yes\nQ k101 no\n";
    let end = "203 S\n204 U 101\n205 Q no 101\n206 Q yes 101\nlevels 102 passes 1 yes 1\n";
    assert!(compare(ladder).ends_with(end));
    assert!(compare(chain).ends_with("\n102 U oo\nlevels 0 passes 103 yes 0\n"));
}

/// A book and what is printed for it, side by side in a document: the indented
/// block that ends with the settled counts.
fn side_by_side(document: &str) -> (String, String) {
    let ends = |block: &&str| {
        let last = block.lines().last().unwrap_or_default();
        last.trim_start().starts_with("levels ")
    };
    let block = document.split("\n\n").find(ends);
    let (mut book, mut printed) = (String::new(), String::new());
    for line in block.expect("the document has one").lines() {
        let line = line.strip_prefix("    ").expect("it is indented");
        let (left, right) = line.split_once("  ").expect("it has two columns");
        if !left.is_empty() {
            book += &format!("{left}\n");
        }
        printed += &format!("{}\n", right.trim_start());
    }
    (book, printed)
}

/// The books of the documents print what stands beside them.
#[test]
fn the_books_of_the_documents() {
    let documents = [
        (include_str!("../../../../README.md"), 6),
        (include_str!("../../../../docs/FORMAT.md"), 4),
    ];
    for (document, lines) in documents {
        let (book, printed) = side_by_side(document);
        assert_eq!(book.lines().count(), lines);
        assert_eq!(compare(book), printed);
    }
}

/// Refusals that meet.
#[test]
fn ties_of_refusals() {
    for text in ties() {
        compare(text);
    }
}

/// Random books of every family, half of them damaged.
#[test]
fn random_books() {
    let mut random = Random(77);
    let mut refused = 0;
    for turn in 0..400 {
        let (family, _) = FAMILIES[turn % FAMILIES.len()];
        let mut text = family(&mut random);
        if turn % 2 == 1 {
            damage(&mut random, &mut text);
        }
        refused += usize::from(compare(text).starts_with("refused"));
    }
    assert!((50..350).contains(&refused), "{refused} refused");
}

/// Input that can't be read, as a folder, and output that can't be written end the
/// program with an error, and nothing of a reply is printed.
#[test]
fn input_and_output_that_fail() {
    let folder = File::open(env!("CARGO_MANIFEST_DIR")).expect("a folder can be opened");
    let unread = Command::new(program()).stdin(folder).output();
    let book = File::open(concat!(env!("CARGO_MANIFEST_DIR"), "/../data/p1.book"));
    let full = OpenOptions::new().write(true).open("/dev/full");
    let unwritten = Command::new(program())
        .stdin(book.expect("the printed sitting is there"))
        .stdout(full.expect("/dev/full is there"))
        .output();
    for output in [unread, unwritten] {
        let output = output.expect("the program runs");
        assert_eq!(output.status.code(), Some(1));
        assert_eq!(output.stdout, b"");
        let said = String::from_utf8(output.stderr).expect("it says text");
        assert!(said.starts_with("Error: "), "{said}");
    }
}
