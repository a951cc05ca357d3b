//! Input that is refused by 24, with its place, and lent texts that are refused by
//! 25.

use crate::common::no_runs::{unmarked, NO_RUNS};
use crate::common::runs::{random_gap, random_run, write_run, NAMES};
use crate::common::Random;
use shelf_reference::limits::TEXT_BYTES;
use shelf_reference::{convert, convert_lent, read_run, Refused};

/// Asserts the number and the place of a refusal.
#[track_caller]
fn refused(found: Result<Vec<u8>, Refused>, number: u64, place: usize) {
    let found = found.expect_err("the input is refused");
    assert_eq!((found.number(), found.place), (number, place));
}

#[test]
fn refused_at_the_first_byte_that_no_run_could_have_there() {
    for (reason, marked) in NO_RUNS {
        let (input, place) = unmarked(marked);
        println!("{reason}: {input}");
        refused(convert(input.as_bytes()), 24, place);
        let behind_gaps = format!(" \n{input}");
        refused(convert(behind_gaps.as_bytes()), 24, place + 2);
        let run = "SubClassOf(:a :b)";
        let behind_axiom = format!("{run}{input}");
        refused(convert(behind_axiom.as_bytes()), 24, place + run.len());
    }
}

/// A run that is cut short, with gaps behind it or not, is refused at the end: at
/// every place of it but before, between and behind its axioms.
#[test]
fn a_run_that_is_cut_short_is_refused_at_its_end() {
    let axioms = [
        "SubClassOf(Annotation(rdfs:comment \"usual\") :a ObjectIntersectionOf(:b owl:Thing))",
        " SubClassOf ( ObjectSomeValuesFrom ( :r owl:Nothing ) :c ) ",
    ];
    let run = axioms.concat();
    let ends = |length: usize| {
        let second = axioms[0].len();
        length == 0 || (second..second + 2).contains(&length) || length + 1 >= run.len()
    };
    for length in 0..=run.len() {
        let found = convert(&run.as_bytes()[..length]);
        match ends(length) {
            true => assert!(found.is_ok(), "{length}"),
            false => refused(found, 24, length),
        }
    }
    refused(convert(b"SubClassOf(:a   "), 24, 16);
    refused(convert(b"SubClassOf  \n"), 24, 13);
}

/// What stands before the place of 24 can go on to a run, and no run goes on with
/// the byte there: whatever a run begins with is never refused but at its end.
#[test]
fn the_place_is_as_far_as_a_run_could_go() {
    let mut random = Random(70);
    let mut completions = 0;
    for _ in 0..150 {
        let count = random.below(4);
        let axioms = random_run(&mut random, &NAMES, count, 3);
        let text = write_run(&axioms, |due| random_gap(&mut random, due)).into_bytes();
        for length in 0..=text.len() {
            let start = &text[..length];
            if let Err(place) = read_run(start) {
                assert_eq!(place, length, "{}", start.escape_ascii());
            }
        }
        let mut damaged = text;
        let place = random.below(damaged.len() + 1);
        damaged.insert(place, random.pick(b"SAO:(\")) ao!"));
        if let Err(place) = read_run(&damaged) {
            damaged.truncate(place);
            assert!(read_run(&completed(damaged)).is_ok());
            completions += 1;
        }
    }
    assert!(completions > 100, "{completions}");
}

/// A text that goes on to a run: byte after byte, of those that can stand there the
/// first of these, of which the earliest end what is open.
fn completed(mut text: Vec<u8>) -> Vec<u8> {
    let bytes = b")(:\"abcdefghijklmnopqrstuvwxyzABCDEFGHIJKLMNOPQRSTUVWXYZ ";
    for _ in 0..2_000 {
        let Err(place) = read_run(&text) else {
            return text;
        };
        assert_eq!(place, text.len(), "{}", text.escape_ascii());
        let next = bytes.iter().find(|byte| {
            let longer = [&text[..], &[**byte]].concat();
            read_run(&longer) != Err(place)
        });
        text.push(*next.expect("some byte can stand there"));
    }
    panic!("it goes on and on: {}", text.escape_ascii());
}

/// Over 16,384 bytes are 24 at 16,384 before anything else; of 16,384 bytes it is
/// told what is wrong with them.
#[test]
fn the_longest_input() {
    let axiom = "SubClassOf(:a :b)";
    let padded = |length: usize| format!("{axiom}{}", " ".repeat(length - axiom.len()));
    let longest = convert(padded(TEXT_BYTES).as_bytes());
    assert_eq!(longest.unwrap(), b"S a b\n");
    refused(convert(padded(TEXT_BYTES + 1).as_bytes()), 24, TEXT_BYTES);
    refused(convert(&vec![b'!'; TEXT_BYTES]), 24, 0);
    refused(convert(&vec![b'!'; TEXT_BYTES + 1]), 24, TEXT_BYTES);
    let cut_short = format!("SubClassOf({}", " ".repeat(TEXT_BYTES - 11));
    refused(convert(cut_short.as_bytes()), 24, TEXT_BYTES);
    let broken = padded(TEXT_BYTES - 1) + ")";
    refused(convert(broken.as_bytes()), 24, TEXT_BYTES - 1);
}

/// 25 where the lent text is shorter than the book, and only where there is one.
#[test]
fn a_lent_text_that_is_too_short() {
    let axiom = b"SubClassOf(:a :b)";
    for length in 0..6 {
        refused(convert_lent(axiom, length), 25, 0);
    }
    for length in [6, 7, 100] {
        assert_eq!(convert_lent(axiom, length).unwrap(), b"S a b\n");
    }
    refused(convert_lent(b"SubClassOf(:a)", 0), 24, 13);
    refused(convert_lent(&[b' '; TEXT_BYTES + 1], 0), 24, TEXT_BYTES);
    assert_eq!(convert_lent(b"", 0).unwrap(), b"");
}

/// As many brackets as there can be, none of them closed.
#[test]
fn the_deepest_that_is_cut_short() {
    let unclosed = "ObjectIntersectionOf(".repeat(TEXT_BYTES / 21 - 1);
    let unclosed = format!("SubClassOf({unclosed}");
    refused(convert(unclosed.as_bytes()), 24, unclosed.len());
}
