//! The proved reader against this one: the stored input and output of the
//! Rattle program `reading_run`, which the gate runs, are the ones of this
//! engine.

use crate::common::vectors::{input, output, stored, texts};
use std::collections::BTreeMap;
use std::fs::read;

/// The stored input has exactly these texts.
#[test]
fn the_stored_input_has_the_texts() {
    assert!(read(stored("stdin")).expect("the file is there") == input(&texts()));
}

/// The stored output is what this engine makes of them, line by line.
#[test]
fn the_stored_output_is_this_engines() {
    let texts = texts();
    let stored = read(stored("stdout")).expect("the file is there");
    let stored = String::from_utf8(stored).expect("the file is text");
    let expected = output(&texts);
    for ((text, found), wanted) in texts.iter().zip(stored.lines()).zip(expected.lines()) {
        assert_eq!(found, wanted, "{}", String::from_utf8_lossy(text));
    }
    assert_eq!(stored.len(), expected.len());
}

/// The texts meet acceptance and each refusal of a text's author.
#[test]
fn the_texts_meet_every_refusal() {
    let expected = output(&texts());
    let mut counts = BTreeMap::new();
    for line in expected.lines() {
        let mut fields = line.split(' ');
        let number = match fields.next() {
            Some("refused") => fields.next().expect("a number follows"),
            _ => "0",
        };
        *counts.entry(number).or_insert(0) += 1;
    }
    let met: Vec<&str> = counts.into_keys().collect();
    assert_eq!(met, ["0", "1", "3", "4", "5", "6", "7", "8"]);
}
