//! Input that is refused by 24 or 25, and short answers. Each call is compared
//! with the plain engine, and every lent byte but the place is held to be kept (see
//! `common::conversions`).

use crate::common::conversions::{compare_input, compare_run, RunCase, RunLent};
use crate::common::decks::Random;
use crate::common::large_runs::{padded, unclosed, MOST_UNCLOSED, SHORTEST};
use crate::common::no_runs::{unmarked, NO_RUNS};
use crate::common::runs::{random_gap, random_run, write_run, NAMES};
use shelf::limits::{ANSWER_WORDS, TEXT_BYTES};

/// Asserts that an input is refused by 24 at this place.
#[track_caller]
fn no_run(input: impl AsRef<[u8]>, place: usize) {
    let found = compare_input(input, &mut Random(170)).refused();
    assert_eq!(found, (24, place));
}

/// A run with every token, with gaps that are due and some that are not.
const EVERY_TOKEN: &str = "SubClassOf( Annotation(rdfs:comment \"usual\") :abcdefghijkl \
                           ObjectIntersectionOf(owl:Thing :b owl:Nothing) )\n\
                           SubClassOf(ObjectSomeValuesFrom(:r0 :c):d)";

/// The hand-written inputs are refused at the place by hand.
#[test]
fn places_by_hand() {
    for (reason, marked) in NO_RUNS {
        let (input, place) = unmarked(marked);
        println!("{reason}: {input}");
        no_run(&input, place);
        no_run(format!("{SHORTEST}\n{input}"), place + SHORTEST.len() + 1);
    }
}

/// Every start of the run: it is converted where an axiom ends, and else refused at
/// its end.
#[test]
fn every_start_of_a_run() {
    let mut random = Random(171);
    let mut converted = Vec::new();
    for length in 0..=EVERY_TOKEN.len() {
        let compared = compare_input(&EVERY_TOKEN[..length], &mut random);
        match compared.number {
            0 => converted.push(length),
            _ => assert_eq!(compared.refused(), (24, length)),
        }
    }
    let first = EVERY_TOKEN.find('\n').unwrap();
    assert_eq!(converted, [0, first, first + 1, EVERY_TOKEN.len()]);
}

/// How many inputs were converted and how many refused.
#[derive(Default)]
struct Met {
    converted: usize,
    refused: usize,
}

impl Met {
    /// Both engines on an input with a text that is long enough.
    fn compare(&mut self, input: &[u8], random: &mut Random) {
        let case = RunCase {
            input: input.to_vec(),
            text: 2 * EVERY_TOKEN.len(),
            answer: ANSWER_WORDS,
        };
        match compare_run(&case, random).number {
            0 => self.converted += 1,
            _ => self.refused += 1,
        }
    }
}

/// Each of the 256 bytes in place of each byte of the run: 38,400 inputs.
#[test]
fn every_byte_put_for_another() {
    let (mut random, mut met) = (Random(172), Met::default());
    for place in 0..EVERY_TOKEN.len() {
        for byte in 0..=u8::MAX {
            let mut input = EVERY_TOKEN.as_bytes().to_vec();
            input[place] = byte;
            met.compare(&input, &mut random);
        }
    }
    assert!((600..3_000).contains(&met.converted), "{}", met.converted);
    assert_eq!(met.converted + met.refused, 38_400);
}

/// Each of the 256 bytes put in at each place of the run: 38,656 inputs.
#[test]
fn every_byte_put_in() {
    let (mut random, mut met) = (Random(173), Met::default());
    for place in 0..=EVERY_TOKEN.len() {
        for byte in 0..=u8::MAX {
            let mut input = EVERY_TOKEN.as_bytes().to_vec();
            input.insert(place, byte);
            met.compare(&input, &mut random);
        }
    }
    assert!((300..3_000).contains(&met.converted), "{}", met.converted);
    assert_eq!(met.converted + met.refused, 38_656);
}

/// Each byte of the run taken out, and each two that stand together.
#[test]
fn every_byte_taken_out() {
    let (mut random, mut met) = (Random(174), Met::default());
    for length in [1, 2] {
        for place in 0..=EVERY_TOKEN.len() - length {
            let mut input = EVERY_TOKEN.as_bytes().to_vec();
            input.drain(place..place + length);
            met.compare(&input, &mut random);
        }
    }
    assert!(met.converted > 10 && met.refused > 200);
}

/// Changes, takes out or puts in one byte, or puts a token in.
fn damage(random: &mut Random, input: &mut Vec<u8>) {
    let bytes = b" \n \nabz09 \n:()\"SAOow\t\r\0\xFF";
    let tokens = [
        "owl:Thing",
        ":a ",
        "Annotation(rdfs:comment \"usual\")",
        ")",
        "(",
    ];
    let place = random.below(input.len() + 1);
    match random.below(4) {
        0 => input.insert(place, random.pick(bytes)),
        1 if place < input.len() => input[place] = random.pick(bytes),
        2 if place < input.len() => {
            input.remove(place);
        }
        _ => {
            input.splice(place..place, random.pick(&tokens).bytes());
        }
    }
}

/// 6,000 random runs with one or two places damaged are converted or refused
/// alike.
#[test]
fn damaged_runs_are_converted_or_refused_alike() {
    let mut random = Random(175);
    let mut numbers = [0; 26];
    for turn in 0..6_000 {
        let axioms = random_run(&mut random, &NAMES, 1 + turn % 3, turn % 4);
        let text = write_run(&axioms, |due| random_gap(&mut random, due));
        let mut input = text.into_bytes();
        for _ in 0..random.from(1, 2) {
            damage(&mut random, &mut input);
        }
        let mut case = RunCase::new(input).with_spare(&mut random);
        if random.once_in(3) {
            case.text = case.text.saturating_sub(random.from(1, 5));
        }
        numbers[compare_run(&case, &mut random).number as usize] += 1;
    }
    for (number, least) in [(0, 300), (24, 5_000), (25, 50)] {
        assert!(numbers[number] > least, "{number}: {numbers:?}");
    }
    assert_eq!(numbers[0] + numbers[24] + numbers[25], 6_000);
}

/// One byte over the most is 24 at the most, before anything that is wrong with the
/// bytes themselves; with the most bytes it is told what is wrong with them.
#[test]
fn one_byte_too_many() {
    let most = TEXT_BYTES;
    let compared = compare_input(padded(SHORTEST, most), &mut Random(176));
    assert_eq!(compared.book(), b"S a b\n");
    no_run(padded(SHORTEST, most + 1), most);
    no_run("!".repeat(most), 0);
    no_run("!".repeat(most + 1), most);
    no_run(padded(SHORTEST, most - 1) + ")", most - 1);
    no_run(padded(SHORTEST, most) + ")", most);
    no_run(padded("SubClassOf(", most), most);
    no_run(padded("SubClassOf(:a", most), most);
    no_run(padded("SubClassOf(", most + 1), most);
    no_run(" ".repeat(most + 1), most);
}

/// As many brackets as fit, none of them closed, are cut short at their end.
#[test]
fn as_many_brackets_as_fit() {
    let input = unclosed(MOST_UNCLOSED);
    assert!(unclosed(MOST_UNCLOSED + 1).len() > TEXT_BYTES);
    no_run(&input, input.len());
    no_run(input.clone() + ")", input.len());
}

/// Some millions of bytes are 24 at the most.
#[test]
fn very_long_inputs() {
    let million = 1 << 20;
    no_run(" ".repeat(4 * million), TEXT_BYTES);
    no_run(SHORTEST.repeat(million / 4), TEXT_BYTES);
    no_run("(".repeat(4 * million), TEXT_BYTES);
}

/// What is no run is 24 whatever is lent; a run with too short a text is 25.
#[test]
fn refused_by_24_before_25() {
    let mut random = Random(177);
    let too_long = padded(SHORTEST, TEXT_BYTES + 1);
    for (input, expected) in [
        (SHORTEST, (25, 0)),
        ("SubClassOf(:a)", (24, 13)),
        ("SubClassOf(:a :b)!", (24, 17)),
        ("SubClassOf(:a :b) S", (24, 19)),
        (&too_long, (24, TEXT_BYTES)),
    ] {
        for text in 0..6 {
            let mut case = RunCase::new(input);
            case.text = text;
            let found = compare_run(&case, &mut random).refused();
            assert_eq!(found, expected, "{case:?}");
        }
    }
}

/// An answer slice that is too short is refused by 2 before all else, and nothing
/// at all is changed; a longer one keeps its rest.
#[test]
fn a_short_answer_is_2_before_all_else() {
    let mut random = Random(178);
    let too_long = padded(SHORTEST, TEXT_BYTES + 1);
    for input in ["", SHORTEST, EVERY_TOKEN, "SubClassOf(:a)", &too_long] {
        let case = RunCase::new(input);
        for answer in 0..ANSWER_WORDS {
            for text in [case.text, 0, case.text + 100] {
                let input = case.input.clone();
                let case = RunCase {
                    input,
                    text,
                    answer,
                };
                assert_eq!(compare_run(&case, &mut random).number, 2, "{case:?}");
            }
        }
    }
    for answer in [ANSWER_WORDS, ANSWER_WORDS + 1, 100] {
        let mut case = RunCase::new(SHORTEST);
        case.answer = answer;
        assert_eq!(compare_run(&case, &mut random).book(), b"S a b\n");
    }
}

/// Over buffers all of zeros and all of ones a refusal writes its place and nothing
/// besides.
#[test]
fn a_refusal_writes_its_place_and_nothing_else() {
    let mut short = RunCase::new(EVERY_TOKEN);
    short.text -= 1;
    let mut no_run = RunCase::new("SubClassOf(:a :b)SubClassOf(:a)");
    no_run.text = 100;
    let mut too_long = RunCase::new(padded(SHORTEST, TEXT_BYTES + 1));
    too_long.text = 100;
    for (number, place, case) in [(25, 0, short), (24, 30, no_run), (24, TEXT_BYTES, too_long)] {
        for bits in [0, u64::MAX] {
            let before = RunLent::filled(&case, bits);
            let mut lent = before.clone();
            assert_eq!(lent.call(), number, "{case:?}");
            assert!(lent == before.refused_at(place), "{case:?}");
        }
    }
}
