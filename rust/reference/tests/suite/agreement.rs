//! Random books: the nested text and the compiled deck settle alike, and the
//! order of lines doesn't matter.

use crate::common::{random_lines, write_lines, Random, Words};
use shelf_reference::{
    classify, compile, settle_lines, settle_text, shelf, shelf_by_deck, Answer, Rank, Settled,
};

const SMALL: Words = Words {
    names: &["a", "b", "c"],
    roles: &["r"],
};
const WIDE: Words = Words {
    names: &["a", "b", "c", "d", "e", "f"],
    roles: &["r", "s"],
};

/// How often something worth seeing came up, so that no test is idle.
#[derive(Debug, Default)]
struct Seen {
    infinite: usize,
    raised: usize,
    several_passes: usize,
    yes: usize,
    no: usize,
}

impl Seen {
    fn count(&mut self, settled: &Settled) {
        self.several_passes += usize::from(settled.counts.passes > 1);
        for answer in &settled.answers {
            if let Answer::Defeasible(rank) | Answer::Query(_, rank) = *answer {
                self.infinite += usize::from(rank == Rank::Infinite);
                self.raised += usize::from(rank != Rank::Infinite && rank > Rank::Finite(0));
            }
            match *answer {
                Answer::Query(true, rank) if rank != Rank::Infinite => self.yes += 1,
                Answer::Query(false, _) => self.no += 1,
                _ => {}
            }
        }
    }

    fn is_enough(&self) -> bool {
        let counts = [
            self.infinite,
            self.raised,
            self.several_passes,
            self.yes,
            self.no,
        ];
        counts.iter().all(|count| *count >= 500)
    }
}

fn agree(seed: u64, words: &Words, most: usize, books: usize) {
    let mut random = Random(seed);
    let mut seen = Seen::default();
    for _ in 0..books {
        let text = write_lines(&random_lines(&mut random, words, most));
        let nested = settle_text(text.as_bytes()).unwrap();
        let compiled = compile(text.as_bytes()).unwrap();
        let rows = compiled.deck.len();
        let sizes = compiled.sizes;
        let done = classify(&compiled.deck, sizes.numbers, sizes.roles);
        let settled = done.expect("a compiled deck is accepted").settled;
        assert_eq!(settled.counts, nested.counts, "{text}");
        let mut expected = nested.results();
        expected.resize(rows, 0);
        assert_eq!(settled.results(), expected, "{text}");
        assert_eq!(shelf(text.as_bytes()), shelf_by_deck(text.as_bytes()));
        seen.count(&nested);
    }
    assert!(seen.is_enough(), "{seen:?}");
}

/// Small books over three names and one role: text and deck agree, row by row,
/// and every definition row gives 0.
#[test]
fn text_and_deck_agree_on_small_books() {
    agree(7, &SMALL, 8, 6_000);
}

/// Longer books over six names and two roles agree as well.
#[test]
fn text_and_deck_agree_on_longer_books() {
    agree(8, &WIDE, 24, 2_000);
}

/// Shuffling lines changes no rank, reply, level, pass or count of yes.
#[test]
fn shuffling_lines_changes_nothing() {
    let mut random = Random(9);
    let mut seen = Seen::default();
    for _ in 0..4_000 {
        let lines = random_lines(&mut random, &SMALL, 12);
        let settled = settle_lines(&lines);
        let mut places: Vec<usize> = (0..lines.len()).collect();
        random.shuffle(&mut places);
        let shuffled: Vec<_> = places.iter().map(|place| lines[*place].clone()).collect();
        let again = settle_lines(&shuffled);
        let expected: Vec<Answer> = places.iter().map(|place| settled.answers[*place]).collect();
        assert_eq!(again.answers, expected);
        assert_eq!(again.counts, settled.counts);
        seen.count(&settled);
    }
    assert!(seen.is_enough(), "{seen:?}");
}

/// The counts stay in their bounds, and a usual rule's own question is yes.
#[test]
fn counts_stay_in_their_bounds() {
    let mut random = Random(10);
    let mut rules = 0;
    for _ in 0..4_000 {
        let lines = random_lines(&mut random, &WIDE, 12);
        let settled = settle_lines(&lines);
        let usual: Vec<_> = lines
            .iter()
            .filter(|line| line.kind == shelf_reference::Kind::Defeasible)
            .collect();
        assert!(settled.counts.levels <= usual.len());
        assert!((1..=usual.len() + 1).contains(&settled.counts.passes));
        // Ask each usual rule as a question: the answer is yes at its rank.
        let mut asked = lines.clone();
        for line in &usual {
            asked.push(shelf_reference::Line {
                kind: shelf_reference::Kind::Query,
                inclusion: line.inclusion.clone(),
            });
        }
        let again = settle_lines(&asked);
        assert_eq!(again.answers[..lines.len()], settled.answers);
        for answer in &again.answers[lines.len()..] {
            assert!(matches!(answer, Answer::Query(true, _)));
            rules += 1;
        }
    }
    assert!(rules > 4_000);
}
