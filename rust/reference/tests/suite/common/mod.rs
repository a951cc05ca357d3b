//! What several test files share: P1, a small random generator, random books and
//! runs of axioms, a printer of lines, and a plain evaluation that is not the
//! engine's.

pub mod definition;
pub mod no_runs;
pub mod one_pass;
pub mod runs;
pub mod tiny;
pub mod vectors;

use shelf_reference::concept::Name;
use shelf_reference::{Concept, Inclusion, Interpretation, Kind, Line};

/// P1, the book of the scope's printed sitting.
pub const P1: &str = include_str!("../../../../data/p1.book");
/// What the scope prints for it.
pub const P1_PRINTED: &str = include_str!("../../../../data/p1.printed");

/// A small generator of random numbers with a fixed start (splitmix64).
pub struct Random(pub u64);

impl Random {
    pub fn next(&mut self) -> u64 {
        self.0 = self.0.wrapping_add(0x9E37_79B9_7F4A_7C15);
        let mut mixed = self.0;
        mixed = (mixed ^ (mixed >> 30)).wrapping_mul(0xBF58_476D_1CE4_E5B9);
        mixed = (mixed ^ (mixed >> 27)).wrapping_mul(0x94D0_49BB_1331_11EB);
        mixed ^ (mixed >> 31)
    }

    /// A number under `bound`.
    pub fn below(&mut self, bound: usize) -> usize {
        (self.next() % bound as u64) as usize
    }

    /// One of the values.
    pub fn pick<T: Copy>(&mut self, values: &[T]) -> T {
        values[self.below(values.len())]
    }

    /// Shuffles in place.
    pub fn shuffle<T>(&mut self, values: &mut [T]) {
        for last in (1..values.len()).rev() {
            values.swap(last, self.below(last + 1));
        }
    }
}

/// The words that random concepts are made of.
pub struct Words<'w> {
    pub names: &'w [&'w str],
    pub roles: &'w [&'w str],
}

/// A concept of at most `depth` levels.
pub fn random_concept(random: &mut Random, words: &Words, depth: usize) -> Concept<String> {
    let shape = random.below(if depth > 1 { 10 } else { 6 });
    match shape {
        0 if random.below(2) == 0 => Concept::Top,
        1 if random.below(3) == 0 => Concept::Bottom,
        0..=5 => Concept::Name(random.pick(words.names).to_owned()),
        6 | 7 => Concept::and(
            random_concept(random, words, depth - 1),
            random_concept(random, words, depth - 1),
        ),
        _ => Concept::exists(
            random.pick(words.roles).to_owned(),
            random_concept(random, words, depth - 1),
        ),
    }
}

pub fn random_inclusion(random: &mut Random, words: &Words, depth: usize) -> Inclusion<String> {
    let left = random_concept(random, words, depth);
    let right = random_concept(random, words, depth);
    Inclusion::new(left, right)
}

/// A strict inclusion that often says that two concepts exclude each other.
pub fn random_strict(random: &mut Random, words: &Words, depth: usize) -> Inclusion<String> {
    if random.below(3) > 0 {
        return random_inclusion(random, words, depth);
    }
    let left = random_concept(random, words, depth - 1);
    let right = random_concept(random, words, depth - 1);
    Inclusion::new(Concept::and(left, right), Concept::Bottom)
}

/// A book with some of every kind of line: half of the time wild, half of the
/// time built upon a ladder of kinds, so that ranks above 0 are frequent.
pub fn random_lines(random: &mut Random, words: &Words, most: usize) -> Vec<Line<String>> {
    let mut lines = Vec::new();
    let laddered = random.below(2) == 0;
    if laddered {
        lines.extend(ladder(words));
    }
    for _ in 0..random.below(most + 1) {
        let line = if laddered && random.below(8) > 0 {
            ladder_line(random, words)
        } else {
            wild_line(random, words)
        };
        lines.push(line);
    }
    random.shuffle(&mut lines);
    lines
}

fn wild_line(random: &mut Random, words: &Words) -> Line<String> {
    let kind = random.pick(&[
        Kind::Strict,
        Kind::Strict,
        Kind::Strict,
        Kind::Defeasible,
        Kind::Defeasible,
        Kind::Defeasible,
        Kind::Query,
        Kind::Query,
        Kind::StrictQuery,
    ]);
    let inclusion = match kind {
        Kind::Strict => random_strict(random, words, 3),
        _ => random_inclusion(random, words, 3),
    };
    Line { kind, inclusion }
}

/// Each name is within the one before it, and "yes" and "no" exclude each
/// other.
fn ladder(words: &Words) -> Vec<Line<String>> {
    let name = |word: &str| Concept::Name(word.to_owned());
    let mut lines = vec![Line::new(
        Kind::Strict,
        Concept::and(name("yes"), name("no")),
        Concept::Bottom,
    )];
    for pair in words.names.windows(2) {
        lines.push(Line::new(Kind::Strict, name(pair[1]), name(pair[0])));
    }
    lines
}

/// A usual rule or a question about a kind of the ladder, now and then with
/// something added on its left or put behind a role on its right.
fn ladder_line(random: &mut Random, words: &Words) -> Line<String> {
    let kind = random.pick(&[
        Kind::Defeasible,
        Kind::Defeasible,
        Kind::Defeasible,
        Kind::Query,
        Kind::Query,
        Kind::StrictQuery,
    ]);
    let mut left = Concept::Name(random.pick(words.names).to_owned());
    if random.below(4) == 0 {
        left = Concept::and(left, random_concept(random, words, 2));
    }
    let mut right = Concept::Name(random.pick(&["yes", "no"]).to_owned());
    if random.below(5) == 0 {
        right = Concept::and(random_concept(random, words, 2), right);
    }
    if random.below(5) == 0 {
        right = Concept::exists(random.pick(words.roles).to_owned(), right);
    }
    Line::new(kind, left, right)
}

/// A concept as a book writes it.
pub fn write_concept(concept: &Concept<String>) -> String {
    match concept {
        Concept::Top => "*".to_owned(),
        Concept::Bottom => "-".to_owned(),
        Concept::Name(word) => word.clone(),
        Concept::And(left, right) => {
            format!("& {} {}", write_concept(left), write_concept(right))
        }
        Concept::Exists(role, filler) => format!("/{role} {}", write_concept(filler)),
    }
}

/// Lines as a book writes them.
pub fn write_lines(lines: &[Line<String>]) -> String {
    let mut text = String::new();
    for line in lines {
        let letter = match line.kind {
            Kind::Strict => 'S',
            Kind::Defeasible => 'U',
            Kind::Query => 'Q',
            Kind::StrictQuery => 'K',
            other => unreachable!("{other:?} is of a later format"),
        };
        let left = write_concept(&line.inclusion.left);
        let right = write_concept(&line.inclusion.right);
        text.push_str(&format!("{letter} {left} {right}\n"));
    }
    text
}

/// Whether an element is in a concept: the definition, element by element.
pub fn is_in<N: Name>(model: &Interpretation<N>, x: usize, concept: &Concept<N>) -> bool {
    match concept {
        Concept::Top => true,
        Concept::Bottom => false,
        Concept::Name(name) => model.names.get(name).is_some_and(|set| set.contains(&x)),
        Concept::And(left, right) => is_in(model, x, left) && is_in(model, x, right),
        Concept::Exists(role, filler) => model
            .pairs(role)
            .any(|pair| pair.0 == x && is_in(model, pair.1, filler)),
    }
}

/// Whether an element isn't in the left or is in the right.
pub fn obeys<N: Name>(model: &Interpretation<N>, x: usize, rule: &Inclusion<N>) -> bool {
    !is_in(model, x, &rule.left) || is_in(model, x, &rule.right)
}

/// Whether every element obeys every inclusion.
pub fn is_model<N: Name>(model: &Interpretation<N>, strict: &[Inclusion<N>]) -> bool {
    (0..model.size).all(|x| strict.iter().all(|rule| obeys(model, x, rule)))
}
