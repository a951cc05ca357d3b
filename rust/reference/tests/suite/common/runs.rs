//! Runs of axioms: random ones, and their text with gaps of any size. The tests
//! of the wrapper use this file too.

use super::{Random, Words};
use shelf_reference::{Axiom, Class};

/// Names that begin alike, of one byte and of the most, and digits; some serve as
/// roles too.
pub const NAMES: Words = Words {
    names: &["a", "ab", "0", "usual", "abcdefghij09"],
    roles: &["r", "a", "abcdefghij09"],
};

/// A random class with brackets at most so deep in each other.
fn random_class(random: &mut Random, words: &Words, depth: usize) -> Class {
    match random.below(if depth > 0 { 12 } else { 7 }) {
        0 => Class::Thing,
        1 => Class::Nothing,
        2..7 => Class::Named(random.pick(words.names).to_owned()),
        7..10 => {
            let parts = random.pick(&[2, 2, 3, 4, 7]);
            let part = |_| random_class(random, words, depth - 1);
            Class::Intersection((0..parts).map(part).collect())
        }
        _ => {
            let role = random.pick(words.roles).to_owned();
            Class::SomeValues(role, Box::new(random_class(random, words, depth - 1)))
        }
    }
}

/// So many random axioms, with brackets of classes at most so deep in each other.
pub fn random_run(random: &mut Random, words: &Words, count: usize, depth: usize) -> Vec<Axiom> {
    let axiom = |_| Axiom {
        usual: random.below(2) == 0,
        sub: random_class(random, words, depth),
        sup: random_class(random, words, depth),
    };
    (0..count).map(axiom).collect()
}

/// A gap of any size, of both its bytes; where one is due, it is not empty.
pub fn random_gap(random: &mut Random, due: bool) -> String {
    let most = random.pick(&[0, 1, 1, 2, 5]);
    let length = usize::from(due) + random.below(most + 1);
    (0..length).map(|_| random.pick(&[' ', '\n'])).collect()
}

/// The text of a run with gaps before, between and behind its tokens. The gap is
/// told whether one is due: behind a name or an owl: class, unless a bracket
/// follows.
pub fn write_run(axioms: &[Axiom], mut gap: impl FnMut(bool) -> String) -> String {
    let mut text = String::new();
    let mut needs_gap = false;
    for token in axioms.iter().flat_map(tokens) {
        let is_bracket = matches!(token.as_str(), "(" | ")");
        text += &gap(needs_gap && !is_bracket);
        text += &token;
        needs_gap = token.starts_with(':') || token.starts_with("owl:");
    }
    text + &gap(false)
}

fn tokens(axiom: &Axiom) -> Vec<String> {
    let mut tokens = listed(&["SubClassOf", "("]);
    if axiom.usual {
        tokens.extend(listed(&["Annotation", "("]));
        tokens.extend(listed(&["rdfs:comment", "\"usual\"", ")"]));
    }
    tokens.extend(class_tokens(&axiom.sub));
    tokens.extend(class_tokens(&axiom.sup));
    tokens.extend(listed(&[")"]));
    tokens
}

fn class_tokens(class: &Class) -> Vec<String> {
    match class {
        Class::Thing => listed(&["owl:Thing"]),
        Class::Nothing => listed(&["owl:Nothing"]),
        Class::Named(name) => vec![format!(":{name}")],
        Class::Intersection(parts) => {
            let mut tokens = listed(&["ObjectIntersectionOf", "("]);
            tokens.extend(parts.iter().flat_map(class_tokens));
            tokens.extend(listed(&[")"]));
            tokens
        }
        Class::SomeValues(role, filler) => {
            let mut tokens = listed(&["ObjectSomeValuesFrom", "("]);
            tokens.push(format!(":{role}"));
            tokens.extend(class_tokens(filler));
            tokens.extend(listed(&[")"]));
            tokens
        }
    }
}

fn listed(tokens: &[&str]) -> Vec<String> {
    tokens.iter().map(|token| token.to_string()).collect()
}
