//! Random runs of axioms, as tokens with the gaps between them.

use crate::random::Random;

/// A run: each token with the gap before it, and the gap at the end.
#[derive(Clone)]
pub struct Run {
    pub tokens: Vec<(String, String)>,
    pub end: String,
}

impl Run {
    pub fn text(&self) -> String {
        let tokens = self.tokens.iter();
        let text: String = tokens.flat_map(|(gap, token)| [&gap[..], token]).collect();
        text + &self.end
    }
}

/// Names of one byte and of the most, names that begin alike or as other tokens,
/// and digits. Some are roles too.
const NAMES: [&str; 12] = [
    "a",
    "b",
    "clone",
    "clone2",
    "set",
    "shown",
    "usual",
    "annotation",
    "subclassof",
    "0",
    "42",
    "abcdefghij09",
];
const ROLES: [&str; 5] = ["r", "has", "a", "0", "abcdefghij09"];

/// A random run of up to so many axioms, with brackets at most so deep in each
/// other.
pub fn run(random: &mut Random, most: usize, depth: usize) -> Run {
    let mut tokens = Vec::new();
    for _ in 0..random.below(most + 1) {
        axiom(random, depth, &mut tokens);
    }
    spaced(random, tokens)
}

fn axiom(random: &mut Random, depth: usize, tokens: &mut Vec<String>) {
    add(tokens, &["SubClassOf", "("]);
    if random.once_in(2) {
        add(
            tokens,
            &["Annotation", "(", "rdfs:comment", "\"usual\"", ")"],
        );
    }
    class(random, depth, tokens);
    class(random, depth, tokens);
    add(tokens, &[")"]);
}

fn class(random: &mut Random, depth: usize, tokens: &mut Vec<String>) {
    match random.below(if depth > 0 { 10 } else { 6 }) {
        0 => add(tokens, &["owl:Thing"]),
        1 => add(tokens, &["owl:Nothing"]),
        2..6 => tokens.push(format!(":{}", random.pick(&NAMES))),
        6..8 => {
            add(tokens, &["ObjectIntersectionOf", "("]);
            for _ in 0..random.pick(&[2, 2, 2, 3, 5]) {
                class(random, depth - 1, tokens);
            }
            add(tokens, &[")"]);
        }
        _ => {
            add(tokens, &["ObjectSomeValuesFrom", "("]);
            tokens.push(format!(":{}", random.pick(&ROLES)));
            class(random, depth - 1, tokens);
            add(tokens, &[")"]);
        }
    }
}

fn add(tokens: &mut Vec<String>, more: &[&str]) {
    tokens.extend(more.iter().map(|token| token.to_string()));
}

/// The tokens with random gaps: of some size behind a name or an owl: class, unless
/// a bracket follows.
fn spaced(random: &mut Random, tokens: Vec<String>) -> Run {
    let mut due = false;
    let mut run = Run {
        tokens: Vec::new(),
        end: String::new(),
    };
    for token in tokens {
        let is_bracket = matches!(token.as_str(), "(" | ")");
        let gap = gap(random, due && !is_bracket);
        due = token.starts_with(':') || token.starts_with("owl:");
        run.tokens.push((gap, token));
    }
    run.end = gap(random, false);
    run
}

fn gap(random: &mut Random, due: bool) -> String {
    let gaps = [" ", "\n", "", "", "  ", "\n ", " \n\n   "];
    match random.pick(&gaps) {
        "" if due => " ".to_owned(),
        gap => gap.to_owned(),
    }
}
