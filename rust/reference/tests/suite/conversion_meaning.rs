//! That a converted book says what its axioms say, read directly.

use crate::common::runs::{random_gap, random_run, write_run};
use crate::common::{obeys, Random, Words};
use shelf_reference::{convert, read, Axiom, Class, Interpretation, Kind};

/// Whether an element is in a class, by the meaning of OWL itself: an intersection
/// has what is in all of its parts.
fn is_in_class(model: &Interpretation<String>, x: usize, class: &Class) -> bool {
    match class {
        Class::Thing => true,
        Class::Nothing => false,
        Class::Named(name) => model.names.get(name).is_some_and(|set| set.contains(&x)),
        Class::Intersection(parts) => parts.iter().all(|part| is_in_class(model, x, part)),
        Class::SomeValues(role, filler) => model
            .pairs(role)
            .any(|pair| pair.0 == x && is_in_class(model, pair.1, filler)),
    }
}

/// The elements for which an axiom holds.
fn obeying(model: &Interpretation<String>, axiom: &Axiom) -> Vec<usize> {
    let holds =
        |x: &usize| !is_in_class(model, *x, &axiom.sub) || is_in_class(model, *x, &axiom.sup);
    (0..model.size).filter(holds).collect()
}

/// Every interpretation of so many elements.
fn interpretations(words: &Words, size: usize) -> Vec<Interpretation<String>> {
    let bits = size * words.names.len() + size * size * words.roles.len();
    let interpretation = |bits: u64| {
        let mut bits = (0..).map(|place| bits >> place & 1 == 1);
        let mut set = || bits.next().expect("there is no end of them");
        let mut model = Interpretation::empty(size);
        for name in words.names {
            for x in (0..size).filter(|_| set()) {
                model.add_name(&name.to_string(), x);
            }
        }
        for role in words.roles {
            let pairs = (0..size * size).filter(|_| set());
            for pair in pairs.map(|pair| (pair / size, pair % size)) {
                model.add_pair(&role.to_string(), pair);
            }
        }
        model
    };
    (0..1 << bits).map(interpretation).collect()
}

/// The book has the models and usual rules of the axioms read directly: line for
/// line it is of the axiom's kind, and in every interpretation of up to two
/// elements the same elements obey it.
#[test]
fn a_book_says_what_its_axioms_say() {
    let words = Words {
        names: &["a", "b"],
        roles: &["r"],
    };
    let models = [interpretations(&words, 1), interpretations(&words, 2)].concat();
    assert_eq!(models.len(), 8 + 256);
    let mut random = Random(72);
    let (mut held, mut broken) = (0, 0);
    for _ in 0..200 {
        let axioms = random_run(&mut random, &words, 4, 2);
        let text = write_run(&axioms, |due| random_gap(&mut random, due));
        let lines = read(&convert(text.as_bytes()).unwrap()).unwrap();
        assert_eq!(lines.len(), axioms.len());
        for (line, axiom) in lines.iter().zip(&axioms) {
            assert_eq!(line.kind == Kind::Defeasible, axiom.usual);
            assert_eq!(line.kind == Kind::Strict, !axiom.usual);
            for model in &models {
                let by_line = (0..model.size).filter(|x| obeys(model, *x, &line.inclusion));
                let by_line: Vec<usize> = by_line.collect();
                assert_eq!(by_line, obeying(model, axiom), "{text}");
                match by_line.len() == model.size {
                    true => held += 1,
                    false => broken += 1,
                }
            }
        }
    }
    assert!(held > 10_000 && broken > 10_000, "{held} {broken}");
}
