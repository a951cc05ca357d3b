//! Passes, levels and ranks once more, straight from the definition, with a
//! new model for every single question and nothing remembered.

use shelf_reference::closure::exceptional;
use shelf_reference::concept::Name;
use shelf_reference::{Concept, Inclusion, Kind, Line};

pub struct Defined<N> {
    pub hardened: Vec<Inclusion<N>>,
    pub sets: Vec<Vec<Inclusion<N>>>,
    pub passes: usize,
}

pub fn of_kind<N: Name>(lines: &[Line<N>], kind: Kind) -> Vec<Inclusion<N>> {
    let lines = lines.iter().filter(|line| line.kind == kind);
    lines.map(|line| line.inclusion.clone()).collect()
}

/// T*, the sets E0, E1, .. of the last pass up to the empty one, the passes.
pub fn define<N: Name>(lines: &[Line<N>]) -> Defined<N> {
    let mut hardened = of_kind(lines, Kind::Strict);
    let mut rules = of_kind(lines, Kind::Defeasible);
    for passes in 1.. {
        let mut sets = vec![rules.clone()];
        loop {
            let present = &sets[sets.len() - 1];
            let mut next = present.clone();
            next.retain(|rule| exceptional(&hardened, present, &rule.left));
            if next == *present {
                break;
            }
            sets.push(next);
        }
        let stuck = &sets[sets.len() - 1];
        if stuck.is_empty() {
            return Defined {
                hardened,
                sets,
                passes,
            };
        }
        for rule in stuck {
            hardened.push(Inclusion::new(rule.left.clone(), Concept::Bottom));
        }
        rules.retain(|rule| !stuck.contains(rule));
    }
    unreachable!("the passes end")
}

impl<N: Name> Defined<N> {
    pub fn levels(&self) -> usize {
        self.sets.len() - 1
    }

    pub fn rank(&self, concept: &Concept<N>) -> Option<usize> {
        (0..self.sets.len()).find(|i| !exceptional(&self.hardened, &self.sets[*i], concept))
    }
}
