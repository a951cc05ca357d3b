//! The decision procedure: build the least model and look.
//!
//! A [`World`] holds, for a set T of strict inclusions, one element for each
//! filler of an existential: it is in its filler, it obeys T, and it has
//! nothing more than those two force. A [`Root`] is one more element, in a
//! concept C, that obeys T and some defeasible inclusions E; its edges lead
//! into the world. Whatever is forced upon the root holds of every element
//! in C that obeys E, in every model of T; and unless it is forced to be
//! nothing, the root with its world is itself a model of T with an element in
//! C that obeys E ([`World::witness`]). So the root answers every question.

use crate::concept::{Concept, Inclusion, Name};
use crate::interpretation::{slot, Interpretation};
use std::collections::{BTreeMap, BTreeSet};

/// The least elements of the fillers, for one set of strict inclusions.
pub struct World<N> {
    strict: Vec<Inclusion<N>>,
    /// The element made for each filler.
    elements: BTreeMap<Concept<N>, usize>,
    interpretation: Interpretation<N>,
    /// The elements that no model can have.
    impossible: BTreeSet<usize>,
}

/// An element in some concept that obeys T and E, with nothing unforced.
#[derive(Clone, Debug, PartialEq, Eq)]
pub struct Root<N> {
    /// The concept names it is in.
    pub names: BTreeSet<N>,
    /// Its edges: for each role, the elements of the world that it leads to.
    pub edges: BTreeMap<N, BTreeSet<usize>>,
    /// Whether no model can have such an element.
    pub impossible: bool,
}

impl<N: Name> World<N> {
    /// The world of the strict inclusions. `asserted` are the other concepts
    /// that roots of this world will be put into: the concepts they are made
    /// for and the rights of defeasible inclusions.
    pub fn new<'c>(
        strict: Vec<Inclusion<N>>,
        asserted: impl IntoIterator<Item = &'c Concept<N>>,
    ) -> Self
    where
        N: 'c,
    {
        let mut fillers: BTreeSet<Concept<N>> = BTreeSet::new();
        for concept in asserted {
            fillers.extend(concept.fillers().into_iter().cloned());
        }
        for inclusion in &strict {
            fillers.extend(inclusion.right.fillers().into_iter().cloned());
        }
        let elements: BTreeMap<_, _> = fillers.into_iter().zip(0..).collect();
        let mut world = World {
            interpretation: Interpretation::empty(elements.len()),
            strict,
            elements,
            impossible: BTreeSet::new(),
        };
        world.fill();
        world
    }

    /// Puts each element into its filler, then obeys the strict inclusions
    /// everywhere until nothing changes.
    fn fill(&mut self) {
        for (filler, element) in self.elements.clone() {
            self.assert(element, &filler);
        }
        let strict = std::mem::take(&mut self.strict);
        let mut changed = true;
        while changed {
            changed = false;
            for inclusion in &strict {
                let inside = self.interpretation.members(&inclusion.left).into_owned();
                for element in inside {
                    changed |= self.assert(element, &inclusion.right);
                }
            }
            changed |= self.spread_impossible();
        }
        self.strict = strict;
    }

    /// Puts an element into a concept; true when that changed anything.
    fn assert(&mut self, element: usize, concept: &Concept<N>) -> bool {
        match concept {
            Concept::Top => false,
            Concept::Bottom => self.impossible.insert(element),
            Concept::Name(name) => self.interpretation.add_name(name, element),
            Concept::And(left, right) => {
                let left_changed = self.assert(element, left);
                self.assert(element, right) || left_changed
            }
            Concept::Exists(role, filler) => {
                let target = self.element(filler);
                self.interpretation.add_pair(role, (element, target))
            }
        }
    }

    /// Whatever has an edge to an impossible element is impossible.
    fn spread_impossible(&mut self) -> bool {
        let before = self.impossible.len();
        for (x, targets) in self.interpretation.roles.values().flatten() {
            if !targets.is_disjoint(&self.impossible) {
                self.impossible.insert(*x);
            }
        }
        self.impossible.len() > before
    }

    fn element(&self, filler: &Concept<N>) -> usize {
        *self
            .elements
            .get(filler)
            .expect("the world has an element for each filler that is asserted")
    }

    /// The root in `concept` that obeys the world's strict inclusions and the
    /// given defeasible ones. An inclusion is obeyed once its left holds, and
    /// what holds at the root never ceases to, so each acts at most once.
    pub fn root(&self, concept: &Concept<N>, defeasible: &[&Inclusion<N>]) -> Root<N> {
        let mut root = Root {
            names: BTreeSet::new(),
            edges: BTreeMap::new(),
            impossible: false,
        };
        self.assert_at_root(&mut root, concept);
        let all = self.strict.iter().chain(defeasible.iter().copied());
        let mut waiting: Vec<&Inclusion<N>> = all.collect();
        while !root.impossible {
            let (due, rest): (Vec<_>, Vec<_>) = waiting
                .into_iter()
                .partition(|inclusion| self.root_is_in(&root, &inclusion.left));
            if due.is_empty() {
                break;
            }
            for inclusion in due {
                self.assert_at_root(&mut root, &inclusion.right);
            }
            waiting = rest;
        }
        root
    }

    fn assert_at_root(&self, root: &mut Root<N>, concept: &Concept<N>) {
        match concept {
            Concept::Top => {}
            Concept::Bottom => root.impossible = true,
            Concept::Name(name) => {
                root.names.insert(name.clone());
            }
            Concept::And(left, right) => {
                self.assert_at_root(root, left);
                self.assert_at_root(root, right);
            }
            Concept::Exists(role, filler) => {
                let target = self.element(filler);
                slot(&mut root.edges, role).insert(target);
                root.impossible |= self.impossible.contains(&target);
            }
        }
    }

    /// Whether the root is in a concept.
    fn root_is_in(&self, root: &Root<N>, concept: &Concept<N>) -> bool {
        match concept {
            Concept::Top => true,
            Concept::Bottom => false,
            Concept::Name(name) => root.names.contains(name),
            Concept::And(left, right) => {
                self.root_is_in(root, left) && self.root_is_in(root, right)
            }
            Concept::Exists(role, filler) => {
                let inside = self.interpretation.members(filler);
                let targets = root.edges.get(role);
                targets.is_some_and(|targets| !targets.is_disjoint(&inside))
            }
        }
    }

    /// Whether every element like this root is in the concept: always when
    /// there is none, otherwise when the root itself is.
    pub fn forces(&self, root: &Root<N>, concept: &Concept<N>) -> bool {
        root.impossible || self.root_is_in(root, concept)
    }

    /// The finite model that a possible root stands for: element 0 is the
    /// root, the others are those of the world that it leads to.
    pub fn witness(&self, root: &Root<N>) -> Option<Interpretation<N>> {
        if root.impossible {
            return None;
        }
        let reached = self.reached(root);
        let place = |element: &usize| reached.iter().position(|other| other == element);
        let mut model = Interpretation::empty(1 + reached.len());
        for name in &root.names {
            model.add_name(name, 0);
        }
        for (name, members) in &self.interpretation.names {
            for member in members.iter().filter_map(place) {
                model.add_name(name, 1 + member);
            }
        }
        for (role, targets) in &root.edges {
            for target in targets.iter().filter_map(place) {
                model.add_pair(role, (0, 1 + target));
            }
        }
        for role in self.interpretation.roles.keys() {
            for (x, y) in self.interpretation.pairs(role) {
                if let (Some(x), Some(y)) = (place(&x), place(&y)) {
                    model.add_pair(role, (1 + x, 1 + y));
                }
            }
        }
        Some(model)
    }

    /// The elements of the world that a root's edges lead to, near or far.
    fn reached(&self, root: &Root<N>) -> Vec<usize> {
        let mut reached: BTreeSet<usize> = root.edges.values().flatten().copied().collect();
        loop {
            let all = self.interpretation.roles.values().flatten();
            let near = all.filter(|(x, _)| reached.contains(x));
            let beyond: BTreeSet<usize> = near.flat_map(|(_, targets)| targets).copied().collect();
            if beyond.is_subset(&reached) {
                return reached.into_iter().collect();
            }
            reached.extend(beyond);
        }
    }
}
