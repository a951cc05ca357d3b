//! Finite interpretations and what holds in them, as the scope defines it.

use crate::concept::{Concept, Inclusion, Name};
use std::borrow::Cow;
use std::collections::{BTreeMap, BTreeSet};

/// A finite interpretation: elements 0 to size - 1, a set of them for each
/// concept name and a set of ordered pairs for each role. A name or a role
/// that is missing has the empty set.
#[derive(Clone, Debug, PartialEq, Eq)]
pub struct Interpretation<N> {
    /// How many elements there are.
    pub size: usize,
    /// The elements of each concept name.
    pub names: BTreeMap<N, BTreeSet<usize>>,
    /// The pairs (x, y) of each role, as the set of all y for each x.
    pub roles: BTreeMap<N, BTreeMap<usize, BTreeSet<usize>>>,
}

impl<N: Name> Interpretation<N> {
    /// The interpretation of this size where every name and role is empty.
    pub fn empty(size: usize) -> Self {
        Interpretation {
            size,
            names: BTreeMap::new(),
            roles: BTreeMap::new(),
        }
    }

    /// The elements that are in a concept.
    pub fn members(&self, concept: &Concept<N>) -> Cow<'_, BTreeSet<usize>> {
        match concept {
            Concept::Top => Cow::Owned((0..self.size).collect()),
            Concept::Bottom => Cow::Owned(BTreeSet::new()),
            Concept::Name(name) => match self.names.get(name) {
                Some(members) => Cow::Borrowed(members),
                None => Cow::Owned(BTreeSet::new()),
            },
            Concept::And(left, right) => {
                let (left, right) = (self.members(left), self.members(right));
                Cow::Owned(left.intersection(&right).copied().collect())
            }
            Concept::Exists(role, filler) => Cow::Owned(self.having(role, filler)),
        }
    }

    /// The elements x with a pair (x, y) of the role where y is in the filler.
    fn having(&self, role: &N, filler: &Concept<N>) -> BTreeSet<usize> {
        let inside = self.members(filler);
        let targets = self.roles.get(role).into_iter().flatten();
        targets
            .filter(|(_, targets)| !targets.is_disjoint(&inside))
            .map(|(x, _)| *x)
            .collect()
    }

    /// Every pair of a role.
    pub fn pairs(&self, role: &N) -> impl Iterator<Item = (usize, usize)> + '_ {
        let targets = self.roles.get(role).into_iter().flatten();
        targets.flat_map(|(x, targets)| targets.iter().map(|y| (*x, *y)))
    }

    /// Whether every element in the left is in the right.
    pub fn satisfies(&self, inclusion: &Inclusion<N>) -> bool {
        let left = self.members(&inclusion.left);
        left.is_subset(&self.members(&inclusion.right))
    }

    /// Whether one element isn't in the left or is in the right.
    pub fn obeys(&self, element: usize, inclusion: &Inclusion<N>) -> bool {
        !self.members(&inclusion.left).contains(&element)
            || self.members(&inclusion.right).contains(&element)
    }

    /// Puts an element into a name's set; true when it wasn't there.
    pub fn add_name(&mut self, name: &N, element: usize) -> bool {
        slot(&mut self.names, name).insert(element)
    }

    /// Puts a pair into a role's set; true when it wasn't there.
    pub fn add_pair(&mut self, role: &N, (x, y): (usize, usize)) -> bool {
        slot(slot(&mut self.roles, role), &x).insert(y)
    }
}

/// The value at a key, made empty first when there is none.
pub(crate) fn slot<'m, K: Clone + Ord, V: Default>(
    map: &'m mut BTreeMap<K, V>,
    key: &K,
) -> &'m mut V {
    if !map.contains_key(key) {
        map.insert(key.clone(), V::default());
    }
    map.get_mut(key).expect("the key is there by now")
}
