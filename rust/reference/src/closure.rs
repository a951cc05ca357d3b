//! Rational closure: passes, levels, ranks and replies, as the scope's
//! "Meaning" defines them.

use crate::concept::{Concept, Inclusion, Kind, Line, Name};
use crate::model::{Root, World};
use std::collections::{BTreeMap, BTreeSet};

/// How exceptional a concept is.
#[derive(Clone, Copy, Debug, PartialEq, Eq, PartialOrd, Ord)]
pub enum Rank {
    /// The least level at which the concept isn't exceptional.
    Finite(usize),
    /// The concept is exceptional at every level.
    Infinite,
}

/// The outcome of one line.
///
/// Not exhaustive, because a line of a further kind has an outcome of its own.
#[derive(Clone, Copy, Debug, PartialEq, Eq)]
#[non_exhaustive]
pub enum Answer {
    /// A strict inclusion has no outcome.
    Strict,
    /// A defeasible inclusion has its left's rank.
    Defeasible(Rank),
    /// A query has a reply and its left's rank.
    Query(bool, Rank),
    /// A strict query has a reply.
    StrictQuery(bool),
}

impl Answer {
    /// The reply to a question; None for a line that asks nothing.
    pub fn reply(self) -> Option<bool> {
        match self {
            Answer::Query(yes, _) | Answer::StrictQuery(yes) => Some(yes),
            Answer::Strict | Answer::Defeasible(_) => None,
        }
    }

    /// Whether this is a question that was answered by yes.
    pub fn is_yes(self) -> bool {
        self.reply() == Some(true)
    }
}

/// A set of defeasible inclusions, as indices into all of them.
pub type RuleSet = BTreeSet<usize>;

/// The outcome of the passes over a set of strict and a set of defeasible
/// inclusions.
pub struct Closure<N> {
    /// The world of T*: the strict inclusions and those that passes added.
    pub world: World<N>,
    /// The strict inclusions of T*.
    pub hardened: Vec<Inclusion<N>>,
    /// E0, E1, .. of the last pass; the last of them is empty.
    pub sets: Vec<RuleSet>,
    /// How many passes ran.
    pub passes: usize,
    defeasible: Vec<Inclusion<N>>,
}

impl<N: Name> Closure<N> {
    /// Runs passes until the stuck set is empty. `asked` are the lefts whose
    /// rank will be asked for.
    pub fn new(
        strict: &[Inclusion<N>],
        defeasible: &[Inclusion<N>],
        asked: &[Concept<N>],
    ) -> Closure<N> {
        let mut hardened = strict.to_vec();
        let mut remaining: RuleSet = (0..defeasible.len()).collect();
        let mut passes = 0;
        loop {
            let sides = defeasible.iter().flat_map(|rule| [&rule.left, &rule.right]);
            let world = World::new(hardened.clone(), sides.chain(asked));
            let sets = one_pass(&world, defeasible, remaining.clone());
            passes += 1;
            let stuck = sets.last().expect("a pass has at least E0");
            if stuck.is_empty() {
                return Closure {
                    world,
                    hardened,
                    sets,
                    passes,
                    defeasible: defeasible.to_vec(),
                };
            }
            for rule in stuck {
                let left = defeasible[*rule].left.clone();
                hardened.push(Inclusion::new(left, Concept::Bottom));
                remaining.remove(rule);
            }
        }
    }

    /// The least i with Ei empty.
    pub fn levels(&self) -> usize {
        self.sets.len() - 1
    }

    /// The defeasible inclusions of one level's set.
    pub fn rules_at(&self, level: usize) -> Vec<&Inclusion<N>> {
        rules(&self.defeasible, &self.sets[level])
    }

    /// The least level i at which the concept isn't exceptional, with the
    /// root in it that obeys Ei. None when it is exceptional at all of them.
    pub fn typical(&self, concept: &Concept<N>) -> Option<(usize, Root<N>)> {
        (0..=self.levels())
            .map(|level| (level, self.world.root(concept, &self.rules_at(level))))
            .find(|(_, root)| !root.impossible)
    }
}

fn rules<'r, N>(all: &'r [Inclusion<N>], set: &RuleSet) -> Vec<&'r Inclusion<N>> {
    set.iter().map(|rule| &all[*rule]).collect()
}

/// E0, E1, .. up to the set that repeats, which is the last one given.
fn one_pass<N: Name>(world: &World<N>, all: &[Inclusion<N>], first: RuleSet) -> Vec<RuleSet> {
    let mut sets = vec![first];
    loop {
        let present = sets.last().expect("there is always E0");
        let next = exceptional_rules(world, all, present);
        if next == *present {
            return sets;
        }
        sets.push(next);
    }
}

/// The rules of a set whose left is exceptional for it.
fn exceptional_rules<N: Name>(
    world: &World<N>,
    all: &[Inclusion<N>],
    present: &RuleSet,
) -> RuleSet {
    let obeyed = rules(all, present);
    // Rules with one and the same left share one answer.
    let mut known: BTreeMap<&Concept<N>, bool> = BTreeMap::new();
    let exceptional = |rule: &&usize| {
        let left = &all[**rule].left;
        *known
            .entry(left)
            .or_insert_with(|| world.root(left, &obeyed).impossible)
    };
    present.iter().filter(exceptional).copied().collect()
}

/// Whether no model of `strict` has an element in `concept` that obeys all of
/// `defeasible`.
pub fn exceptional<N: Name>(
    strict: &[Inclusion<N>],
    defeasible: &[Inclusion<N>],
    concept: &Concept<N>,
) -> bool {
    let (_, root) = world_and_root(strict, defeasible, concept);
    root.impossible
}

/// The world of `strict` and in it the root in `concept` that obeys
/// `defeasible`.
pub fn world_and_root<N: Name>(
    strict: &[Inclusion<N>],
    defeasible: &[Inclusion<N>],
    concept: &Concept<N>,
) -> (World<N>, Root<N>) {
    let rights = defeasible.iter().map(|rule| &rule.right);
    let world = World::new(strict.to_vec(), rights.chain([concept]));
    let root = world.root(concept, &defeasible.iter().collect::<Vec<_>>());
    (world, root)
}

/// Every line's outcome, in order, with the closure they come from.
pub fn answer_lines<N: Name>(lines: &[Line<N>]) -> (Vec<Answer>, Closure<N>) {
    let strict = inclusions(lines, Kind::Strict);
    let defeasible = inclusions(lines, Kind::Defeasible);
    let lefts = |kind| inclusions(lines, kind).into_iter().map(|line| line.left);
    let asked: Vec<Concept<N>> = lefts(Kind::Query).collect();
    let closure = Closure::new(&strict, &defeasible, &asked);
    let strictly_asked: Vec<Concept<N>> = lefts(Kind::StrictQuery).collect();
    let mut replies = Replies {
        closure: &closure,
        written: World::new(strict, &strictly_asked),
        typical: BTreeMap::new(),
    };
    let answers = lines.iter().map(|line| replies.answer(line)).collect();
    (answers, closure)
}

fn inclusions<N: Name>(lines: &[Line<N>], kind: Kind) -> Vec<Inclusion<N>> {
    let lines = lines.iter().filter(|line| line.kind == kind);
    lines.map(|line| line.inclusion.clone()).collect()
}

/// What a root in a concept looks like at the concept's rank, if it has one.
type Typical<N> = Option<(usize, Root<N>)>;

/// Answers lines one by one; a left's rank is worked out only once.
struct Replies<'c, N> {
    closure: &'c Closure<N>,
    /// The world of the written strict inclusions, for strict queries.
    written: World<N>,
    typical: BTreeMap<Concept<N>, Typical<N>>,
}

impl<N: Name> Replies<'_, N> {
    fn answer(&mut self, line: &Line<N>) -> Answer {
        let Inclusion { left, right } = &line.inclusion;
        match line.kind {
            Kind::Strict => Answer::Strict,
            Kind::Defeasible => Answer::Defeasible(rank(self.typical(left))),
            Kind::Query => {
                let world = &self.closure.world;
                let typical = self.typical(left);
                let yes = match typical {
                    None => true,
                    Some((_, root)) => world.forces(root, right),
                };
                Answer::Query(yes, rank(typical))
            }
            Kind::StrictQuery => {
                let root = self.written.root(left, &[]);
                Answer::StrictQuery(self.written.forces(&root, right))
            }
        }
    }

    fn typical(&mut self, left: &Concept<N>) -> &Typical<N> {
        let closure = self.closure;
        self.typical
            .entry(left.clone())
            .or_insert_with(|| closure.typical(left))
    }
}

fn rank<N>(typical: &Typical<N>) -> Rank {
    match typical {
        Some((level, _)) => Rank::Finite(*level),
        None => Rank::Infinite,
    }
}
