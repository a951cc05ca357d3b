//! Concepts, inclusions and lines, over any sort of names.

use std::fmt;

/// What names a concept or a role: a word in a book, a number in a deck.
pub trait Name: Clone + Ord + fmt::Debug {}

impl<N: Clone + Ord + fmt::Debug> Name for N {}

/// A concept (the scope's "description"), nested to any depth.
#[derive(Clone, Debug, PartialEq, Eq, PartialOrd, Ord)]
pub enum Concept<N> {
    /// Top, written `*` (the scope's "everything").
    Top,
    /// Bottom, written `-` (the scope's "nothing").
    Bottom,
    /// A concept name (the scope's "trait word" or, in a deck, its number).
    Name(N),
    /// A conjunction, written `& C D` (the scope's "both").
    And(Box<Concept<N>>, Box<Concept<N>>),
    /// An existential restriction, written `/role C` (the scope's "has, by
    /// that role, some C"). The concept inside is its filler.
    Exists(N, Box<Concept<N>>),
}

impl<N: Name> Concept<N> {
    /// The conjunction of two concepts.
    pub fn and(left: Self, right: Self) -> Self {
        Concept::And(Box::new(left), Box::new(right))
    }

    /// The existential restriction of a role to a filler.
    pub fn exists(role: N, filler: Self) -> Self {
        Concept::Exists(role, Box::new(filler))
    }

    /// Every filler of an existential inside this concept, at any depth.
    pub fn fillers(&self) -> Vec<&Concept<N>> {
        match self {
            Concept::Top | Concept::Bottom | Concept::Name(_) => Vec::new(),
            Concept::And(left, right) => {
                let mut all = left.fillers();
                all.extend(right.fillers());
                all
            }
            Concept::Exists(_, filler) => {
                let mut all = filler.fillers();
                all.push(filler);
                all
            }
        }
    }
}

/// "Left within right", strictly or usually; the line's kind says which.
#[derive(Clone, Debug, PartialEq, Eq, PartialOrd, Ord)]
pub struct Inclusion<N> {
    /// The left concept.
    pub left: Concept<N>,
    /// The right concept.
    pub right: Concept<N>,
}

impl<N: Name> Inclusion<N> {
    /// The inclusion of `left` in `right`.
    pub fn new(left: Concept<N>, right: Concept<N>) -> Self {
        Inclusion { left, right }
    }
}

/// What a line says or asks about its two sides.
///
/// Not exhaustive, because a later format has further letters, as for lines
/// about named games.
#[derive(Clone, Copy, Debug, PartialEq, Eq, PartialOrd, Ord, Hash)]
#[non_exhaustive]
pub enum Kind {
    /// Letter S, a strict inclusion: every left is right.
    Strict,
    /// Letter U, a defeasible inclusion (the scope's "usual rule").
    Defeasible,
    /// Letter Q, a query: is a left usually right?
    Query,
    /// Letter K, a strict query: is every left right?
    StrictQuery,
}

impl Kind {
    /// Every kind, in the scope's order.
    pub const ALL: &'static [Kind] = &[
        Kind::Strict,
        Kind::Defeasible,
        Kind::Query,
        Kind::StrictQuery,
    ];

    /// The letter that a line of this kind begins with.
    pub fn letter(self) -> u8 {
        match self {
            Kind::Strict => b'S',
            Kind::Defeasible => b'U',
            Kind::Query => b'Q',
            Kind::StrictQuery => b'K',
        }
    }

    /// The kind of a letter, if it has one.
    pub fn of_letter(letter: u8) -> Option<Kind> {
        let mut all = Kind::ALL.iter().copied();
        all.find(|kind| kind.letter() == letter)
    }
}

/// A line of a book, or what a row of a deck says.
#[derive(Clone, Debug, PartialEq, Eq, PartialOrd, Ord)]
pub struct Line<N> {
    /// What the line does with its inclusion.
    pub kind: Kind,
    /// The two sides.
    pub inclusion: Inclusion<N>,
}

impl<N: Name> Line<N> {
    /// A line of a kind with its two sides.
    pub fn new(kind: Kind, left: Concept<N>, right: Concept<N>) -> Self {
        Line {
            kind,
            inclusion: Inclusion::new(left, right),
        }
    }
}
