//! Every interpretation of a few elements, names and roles, with sets of
//! elements as bits: a second evaluation, and one that leaves none out.

use shelf_reference::concept::Name;
use shelf_reference::{Concept, Inclusion};

/// A concept over the places of its names and roles in two lists.
pub enum Placed {
    Top,
    Bottom,
    Name(usize),
    And(Box<Placed>, Box<Placed>),
    Exists(usize, Box<Placed>),
}

/// The names and roles that interpretations are over.
pub struct Signature<'s, N> {
    pub names: &'s [N],
    pub roles: &'s [N],
}

impl<N: Name> Signature<'_, N> {
    pub fn place(&self, concept: &Concept<N>) -> Placed {
        let of = |list: &[N], name: &N| list.iter().position(|other| other == name).unwrap();
        match concept {
            Concept::Top => Placed::Top,
            Concept::Bottom => Placed::Bottom,
            Concept::Name(name) => Placed::Name(of(self.names, name)),
            Concept::And(left, right) => {
                Placed::And(Box::new(self.place(left)), Box::new(self.place(right)))
            }
            Concept::Exists(role, filler) => {
                Placed::Exists(of(self.roles, role), Box::new(self.place(filler)))
            }
        }
    }

    pub fn place_all(&self, inclusions: &[Inclusion<N>]) -> Vec<(Placed, Placed)> {
        inclusions
            .iter()
            .map(|inclusion| (self.place(&inclusion.left), self.place(&inclusion.right)))
            .collect()
    }

    /// Every interpretation of this many elements.
    pub fn interpretations(&self, size: usize) -> impl Iterator<Item = Tiny> + '_ {
        let name_bits = size * self.names.len();
        let role_bits = size * size * self.roles.len();
        (0..1u64 << (name_bits + role_bits)).map(move |bits| Tiny {
            size,
            names: bits & ((1 << name_bits) - 1),
            roles: bits >> name_bits,
        })
    }
}

/// An interpretation packed into bits.
pub struct Tiny {
    size: usize,
    names: u64,
    roles: u64,
}

impl Tiny {
    pub fn everything(&self) -> u64 {
        (1 << self.size) - 1
    }

    /// The elements in a concept, one bit each.
    pub fn members(&self, concept: &Placed) -> u64 {
        match concept {
            Placed::Top => self.everything(),
            Placed::Bottom => 0,
            Placed::Name(name) => self.names >> (name * self.size) & self.everything(),
            Placed::And(left, right) => self.members(left) & self.members(right),
            Placed::Exists(role, filler) => {
                let inside = self.members(filler);
                let pairs = self.roles >> (role * self.size * self.size);
                let reaches = |x: &usize| pairs >> (x * self.size) & inside != 0;
                (0..self.size).filter(reaches).map(|x| 1 << x).sum()
            }
        }
    }

    /// The elements that obey every one of the inclusions.
    pub fn obeying(&self, inclusions: &[(Placed, Placed)]) -> u64 {
        inclusions
            .iter()
            .fold(self.everything(), |all, (left, right)| {
                all & (!self.members(left) | self.members(right))
            })
    }

    /// Whether every element obeys every inclusion.
    pub fn is_model(&self, strict: &[(Placed, Placed)]) -> bool {
        self.obeying(strict) == self.everything()
    }
}
