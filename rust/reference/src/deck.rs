//! Rows of a deck: packing, the refusals of a stored row, and what a row says.

use crate::concept::{Concept, Kind, Line};
use crate::refusal::Refusal;

/// The number of everything.
pub const TOP: u16 = 0;
/// The number of nothing.
pub const BOTTOM: u16 = 1;

/// Kind 1: a within c.
pub const WITHIN: u16 = 1;
/// Kind 2: a and b within c.
pub const BOTH_WITHIN: u16 = 2;
/// Kind 3: a within some r c.
pub const WITHIN_SOME: u16 = 3;
/// Kind 4: some r a within c.
pub const SOME_WITHIN: u16 = 4;
/// Kind 5: a defeasible inclusion, a usually within c.
pub const DEFEASIBLE: u16 = 5;
/// Kind 6: a query, is a usually within c?
pub const QUERY: u16 = 6;
/// Kind 7: a strict query, is a within c?
pub const STRICT_QUERY: u16 = 7;

/// A row with its fields apart.
#[derive(Clone, Copy, Debug, PartialEq, Eq, Default)]
pub struct Row {
    /// 4 bits: which kind of row.
    pub kind: u16,
    /// 12 bits: a role.
    pub role: u16,
    /// The field a.
    pub a: u16,
    /// The field b.
    pub b: u16,
    /// The field c.
    pub c: u16,
}

impl Row {
    /// A row of kind 1, 5, 6 or 7: its left and its right.
    pub fn sides(kind: u16, left: u16, right: u16) -> Row {
        Row {
            kind,
            a: left,
            c: right,
            ..Row::default()
        }
    }

    /// The 64 bits, fields from the most significant: 4, 12, 16, 16, 16.
    pub fn pack(self) -> u64 {
        u64::from(self.kind) << 60
            | u64::from(self.role) << 48
            | u64::from(self.a) << 32
            | u64::from(self.b) << 16
            | u64::from(self.c)
    }

    /// The fields of 64 bits.
    pub fn unpack(bits: u64) -> Row {
        let field = |shift: u32, width: u32| ((bits >> shift) & ((1 << width) - 1)) as u16;
        Row {
            kind: field(60, 4),
            role: field(48, 12),
            a: field(32, 16),
            b: field(16, 16),
            c: field(0, 16),
        }
    }

    /// Whether the row's kind uses the field r.
    fn uses_role(self) -> bool {
        matches!(self.kind, WITHIN_SOME | SOME_WITHIN)
    }

    /// Whether the row's kind uses the field b.
    fn uses_b(self) -> bool {
        self.kind == BOTH_WITHIN
    }

    /// What is wrong with a stored row, if anything, in the order 15 to 18.
    pub fn refusal(self, numbers: usize, roles: usize) -> Option<Refusal> {
        let too_big = |number: u16| usize::from(number) >= numbers;
        if !(WITHIN..=STRICT_QUERY).contains(&self.kind) {
            Some(Refusal::UnknownKind)
        } else if (!self.uses_role() && self.role != 0) || (!self.uses_b() && self.b != 0) {
            Some(Refusal::UnusedField)
        } else if too_big(self.a) || (self.uses_b() && too_big(self.b)) || too_big(self.c) {
            Some(Refusal::NumberOutOfRange)
        } else if self.uses_role() && usize::from(self.role) >= roles {
            Some(Refusal::RoleOutOfRange)
        } else {
            None
        }
    }

    /// What a row of a known kind says, as a line whose names are numbers.
    pub fn line(self) -> Line<u16> {
        let (a, c) = (concept(self.a), concept(self.c));
        match self.kind {
            WITHIN => Line::new(Kind::Strict, a, c),
            BOTH_WITHIN => Line::new(Kind::Strict, Concept::and(a, concept(self.b)), c),
            WITHIN_SOME => Line::new(Kind::Strict, a, Concept::exists(self.role, c)),
            SOME_WITHIN => Line::new(Kind::Strict, Concept::exists(self.role, a), c),
            DEFEASIBLE => Line::new(Kind::Defeasible, a, c),
            QUERY => Line::new(Kind::Query, a, c),
            STRICT_QUERY => Line::new(Kind::StrictQuery, a, c),
            _ => unreachable!("a row's kind is checked before it is read"),
        }
    }
}

/// The concept that a number stands for.
pub fn concept(number: u16) -> Concept<u16> {
    match number {
        TOP => Concept::Top,
        BOTTOM => Concept::Bottom,
        name => Concept::Name(name),
    }
}

/// The kind of the row that a line of this kind takes.
pub fn row_kind(kind: Kind) -> u16 {
    match kind {
        Kind::Strict => WITHIN,
        Kind::Defeasible => DEFEASIBLE,
        Kind::Query => QUERY,
        Kind::StrictQuery => STRICT_QUERY,
    }
}
