//! The largest runs of axioms, of each shape. A constant beside each says how many
//! of it fit into an input, which `conversion` holds.

/// The shortest axiom, and how many of it fit.
pub const SHORTEST: &str = "SubClassOf(:a :b)";
pub const MOST_AXIOMS: usize = 963;

/// An axiom, with gaps behind it up to so many bytes.
pub fn padded(axiom: &str, length: usize) -> String {
    let gaps = length - axiom.len();
    axiom.to_owned() + &" ".repeat(gaps)
}

/// An axiom whose left class is an intersection of so many parts, of the fewest
/// bytes there can be, and the most that fit.
pub fn with_parts(parts: usize) -> String {
    let parts = vec![":a"; parts].join(" ");
    format!("SubClassOf(ObjectIntersectionOf({parts}):b)")
}

pub const MOST_PARTS: usize = 5_449;

/// An axiom with so many intersections in each other, each the first part of the
/// next, of the fewest bytes there can be, and the most that fit.
pub fn with_depth(depth: usize) -> String {
    let closed = ":a)".repeat(depth - 1);
    format!("{}:a :a){closed}:b)", unclosed(depth))
}

pub const MOST_DEPTH: usize = 681;

/// An axiom with so many restrictions in each other, and the most that fit.
pub fn with_roles(depth: usize) -> String {
    let opened = "ObjectSomeValuesFrom(:r ".repeat(depth);
    let closed = ")".repeat(depth);
    format!("SubClassOf({opened}:a{closed}:b)")
}

pub const MOST_ROLES: usize = 654;

/// The start of an axiom with so many brackets in each other, none of them closed,
/// and the most that fit.
pub fn unclosed(depth: usize) -> String {
    "SubClassOf(".to_owned() + &"ObjectIntersectionOf(".repeat(depth)
}

pub const MOST_UNCLOSED: usize = 779;
