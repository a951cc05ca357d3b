//! The lines of a book in the form that the Java side prints axioms in: see
//! java/Canonical.java.

use std::collections::BTreeSet;

/// Each line of a book, in canonical form, once.
pub fn lines(book: &str) -> BTreeSet<String> {
    book.lines().map(line).collect()
}

fn line(line: &str) -> String {
    let mut fields = line.split(' ');
    let letter = fields.next().unwrap_or_default();
    let (left, right) = (class(&mut fields), class(&mut fields));
    assert_eq!(fields.next(), None, "{line}");
    format!("{letter} {left} {right}")
}

/// The next class of a line.
fn class<'a>(fields: &mut impl Iterator<Item = &'a str>) -> String {
    let parts: Vec<String> = parts(fields).into_iter().collect();
    match &parts[..] {
        [only] => only.clone(),
        _ => format!("(& {})", parts.join(" ")),
    }
}

/// The parts of the next class of a line, itself where it is no intersection.
fn parts<'a>(fields: &mut impl Iterator<Item = &'a str>) -> BTreeSet<String> {
    match fields.next().expect("a line has two classes") {
        "&" => {
            let mut all = parts(fields);
            all.append(&mut parts(fields));
            all
        }
        role if role.starts_with('/') => BTreeSet::from([format!("({role} {})", class(fields))]),
        name => BTreeSet::from([name.to_owned()]),
    }
}

/// Whether an axiom that the Java side prints could be a book's line.
pub fn is_line(axiom: &str) -> bool {
    !axiom.contains('?')
}
