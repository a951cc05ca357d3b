//! Annotations that are written twice: the OWL API keeps the annotations of an axiom
//! as a set and takes the axiom, and we leave it out.

use crate::canonical;
use crate::ours::Ours;
use crate::reasons::tokens;
use std::collections::BTreeSet;

/// What we pick out of a document: its lines in canonical form, and what is left out.
pub fn pick(ours: &Ours, document: &str) -> Result<(BTreeSet<String>, String), String> {
    let options = ["--skip-others", "--prefix", ":"];
    let (book, left_out) = ours.convert_ontology(document.as_bytes(), &options)?;
    Ok((canonical::lines(&book), left_out))
}

/// The lines that axioms would have which we leave out at a second annotation: those
/// that are picked out where that annotation is not there.
pub fn lines_without(ours: &Ours, document: &str, left_out: &str) -> BTreeSet<String> {
    let annotated = left_out
        .lines()
        .filter(|line| line.contains(": an annotation "));
    let places = annotated.filter_map(|line| place_of(line, document));
    let documents = places.filter_map(|place| without_annotation(document, place));
    let picked = documents.map(|once| pick(ours, &once).expect("only an annotation is gone"));
    picked.flat_map(|(lines, _)| lines).collect()
}

/// The offset in a document that `line 1, column 2: ..` says.
fn place_of(said: &str, document: &str) -> Option<usize> {
    let (line, behind) = said.strip_prefix("line ")?.split_once(", column ")?;
    let (column, _) = behind.split_once(':')?;
    let (line, column): (usize, usize) = (line.parse().ok()?, column.parse().ok()?);
    let before = document.split_inclusive('\n').take(line - 1);
    Some(before.map(str::len).sum::<usize>() + column - 1)
}

/// The document without the annotation that begins at this place, if one does.
fn without_annotation(document: &str, place: usize) -> Option<String> {
    let (before, rest) = document.split_at(place);
    let tokens = tokens(rest);
    if tokens.first()?.text != "Annotation" || tokens.get(1)?.text != "(" {
        return None;
    }
    let mut open = 0_usize;
    for token in &tokens[1..] {
        match token.text {
            "(" => open += 1,
            ")" => open -= 1,
            _ => {}
        }
        if open == 0 {
            return Some(before.to_owned() + " " + &rest[token.end()..]);
        }
    }
    None
}

#[cfg(test)]
mod tests {
    use super::{place_of, without_annotation};

    #[test]
    fn places_are_counted_in_bytes() {
        let document = "\u{e9}\n(\u{e9}x\n";
        assert_eq!(place_of("line 1, column 1: x", document), Some(0));
        assert_eq!(place_of("line 2, column 4: x", document), Some(6));
        assert_eq!(place_of("left out:", document), None);
    }

    #[test]
    fn one_annotation_is_taken_out() {
        let usual = "Annotation(rdfs:comment \"usual\")";
        let document = format!("SubClassOf({usual} Annotation(:x \")\") :a :b)");
        let once = format!("SubClassOf({usual}   :a :b)");
        let place = "SubClassOf( ".len() + usual.len();
        assert_eq!(without_annotation(&document, place), Some(once));
        assert_eq!(without_annotation(&document, 0), None);
        assert_eq!(without_annotation("Annotation(:x", 0), None);
        assert_eq!(without_annotation("Annotation)", 0), None);
    }
}
