//! Places of a document by line and column.

use crate::Position;

/// Where each line of a document begins.
pub(super) struct Lines(Vec<usize>);

impl Lines {
    pub fn new(document: &[u8]) -> Lines {
        let bytes = document.iter().enumerate();
        let feeds = bytes.filter(|(_, byte)| **byte == b'\n');
        let starts = feeds.map(|(place, _)| place + 1);
        Lines(std::iter::once(0).chain(starts).collect())
    }

    pub fn position(&self, place: usize) -> Position {
        let line = self.0.partition_point(|start| *start <= place);
        let column = place - self.0[line - 1] + 1;
        Position { line, column }
    }
}
