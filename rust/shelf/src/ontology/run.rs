//! Axioms as the converter takes them, and the way back into the document.

use std::ops::Range;

/// The text of some axioms, with one space where one is needed and no other,
/// and where each piece of it comes from.
#[derive(Default)]
pub(super) struct Run {
    pub text: Vec<u8>,
    pieces: Vec<Piece>,
}

/// A token of a run.
pub(super) struct Piece {
    /// Which token of the document it is.
    pub token: usize,
    /// Where it stands in the document, without the `>` of a full IRI.
    pub document: Range<usize>,
    /// Whether it is a name: the last bytes of both are then the same, and
    /// otherwise the first.
    pub is_name: bool,
    /// Whether a space keeps it apart from another such piece.
    pub is_word: bool,
    /// Where it stands in the run.
    run: Range<usize>,
}

/// What a place of a run is in the document.
pub(super) struct Found {
    /// Which token it belongs to.
    pub token: usize,
    /// The offset in the document.
    pub place: usize,
    /// Whether it is the token's first byte.
    pub at_start: bool,
}

impl Piece {
    pub fn new(token: usize, document: Range<usize>) -> Piece {
        Piece {
            token,
            document,
            is_name: false,
            is_word: false,
            run: 0..0,
        }
    }

    /// The place in the document for one in the run, in this piece or behind
    /// it.
    fn place(&self, place: usize) -> usize {
        let Range { start, end } = self.document;
        match place - self.run.start {
            0 => start,
            _ if place >= self.run.end => end,
            _ if self.is_name => end.saturating_sub(self.run.end - place).max(start),
            offset => end.min(start + offset),
        }
    }
}

impl Run {
    /// Adds a piece with this text.
    pub fn push(&mut self, mut piece: Piece, text: &[u8]) {
        if piece.is_word && self.pieces.last().is_some_and(|last| last.is_word) {
            self.text.push(b' ');
        }
        let start = self.text.len();
        self.text.extend_from_slice(text);
        piece.run = start..self.text.len();
        self.pieces.push(piece);
    }

    /// Adds all of another run, which begins with a keyword and ends with a
    /// bracket, as an axiom does.
    pub fn append(&mut self, other: Run) {
        let by = self.text.len();
        self.text.extend(other.text);
        let pieces = other.pieces.into_iter();
        self.pieces.extend(pieces.map(|mut piece| {
            piece.run = piece.run.start + by..piece.run.end + by;
            piece
        }));
    }

    /// What a place of the run is in the document: that of the last piece
    /// which begins there or before.
    pub fn find(&self, place: usize) -> Found {
        let begun = |piece: &Piece| piece.run.start <= place;
        let behind = self.pieces.partition_point(begun);
        let piece = &self.pieces[behind - 1];
        Found {
            token: piece.token,
            place: piece.place(place),
            at_start: piece.run.start == place,
        }
    }
}
