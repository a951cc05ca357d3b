//! The tests of the wrapper, in one program: each file is a subject.

mod common;

mod api;
mod benched;
mod book_edges;
mod book_leftovers;
mod byte_classes;
mod chains;
mod conversion;
mod conversion_refusals;
mod converted_books;
mod declarations;
mod leftovers;
mod limits;
mod marked;
mod marking;
mod marking_refusals;
mod ontology;
mod order;
mod program;
mod random;
mod random_books;
mod refusals;
mod stack;
mod wrong_sheets;
