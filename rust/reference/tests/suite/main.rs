//! The tests of the plain engine, in one program: each file is a subject.

mod common;

mod agreement;
mod conversion;
mod conversion_meaning;
mod conversion_refusals;
mod damaged_texts;
mod deck_refusals;
mod finder;
mod lent_calls;
mod marking;
mod models;
mod paper;
mod printed;
mod random_decks;
mod ranks;
mod reading_vectors;
mod text_refusals;
