//! Whole ontology documents: what is picked out of them, what is outside, and
//! where they are damaged.

mod bases;
mod common;
mod damaged;
mod others;
mod places;
mod random;
mod saved;
mod written;
