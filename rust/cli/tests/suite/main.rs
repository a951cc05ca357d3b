//! The built program: what it prints, what it says went wrong, and its exit status.

mod common;

mod convert;
mod layers;
mod mark;
mod ontology;
mod run;
mod usage;
