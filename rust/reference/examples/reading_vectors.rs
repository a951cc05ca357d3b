//! Writes the input of the Rattle program `reading_run` and the output that it
//! has to give, by this engine.

#[allow(dead_code)]
#[path = "../tests/suite/common/mod.rs"]
mod common;

use common::vectors::{input, output, stored, texts};
use std::fs::write;

fn main() -> std::io::Result<()> {
    let texts = texts();
    write(stored("stdin"), input(&texts))?;
    write(stored("stdout"), output(&texts))
}
