//! Files and standard input, read whole: a text that is too long is the engine's to
//! refuse.

use crate::failure::Failure;
use std::ffi::OsStr;
use std::fs;
use std::io::{self, Read};
use std::path::PathBuf;

/// The name of standard input.
pub const STANDARD: &str = "-";

/// All bytes of a file.
pub fn read(file: &OsStr) -> Result<Vec<u8>, Failure> {
    let bytes = if file == STANDARD {
        read_standard()
    } else {
        fs::read(file)
    };
    bytes.map_err(|why| Failure::Unread(PathBuf::from(file), why))
}

fn read_standard() -> io::Result<Vec<u8>> {
    let mut bytes = Vec::new();
    io::stdin().read_to_end(&mut bytes)?;
    Ok(bytes)
}
