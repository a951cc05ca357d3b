//! Reads a book on standard input and prints what `shelf` prints for it.

use std::io::Read;

fn main() -> std::io::Result<()> {
    let mut book = Vec::new();
    std::io::stdin().read_to_end(&mut book)?;
    print!("{}", shelf_reference::shelf(&book));
    Ok(())
}
