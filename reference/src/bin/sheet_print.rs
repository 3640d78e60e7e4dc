//! Reads N (two bytes) and a table from standard input and prints the sheet,
//! or the number of the refusal.

use std::io::{self, Read, Write};

use reference::print::{print, MOST_INPUT};

fn main() -> io::Result<()> {
    let mut input = Vec::new();
    io::stdin().take(MOST_INPUT as u64 + 1).read_to_end(&mut input)?;
    io::stdout().write_all(print(&input).as_bytes())
}
