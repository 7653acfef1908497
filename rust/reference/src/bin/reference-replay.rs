//! The program `replay` of the second implementation: a journal on standard input, its outcome on standard output.

use std::io::{self, Read, Write};

fn main() -> io::Result<()> {
    // One byte over the longest journal tells a longer one.
    let mut journal = Vec::new();
    io::stdin().take(65_537).read_to_end(&mut journal)?;
    io::stdout().write_all(reference::replay::output(&journal).as_bytes())
}
