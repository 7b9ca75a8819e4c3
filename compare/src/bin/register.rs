//! "The register program reads lines from standard input."

use std::io::{self, BufReader};

/// Room for a good number of lines at once.
const BUFFER: usize = 1 << 16;

fn main() -> io::Result<()> {
    let input = BufReader::with_capacity(BUFFER, io::stdin().lock());
    compare::register::run(input, io::stdout().lock())
}
