//! Generated lines to standard output: `lines [SEED [COUNT]]`.

use std::io::{self, BufWriter, Write};

use compare::generate::Generator;

fn main() -> io::Result<()> {
    let mut arguments = std::env::args().skip(1).map(|one| one.parse());
    let mut argument = |otherwise: u64| arguments.next().and_then(Result::ok).unwrap_or(otherwise);
    let seed = argument(1);
    let count = argument(1000) as usize;
    let mut output = BufWriter::new(io::stdout().lock());
    for line in Generator::new(seed).take(count) {
        output.write_all(&line)?;
        output.write_all(b"\n")?;
    }
    output.flush()
}
