//! Writes the files of crates/register: `trials DIR` writes DIR/stdin and DIR/stdout.

use std::path::PathBuf;
use std::{env, fs, io};

fn main() -> io::Result<()> {
    let folder = PathBuf::from(env::args().nth(1).expect("usage: trials DIR"));
    fs::write(folder.join("stdin"), compare::trials::input())?;
    fs::write(folder.join("stdout"), compare::trials::output())
}
