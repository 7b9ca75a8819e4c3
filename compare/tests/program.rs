//! The register program of this package, from standard input to standard output.

mod programs;

use std::io::BufReader;
use std::path::Path;

use compare::register::run;

const LINES: &[u8] = include_bytes!("../vectors/lines.in");
const ANSWERS: &[u8] = include_bytes!("../vectors/lines.out");

fn program() -> &'static Path {
    Path::new(env!("CARGO_BIN_EXE_register"))
}

#[test]
fn the_example_of_document_01() {
    programs::the_example_of_document_01(program());
}

#[test]
fn the_vectors() {
    programs::the_vectors(program());
}

#[test]
fn ends_of_input() {
    programs::ends_of_input(program());
}

#[test]
fn bytes_of_any_kind() {
    programs::bytes_of_any_kind(program());
}

#[test]
fn lines_of_any_length() {
    programs::lines_of_any_length(program());
}

#[test]
fn input_in_chunks() {
    let chunks: Vec<&[u8]> = LINES.chunks(1000).collect();
    assert!(programs::printed_in_chunks(program(), &chunks) == ANSWERS);
}

#[test]
fn buffers_of_any_size() {
    for size in [1, 2, 7, 100, 4096, 4097] {
        let mut output = Vec::new();
        run(BufReader::with_capacity(size, LINES), &mut output).unwrap();
        assert!(output == ANSWERS, "buffer of {size}");
    }
}
