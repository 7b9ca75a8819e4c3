//! What any register program must do, whoever wrote it: it is given by its path.

use std::ffi::OsString;
use std::io::{Read, Write};
use std::os::fd::OwnedFd;
use std::os::unix::net::UnixDatagram;
use std::path::Path;
use std::process::{Child, Command, Stdio};
use std::thread;

const LINES: &[u8] = include_bytes!("../../vectors/lines.in");
const ANSWERS: &[u8] = include_bytes!("../../vectors/lines.out");

/// Starts a program; where RUN names an emulator, under it.
pub fn started(program: &Path, input: Stdio, output: Stdio) -> Child {
    let mut words: Vec<OsString> = std::env::var_os("RUN").filter(|run| !run.is_empty()).into_iter().collect();
    words.push(program.into());
    let child = Command::new(&words[0]).args(&words[1..]).stdin(input).stdout(output).spawn();
    child.unwrap_or_else(|error| panic!("{}: {error}", program.display()))
}

/// What the program prints for an input that comes through a pipe.
pub fn printed(program: &Path, input: &[u8]) -> Vec<u8> {
    let mut child = started(program, Stdio::piped(), Stdio::piped());
    let mut standard_input = child.stdin.take().unwrap();
    let input = input.to_vec();
    let writer = thread::spawn(move || standard_input.write_all(&input).unwrap());
    let output = child.wait_with_output().unwrap();
    writer.join().unwrap();
    assert!(output.status.success());
    output.stdout
}

/// What it prints for an input of which each read gets one chunk: a datagram is
/// read whole, and an empty one ends the input.
pub fn printed_in_chunks(program: &Path, chunks: &[&[u8]]) -> Vec<u8> {
    let (ours, theirs) = UnixDatagram::pair().unwrap();
    let mut child = started(program, Stdio::from(OwnedFd::from(theirs)), Stdio::piped());
    let mut standard_output = child.stdout.take().unwrap();
    let reader = thread::spawn(move || {
        let mut output = Vec::new();
        standard_output.read_to_end(&mut output).unwrap();
        output
    });
    for chunk in chunks.iter().filter(|chunk| !chunk.is_empty()) {
        ours.send(chunk).unwrap();
    }
    ours.send(&[]).unwrap();
    assert!(child.wait().unwrap().success());
    reader.join().unwrap()
}

fn check(program: &Path, input: &[u8], expected: &str) {
    assert_eq!(String::from_utf8(printed(program, input)).unwrap(), expected);
}

pub fn the_example_of_document_01(program: &Path) {
    let expected = "1 ok 2 1 2 +2000000 [+1]^2?AC\n2 no 9 2\n3 ok 1 1 0 ?1 [Acetyl]-A\n";
    check(program, b"[+1]^2?ac\nA[U:35]\n[Acetyl]-A\n", expected);
    check(program, b"[+1]^2?ac\nA[U:35]\n[Acetyl]-A", expected);
}

pub fn the_vectors(program: &Path) {
    assert!(printed(program, LINES) == ANSWERS);
}

pub fn ends_of_input(program: &Path) {
    check(program, b"", "");
    check(program, b"\n", "1 no 1 0\n");
    check(program, b"\n\n", "1 no 1 0\n2 no 1 0\n");
    check(program, b"A", "1 ok 1 0 0 +0 A\n");
    check(program, b"A\n\nC", "1 ok 1 0 0 +0 A\n2 no 1 0\n3 ok 1 0 0 +0 C\n");
    check(program, b"A\r\n", "1 no 3 1\n");
}

pub fn bytes_of_any_kind(program: &Path) {
    check(program, b"A\0C\n\xff\n\0", "1 no 3 1\n2 no 3 0\n3 no 3 0\n");
    check(program, b"\0\n\0\0\nA\n", "1 no 3 0\n2 no 3 0\n3 ok 1 0 0 +0 A\n");
}

pub fn lines_of_any_length(program: &Path) {
    let mut input = vec![b'A'; 3_000_000];
    input.push(b'\n');
    input.extend_from_slice(b"A[+");
    input.resize(input.len() + 4091, b'0');
    input.extend_from_slice(b"1]\n");
    input.extend_from_slice(&vec![0; 200_000]);
    check(program, &input, "1 no 2 4096\n2 ok 1 1 0 +1000000 A[+1]\n3 no 2 4096\n");
    for (length, said) in [(4095, "1 no 6 254\n"), (4096, "1 no 6 254\n"), (4097, "1 no 2 4096\n"), (4098, "1 no 2 4096\n"), (100_000, "1 no 2 4096\n")] {
        let mut input = vec![b'A'; length];
        input.extend_from_slice(b"\nM[+16]\n");
        check(program, &input, &format!("{said}2 ok 1 1 0 +16000000 M[+16]\n"));
    }
}
