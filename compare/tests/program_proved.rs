//! The proved register program, target/bin/register, which `bin/prove
//! register` builds: the same trials as for this package's own, and the two
//! against each other.

mod programs;

use std::fs::{read_to_string, File};
use std::io::{Read, Write};
use std::path::{Path, PathBuf};
use std::process::{Child, Stdio};
use std::thread;
use std::time::{Duration, Instant};

use compare::generate::{share, Generator};
use compare::register::run;
use programs::{printed, printed_in_chunks, started};

fn program() -> PathBuf {
    let built = Path::new(env!("CARGO_MANIFEST_DIR")).join("../target/bin/register");
    assert!(built.exists(), "{} is not there: `bin/prove register` builds it", built.display());
    built
}

/// What this package's own program prints.
fn expected(input: &[u8]) -> Vec<u8> {
    let mut output = Vec::new();
    run(input, &mut output).unwrap();
    output
}

fn generated(seed: u64, count: usize) -> Vec<u8> {
    Generator::new(seed).take(count).flat_map(|line| [line, vec![b'\n']].concat()).collect()
}

#[test]
fn the_example_of_document_01() {
    programs::the_example_of_document_01(&program());
}

#[test]
fn the_vectors() {
    programs::the_vectors(&program());
}

#[test]
fn ends_of_input() {
    programs::ends_of_input(&program());
}

#[test]
fn bytes_of_any_kind() {
    programs::bytes_of_any_kind(&program());
}

#[test]
fn lines_of_any_length() {
    programs::lines_of_any_length(&program());
}

#[test]
fn generated_lines() {
    let input = generated(20261116, share(100_000));
    assert!(printed(&program(), &input) == expected(&input));
}

#[test]
fn input_cut_at_every_byte() {
    let input = b"[+1]^2?ac\nA[U:35]\n\n[Acetyl]-A\nM[+16#a]C[#a(0.5)]";
    let answers = expected(input);
    for place in 0..=input.len() {
        let (front, rest) = input.split_at(place);
        assert!(printed_in_chunks(&program(), &[front, rest]) == answers, "cut at {place}");
    }
}

/// The program reads 8,192 bytes at once: a longer chunk would lose its end.
#[test]
fn input_in_chunks_of_any_size() {
    let mut input = generated(20261117, 2000);
    input.extend_from_slice(&[b'A'; 10_000]);
    input.extend_from_slice(b"\nM[+16]");
    let answers = expected(&input);
    for size in [1, 2, 3, 100, 4095, 4096, 4097, 8191, 8192] {
        let chunks: Vec<&[u8]> = input.chunks(size).collect();
        assert!(printed_in_chunks(&program(), &chunks) == answers, "chunks of {size}");
    }
}

/// Each answer comes as soon as its line has ended, not with the next one.
#[test]
fn answers_do_not_wait() {
    let mut child = started(&program(), Stdio::piped(), Stdio::piped());
    let mut input = child.stdin.take().unwrap();
    let mut output = child.stdout.take().unwrap();
    for (line, answer) in [("A\n", "1 ok 1 0 0 +0 A\n"), ("A[\n", "2 no 4 2\n")] {
        input.write_all(line.as_bytes()).unwrap();
        let mut got = vec![0; answer.len()];
        output.read_exact(&mut got).unwrap();
        assert_eq!(String::from_utf8(got).unwrap(), answer);
    }
    drop(input);
    assert!(child.wait().unwrap().success());
}

/// Waits for the program to end, for half a minute at most.
fn ends(child: &mut Child) {
    let begun = Instant::now();
    while child.try_wait().unwrap().is_none() {
        if begun.elapsed() > Duration::from_secs(30) {
            child.kill().unwrap();
            panic!("the program goes on when nobody takes its output");
        }
        thread::sleep(Duration::from_millis(10));
    }
}

/// Lines without end, until nobody reads them.
fn pour(child: &mut Child) -> thread::JoinHandle<()> {
    let mut input = child.stdin.take().unwrap();
    thread::spawn(move || while input.write_all(b"AC[+1]DE\n").is_ok() {})
}

#[test]
fn output_closed_early() {
    let mut child = started(&program(), Stdio::piped(), Stdio::piped());
    let mut output = child.stdout.take().unwrap();
    let writer = pour(&mut child);
    let mut front = [0; 20];
    output.read_exact(&mut front).unwrap();
    drop(output);
    ends(&mut child);
    writer.join().unwrap();
}

#[test]
fn output_that_takes_nothing() {
    let full = File::options().write(true).open("/dev/full").unwrap();
    let mut child = started(&program(), Stdio::piped(), Stdio::from(full));
    let writer = pour(&mut child);
    ends(&mut child);
    writer.join().unwrap();
}

/// How much memory the program has had at most, in KiB.
fn most_memory(child: &Child) -> u64 {
    let status = read_to_string(format!("/proc/{}/status", child.id())).unwrap();
    let row = status.lines().find(|row| row.starts_with("VmHWM:")).unwrap();
    row.split_whitespace().nth(1).unwrap().parse().unwrap()
}

/// Feeds a piece many times over and gives what is printed, when memory stayed
/// below 8 MiB throughout.
fn poured(piece: &[u8], times: usize, count: impl Fn(&[u8]) -> u64 + Send + 'static) -> u64 {
    let mut child = started(&program(), Stdio::piped(), Stdio::piped());
    let mut output = child.stdout.take().unwrap();
    let reader = thread::spawn(move || {
        let mut got = vec![0; 1 << 16];
        let mut sum = 0;
        loop {
            let n = output.read(&mut got).unwrap();
            if n == 0 {
                return sum;
            }
            sum += count(&got[..n]);
        }
    });
    let mut input = child.stdin.take().unwrap();
    for _ in 0..times {
        input.write_all(piece).unwrap();
    }
    assert!(most_memory(&child) < 8 << 10);
    drop(input);
    assert!(child.wait().unwrap().success());
    reader.join().unwrap()
}

fn line_ends(bytes: &[u8]) -> u64 {
    bytes.iter().filter(|&&byte| byte == b'\n').count() as u64
}

#[test]
#[ignore = "200 MB of one line"]
fn one_long_line() {
    assert_eq!(poured(&vec![b'A'; 1 << 20], 200, |bytes| bytes.len() as u64), "1 no 2 4096\n".len() as u64);
}

#[test]
#[ignore = "1 GB of lines"]
fn many_lines() {
    let lines = generated(20261118, 10_000);
    let times = (1 << 30) / lines.len() + 1;
    assert_eq!(poured(&lines, times, line_ends), line_ends(&lines) * times as u64);
}
