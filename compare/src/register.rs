//! The register program: "Fields: line number; ok, residues, brackets,
//! floaters, total in millionths (signed, zero as `+0`; or `?` and how many
//! lack a mass), canonical line; or no, number, place. Byte 10 ends a line and
//! is no part of it; nothing after the last one is no line."

use std::io::{self, BufRead, Read, Write};

use crate::canonical::{write_canonical, write_decimal};
use crate::line::{Line, Refusal};
use crate::masses::total;
use crate::reader::read;

/// Byte 10.
const LINE_END: u8 = 10;

/// Appends the output line for one input line, with the byte 10 that ends it.
pub fn answer(number: u64, line: &[u8], out: &mut Vec<u8>) {
    write_decimal(number, out);
    match read(line) {
        Ok(line) => accepted(&line, out),
        Err(refusal) => refused(refusal, out),
    }
    out.push(LINE_END);
}

fn accepted(line: &Line, out: &mut Vec<u8>) {
    out.extend_from_slice(b" ok ");
    for count in [line.residues.len(), line.brackets.len(), line.floaters()] {
        write_decimal(count as u64, out);
        out.push(b' ');
    }
    match total(line) {
        Ok(total) => {
            out.push(if total < 0 { b'-' } else { b'+' });
            write_decimal(total.unsigned_abs(), out);
        }
        Err(refusal) => {
            out.push(b'?');
            write_decimal(refusal.place as u64, out);
        }
    }
    out.push(b' ');
    write_canonical(line, out);
}

fn refused(refusal: Refusal, out: &mut Vec<u8>) {
    out.extend_from_slice(b" no ");
    write_decimal(u64::from(refusal.number), out);
    out.push(b' ');
    write_decimal(refusal.place as u64, out);
}

/// Answers every line of the input.
pub fn run(mut input: impl BufRead, mut output: impl Write) -> io::Result<()> {
    let mut line = Vec::with_capacity(MOST_READ as usize);
    let mut out = Vec::with_capacity(2 * ENOUGH_TO_WRITE);
    let mut number = 0;
    while read_line(&mut input, &mut line)? {
        number += 1;
        answer(number, &line, &mut out);
        if out.len() >= ENOUGH_TO_WRITE {
            output.write_all(&out)?;
            out.clear();
        }
    }
    output.write_all(&out)?;
    output.flush()
}

/// Answers are written in pieces of about this size.
const ENOUGH_TO_WRITE: usize = 1 << 16;

/// So much of a line is read, with its end: a line too long needs no byte past
/// the one that makes it so.
const MOST_READ: u64 = Line::LONGEST as u64 + 1;

/// Reads the next line without its end; whether there is one.
fn read_line(input: &mut impl BufRead, line: &mut Vec<u8>) -> io::Result<bool> {
    line.clear();
    input.by_ref().take(MOST_READ).read_until(LINE_END, line)?;
    if line.is_empty() {
        return Ok(false);
    }
    if line.last() == Some(&LINE_END) {
        line.pop();
    } else if line.len() > Line::LONGEST {
        input.skip_until(LINE_END)?;
    }
    Ok(true)
}
