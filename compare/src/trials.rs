//! What the program of crates/register is run on, and what it must print: the
//! lines whose outcomes document 01 gives (vectors/known.txt, outcomes written
//! from document 01), the sequences of source document 001
//! (vectors/sequences.txt, outcomes by the reader of this package), the
//! vectors (vectors/lines.in, outcomes as they stand in lines.out), and lines
//! with compositions, with declarations and with measured masses
//! (vectors/compositions.txt, declarations.txt and measured.txt, outcomes
//! written from document 02, L1, L2 and L6).

use crate::register::answer;

const KNOWN: &str = include_str!("../vectors/known.txt");
const SEQUENCES: &str = include_str!("../vectors/sequences.txt");
const LINES: &[u8] = include_bytes!("../vectors/lines.in");
const ANSWERS: &[u8] = include_bytes!("../vectors/lines.out");
const COMPOSITIONS: &str = include_str!("../vectors/compositions.txt");
const DECLARATIONS: &str = include_str!("../vectors/declarations.txt");
const MEASURED: &str = include_str!("../vectors/measured.txt");

/// A line, and what is printed behind its number.
pub struct Trial {
    pub line: Vec<u8>,
    pub outcome: Vec<u8>,
}

fn trial(line: &[u8], outcome: &[u8]) -> Trial {
    Trial { line: line.to_vec(), outcome: outcome.to_vec() }
}

/// What stands behind the number of a printed line.
fn behind_number(printed: &[u8]) -> &[u8] {
    let space = printed.iter().position(|&byte| byte == b' ').expect("a number and a space");
    &printed[space + 1..]
}

fn lines_of(text: &[u8]) -> impl Iterator<Item = &[u8]> {
    text.strip_suffix(b"\n").unwrap_or(text).split(|&byte| byte == b'\n')
}

/// The lines of document 01.
pub fn known() -> Vec<Trial> {
    with_outcomes(KNOWN)
}

/// The lines with compositions.
pub fn compositions() -> Vec<Trial> {
    with_outcomes(COMPOSITIONS)
}

/// The lines with declarations.
pub fn declarations() -> Vec<Trial> {
    with_outcomes(DECLARATIONS)
}

/// The lines with measured masses.
pub fn measured() -> Vec<Trial> {
    with_outcomes(MEASURED)
}

fn with_outcomes(text: &str) -> Vec<Trial> {
    let rows = text.lines().map(|row| row.split_once('\t').expect("a line and its outcome"));
    rows.map(|(line, outcome)| trial(line.as_bytes(), outcome.as_bytes())).collect()
}

/// The sequences of document 001, each with its section.
pub fn sequences() -> Vec<(&'static str, Trial)> {
    let mut section = "";
    let mut trials = Vec::new();
    for row in SEQUENCES.lines() {
        if let Some(name) = row.strip_prefix("# ") {
            section = name;
            continue;
        }
        let mut printed = Vec::new();
        answer(1, row.as_bytes(), &mut printed);
        printed.pop();
        trials.push((section, trial(row.as_bytes(), behind_number(&printed))));
    }
    trials
}

/// The vectors.
pub fn vectors() -> Vec<Trial> {
    let pairs = lines_of(LINES).zip(lines_of(ANSWERS));
    pairs.map(|(line, printed)| trial(line, behind_number(printed))).collect()
}

/// All of them, in the order in which the program meets them.
pub fn all() -> Vec<Trial> {
    let mut trials = known();
    trials.extend(sequences().into_iter().map(|(_, trial)| trial));
    trials.extend(vectors());
    trials.extend(compositions());
    trials.extend(declarations());
    trials.extend(measured());
    trials
}

/// The program's input.
pub fn input() -> Vec<u8> {
    let mut bytes = Vec::new();
    for trial in all() {
        bytes.extend_from_slice(&trial.line);
        bytes.push(b'\n');
    }
    bytes
}

/// What it must print.
pub fn output() -> Vec<u8> {
    let mut bytes = Vec::new();
    for (index, trial) in all().iter().enumerate() {
        bytes.extend_from_slice(format!("{} ", index + 1).as_bytes());
        bytes.extend_from_slice(&trial.outcome);
        bytes.push(b'\n');
    }
    bytes
}
