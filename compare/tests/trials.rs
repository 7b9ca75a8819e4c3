//! The files of crates/register and docs/SEQUENCES.md are what their sources say.

use std::fs::read;
use std::path::{Path, PathBuf};

use compare::register::answer;
use compare::trials::{compositions, declarations, input, known, measured, output, sequences, vectors, Trial};

fn file(name: &str) -> PathBuf {
    Path::new(env!("CARGO_MANIFEST_DIR")).join("..").join(name)
}

#[test]
fn the_program_is_run_on_them() {
    assert!(read(file("crates/register/stdin")).unwrap() == input());
    assert!(read(file("crates/register/stdout")).unwrap() == output());
}

fn alike(trials: &[Trial]) {
    for trial in trials {
        let mut printed = Vec::new();
        answer(7, &trial.line, &mut printed);
        let expected = [b"7 ", trial.outcome.as_slice(), b"\n"].concat();
        assert_eq!(String::from_utf8_lossy(&printed), String::from_utf8_lossy(&expected));
    }
}

#[test]
fn the_reader_agrees_with_document_01_and_the_vectors() {
    alike(&known());
    alike(&vectors());
    assert_eq!(vectors().len(), 2400);
}

#[test]
fn the_reader_agrees_with_document_02_on_compositions() {
    alike(&compositions());
}

#[test]
fn the_reader_agrees_with_document_02_on_declarations() {
    alike(&declarations());
}

#[test]
fn the_reader_agrees_with_document_02_on_measured_masses() {
    alike(&measured());
}

/// Each line that the definitions work out (crates/outcomes) is among them, with the same outcome.
#[test]
fn compositions_are_those_of_the_definitions() {
    assert_eq!(among("Compositions", compositions()), 39);
}

#[test]
fn declarations_are_those_of_the_definitions() {
    assert_eq!(among("Declarations", declarations()), 89);
}

/// How many lines a file of the definitions works out, all of them among these with the same outcome.
fn among(name: &str, trials: Vec<Trial>) -> usize {
    let definitions = String::from_utf8(read(file(&format!("crates/outcomes/specs/{name}.antt"))).unwrap()).unwrap();
    let ours: Vec<(String, String)> =
        trials.into_iter().map(|one| (String::from_utf8(one.line).unwrap(), String::from_utf8(one.outcome).unwrap())).collect();
    let mut met = 0;
    for row in definitions.lines().filter(|row| row.contains("sample \"")) {
        let texts: Vec<&str> = row.split('"').collect();
        let outcome = texts[3].strip_prefix("1 ").expect("the number of the line");
        assert!(ours.contains(&(texts[1].to_owned(), outcome.to_owned())), "{row}");
        met += 1;
    }
    met
}

/// Each sequence has its row on the page, under its section, in order.
#[test]
fn the_page_lists_every_sequence() {
    let page = String::from_utf8(read(file("docs/SEQUENCES.md")).unwrap()).unwrap();
    let mut expected = Vec::new();
    let mut last = "";
    for (section, trial) in sequences() {
        if section != last {
            expected.push(format!("## {section}"));
            last = section;
        }
        let sequence = String::from_utf8(trial.line).unwrap().replace('|', "\\|");
        let outcome = String::from_utf8(trial.outcome).unwrap();
        let words: Vec<&str> = outcome.split(' ').collect();
        let said = if words[0] == "ok" { "accepted".to_string() } else { format!("{} at {}", words[1], words[2]) };
        expected.push(format!("| `{sequence}` | {said} |"));
    }
    let rows: Vec<&str> = page.lines().filter(|row| row.starts_with("## ") || row.starts_with("| `")).collect();
    assert_eq!(rows.len(), expected.len());
    for (row, start) in rows.iter().zip(&expected) {
        assert!(row.starts_with(start.as_str()), "{row}");
    }
}
