//! The reader and all that follows from it against every vector: lines.in,
//! lines.out and lines.json beside this package.

mod json;

use compare::areas::{decode, encode, tables_of_some_line};
use compare::canonical::canonical;
use compare::line::Line;
use compare::masses::{display, ledger, missing, total, Display};
use compare::positions::{
    all_placements, first_placement, floaters, is_allowed, next_placement, rows, Listing,
    Placement, Position,
};
use compare::reader::{read, Refusal};
use compare::register;
use json::Json;

const LINES: &[u8] = include_bytes!("../vectors/lines.in");
const ANSWERS: &[u8] = include_bytes!("../vectors/lines.out");
const OUTCOMES: &str = include_str!("../vectors/lines.json");

/// Over so many placements the vectors give no number.
const MOST_COUNTED: usize = 20_000;

/// Calls with the number, line and outcome of each vector; how many there are.
fn for_each_vector(mut check: impl FnMut(usize, &[u8], &Json)) -> usize {
    let lines = LINES.strip_suffix(b"\n").unwrap().split(|&byte| byte == 10);
    let outcomes: Vec<&str> = OUTCOMES.lines().collect();
    let lines: Vec<&[u8]> = lines.collect();
    assert_eq!(lines.len(), outcomes.len());
    for (index, (line, outcome)) in lines.iter().zip(&outcomes).enumerate() {
        check(index + 1, line, &Json::read(outcome));
    }
    lines.len()
}

/// The same for the accepted ones, with what they read to.
fn for_each_accepted(mut check: impl FnMut(usize, &Line, &Json)) {
    for_each_vector(|number, line, outcome| {
        if let Ok(read) = read(line) {
            check(number, &read, outcome);
        }
    });
}

fn placements_of(outcome: &Json) -> Vec<Placement> {
    let entries = |one: &Json| one.numbers().iter().map(|&entry| entry as Position).collect();
    let placements = outcome.get("placements").list().iter();
    placements
        .map(|one| {
            let entries: Vec<Position> = entries(one);
            Placement::try_from(entries).expect("8 entries")
        })
        .collect()
}

#[test]
fn outcomes_and_places() {
    let count = for_each_vector(|number, line, outcome| {
        let accepted = outcome.get("ok").number() == 1;
        let expected = (!accepted).then(|| Refusal {
            number: outcome.get("no").number() as u8,
            place: outcome.get("at").number() as usize,
        });
        assert_eq!(read(line).err(), expected, "vector {number}");
    });
    assert_eq!(count, 2400);
}

#[test]
fn counts_and_canonical_lines() {
    for_each_accepted(|number, line, outcome| {
        let counts = [line.residues.len(), line.brackets.len(), line.floaters()];
        let expected = ["res", "br", "fl"].map(|name| outcome.get(name).number() as usize);
        assert_eq!(counts, expected, "vector {number}");
        let written = String::from_utf8(canonical(line)).unwrap();
        assert_eq!(written, outcome.get("canon").text(), "vector {number}");
    });
}

#[test]
fn totals_and_missing_masses() {
    for_each_accepted(|number, line, outcome| {
        let without = outcome.get("missing").number() as usize;
        let expected = match outcome.get("total").optional() {
            Some(total) => Ok(total.number()),
            None => Err(Refusal {
                number: 16,
                place: without,
            }),
        };
        assert_eq!(missing(line), without, "vector {number}");
        assert_eq!(total(line), expected, "vector {number}");
        let shown = match expected {
            Ok(total) => Display::Daltons(total as f64 / 1e6),
            Err(_) => Display::Missing(without),
        };
        assert_eq!(display(line), shown, "vector {number}");
    });
}

#[test]
fn rows_of_floater_and_position() {
    for_each_accepted(|number, line, outcome| {
        let rows: Vec<Vec<i64>> = rows(&floaters(line))
            .iter()
            .map(|row| vec![row.floater.into(), row.position.into()])
            .collect();
        let expected: Vec<Vec<i64>> = outcome
            .get("rows")
            .list()
            .iter()
            .map(Json::numbers)
            .collect();
        assert_eq!(rows, expected, "vector {number}");
    });
}

#[test]
fn placements_and_their_number() {
    for_each_accepted(|number, line, outcome| {
        let floaters = floaters(line);
        let (all, complete) = all_placements(&floaters, MOST_COUNTED);
        let counted = if complete { all.len() as i64 } else { -1 };
        assert_eq!(counted, outcome.get("nplace").number(), "vector {number}");
        let first = placements_of(outcome);
        assert_eq!(all[..all.len().min(30)], first, "vector {number}");
        assert!(all.iter().all(|one| is_allowed(&floaters, one)));
    });
}

#[test]
fn listing_hands_out_the_placements() {
    for_each_accepted(|number, line, outcome| {
        let floaters = floaters(line);
        let expected = placements_of(outcome);
        let mut listing = Listing::FRESH;
        for placement in &expected {
            assert_eq!(
                listing.request(&floaters),
                Ok(*placement),
                "vector {number}"
            );
        }
        if outcome.get("nplace").number() == expected.len() as i64 {
            let before = listing;
            assert_eq!(listing.request(&floaters), Err(Refusal::new(17, 0)));
            assert_eq!(listing, before, "a refusal changes no record");
        }
        assert_eq!(first_placement(&floaters), expected.first().copied());
        for pair in expected.windows(2) {
            assert_eq!(next_placement(&floaters, &pair[0]), Some(pair[1]));
        }
    });
}

#[test]
fn ledgers_of_the_first_placements() {
    for_each_accepted(|number, line, outcome| {
        let Some(first) = placements_of(outcome).first().copied() else {
            assert_eq!(outcome.get("ledger"), &Json::Null, "vector {number}");
            return;
        };
        match (ledger(line, &first), outcome.get("ledger").optional()) {
            (Ok(ledger), Some(expected)) => {
                let (used, unused) = ledger.split_at(line.c_terminus() + 1);
                assert_eq!(used, expected.numbers(), "vector {number}");
                assert!(unused.iter().all(|&entry| entry == 0));
            }
            (refused, expected) => {
                assert_eq!(refused, Err(Refusal::new(16, missing(line))));
                assert_eq!(expected, None, "vector {number}");
            }
        }
    });
}

#[test]
fn areas_of_the_accepted_lines() {
    for_each_accepted(|number, line, outcome| {
        let (bytes, numbers) = encode(line);
        assert_eq!(decode(&bytes, &numbers).as_ref(), Some(line), "{number}");
        let written = tables_of_some_line(&bytes, &numbers).expect("tables of this line");
        assert_eq!(written, outcome.get("canon").text().as_bytes());
    });
}

#[test]
fn output_of_the_register() {
    let mut output = Vec::new();
    register::run(LINES, &mut output).unwrap();
    assert!(output == ANSWERS, "output is lines.out");
}
