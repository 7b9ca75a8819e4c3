//! The outside vectors of compare/vectors: each line with all that follows from it.
#![forbid(unsafe_code)]

#[allow(dead_code)]
#[rustfmt::skip]
#[path = "../../compare/tests/json/mod.rs"]
mod json;

use std::collections::HashSet;

use hwemiduk::{entry, Bracket, Content, Key, Mass, Missing, Peptidoform, Position};
use json::Json;

const LINES: &[u8] = include_bytes!("../../compare/vectors/lines.in");
const OUTCOMES: &str = include_str!("../../compare/vectors/lines.json");
const PRINTED: &str = include_str!("../../compare/vectors/lines.out");

fn positions(numbers: &Json, floaters: usize) -> Vec<Position> {
    numbers.numbers()[..floaters].iter().map(|&position| position as Position).collect()
}

/// The mass of a bracket by what its parts say: the first that is not behind `Obs`, which is stated, else the first behind it, which is only measured.
fn mass_of_parts(bracket: &Bracket) -> Mass {
    let first = |measured: bool| {
        let parts = bracket.parts.iter().filter(|part| (part.key == Key::Obs) == measured);
        parts.map(|part| &part.content).find_map(|content| match content {
            Content::Mass(mass) | Content::Composition { mass, .. } => Some(mass.millionths),
            Content::Text(_) | Content::Reference => None,
        })
    };
    first(false).map(Mass::Stated).or(first(true).map(Mass::Measured)).unwrap_or(Mass::None)
}

#[test]
fn every_entry() {
    let mut met = 0;
    for ((line, printed), number) in LINES.split(|&byte| byte == 10).zip(PRINTED.lines()).zip(1..) {
        assert_eq!(entry(number, line), printed);
        met += 1;
    }
    assert_eq!(met, 2400);
}

/// How many rows of a line and its outcome there are: each line has that entry.
fn every_row(rows: &str) -> usize {
    let mut met = 0;
    for (row, number) in rows.lines().zip(1..) {
        let (line, printed) = row.split_once('\t').unwrap();
        assert_eq!(entry(number, line.as_bytes()), format!("{number} {printed}"));
        met += 1;
    }
    met
}

#[test]
fn every_line_with_compositions() {
    assert!(every_row(include_str!("../../compare/vectors/compositions.txt")) > 60);
}

#[test]
fn every_line_with_measured_masses() {
    assert!(every_row(include_str!("../../compare/vectors/measured.txt")) > 50);
}

/// The entries; and of each accepted line that its declarations stand at its front as they say, and make the total with what else there is.
#[test]
fn every_line_with_declarations() {
    let rows = include_str!("../../compare/vectors/declarations.txt");
    assert!(every_row(rows) > 150);
    for row in rows.lines() {
        let (line, printed) = row.split_once('\t').unwrap();
        let Some(printed) = printed.strip_prefix("ok ") else { continue };
        let p = Peptidoform::read(line.as_bytes()).unwrap();
        let (declared, brackets) = (p.declared(), p.brackets());
        let front: String = declared.iter().map(ToString::to_string).collect();
        assert!(p.as_str().starts_with(&front) && !p.as_str()[front.len()..].starts_with('<'), "{line}");
        let times = |index: usize| declared.get(index).map_or(usize::from(brackets[index].count), |one| one.positions.len());
        let modifications = || brackets.iter().enumerate().filter(|(_, bracket)| bracket.is_modification());
        let missing: usize = modifications().filter(|(_, bracket)| bracket.mass.stated().is_none()).map(|(index, _)| times(index)).sum();
        let total: i64 = modifications().map(|(index, bracket)| times(index) as i64 * bracket.mass.stated().unwrap_or(0)).sum();
        let shown = if missing > 0 { format!("?{missing}") } else { format!("{total:+}") };
        assert_eq!(printed.splitn(5, ' ').nth(3), Some(shown.as_str()), "{line}");
    }
}

#[test]
fn every_vector() {
    let (mut accepted, mut refused, mut weighed, mut measured, mut without) = (0, 0, 0, 0, 0);
    for (line, outcome) in LINES.split(|&byte| byte == 10).zip(OUTCOMES.lines()) {
        let outcome = Json::read(outcome);
        let shown = String::from_utf8_lossy(line);
        let read = Peptidoform::read(line);
        if outcome.get("ok").number() == 0 {
            let refusal = read.unwrap_err();
            let expected = (outcome.get("no").number(), outcome.get("at").number());
            assert_eq!((refusal.number().into(), refusal.place() as i64), expected, "{shown}");
            refused += 1;
            continue;
        }
        let p = read.unwrap();
        let (brackets, floaters) = (p.brackets(), p.floaters());
        assert_eq!(p.as_str(), outcome.get("canon").text(), "{shown}");
        let counts = [p.residues().len(), p.sections().len(), brackets.len(), floaters.len()].map(|count| count as i64);
        let residues = outcome.get("res").number();
        assert_eq!(counts, [residues, residues, outcome.get("br").number(), outcome.get("fl").number()], "{shown}");

        // what the brackets say stands in the canonical line, in order
        let mut rest = p.as_str();
        for bracket in &brackets {
            let text = bracket.to_string();
            let at = rest.find(&text).unwrap_or_else(|| panic!("{shown}: {text} in {rest}"));
            rest = &rest[at + text.len()..];
        }

        // masses
        for bracket in &brackets {
            assert_eq!(bracket.mass, mass_of_parts(bracket), "{shown}");
            measured += usize::from(bracket.mass.measured().is_some());
        }
        let missing = outcome.get("missing").number() as usize;
        assert_eq!(p.missing(), missing, "{shown}");
        let modifications = || brackets.iter().filter(|bracket| bracket.is_modification());
        let lacking: usize = modifications().filter(|bracket| bracket.mass.stated().is_none()).map(|bracket| usize::from(bracket.count)).sum();
        assert_eq!(lacking, missing, "{shown}");
        if missing > 0 {
            assert_eq!((p.total(), p.shift()), (Err(Missing { count: missing }), None), "{shown}");
        } else {
            let total = outcome.get("total").number();
            assert_eq!((p.total(), p.shift()), (Ok(total), Some(total as f64 / 1e6)), "{shown}");
            let sum: i64 = modifications().map(|bracket| i64::from(bracket.count) * bracket.mass.stated().unwrap()).sum();
            assert_eq!(sum, total, "{shown}");
        }

        // rows and placements
        let expected: Vec<Vec<i64>> = outcome.get("rows").list().iter().map(Json::numbers).collect();
        let rows: Vec<Vec<i64>> = p.rows().iter().map(|row| vec![row.floater.into(), row.position.into()]).collect();
        assert_eq!(rows, expected, "{shown}");
        let stands = floaters.iter().zip(1..).flat_map(|(floater, number)| floater.positions.iter().map(move |&at| vec![number, i64::from(at)]));
        assert_eq!(stands.collect::<Vec<_>>(), expected, "{shown}");
        let first: Vec<_> = outcome.get("placements").list().iter().map(|one| positions(one, floaters.len())).collect();
        let whole = outcome.get("nplace").optional().is_some_and(|count| count.number() == first.len() as i64);
        let listed: Vec<_> = p.placements().take(first.len() + usize::from(whole)).map(|placement| placement.to_vec()).collect();
        assert_eq!(listed, first, "{shown}");
        assert!(first.iter().all(|placement| p.allowed(placement)), "{shown}");

        // where there is no placement, floaters with too few positions: one fewer than they are
        let short = p.why_none();
        assert_eq!(short.is_empty(), !first.is_empty(), "{shown}");
        if !short.is_empty() {
            let together: HashSet<_> = short.iter().flat_map(|&number| &floaters[usize::from(number) - 1].positions).collect();
            assert_eq!(together.len() + 1, short.len(), "{shown}");
            without += 1;
        }

        // the ledger of the first placement; what stands at a floater's position is the mass of its bracket
        if let Some(ledger) = outcome.get("ledger").optional() {
            let answer = p.ledger(&first[0]).unwrap();
            assert_eq!(answer, ledger.numbers(), "{shown}");
            for (floater, &at) in floaters.iter().zip(&first[0]) {
                assert_eq!(floater.bracket.mass, Mass::Stated(answer[usize::from(at)]), "{shown}");
            }
            weighed += 1;
        }
        accepted += 1;
    }
    assert_eq!((accepted, refused), (1132, 1268));
    assert!(weighed > 250 && measured > 100 && without > 50, "{weighed} {measured} {without}");
}
