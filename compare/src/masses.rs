//! "Masses": bracket mass, total, how many lack a mass, the ledger and the
//! total for display. All masses are in millionths.

use crate::areas::{tables_of_some_line, BYTES_SIZE, NUMBERS_SIZE};
use crate::line::{Bracket, Content, Key, Kind, Line, Number, Part, Refusal};
use crate::positions::{floaters, is_allowed, placed_on, Placement};
use crate::reader::read;

/// "A bracket's mass now answers stated, only measured, or none." "A measured
/// shift, written with `Obs`".
#[derive(Clone, Copy, Debug, PartialEq, Eq)]
pub enum Mass {
    Stated(i64),
    Measured(i64),
    None,
}

impl Mass {
    /// "Only stated ones enter total, ledger, display and the program's sixth
    /// field; the others count as lacking."
    pub fn stated(self) -> Option<i64> {
        match self {
            Self::Stated(millionths) => Some(millionths),
            Self::Measured(_) | Self::None => None,
        }
    }
}

/// "A bracket's mass is its first mass without `Obs`, else its first `Obs`
/// mass, else none. Parts are synonyms and never added up." "A composition
/// enters demand 3 as a mass without `Obs`".
pub fn bracket_mass(parts: &[Part]) -> Mass {
    let mass_where = |observed: bool| {
        parts.iter().find_map(|part| match &part.content {
            Content::Mass(mass) if (part.key == Key::Obs) == observed => Some(mass.millionths),
            Content::Composition(one) if !observed => Some(one.mass.millionths),
            _ => None,
        })
    };
    match (mass_where(false), mass_where(true)) {
        (Some(millionths), _) => Mass::Stated(millionths),
        (None, Some(millionths)) => Mass::Measured(millionths),
        (None, None) => Mass::None,
    }
}

/// How often a modification counts: as its count says; of a declaration, "one
/// for each position reached".
fn times(line: &Line, bracket: &Bracket) -> usize {
    match bracket.kind {
        Kind::Declared => placed_on(line, bracket).len(),
        _ => usize::from(bracket.count),
    }
}

/// How many modifications have no stated mass, "each copy counted".
pub fn missing(line: &Line) -> usize {
    sum(line).missing
}

/// "The total is the sum over all modifications, counts multiplied, labile
/// included, labels once." Refusal 16 leaves how many have no stated mass.
pub fn total(line: &Line) -> Result<i64, Refusal> {
    match sum(line) {
        Sum { total, missing: 0 } => Ok(total),
        Sum { missing, .. } => Err(Refusal::new(16, missing)),
    }
}

struct Sum {
    /// Over the modifications that have a stated mass.
    total: i64,
    missing: usize,
}

fn sum(line: &Line) -> Sum {
    let mut sum = Sum {
        total: 0,
        missing: 0,
    };
    let modifications = line.brackets.iter().filter(|one| line.is_modification(one));
    for bracket in modifications {
        match bracket_mass(line.parts_of(bracket)).stated() {
            Some(mass) => sum.total += mass * times(line, bracket) as i64,
            None => sum.missing += times(line, bracket),
        }
    }
    sum
}

/// "The ledger of a placement has one entry for each of the 256 positions".
pub type Ledger = [i64; 256];

/// Each entry "holds the masses of the modifications placed there and of the
/// floating copy put there, nothing else". Refusals 16 and 18, in this order.
pub fn ledger(line: &Line, placement: &Placement) -> Result<Ledger, Refusal> {
    total(line)?;
    let floaters = floaters(line);
    if !is_allowed(&floaters, placement) {
        return Err(Refusal::new(18, 0));
    }
    let mass_of = |index: usize| {
        let mass = bracket_mass(line.parts_of(&line.brackets[index]));
        mass.stated().expect("a stated mass, or there is no total")
    };
    let mut ledger = [0; 256];
    for (index, bracket) in line.brackets.iter().enumerate() {
        for position in placed_on(line, bracket).iter() {
            ledger[usize::from(position)] += mass_of(index);
        }
    }
    for (floater, &position) in floaters.iter().zip(placement) {
        ledger[usize::from(position)] += mass_of(floater.bracket);
    }
    Ok(ledger)
}

/// "For display, the total is either a mass as a double or the number of
/// modifications without one (never 16), or a refusal".
#[derive(Clone, Copy, Debug, PartialEq)]
pub enum Display {
    Daltons(f64),
    Missing(usize),
    Refused(u8),
}

/// The total of a line for display: "the whole number becomes a double with
/// nothing lost and is divided once by 1,000,000".
pub fn display(line: &Line) -> Display {
    match total(line) {
        Ok(millionths) => Display::Daltons(millionths as f64 / Number::WHOLE as f64),
        Err(refusal) => Display::Missing(refusal.place),
    }
}

/// The total of lent areas for display, with refusals 13 and 14.
pub fn display_areas(bytes: &[u8], numbers: &[i64]) -> Display {
    if bytes.len() < BYTES_SIZE || numbers.len() < NUMBERS_SIZE {
        return Display::Refused(13);
    }
    let written = tables_of_some_line(bytes, numbers);
    match written.as_deref().map(read) {
        Some(Ok(line)) => display(&line),
        _ => Display::Refused(14),
    }
}
