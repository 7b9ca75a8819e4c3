//! "Say why there is none" (02, L7): the floaters that have too few positions.

use crate::areas::{tables_of_some_line, BYTES_SIZE, NUMBERS_SIZE};
use crate::line::{Line, Refusal};
use crate::positions::{floaters, Floater, Positions};
use crate::reader::read;

/// Floaters by their numbers, counted from 1, ascending.
type Set = Vec<u8>;

/// "a set of floaters whose permitted positions, taken together, are fewer
/// than the set. [..] Give the smallest; among equals the first by floater
/// order." Where there is no such set there is a placement, and none is given.
pub fn why_none(line: &Line) -> Set {
    let floaters = floaters(line);
    let short = sets(floaters.len()).filter(|set| is_short(&floaters, set));
    let smallest = short.min_by(|one, other| (one.len(), one).cmp(&(other.len(), other)));
    smallest.unwrap_or_default()
}

/// The same over lent areas, with refusals 13 and 14.
pub fn why_none_areas(bytes: &[u8], numbers: &[i64]) -> Result<Set, Refusal> {
    if bytes.len() < BYTES_SIZE || numbers.len() < NUMBERS_SIZE {
        return Err(Refusal::new(13, 0));
    }
    let written = tables_of_some_line(bytes, numbers);
    match written.as_deref().map(read) {
        Some(Ok(line)) => Ok(why_none(&line)),
        _ => Err(Refusal::new(14, 0)),
    }
}

/// Every set of so many floaters: a bit for each of them. "Every copy is a
/// floater of its own" (01).
fn sets(floaters: usize) -> impl Iterator<Item = Set> {
    (0_usize..1 << floaters).map(move |bits| {
        let belongs = |number: &usize| bits >> (number - 1) & 1 == 1;
        let members = (1..=floaters).filter(belongs);
        members.map(|number| number as u8).collect()
    })
}

/// Whether the positions of these floaters, struck-out ones gone and each
/// counted once, are fewer than they are.
fn is_short(floaters: &[Floater], set: &Set) -> bool {
    let members = set.iter().map(|&number| floaters[usize::from(number) - 1]);
    let each = members.map(|floater| floater.permitted);
    let together = each.fold(Positions::EMPTY, Positions::union);
    together.len() < set.len()
}
