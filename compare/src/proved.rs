//! The proved library, as `hwemiduk::lent` calls it. Each call there begins with junk in every out-parameter; here it is checked that success and refusal
//! set what they are to set, and leave the rest as it was.

use crate::line::Refusal;
use crate::masses::{Display, Mass};
use hwemiduk::lent::outs;
pub use hwemiduk::lent::{limits, Limits, Listing, Position, Site, Survey};

/// Two areas, of the sizes that the library names.
pub fn areas() -> (Vec<u8>, Vec<i64>) {
    let limits = limits();
    (vec![0; limits.bytes], vec![0; limits.numbers])
}

fn answer((number, place): (u8, usize)) -> Result<(), Refusal> {
    if number == 0 {
        assert_eq!(place, usize::MAX, "success leaves the place as it was");
        Ok(())
    } else {
        Err(Refusal { number, place })
    }
}

/// The answer of a call that leaves no place.
fn told(number: u8) -> Result<(), Refusal> {
    if number == 0 {
        Ok(())
    } else {
        Err(Refusal::new(number, 0))
    }
}

fn count((number, count): (u8, usize)) -> Result<usize, Refusal> {
    assert!(number == 0 || count == usize::MAX, "a refusal leaves the count as it was");
    told(number).map(|()| count)
}

/// The answer of a call that writes into an output of any length: how many bytes, and with 15 how many are needed.
fn written((number, length): (u8, usize)) -> Result<usize, Refusal> {
    match number {
        0 => Ok(length),
        15 => Err(Refusal::new(15, length)),
        number => {
            assert_eq!(length, usize::MAX, "only 15 tells a length");
            Err(Refusal::new(number, 0))
        }
    }
}

/// Whether a line is accepted, or its refusal.
pub fn verdict(line: &[u8]) -> Result<(), Refusal> {
    answer(outs::verdict(line))
}

/// Reads a line into two areas.
pub fn read(line: &[u8], bytes: &mut [u8], numbers: &mut [i64]) -> Result<(), Refusal> {
    answer(outs::read(line, bytes, numbers))
}

/// How many residues the tables in two areas have.
pub fn residues(bytes: &[u8], numbers: &[i64]) -> Result<usize, Refusal> {
    count(outs::residues(bytes, numbers))
}

/// How many brackets.
pub fn brackets(bytes: &[u8], numbers: &[i64]) -> Result<usize, Refusal> {
    count(outs::brackets(bytes, numbers))
}

/// How many floating copies.
pub fn floaters(bytes: &[u8], numbers: &[i64]) -> Result<usize, Refusal> {
    count(outs::floaters(bytes, numbers))
}

/// For each floater its bracket and its copy, into two slices: how many.
pub fn floater_brackets(bytes: &[u8], numbers: &[i64], brackets: &mut [u8], copies: &mut [u8]) -> Result<usize, Refusal> {
    count(outs::floater_brackets(bytes, numbers, brackets, copies))
}

/// The numbers of the floaters that have too few positions, into a slice: how many.
pub fn why_none_into(bytes: &[u8], numbers: &[i64], floaters: &mut [u8]) -> Result<usize, Refusal> {
    count(outs::why_none(bytes, numbers, floaters))
}

/// The same out of slices that are full of junk, one just as long as it must be and a longer one: entries behind the count stay, and on a refusal all of them. Slices that are too short are
/// refused whatever the areas hold, and stay.
pub fn why_none(bytes: &[u8], numbers: &[i64]) -> Result<Vec<u8>, Refusal> {
    let said = |room: usize, junk: u8| {
        let mut floaters = vec![junk; room];
        let answer = why_none_into(bytes, numbers, &mut floaters);
        let behind = floaters.split_off(answer.unwrap_or(0));
        assert!(behind.iter().all(|&one| one == junk), "{answer:?} leaves {behind:?} behind");
        answer.map(|_| floaters)
    };
    let copies = limits().copies;
    for short in [0, copies - 1] {
        assert_eq!(said(short, 0xA5), Err(Refusal::new(13, 0)), "{short} entries are too few");
    }
    let answer = said(copies, 0xA5);
    assert_eq!(said(copies + 3, 0x5A), answer, "more entries than there must be");
    answer
}

/// Writes the canonical line into an output of any length: how many bytes.
pub fn write(bytes: &[u8], numbers: &[i64], out: &mut [u8]) -> Result<usize, Refusal> {
    written(outs::write(bytes, numbers, out))
}

/// What the register prints of a line, into an output of any length: how many bytes.
pub fn entry(number: u64, line: &[u8], out: &mut [u8]) -> Result<usize, Refusal> {
    match outs::entry(number, line, out) {
        (0, length) => Ok(length),
        (answered, length) => Err(Refusal::new(answered, length)),
    }
}

/// The pieces of a composition, into a slice of any length: how many bytes.
pub fn composition(text: &[u8], pieces: &mut [u8]) -> Result<usize, Refusal> {
    written(outs::composition(text, pieces))
}

/// The positions that a bracket reaches as a declaration, into a slice: how many.
pub fn reached(bytes: &[u8], numbers: &[i64], bracket: usize, positions: &mut [Position]) -> Result<usize, Refusal> {
    count(outs::reached(bytes, numbers, bracket, positions))
}

/// The total in millionths.
pub fn total(bytes: &[u8], numbers: &[i64]) -> Result<i64, Refusal> {
    let (number, millionths, place) = outs::total(bytes, numbers);
    assert!(number == 0 || millionths == i64::MIN, "a refusal leaves the total as it was");
    answer((number, place)).map(|()| millionths)
}

/// A bracket's own mass: stated, only measured, or none.
pub fn bracket_mass(bytes: &[u8], numbers: &[i64], bracket: usize) -> Result<Mass, Refusal> {
    let (number, millionths, sort) = outs::bracket_mass(bytes, numbers, bracket);
    if number != 0 {
        assert_eq!((millionths, sort), (i64::MIN, u8::MAX), "a refusal leaves both as they were");
        return Err(Refusal::new(number, 0));
    }
    match sort {
        0 => {
            assert_eq!(millionths, 0, "where there is no mass, 0");
            Ok(Mass::None)
        }
        1 => Ok(Mass::Stated(millionths)),
        2 => Ok(Mass::Measured(millionths)),
        _ => panic!("a mass of sort {sort}"),
    }
}

/// The total for display.
pub fn shown(bytes: &[u8], numbers: &[i64]) -> Display {
    let (number, daltons, missing) = outs::shown(bytes, numbers);
    if number != 0 {
        assert!(daltons.is_nan() && missing == usize::MAX, "a refusal leaves both as they were");
        return Display::Refused(number);
    }
    if missing == 0 {
        return Display::Daltons(daltons);
    }
    assert_eq!(daltons.to_bits(), 0, "where there is no mass, 0.0");
    Display::Missing(missing)
}

/// Whether a placement is an allowed one: the first entries of the slice count.
pub fn allowed(bytes: &[u8], numbers: &[i64], placement: &[Position]) -> Result<(), Refusal> {
    told(outs::allowed(bytes, numbers, placement))
}

/// Writes the ledger of a placement into the first entries.
pub fn ledger(bytes: &[u8], numbers: &[i64], placement: &[Position], entries: &mut [i64]) -> Result<(), Refusal> {
    answer(outs::ledger(bytes, numbers, placement, entries))
}

/// Hands out the permitted positions as rows: how many.
pub fn rows(bytes: &[u8], numbers: &[i64], rows: &mut [Site]) -> Result<usize, Refusal> {
    count(outs::rows(bytes, numbers, rows))
}

/// The index and the position of a floater's first row among the first n.
pub fn first_row(rows: &[Site], n: usize, floater: u8) -> Result<(usize, Position), Refusal> {
    let (number, index, position) = outs::first_row(rows, n, floater);
    if number == 0 {
        return Ok((index, position));
    }
    assert_eq!((index, position), (usize::MAX, Position::MAX), "a refusal leaves both as they were");
    Err(Refusal::new(number, 0))
}

/// Moves a listing on to the next placement.
pub fn next(bytes: &[u8], numbers: &[i64], listing: &mut Listing) -> Result<(), Refusal> {
    told(outs::next(bytes, numbers, listing))
}

/// Makes an empty area of blocks.
pub fn blocks_empty(area: &mut [u8]) -> Result<(), Refusal> {
    told(outs::blocks_empty(area))
}

/// Adds a line with a placement under a number.
pub fn blocks_add(area: &mut [u8], number: u32, placement: &[Position], line: &[u8]) -> Result<(), Refusal> {
    answer(outs::blocks_add(area, number, placement, line))
}

/// Fetches an entry into a placement and an output of any length: how long its line is.
pub fn blocks_fetch(area: &[u8], number: u32, placement: &mut [Position], out: &mut [u8]) -> Result<usize, Refusal> {
    written(outs::blocks_fetch(area, number, placement, out))
}

/// Removes an entry.
pub fn blocks_remove(area: &mut [u8], number: u32) -> Result<(), Refusal> {
    told(outs::blocks_remove(area, number))
}

/// The first sound first block from one on, and its number.
pub fn blocks_entry(area: &[u8], from: usize) -> Result<(usize, u32), Refusal> {
    let (answered, block, number) = outs::blocks_entry(area, from);
    assert!(answered == 0 || (block, number) == (usize::MAX, outs::UNTOLD), "a refusal leaves both as they were");
    told(answered).map(|()| (block, number))
}

/// How many blocks are of which sort.
pub fn blocks_survey(area: &[u8]) -> Result<Survey, Refusal> {
    let (answered, Survey { free, first, further, other, unsound }) = outs::blocks_survey(area);
    let all = [free, first, further, other, unsound];
    assert!(answered == 0 || all == [usize::MAX; 5], "a refusal leaves all counts as they were");
    told(answered).map(|()| Survey { free, first, further, other, unsound })
}
