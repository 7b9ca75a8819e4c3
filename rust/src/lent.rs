//! The library's own calls, over slices that the caller lends. Nothing here takes heap.
//!
//! A line is read into two areas, one of bytes and one of numbers; the other calls take the tables in these areas. What is lent to be written a refusal leaves
//! exactly as it was, and success leaves as it was past what the call says it writes. Any content is answered: junk in the areas is refused with 14, a slice that is too
//! short with 13, blocks that are damaged with 25. Slices may be longer than is asked for; but of an area of blocks all of the slice is the area.
//!
//! ```
//! use hwemiduk::lent::{self, Listing, BYTES, NUMBERS};
//!
//! let (mut bytes, mut numbers) = ([0; BYTES], [0; NUMBERS]);
//! lent::read(b"M[+16#a]C[#a]", &mut bytes, &mut numbers)?;
//! assert_eq!(lent::total(&bytes, &numbers), Ok(16_000_000));
//! let mut listing = Listing::FRESH;
//! lent::next(&bytes, &numbers, &mut listing)?;
//! assert_eq!(listing.at[0], 1);
//! lent::next(&bytes, &numbers, &mut listing)?;
//! assert_eq!(listing.at[0], 2);
//! assert_eq!(lent::next(&bytes, &numbers, &mut listing).unwrap_err().number(), 17);
//! # Ok::<(), hwemiduk::Refusal>(())
//! ```

use core::mem::size_of;

use crate::Refusal;

/// Bytes of a line; a canonical line has no more.
pub const LINE: usize = 4096;
/// Bytes of an entry of the register, its end of line among them; none has more.
pub const ENTRY: usize = LINE + 110;
/// Residues of a line.
pub const RESIDUES: usize = 254;
/// Brackets of a line.
pub const BRACKETS: usize = 64;
/// Parts of a bracket.
pub const PARTS: usize = 4;
/// Declarations of a line.
pub const DECLARATIONS: usize = 8;
/// Places of a declaration.
pub const PLACES: usize = 16;
/// Floating copies: entries of a placement.
pub const COPIES: usize = 8;
/// Entries of a ledger, and of positions reached: the N-terminus, the residues, the C-terminus.
pub const POSITIONS: usize = RESIDUES + 2;
/// Rows of floater and position.
pub const ROWS: usize = COPIES * POSITIONS;
/// Pieces of a part's composition: a name has three bytes or more, and a text no more than 128.
pub const PIECES: usize = 42;
/// The names that a composition is made of, in the order and in the spelling of the list of ProForma 2.1, section 10.2.
#[rustfmt::skip]
pub const SUGARS: [&str; 24] = [
    "Hex", "HexNAc", "HexS", "HexP", "HexNAcS", "HexN", "HexNS", "dHex", "aHex", "en,aHex", "Neu", "NeuAc",
    "NeuGc", "Sug", "Tri", "Tet", "Pen", "Hep", "Oct", "Non", "Dec", "Fuc", "Sulfate", "Phosphate",
];
/// Bytes of a block.
pub const BLOCK: usize = 512;
/// Blocks of an area at most.
pub const BLOCKS: usize = 128;
/// The area of bytes.
pub const BYTES: usize = layout::TEXTS_AT + LINE;
/// The area of numbers.
pub const NUMBERS: usize = BRACKETS * (PARTS + 1);

/// Where the tables lie in the area of bytes, as include/hwemiduk.h says it.
#[cfg_attr(not(feature = "std"), allow(dead_code))]
pub(crate) mod layout {
    use super::{BRACKETS, PARTS, PLACES, RESIDUES};

    // a bracket's row: its head, its parts, how many places it has, and its places
    pub const HEAD: usize = 8;
    pub const PART: usize = 7;
    pub const PLACES_AT: usize = HEAD + PARTS * PART;
    pub const ROW: usize = PLACES_AT + 1 + PLACES;

    pub const RESIDUES_AT: usize = 0;
    pub const BRACKETS_USED_AT: usize = 2;
    pub const LETTERS_AT: usize = 3;
    pub const SECTIONS_AT: usize = LETTERS_AT + RESIDUES;
    pub const BRACKETS_AT: usize = SECTIONS_AT + RESIDUES;
    pub const TEXTS_AT: usize = BRACKETS_AT + BRACKETS * ROW;
}

/// A position: 0 is the N-terminus, 1 to n are the residues, n + 1 is the C-terminus.
pub type Position = u16;

/// A row of floater and position, floaters counted from 1.
#[derive(Clone, Copy, Debug, PartialEq, Eq)]
#[repr(C)]
pub struct Site {
    /// Which floater, counted from 1.
    pub floater: u8,
    /// Where it may stand.
    pub position: Position,
}

/// The listing in hand: marked fresh, with zeros, or unmarked, with the placement last handed out. Any other content gets 18.
#[derive(Clone, Copy, Debug, PartialEq, Eq)]
#[repr(C)]
pub struct Listing {
    /// The position of each floating copy, unused entries 0.
    pub at: [Position; COPIES],
    /// 1 in a fresh one, 0 in one that holds a placement.
    pub mark: u8,
}

// The forms that include/hwemiduk.h gives them.
const _: () = assert!(size_of::<Site>() == 4 && size_of::<Listing>() == 18);

impl Listing {
    /// The listing from which every placement is handed out.
    pub const FRESH: Self = Self { at: [0; COPIES], mark: 1 };

    /// One that holds a placement: the next one is handed out from it.
    pub const fn holding(at: [Position; COPIES]) -> Self {
        Self { at, mark: 0 }
    }

    /// Whether it is marked fresh.
    pub const fn is_fresh(&self) -> bool {
        self.mark == Self::FRESH.mark
    }
}

/// The limits and sizes, which the library names.
#[derive(Clone, Copy, Debug, Default, PartialEq, Eq)]
#[repr(C)]
pub struct Limits {
    /// Bytes of a line.
    pub line: usize,
    /// Residues of a line.
    pub residues: usize,
    /// Brackets, square and curly together.
    pub brackets: usize,
    /// Parts of a bracket.
    pub parts: usize,
    /// Bytes of a part's text, after key or prefix.
    pub text: usize,
    /// Bytes of a label.
    pub label: usize,
    /// Pairs within a text.
    pub depth: usize,
    /// The count behind ^.
    pub count: usize,
    /// Declarations of a line.
    pub declarations: usize,
    /// Places of a declaration.
    pub places: usize,
    /// Floating copies: entries of a placement.
    pub copies: usize,
    /// Rows of floater and position.
    pub rows: usize,
    /// Entries of a ledger, and of positions reached.
    pub positions: usize,
    /// Masses and scores are below this in size.
    pub size: u64,
    /// Decimals of a mass or a score.
    pub decimals: u8,
    /// The area of bytes.
    pub bytes: usize,
    /// The area of numbers.
    pub numbers: usize,
    /// Bytes of a block.
    pub block: usize,
    /// Blocks of an area at most.
    pub blocks: usize,
}

/// The mass that a bracket has by itself, in millionths: not multiplied by its count, nor by the positions that a declaration reaches.
#[derive(Clone, Copy, Debug, PartialEq, Eq, Hash)]
pub enum Mass {
    /// Its first mass or composition that is not behind `Obs`. Only a stated mass enters total, ledger and display.
    Stated(i64),
    /// Only measured: its first mass behind `Obs`, where it has no other. In sums it counts as none.
    Measured(i64),
    /// No part of it has one.
    None,
}

impl Mass {
    /// The mass, where it is stated.
    pub const fn stated(self) -> Option<i64> {
        match self {
            Self::Stated(millionths) => Some(millionths),
            Self::Measured(_) | Self::None => None,
        }
    }

    /// The mass, where it is only measured.
    pub const fn measured(self) -> Option<i64> {
        match self {
            Self::Measured(millionths) => Some(millionths),
            Self::Stated(_) | Self::None => None,
        }
    }
}

// The numbers that include/hwemiduk.h gives the sorts of a mass: a third one, 0, is none.
const STATED: u8 = 1;
const MEASURED: u8 = 2;

/// The total for display: either a mass or how many have none that is stated.
#[derive(Clone, Copy, Debug, PartialEq)]
pub enum Shown {
    /// The sum of the stated masses of the modifications.
    Daltons(f64),
    /// So many modifications have no stated mass, those with only a measured one among them, each copy counted, and each position that a declaration reaches.
    Missing(usize),
}

/// How many blocks of an area are of which sort: each is counted once.
#[derive(Clone, Copy, Debug, Default, PartialEq, Eq, Hash)]
pub struct Survey {
    /// Sound and free.
    pub free: usize,
    /// Sound, and the first of an entry.
    pub first: usize,
    /// Sound, and a further one of an entry.
    pub further: usize,
    /// Sound, and of no such kind.
    pub other: usize,
    /// Not sound, whatever their kind.
    pub unsound: usize,
}

/// The version of the library: 10000 times its first number, 100 times its second, and its third.
pub fn version() -> u32 {
    // SAFETY: it takes nothing.
    unsafe { hwemiduk_version() }
}

/// All limits and sizes.
pub fn limits() -> Limits {
    let mut limits = Limits::default();
    // SAFETY: the library writes one record of this form.
    unsafe { hwemiduk_limits(&mut limits) };
    limits
}

/// Whether a line is accepted: if not, the first that is due of 1 to 10, 21, 11, 12 and 19, tried in this order.
pub fn verdict(line: &[u8]) -> Result<(), Refusal> {
    let (number, place) = outs::verdict(line);
    answer(number, place, ())
}

/// Reads a line into areas of at least [`BYTES`] and [`NUMBERS`]: 13, else what [`verdict`] says.
pub fn read(line: &[u8], bytes: &mut [u8], numbers: &mut [i64]) -> Result<(), Refusal> {
    let (number, place) = outs::read(line, bytes, numbers);
    answer(number, place, ())
}

/// Writes the canonical line into an output of any length, and answers how many bytes it has; or 15, with the length needed as its place.
pub fn write(bytes: &[u8], numbers: &[i64], out: &mut [u8]) -> Result<usize, Refusal> {
    let (number, length) = outs::write(bytes, numbers, out);
    answer(number, if number == 15 { length } else { 0 }, length)
}

/// Writes what the register prints of a line with this number, ended by byte 10, into an output of any length, and answers how many bytes it has; or 15, with the length
/// needed as its place. [`ENTRY`] bytes are enough.
pub fn entry(number: u64, line: &[u8], out: &mut [u8]) -> Result<usize, Refusal> {
    let (answered, length) = outs::entry(number, line, out);
    answer(answered, length, length)
}

/// How many residues.
pub fn residues(bytes: &[u8], numbers: &[i64]) -> Result<usize, Refusal> {
    let (number, count) = outs::residues(bytes, numbers);
    answer(number, 0, count)
}

/// How many brackets.
pub fn brackets(bytes: &[u8], numbers: &[i64]) -> Result<usize, Refusal> {
    let (number, count) = outs::brackets(bytes, numbers);
    answer(number, 0, count)
}

/// How many floating copies: each is a floater of its own, in order of their brackets.
pub fn floaters(bytes: &[u8], numbers: &[i64]) -> Result<usize, Refusal> {
    let (number, count) = outs::floaters(bytes, numbers);
    answer(number, 0, count)
}

/// Writes for each floater, in order, the index of its bracket and which copy of it it is, counted from 1, into two slices of at least [`COPIES`], and answers how many
/// there are.
pub fn floater_brackets(bytes: &[u8], numbers: &[i64], brackets: &mut [u8], copies: &mut [u8]) -> Result<usize, Refusal> {
    let (number, count) = outs::floater_brackets(bytes, numbers, brackets, copies);
    answer(number, 0, count)
}

/// The sum of the stated masses of the modifications in millionths, without the residues, a declared one once for each position that it reaches; or 16, with how many have
/// none, or only a measured one (behind `Obs`), as its place, counted so too.
pub fn total(bytes: &[u8], numbers: &[i64]) -> Result<i64, Refusal> {
    let (number, millionths, place) = outs::total(bytes, numbers);
    answer(number, place, millionths)
}

/// The mass that a bracket has by itself, brackets counted from 0: stated, only measured, or none; or 17 where there is no such bracket.
///
/// ```
/// use hwemiduk::lent::{self, Mass, BYTES, NUMBERS};
///
/// let (mut bytes, mut numbers) = ([0; BYTES], [0; NUMBERS]);
/// lent::read(b"A[Obs:+2|+1]C[Obs:+2]D[x]", &mut bytes, &mut numbers)?;
/// assert_eq!(lent::bracket_mass(&bytes, &numbers, 0), Ok(Mass::Stated(1_000_000)));
/// assert_eq!(lent::bracket_mass(&bytes, &numbers, 1), Ok(Mass::Measured(2_000_000)));
/// assert_eq!(lent::bracket_mass(&bytes, &numbers, 2), Ok(Mass::None));
/// assert_eq!(lent::bracket_mass(&bytes, &numbers, 3).unwrap_err().number(), 17);
/// # Ok::<(), hwemiduk::Refusal>(())
/// ```
pub fn bracket_mass(bytes: &[u8], numbers: &[i64], bracket: usize) -> Result<Mass, Refusal> {
    let (number, millionths, sort) = outs::bracket_mass(bytes, numbers, bracket);
    let mass = match sort {
        STATED => Mass::Stated(millionths),
        MEASURED => Mass::Measured(millionths),
        _ => Mass::None,
    };
    answer(number, 0, mass)
}

/// The total for display, of stated masses only: it is never refused with 16.
pub fn shown(bytes: &[u8], numbers: &[i64]) -> Result<Shown, Refusal> {
    let (number, daltons, missing) = outs::shown(bytes, numbers);
    answer(number, 0, if missing == 0 { Shown::Daltons(daltons) } else { Shown::Missing(missing) })
}

/// Whether a placement is an allowed one, else 18: the first [`COPIES`] entries of the slice count. Each floater stands at a position that it may take, no two at one, and copies of
/// one bracket stand in ascending order.
pub fn allowed(bytes: &[u8], numbers: &[i64], placement: &[Position]) -> Result<(), Refusal> {
    answer(outs::allowed(bytes, numbers, placement), 0, ())
}

/// Writes the stated mass at each position under a placement, in millionths, into the first [`POSITIONS`] entries; or 16, with how many have none, or only a measured one
/// (behind `Obs`), as its place, or 18.
pub fn ledger(bytes: &[u8], numbers: &[i64], placement: &[Position], entries: &mut [i64]) -> Result<(), Refusal> {
    let (number, place) = outs::ledger(bytes, numbers, placement, entries);
    answer(number, place, ())
}

/// Moves a listing on to the next placement, in which copies of one bracket stand in ascending order; or 17 at the last one, or if there is none at all ([`why_none`] says why), or
/// 18.
pub fn next(bytes: &[u8], numbers: &[i64], listing: &mut Listing) -> Result<(), Refusal> {
    answer(outs::next(bytes, numbers, listing), 0, ())
}

/// Why there is no placement: writes the numbers of the floaters, counted from 1 and ascending, of the smallest set of floaters whose permitted positions, taken together, are
/// fewer than the set, among sets of one size of the first in order of their numbers, into a slice of at least [`COPIES`], and answers how many there are. That is 0 exactly where
/// there is a placement.
///
/// ```
/// use hwemiduk::lent::{self, BYTES, COPIES, NUMBERS};
///
/// let (mut bytes, mut numbers, mut floaters) = ([0; BYTES], [0; NUMBERS], [0; COPIES]);
/// lent::read(b"[+1]^3?A", &mut bytes, &mut numbers)?;
/// let count = lent::why_none(&bytes, &numbers, &mut floaters)?;
/// assert_eq!(floaters[..count], [1, 2]);
/// lent::read(b"[+1]?AC", &mut bytes, &mut numbers)?;
/// assert_eq!(lent::why_none(&bytes, &numbers, &mut floaters), Ok(0));
/// # Ok::<(), hwemiduk::Refusal>(())
/// ```
pub fn why_none(bytes: &[u8], numbers: &[i64], floaters: &mut [u8]) -> Result<usize, Refusal> {
    let (number, count) = outs::why_none(bytes, numbers, floaters);
    answer(number, 0, count)
}

/// Writes the permitted positions as rows, ascending, into at least [`ROWS`] of them, and answers how many there are.
pub fn rows(bytes: &[u8], numbers: &[i64], rows: &mut [Site]) -> Result<usize, Refusal> {
    let (number, count) = outs::rows(bytes, numbers, rows);
    answer(number, 0, count)
}

/// The index and the position of a floater's first row among the first n of at least [`ROWS`]; or 17 where there is none.
pub fn first_row(rows: &[Site], n: usize, floater: u8) -> Result<(usize, Position), Refusal> {
    let (number, index, position) = outs::first_row(rows, n, floater);
    answer(number, 0, (index, position))
}

/// Cuts a text, as it stands behind `Glycan:`, into listed names and counts: writes two bytes for each piece, in the order of the text, into an output of any length, and
/// answers how many bytes these are. The first byte of a piece is the number of the name in [`SUGARS`], the second its count, 1 to 99. Or 15, with the length needed as its
/// place; or 19 where the text cannot be cut so. There is never more than one way to cut a text; an empty one has no pieces.
///
/// ```
/// use hwemiduk::lent::{composition, PIECES, SUGARS};
///
/// let mut pieces = [0; 2 * PIECES];
/// assert_eq!(composition(b"hexnac1HEX2", &mut pieces), Ok(4));
/// assert_eq!((SUGARS[usize::from(pieces[0])], pieces[1]), ("HexNAc", 1));
/// assert_eq!((SUGARS[usize::from(pieces[2])], pieces[3]), ("Hex", 2));
/// assert_eq!(composition(b"hexnac1HEX2", &mut []).unwrap_err().place(), 4);
/// assert_eq!(composition(b"Man5", &mut pieces).unwrap_err().number(), 19);
/// ```
pub fn composition(text: &[u8], pieces: &mut [u8]) -> Result<usize, Refusal> {
    let (number, length) = outs::composition(text, pieces);
    answer(number, if number == 15 { length } else { 0 }, length)
}

/// Writes the positions that a bracket reaches as a declaration, brackets counted from 0, ascending and each once, into at least [`POSITIONS`] entries, and answers how many
/// there are. A bracket that is no declaration reaches none. Or 17 where there is no such bracket.
///
/// ```
/// use hwemiduk::lent::{self, BYTES, NUMBERS, POSITIONS};
///
/// let (mut bytes, mut numbers, mut positions) = ([0; BYTES], [0; NUMBERS], [0; POSITIONS]);
/// lent::read(b"<[+1]@K,N-term>AKKA", &mut bytes, &mut numbers)?;
/// let count = lent::reached(&bytes, &numbers, 0, &mut positions)?;
/// assert_eq!(positions[..count], [0, 2, 3]);
/// assert_eq!(lent::reached(&bytes, &numbers, 1, &mut positions).unwrap_err().number(), 17);
/// # Ok::<(), hwemiduk::Refusal>(())
/// ```
pub fn reached(bytes: &[u8], numbers: &[i64], bracket: usize, positions: &mut [Position]) -> Result<usize, Refusal> {
    let (number, count) = outs::reached(bytes, numbers, bracket, positions);
    answer(number, 0, count)
}

/// Makes an empty area of 1 to [`BLOCKS`] blocks of [`BLOCK`] bytes, whatever it held; or 26.
///
/// ```
/// use hwemiduk::lent::{self, BLOCK, COPIES, LINE};
///
/// let (mut area, mut placement, mut out) = ([0; 8 * BLOCK], [0; COPIES], [0; LINE]);
/// lent::blocks_empty(&mut area)?;
/// lent::blocks_add(&mut area, 17, &[1, 2, 0, 0, 0, 0, 0, 0], b"[+01]^2?ac")?;
/// let length = lent::blocks_fetch(&area, 17, &mut placement, &mut out)?;
/// assert_eq!((&out[..length], placement), (&b"[+1]^2?AC"[..], [1, 2, 0, 0, 0, 0, 0, 0]));
/// area[100] ^= 1;
/// assert_eq!(lent::blocks_fetch(&area, 17, &mut placement, &mut out).unwrap_err().number(), 25);
/// # Ok::<(), hwemiduk::Refusal>(())
/// ```
pub fn blocks_empty(area: &mut [u8]) -> Result<(), Refusal> {
    answer(outs::blocks_empty(area), 0, ())
}

/// Adds a line under a number, with an allowed placement of which the first [`COPIES`] entries count: 13, what [`verdict`] says, 18, 26, 25, 23 where the number has an entry, 24.
/// The canonical line is kept, in the free blocks of lowest index.
pub fn blocks_add(area: &mut [u8], number: u32, placement: &[Position], line: &[u8]) -> Result<(), Refusal> {
    let (answered, place) = outs::blocks_add(area, number, placement, line);
    answer(answered, place, ())
}

/// Fetches an entry: writes its placement into the first [`COPIES`] entries and its canonical line into an output of any length, and answers how many bytes it has; or 13, 26, 25,
/// 22; or 15, with the length needed as its place. [`LINE`] bytes are enough.
pub fn blocks_fetch(area: &[u8], number: u32, placement: &mut [Position], out: &mut [u8]) -> Result<usize, Refusal> {
    let (answered, length) = outs::blocks_fetch(area, number, placement, out);
    answer(answered, if answered == 15 { length } else { 0 }, length)
}

/// Removes an entry, whose blocks are then free; or 26, 25, 22.
pub fn blocks_remove(area: &mut [u8], number: u32) -> Result<(), Refusal> {
    answer(outs::blocks_remove(area, number), 0, ())
}

/// The first sound first block from one on, blocks counted from 0, and the number in it; or 26, or 17 where there is none.
pub fn blocks_entry(area: &[u8], from: usize) -> Result<(usize, u32), Refusal> {
    let (answered, block, number) = outs::blocks_entry(area, from);
    answer(answered, 0, (block, number))
}

/// How many blocks are of which sort; or 26.
pub fn blocks_survey(area: &[u8]) -> Result<Survey, Refusal> {
    let (answered, survey) = outs::blocks_survey(area);
    answer(answered, 0, survey)
}

fn answer<T>(number: u8, place: usize, value: T) -> Result<T, Refusal> {
    match number {
        0 => Ok(value),
        number => Err(Refusal::new(number, place)),
    }
}

/// The same calls with all single values that each of them is lent; the first is the number, 0 or that of a refusal. Before the call each of them holds what no call
/// answers, so that it is seen which are set: a refusal sets its place alone, and a success everything else.
pub mod outs {
    use super::*;

    // SAFETY, of every call here: a slice passes as its pointer, which is never null, and the number of its elements; what is written is borrowed for this call alone;
    // the library reads and writes nothing else, and answers every content.

    /// The number and the place.
    pub fn verdict(line: &[u8]) -> (u8, usize) {
        let mut place = usize::MAX;
        let number = unsafe { hwemiduk_verdict(line.as_ptr(), line.len(), &mut place) };
        (number, place)
    }

    /// The number and the place.
    pub fn read(line: &[u8], bytes: &mut [u8], numbers: &mut [i64]) -> (u8, usize) {
        let mut place = usize::MAX;
        let number =
            unsafe { hwemiduk_read(line.as_ptr(), line.len(), bytes.as_mut_ptr(), bytes.len(), numbers.as_mut_ptr(), numbers.len(), &mut place) };
        (number, place)
    }

    /// The number and the length.
    pub fn write(bytes: &[u8], numbers: &[i64], out: &mut [u8]) -> (u8, usize) {
        let mut length = usize::MAX;
        let number =
            unsafe { hwemiduk_write(bytes.as_ptr(), bytes.len(), numbers.as_ptr(), numbers.len(), out.as_mut_ptr(), out.len(), &mut length) };
        (number, length)
    }

    /// The number of the answer and the length.
    pub fn entry(number: u64, line: &[u8], out: &mut [u8]) -> (u8, usize) {
        let mut length = usize::MAX;
        let answered = unsafe { hwemiduk_entry(number, line.as_ptr(), line.len(), out.as_mut_ptr(), out.len(), &mut length) };
        (answered, length)
    }

    /// The number and the count.
    pub fn residues(bytes: &[u8], numbers: &[i64]) -> (u8, usize) {
        let mut count = usize::MAX;
        let number = unsafe { hwemiduk_residues(bytes.as_ptr(), bytes.len(), numbers.as_ptr(), numbers.len(), &mut count) };
        (number, count)
    }

    /// The number and the count.
    pub fn brackets(bytes: &[u8], numbers: &[i64]) -> (u8, usize) {
        let mut count = usize::MAX;
        let number = unsafe { hwemiduk_brackets(bytes.as_ptr(), bytes.len(), numbers.as_ptr(), numbers.len(), &mut count) };
        (number, count)
    }

    /// The number and the count.
    pub fn floaters(bytes: &[u8], numbers: &[i64]) -> (u8, usize) {
        let mut count = usize::MAX;
        let number = unsafe { hwemiduk_floaters(bytes.as_ptr(), bytes.len(), numbers.as_ptr(), numbers.len(), &mut count) };
        (number, count)
    }

    /// The number and the count.
    pub fn floater_brackets(bytes: &[u8], numbers: &[i64], brackets: &mut [u8], copies: &mut [u8]) -> (u8, usize) {
        let mut count = usize::MAX;
        let (brackets, brackets_len, copies, copies_len) = (brackets.as_mut_ptr(), brackets.len(), copies.as_mut_ptr(), copies.len());
        let number = unsafe {
            hwemiduk_floater_brackets(bytes.as_ptr(), bytes.len(), numbers.as_ptr(), numbers.len(), brackets, brackets_len, copies, copies_len, &mut count)
        };
        (number, count)
    }

    /// The number and the length.
    pub fn composition(text: &[u8], pieces: &mut [u8]) -> (u8, usize) {
        let mut length = usize::MAX;
        let number = unsafe { hwemiduk_composition(text.as_ptr(), text.len(), pieces.as_mut_ptr(), pieces.len(), &mut length) };
        (number, length)
    }

    /// The number and the count.
    pub fn reached(bytes: &[u8], numbers: &[i64], bracket: usize, positions: &mut [Position]) -> (u8, usize) {
        let mut count = usize::MAX;
        let (positions, positions_len) = (positions.as_mut_ptr(), positions.len());
        let number =
            unsafe { hwemiduk_reached(bytes.as_ptr(), bytes.len(), numbers.as_ptr(), numbers.len(), bracket, positions, positions_len, &mut count) };
        (number, count)
    }

    /// The number, the total in millionths, and the place.
    pub fn total(bytes: &[u8], numbers: &[i64]) -> (u8, i64, usize) {
        let (mut millionths, mut place) = (i64::MIN, usize::MAX);
        let number = unsafe { hwemiduk_total(bytes.as_ptr(), bytes.len(), numbers.as_ptr(), numbers.len(), &mut millionths, &mut place) };
        (number, millionths, place)
    }

    /// The number, the mass in millionths, 0 where there is none, and its sort: 0 none, 1 stated, 2 only measured.
    pub fn bracket_mass(bytes: &[u8], numbers: &[i64], bracket: usize) -> (u8, i64, u8) {
        let (mut millionths, mut sort) = (i64::MIN, u8::MAX);
        let number =
            unsafe { hwemiduk_bracket_mass(bytes.as_ptr(), bytes.len(), numbers.as_ptr(), numbers.len(), bracket, &mut millionths, &mut sort) };
        (number, millionths, sort)
    }

    /// The number, the mass in Daltons, and how many have none that is stated.
    pub fn shown(bytes: &[u8], numbers: &[i64]) -> (u8, f64, usize) {
        let (mut daltons, mut missing) = (f64::NAN, usize::MAX);
        let number = unsafe { hwemiduk_shown(bytes.as_ptr(), bytes.len(), numbers.as_ptr(), numbers.len(), &mut daltons, &mut missing) };
        (number, daltons, missing)
    }

    /// The number.
    pub fn allowed(bytes: &[u8], numbers: &[i64], placement: &[Position]) -> u8 {
        unsafe { hwemiduk_allowed(bytes.as_ptr(), bytes.len(), numbers.as_ptr(), numbers.len(), placement.as_ptr(), placement.len()) }
    }

    /// The number and the place.
    pub fn ledger(bytes: &[u8], numbers: &[i64], placement: &[Position], entries: &mut [i64]) -> (u8, usize) {
        let mut place = usize::MAX;
        let (placement, placement_len, entries, entries_len) = (placement.as_ptr(), placement.len(), entries.as_mut_ptr(), entries.len());
        let number = unsafe {
            hwemiduk_ledger(bytes.as_ptr(), bytes.len(), numbers.as_ptr(), numbers.len(), placement, placement_len, entries, entries_len, &mut place)
        };
        (number, place)
    }

    /// The number.
    pub fn next(bytes: &[u8], numbers: &[i64], listing: &mut Listing) -> u8 {
        unsafe { hwemiduk_next(bytes.as_ptr(), bytes.len(), numbers.as_ptr(), numbers.len(), listing) }
    }

    /// The number and the count.
    pub fn why_none(bytes: &[u8], numbers: &[i64], floaters: &mut [u8]) -> (u8, usize) {
        let mut count = usize::MAX;
        let (floaters, floaters_len) = (floaters.as_mut_ptr(), floaters.len());
        let number = unsafe { hwemiduk_why_none(bytes.as_ptr(), bytes.len(), numbers.as_ptr(), numbers.len(), floaters, floaters_len, &mut count) };
        (number, count)
    }

    /// The number and the count.
    pub fn rows(bytes: &[u8], numbers: &[i64], rows: &mut [Site]) -> (u8, usize) {
        let mut count = usize::MAX;
        let number =
            unsafe { hwemiduk_rows(bytes.as_ptr(), bytes.len(), numbers.as_ptr(), numbers.len(), rows.as_mut_ptr(), rows.len(), &mut count) };
        (number, count)
    }

    /// The number, the index, and the position.
    pub fn first_row(rows: &[Site], n: usize, floater: u8) -> (u8, usize, Position) {
        let (mut index, mut position) = (usize::MAX, Position::MAX);
        let number = unsafe { hwemiduk_first_row(rows.as_ptr(), rows.len(), n, floater, &mut index, &mut position) };
        (number, index, position)
    }

    /// The number.
    pub fn blocks_empty(area: &mut [u8]) -> u8 {
        unsafe { hwemiduk_blocks_empty(area.as_mut_ptr(), area.len()) }
    }

    /// The number of the answer and the place.
    pub fn blocks_add(area: &mut [u8], number: u32, placement: &[Position], line: &[u8]) -> (u8, usize) {
        let mut place = usize::MAX;
        let (placement, placement_len) = (placement.as_ptr(), placement.len());
        let answered = unsafe {
            hwemiduk_blocks_add(area.as_mut_ptr(), area.len(), number, placement, placement_len, line.as_ptr(), line.len(), &mut place)
        };
        (answered, place)
    }

    /// The number of the answer and the length.
    pub fn blocks_fetch(area: &[u8], number: u32, placement: &mut [Position], out: &mut [u8]) -> (u8, usize) {
        let mut length = usize::MAX;
        let (placement, placement_len) = (placement.as_mut_ptr(), placement.len());
        let answered = unsafe {
            hwemiduk_blocks_fetch(area.as_ptr(), area.len(), number, placement, placement_len, out.as_mut_ptr(), out.len(), &mut length)
        };
        (answered, length)
    }

    /// The number of the answer.
    pub fn blocks_remove(area: &mut [u8], number: u32) -> u8 {
        unsafe { hwemiduk_blocks_remove(area.as_mut_ptr(), area.len(), number) }
    }

    /// The number of the answer, the block, and the entry's number, of which every value may be answered: [`UNTOLD`] before the call.
    pub fn blocks_entry(area: &[u8], from: usize) -> (u8, usize, u32) {
        let (mut block, mut number) = (usize::MAX, UNTOLD);
        let answered = unsafe { hwemiduk_blocks_entry(area.as_ptr(), area.len(), from, &mut block, &mut number) };
        (answered, block, number)
    }

    /// What a number of an entry is before [`blocks_entry`] tells it.
    pub const UNTOLD: u32 = 0xa5c3_965a;

    /// The number of the answer, and the counts.
    pub fn blocks_survey(area: &[u8]) -> (u8, Survey) {
        let junk = usize::MAX;
        let mut told = Survey { free: junk, first: junk, further: junk, other: junk, unsound: junk };
        let Survey { free, first, further, other, unsound } = &mut told;
        let answered = unsafe { hwemiduk_blocks_survey(area.as_ptr(), area.len(), free, first, further, other, unsound) };
        (answered, told)
    }
}

// The calls as include/hwemiduk.h declares them.
#[rustfmt::skip]
extern "C" {
    fn hwemiduk_version() -> u32;
    fn hwemiduk_limits(limits: *mut Limits);
    fn hwemiduk_verdict(line: *const u8, line_len: usize, place: *mut usize) -> u8;
    fn hwemiduk_read(line: *const u8, line_len: usize, bytes: *mut u8, bytes_len: usize, numbers: *mut i64, numbers_len: usize, place: *mut usize) -> u8;
    fn hwemiduk_write(bytes: *const u8, bytes_len: usize, numbers: *const i64, numbers_len: usize, out: *mut u8, out_len: usize, length: *mut usize) -> u8;
    fn hwemiduk_entry(number: u64, line: *const u8, line_len: usize, out: *mut u8, out_len: usize, length: *mut usize) -> u8;
    fn hwemiduk_residues(bytes: *const u8, bytes_len: usize, numbers: *const i64, numbers_len: usize, count: *mut usize) -> u8;
    fn hwemiduk_brackets(bytes: *const u8, bytes_len: usize, numbers: *const i64, numbers_len: usize, count: *mut usize) -> u8;
    fn hwemiduk_floaters(bytes: *const u8, bytes_len: usize, numbers: *const i64, numbers_len: usize, count: *mut usize) -> u8;
    fn hwemiduk_floater_brackets(bytes: *const u8, bytes_len: usize, numbers: *const i64, numbers_len: usize, brackets: *mut u8, brackets_len: usize,
        copies: *mut u8, copies_len: usize, count: *mut usize) -> u8;
    fn hwemiduk_total(bytes: *const u8, bytes_len: usize, numbers: *const i64, numbers_len: usize, millionths: *mut i64, place: *mut usize) -> u8;
    fn hwemiduk_bracket_mass(bytes: *const u8, bytes_len: usize, numbers: *const i64, numbers_len: usize, bracket: usize, millionths: *mut i64,
        sort: *mut u8) -> u8;
    fn hwemiduk_shown(bytes: *const u8, bytes_len: usize, numbers: *const i64, numbers_len: usize, daltons: *mut f64, missing: *mut usize) -> u8;
    fn hwemiduk_allowed(bytes: *const u8, bytes_len: usize, numbers: *const i64, numbers_len: usize, placement: *const Position, placement_len: usize) -> u8;
    fn hwemiduk_next(bytes: *const u8, bytes_len: usize, numbers: *const i64, numbers_len: usize, listing: *mut Listing) -> u8;
    fn hwemiduk_why_none(bytes: *const u8, bytes_len: usize, numbers: *const i64, numbers_len: usize, floaters: *mut u8, floaters_len: usize,
        count: *mut usize) -> u8;
    fn hwemiduk_ledger(bytes: *const u8, bytes_len: usize, numbers: *const i64, numbers_len: usize, placement: *const Position, placement_len: usize,
        entries: *mut i64, entries_len: usize, place: *mut usize) -> u8;
    fn hwemiduk_rows(bytes: *const u8, bytes_len: usize, numbers: *const i64, numbers_len: usize, rows: *mut Site, rows_len: usize, count: *mut usize) -> u8;
    fn hwemiduk_composition(text: *const u8, text_len: usize, pieces: *mut u8, pieces_len: usize, length: *mut usize) -> u8;
    fn hwemiduk_reached(bytes: *const u8, bytes_len: usize, numbers: *const i64, numbers_len: usize, bracket: usize, positions: *mut Position,
        positions_len: usize, count: *mut usize) -> u8;
    fn hwemiduk_first_row(rows: *const Site, rows_len: usize, n: usize, floater: u8, index: *mut usize, position: *mut Position) -> u8;
    fn hwemiduk_blocks_empty(area: *mut u8, area_len: usize) -> u8;
    fn hwemiduk_blocks_add(area: *mut u8, area_len: usize, number: u32, placement: *const Position, placement_len: usize, line: *const u8, line_len: usize,
        place: *mut usize) -> u8;
    fn hwemiduk_blocks_fetch(area: *const u8, area_len: usize, number: u32, placement: *mut Position, placement_len: usize, out: *mut u8, out_len: usize,
        length: *mut usize) -> u8;
    fn hwemiduk_blocks_remove(area: *mut u8, area_len: usize, number: u32) -> u8;
    fn hwemiduk_blocks_entry(area: *const u8, area_len: usize, from: usize, block: *mut usize, number: *mut u32) -> u8;
    fn hwemiduk_blocks_survey(area: *const u8, area_len: usize, free: *mut usize, first: *mut usize, further: *mut usize, other: *mut usize,
        unsound: *mut usize) -> u8;
}
