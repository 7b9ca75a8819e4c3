//! The refusals, and their words.

use core::fmt::{self, Display, Formatter};

/// Each refusal in words: that of number n is at n - 1. No refusal has the number 20: its words are empty.
pub const WORDS: [&str; 26] = [
    "the line is empty",
    "the line is longer than 4,096 bytes",
    "a byte outside 32 to 126",
    "not of the order of a line",
    "pairs nested more than eight deep",
    "too many residues (254), brackets (64), parts (4), declarations (8) or places (16), a text over 128 bytes or a label over 16",
    "a mass or score of a million or more or with more than 6 decimals, a count outside 1 to 99",
    "something that is not taken here: Formula, Position, Limit, CoMKP, CoMUP, labels XL.. and BRANCH",
    "prefix U or M with a name of digits only",
    "only INFO in a bracket of unknown position or a labile one",
    "labels that do not fit: a second one, one defined again, a reference without definition, a count on a labelled bracket, one in an unknown run that nothing refers to",
    "more than eight floating copies",
    "a lent area is too short",
    "tables that no accepted line reads to",
    "the output is shorter than what is to be written",
    "a modification has no stated mass",
    "no placement, no further one, no such row or bracket",
    "a placement that is not allowed",
    "a composition that cannot be cut into listed names and counts",
    "",
    "only INFO in a declaration",
    "no such entry",
    "the entry is present already",
    "fewer free sound blocks than are needed",
    "damaged: the entry's blocks are not as they should be, or none begins it and some block is unsound",
    "the area is not 1 to 128 whole blocks",
];

/// Refusals 1 to 12, 19 and 21 are of a line, and their place is one in the line.
const fn is_of_a_line(number: u8) -> bool {
    number <= 12 || number == 19 || number == 21
}

/// What the library refuses: a number, which says why, and a place.
#[derive(Clone, Copy, Debug, PartialEq, Eq, Hash)]
pub struct Refusal {
    number: u8,
    place: usize,
}

impl Refusal {
    pub(crate) const fn new(number: u8, place: usize) -> Self {
        Self { number, place }
    }

    /// The number, 1 to 19 or 21 to 26: [`words`](Self::words) says what it means.
    pub const fn number(&self) -> u8 {
        self.number
    }

    /// Where in the line, for 1 to 12, 19 and 21: bytes are counted from 0, and where the line should go on and ends, it is the line's length. For 15 it is the length that
    /// is needed, for 16 how many modifications have no stated mass; else 0.
    pub const fn place(&self) -> usize {
        self.place
    }

    /// The place counted from 1, as editors count; none where the refusal is not of a line.
    pub const fn column(&self) -> Option<usize> {
        if is_of_a_line(self.number) {
            Some(self.place + 1)
        } else {
            None
        }
    }

    /// What the number means.
    pub fn words(&self) -> &'static str {
        usize::from(self.number).checked_sub(1).and_then(|index| WORDS.get(index)).copied().unwrap_or("")
    }

    /// The refusal with the line that it is of, and a mark under the place. A byte that cannot be printed is shown as `?`.
    pub const fn show<'a>(&self, line: &'a [u8]) -> Show<'a> {
        Show { refusal: *self, line }
    }
}

impl Display for Refusal {
    fn fmt(&self, f: &mut Formatter<'_>) -> fmt::Result {
        match (self.number, self.column()) {
            (16, _) => write!(f, "16: {}", Missing { count: self.place }),
            (number, Some(_)) => write!(f, "{number} at {}: {}", self.place, self.words()),
            (number, None) => write!(f, "{number}: {}", self.words()),
        }
    }
}

#[cfg(feature = "std")]
impl std::error::Error for Refusal {}

/// A refusal with its line, to be displayed: [`Refusal::show`].
#[derive(Clone, Copy, Debug)]
pub struct Show<'a> {
    refusal: Refusal,
    line: &'a [u8],
}

impl Display for Show<'_> {
    fn fmt(&self, f: &mut Formatter<'_>) -> fmt::Result {
        write!(f, "{}", self.refusal)?;
        if self.refusal.column().is_none() {
            return Ok(());
        }
        f.write_str("\n")?;
        for &byte in self.line {
            let printed = if (32..=126).contains(&byte) { byte } else { b'?' };
            write!(f, "{}", char::from(printed))?;
        }
        write!(f, "\n{:>1$}", "^", self.refusal.place + 1)
    }
}

/// How many modifications have no stated mass, those with only a measured one (behind `Obs`) among them, each copy counted, and each position that a declaration reaches: why
/// there is no total.
#[derive(Clone, Copy, Debug, PartialEq, Eq, Hash)]
pub struct Missing {
    /// How many.
    pub count: usize,
}

impl Display for Missing {
    fn fmt(&self, f: &mut Formatter<'_>) -> fmt::Result {
        match self.count {
            1 => f.write_str("1 modification has no stated mass"),
            count => write!(f, "{count} modifications have no stated mass"),
        }
    }
}

#[cfg(feature = "std")]
impl std::error::Error for Missing {}
