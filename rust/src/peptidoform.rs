//! Peptidoforms.

use std::fmt::{self, Debug, Display, Formatter};
use std::iter::FusedIterator;
use std::ops::Deref;
use std::str::FromStr;

use crate::lent::{self, Listing, Position, Shown, Site, BYTES, COPIES, ENTRY, LINE, NUMBERS, POSITIONS, ROWS};
use crate::tables::{held, Bracket, Declaration, Floater, Section, Tables};
use crate::{Missing, Refusal};

/// An accepted line. It is made by reading one, and holds nothing but the canonical line.
///
/// Two are equal where their canonical lines are, which is where the lines read to the same tables; they are ordered and hashed by that line. Whatever else one tells
/// is asked of the library when it is asked for.
///
/// Totals, shifts and ledgers are of the modifications only: the residues' own masses are not in them, and no mass that is only measured.
#[derive(Clone, PartialEq, Eq, Hash, PartialOrd, Ord)]
pub struct Peptidoform {
    line: Box<str>,
}

impl Peptidoform {
    /// Reads a line. `str::parse` and `TryFrom<&[u8]>` do the same.
    ///
    /// ```
    /// # use hwemiduk::Peptidoform;
    /// assert_eq!(Peptidoform::read(b"a[+01.50]")?, "A[+1.50]".parse()?);
    /// assert_eq!(Peptidoform::read(b"A[x]y]").unwrap_err().to_string(), "4 at 5: not of the order of a line");
    /// # Ok::<(), hwemiduk::Refusal>(())
    /// ```
    pub fn read(line: &[u8]) -> Result<Self, Refusal> {
        let tables = tables_of(line)?;
        let mut out = [0; LINE];
        let length = lent::write(&tables.bytes, &tables.numbers, &mut out)?;
        Ok(Self { line: spelled(&out[..length]).into_boxed_str() })
    }

    /// The canonical line: one and the same for all lines that read to the same tables.
    pub fn as_str(&self) -> &str {
        &self.line
    }

    fn tables(&self) -> Tables {
        held(tables_of(self.line.as_bytes()))
    }

    /// The residues' letters, in upper case.
    pub fn residues(&self) -> String {
        self.tables().residues()
    }

    /// For each residue, what it stands in.
    pub fn sections(&self) -> Vec<Section> {
        self.tables().sections()
    }

    /// The brackets, in order of appearance.
    pub fn brackets(&self) -> Vec<Bracket> {
        self.tables().brackets()
    }

    /// The modifications that are declared once for the line, in order, each with its bracket, its places and the positions that it reaches.
    ///
    /// ```
    /// # use hwemiduk::{Peptidoform, Place};
    /// let p: Peptidoform = "<[TMT6plex]@k,n-TERM>AKKA".parse()?;
    /// let declared = p.declared();
    /// assert_eq!(declared[0].to_string(), "<[TMT6plex]@K,N-term>");
    /// assert_eq!(declared[0].places, [Place::Letter('K'), Place::NTerm]);
    /// assert_eq!(declared[0].positions, [0, 2, 3]);
    /// # Ok::<(), hwemiduk::Refusal>(())
    /// ```
    pub fn declared(&self) -> Vec<Declaration> {
        self.tables().declared()
    }

    /// The floating copies, in the order in which a placement gives their positions, each with its bracket and with where it may stand.
    ///
    /// ```
    /// # use hwemiduk::Peptidoform;
    /// let p: Peptidoform = "[+1]^2?AM[+15.995]C[Oxidation#g]K[#g]".parse()?;
    /// let floaters = p.floaters();
    /// assert_eq!(floaters[1].bracket.to_string(), "[+1]");
    /// assert_eq!(floaters[1].copy, 2);
    /// assert_eq!(floaters[2].bracket.to_string(), "[Oxidation#g]");
    /// assert_eq!(floaters[2].positions, [3, 4]);
    /// # Ok::<(), hwemiduk::Refusal>(())
    /// ```
    pub fn floaters(&self) -> Vec<Floater> {
        let tables = self.tables();
        let (rows, brackets) = (rows_of(&tables), tables.brackets());
        let of = |number: usize| rows.iter().filter(move |row| usize::from(row.floater) == number).map(|row| row.position);
        let (mut indices, mut copies) = ([0; COPIES], [0; COPIES]);
        let count = held(lent::floater_brackets(&tables.bytes, &tables.numbers, &mut indices, &mut copies));
        let floating = indices.into_iter().map(usize::from).zip(copies).take(count).zip(1..);
        floating.map(|((index, copy), number)| Floater { index, bracket: brackets[index].clone(), copy, positions: of(number).collect() }).collect()
    }

    /// The permitted positions as rows of floater and position, ascending, floaters counted from 1.
    pub fn rows(&self) -> Vec<Site> {
        rows_of(&self.tables())
    }

    /// The sum of the stated masses of all modifications, in millionths, a declared one once for each position that it reaches; the residues' own masses are not in it. A mass
    /// behind `Obs` is measured, and left out: a modification that has no other is missing.
    ///
    /// ```
    /// # use hwemiduk::{Missing, Peptidoform};
    /// assert_eq!("AM[+15.995]C[-18.01]".parse::<Peptidoform>()?.total(), Ok(-2_015_000));
    /// assert_eq!("PEPTIDE".parse::<Peptidoform>()?.total(), Ok(0));
    /// assert_eq!("[Acetyl]-A".parse::<Peptidoform>()?.total(), Err(Missing { count: 1 }));
    /// assert_eq!("A[Obs:+2|+1]".parse::<Peptidoform>()?.total(), Ok(1_000_000));
    /// assert_eq!("A[Obs:+1]".parse::<Peptidoform>()?.total(), Err(Missing { count: 1 }));
    /// # Ok::<(), hwemiduk::Refusal>(())
    /// ```
    pub fn total(&self) -> Result<i64, Missing> {
        let tables = self.tables();
        match lent::total(&tables.bytes, &tables.numbers) {
            Err(refusal) if refusal.number() == 16 => Err(Missing { count: refusal.place() }),
            answer => Ok(held(answer)),
        }
    }

    /// What the modifications add to the peptide's mass, in Daltons; none where one has no stated mass. The residues' own masses are not in it, and no measured one is.
    pub fn shift(&self) -> Option<f64> {
        match self.shown() {
            Shown::Daltons(daltons) => Some(daltons),
            Shown::Missing(_) => None,
        }
    }

    /// How many modifications have no stated mass, those with only a measured one (behind `Obs`) among them, each copy counted, and each position that a declaration reaches.
    /// Which brackets have only a measured one, their masses tell:
    ///
    /// ```
    /// # use hwemiduk::Peptidoform;
    /// let p: Peptidoform = "[Obs:+1]^3?ACD[x]E[Obs:+2|+1]".parse()?;
    /// assert_eq!(p.missing(), 4);
    /// let measured: Vec<_> = p.brackets().into_iter().filter(|bracket| bracket.mass.measured().is_some()).collect();
    /// assert_eq!(measured.len(), 1);
    /// assert_eq!((measured[0].to_string(), measured[0].mass.measured()), ("[Obs:+1]".to_owned(), Some(1_000_000)));
    /// # Ok::<(), hwemiduk::Refusal>(())
    /// ```
    pub fn missing(&self) -> usize {
        match self.shown() {
            Shown::Daltons(_) => 0,
            Shown::Missing(count) => count,
        }
    }

    fn shown(&self) -> Shown {
        let tables = self.tables();
        held(lent::shown(&tables.bytes, &tables.numbers))
    }

    /// Every allowed placement once, in ascending order. With no floater there is one, which is empty. There may be very many, up to about 10^19: each is found when it
    /// is asked for.
    ///
    /// ```
    /// # use hwemiduk::Peptidoform;
    /// let p: Peptidoform = "M[+16#a]C[#a]".parse()?;
    /// for placement in p.placements() {
    ///     assert_eq!(p.ledger(&placement)?.iter().sum::<i64>(), 16_000_000);
    /// }
    /// # Ok::<(), hwemiduk::Refusal>(())
    /// ```
    ///
    /// Copies of one bracket are alike, and stand in ascending order. Brackets side by side are told apart, however equal.
    ///
    /// ```
    /// # use hwemiduk::Peptidoform;
    /// let placed = |p: Peptidoform| p.placements().map(|placement| placement.to_vec()).collect::<Vec<_>>();
    /// assert_eq!(placed("[+1]^2?AC".parse()?), [[1, 2]]);
    /// assert_eq!(placed("[+1][+1]?AC".parse()?), [[1, 2], [2, 1]]);
    /// # Ok::<(), hwemiduk::Refusal>(())
    /// ```
    pub fn placements(&self) -> Placements {
        let tables = Box::new(self.tables());
        let floaters = held(lent::floaters(&tables.bytes, &tables.numbers));
        Placements { tables, floaters, listing: Listing::FRESH, ended: false }
    }

    /// Why there is no placement: the numbers of the floaters, counted from 1 and ascending as in [`Self::rows`], of the smallest set of floaters whose permitted positions, taken
    /// together, are fewer than the set; among sets of one size of the first in order of their numbers. It is empty exactly where there is a placement. Without any one of them the
    /// others of the set can be placed.
    ///
    /// ```
    /// # use hwemiduk::Peptidoform;
    /// let p: Peptidoform = "[+1]^2?(AC)[+2][+3]D".parse()?;
    /// assert_eq!(p.placements().next(), None);
    /// assert_eq!(p.why_none(), [1, 2, 3, 4]);
    /// assert_eq!("[+1]^3?A".parse::<Peptidoform>()?.why_none(), [1, 2]);
    /// assert_eq!("[+1]?A[+2]".parse::<Peptidoform>()?.why_none(), [1]);
    /// assert_eq!("[+1]?AC".parse::<Peptidoform>()?.why_none(), []);
    /// # Ok::<(), hwemiduk::Refusal>(())
    /// ```
    pub fn why_none(&self) -> Vec<u8> {
        let tables = self.tables();
        let mut floaters = vec![0; COPIES];
        let count = held(lent::why_none(&tables.bytes, &tables.numbers, &mut floaters));
        floaters.truncate(count);
        floaters
    }

    /// Whether a placement, a position for each floater, is an allowed one: each floater where it may stand, no two at one position, and copies of one bracket in ascending
    /// order.
    pub fn allowed(&self, placement: &[Position]) -> bool {
        let tables = self.tables();
        match lent::allowed(&tables.bytes, &tables.numbers, &lend(&tables, placement)) {
            Err(refusal) if refusal.number() == 18 => false,
            answer => {
                held(answer);
                true
            }
        }
    }

    /// The stated mass of the modifications at each position under a placement, in millionths: the N-terminus, each residue, the C-terminus. The residues' own masses are not
    /// in it. Refused with 16 if a modification has no stated mass, with 18 if the placement, a position for each floater, is not an allowed one.
    ///
    /// ```
    /// # use hwemiduk::Peptidoform;
    /// assert_eq!("AM[+15.995]C[-18.01]".parse::<Peptidoform>()?.ledger(&[])?, [0, 0, 15_995_000, -18_010_000, 0]);
    /// # Ok::<(), hwemiduk::Refusal>(())
    /// ```
    pub fn ledger(&self, placement: &[Position]) -> Result<Vec<i64>, Refusal> {
        let tables = self.tables();
        let mut entries = vec![0; POSITIONS];
        lent::ledger(&tables.bytes, &tables.numbers, &lend(&tables, placement), &mut entries)?;
        entries.truncate(held(lent::residues(&tables.bytes, &tables.numbers)) + 2);
        Ok(entries)
    }

    /// A placement of this line as the library takes it.
    pub(crate) fn lent_placement(&self, placement: &[Position]) -> [Position; COPIES] {
        lend(&self.tables(), placement)
    }

    /// A placement of this line out of what the library hands out.
    pub(crate) fn placed(&self, at: [Position; COPIES]) -> Placement {
        let tables = self.tables();
        Placement { at, floaters: held(lent::floaters(&tables.bytes, &tables.numbers)) }
    }
}

/// What the register prints of a line with this number, without its end of line. A refused line has an entry too.
///
/// ```
/// assert_eq!(hwemiduk::entry(1, b"[+1]^2?ac"), "1 ok 2 1 2 +2000000 [+1]^2?AC");
/// assert_eq!(hwemiduk::entry(2, b"A[U:35]"), "2 no 9 2");
/// ```
pub fn entry(number: u64, line: &[u8]) -> String {
    let mut out = [0; ENTRY];
    match lent::entry(number, line, &mut out) {
        Ok(length) => spelled(&out[..length - 1]),
        Err(refusal) => unreachable!("every entry has room in {ENTRY} bytes: {refusal}"),
    }
}

/// What the library writes: bytes of 32 to 126.
fn spelled(written: &[u8]) -> String {
    written.iter().map(|&byte| char::from(byte)).collect()
}

fn tables_of(line: &[u8]) -> Result<Tables, Refusal> {
    let mut tables = Tables { bytes: [0; BYTES], numbers: [0; NUMBERS] };
    lent::read(line, &mut tables.bytes, &mut tables.numbers)?;
    Ok(tables)
}

fn rows_of(tables: &Tables) -> Vec<Site> {
    let mut rows = vec![Site { floater: 0, position: 0 }; ROWS];
    let count = held(lent::rows(&tables.bytes, &tables.numbers, &mut rows));
    rows.truncate(count);
    rows
}

/// A placement as the library takes it: unused entries are 0. One of another length than there are floaters becomes one that is never allowed, since no two floaters
/// share a position and unused entries are 0.
fn lend(tables: &Tables, placement: &[Position]) -> [Position; COPIES] {
    let mut lent = [Position::MAX; COPIES];
    if placement.len() == held(lent::floaters(&tables.bytes, &tables.numbers)) {
        lent = [0; COPIES];
        lent[..placement.len()].copy_from_slice(placement);
    }
    lent
}

impl FromStr for Peptidoform {
    type Err = Refusal;

    fn from_str(line: &str) -> Result<Self, Refusal> {
        Self::read(line.as_bytes())
    }
}

impl TryFrom<&[u8]> for Peptidoform {
    type Error = Refusal;

    fn try_from(line: &[u8]) -> Result<Self, Refusal> {
        Self::read(line)
    }
}

impl TryFrom<&str> for Peptidoform {
    type Error = Refusal;

    fn try_from(line: &str) -> Result<Self, Refusal> {
        Self::read(line.as_bytes())
    }
}

/// The canonical line.
impl Display for Peptidoform {
    fn fmt(&self, f: &mut Formatter<'_>) -> fmt::Result {
        f.pad(&self.line)
    }
}

impl Debug for Peptidoform {
    fn fmt(&self, f: &mut Formatter<'_>) -> fmt::Result {
        f.debug_tuple("Peptidoform").field(&self.line).finish()
    }
}

impl AsRef<str> for Peptidoform {
    fn as_ref(&self) -> &str {
        &self.line
    }
}

/// A placement: a slice of positions, one for each floater.
#[derive(Clone, Copy, PartialEq, Eq, Hash, PartialOrd, Ord)]
pub struct Placement {
    at: [Position; COPIES],
    floaters: usize,
}

impl Deref for Placement {
    type Target = [Position];

    fn deref(&self) -> &[Position] {
        &self.at[..self.floaters]
    }
}

impl Debug for Placement {
    fn fmt(&self, f: &mut Formatter<'_>) -> fmt::Result {
        f.debug_tuple("Placement").field(&&**self).finish()
    }
}

/// The placements of a peptidoform, ascending: [`Peptidoform::placements`].
#[derive(Clone)]
pub struct Placements {
    tables: Box<Tables>,
    floaters: usize,
    listing: Listing,
    ended: bool,
}

impl Iterator for Placements {
    type Item = Placement;

    fn next(&mut self) -> Option<Placement> {
        if self.ended {
            return None;
        }
        match lent::next(&self.tables.bytes, &self.tables.numbers, &mut self.listing) {
            Err(refusal) if refusal.number() == 17 => {
                self.ended = true;
                None
            }
            answer => {
                held(answer);
                Some(Placement { at: self.listing.at, floaters: self.floaters })
            }
        }
    }
}

impl FusedIterator for Placements {}

impl Debug for Placements {
    fn fmt(&self, f: &mut Formatter<'_>) -> fmt::Result {
        f.debug_struct("Placements").field("floaters", &self.floaters).field("listing", &self.listing).finish_non_exhaustive()
    }
}
