//! A register of entries, kept in blocks.

use std::collections::BTreeSet;
use std::fmt::{self, Debug, Formatter};

use crate::lent::{self, Position, Survey, BLOCK, BLOCKS, COPIES, LINE};
use crate::{Peptidoform, Placement, Refusal};

// Where the kind and the number of a block stand, and the kinds of blocks that an entry has, as include/hwemiduk.h says it.
const KIND_AT: usize = 0;
const NUMBER_AT: usize = 4;
const FIRST: u8 = 2;
const FURTHER: u8 = 3;

/// An entry of a register: a peptidoform, and one allowed placement of its floating copies.
#[derive(Clone, Debug, PartialEq, Eq, Hash)]
pub struct Entry {
    /// What the entry's canonical line reads to.
    pub peptidoform: Peptidoform,
    /// A position for each of its floaters.
    pub placement: Placement,
}

/// A register kept in blocks: entries by their numbers, in an area of 1 to 128 blocks of 512 bytes. It owns the area (`Vec<u8>`) or borrows it (`&mut [u8]`, and `&[u8]` for what
/// changes nothing). The area may be kept in a file as it is; each block has a sum, so that a copy shows which entries survived.
///
/// ```
/// use hwemiduk::{Blocks, Peptidoform};
///
/// let p: Peptidoform = "[+1]^2?ac".parse()?;
/// let mut blocks = Blocks::new(8)?;
/// blocks.add(17, &p, &[1, 2])?;
/// blocks.add(18, &"PEPTIDE".parse()?, &[])?;
/// assert_eq!(blocks.fetch(17)?.peptidoform.as_str(), "[+1]^2?AC");
/// assert_eq!(*blocks.fetch(17)?.placement, [1, 2]);
/// assert_eq!(blocks.fetch(19).unwrap_err().to_string(), "22: no such entry");
///
/// // a copy of which one byte has changed: the entry that it belongs to is refused, and the others are fetched as before
/// let mut copy = blocks.into_area();
/// copy[20] ^= 1;
/// let copy = Blocks::over(copy)?;
/// assert_eq!(copy.survivors().map(|(number, _)| number).collect::<Vec<_>>(), [18]);
/// assert_eq!(copy.damaged(), [17]);
/// assert_eq!(copy.survey().unsound, 1);
/// # Ok::<(), hwemiduk::Refusal>(())
/// ```
#[derive(Clone, Copy, PartialEq, Eq)]
pub struct Blocks<A = Vec<u8>> {
    area: A,
}

impl Blocks {
    /// An empty one of so many blocks; 26 where these are not 1 to 128.
    pub fn new(blocks: usize) -> Result<Self, Refusal> {
        let mut area = vec![0; blocks.min(BLOCKS + 1) * BLOCK];
        lent::blocks_empty(&mut area)?;
        Ok(Self { area })
    }
}

impl<A: AsRef<[u8]>> Blocks<A> {
    /// One over an area as it is, whatever it holds; 26 where it is not 1 to 128 whole blocks.
    pub fn over(area: A) -> Result<Self, Refusal> {
        lent::blocks_survey(area.as_ref())?;
        Ok(Self { area })
    }

    /// The bytes of the area.
    pub fn area(&self) -> &[u8] {
        self.area.as_ref()
    }

    /// The area itself.
    pub fn into_area(self) -> A {
        self.area
    }

    /// The entry with this number; 22 where there is none, 25 where it is damaged, or may be: where no sound block begins it and some block is unsound.
    pub fn fetch(&self, number: u32) -> Result<Entry, Refusal> {
        let (mut at, mut out) = ([0; COPIES], [0; LINE]);
        let length = lent::blocks_fetch(self.area(), number, &mut at, &mut out)?;
        let peptidoform = Peptidoform::read(&out[..length])?;
        let placement = peptidoform.placed(at);
        Ok(Entry { peptidoform, placement })
    }

    /// How many blocks are of which sort.
    pub fn survey(&self) -> Survey {
        // 26 was tried when it was made; an area that has changed its length since has no blocks to count
        lent::blocks_survey(self.area()).unwrap_or_default()
    }

    /// The number of each sound first block, in order of blocks. Of a damaged area a number may stand here twice, and one whose first block is unsound does not.
    pub fn numbers(&self) -> impl Iterator<Item = u32> + '_ {
        let mut from = 0;
        std::iter::from_fn(move || {
            let (block, number) = lent::blocks_entry(self.area(), from).ok()?;
            from = block + 1;
            Some(number)
        })
    }

    /// Each of these numbers with its entry, or with why it cannot be fetched.
    pub fn entries(&self) -> impl Iterator<Item = (u32, Result<Entry, Refusal>)> + '_ {
        self.numbers().map(|number| (number, self.fetch(number)))
    }

    /// The entries that can be fetched, in order of blocks.
    pub fn survivors(&self) -> impl Iterator<Item = (u32, Entry)> + '_ {
        self.entries().filter_map(|(number, entry)| Some((number, entry.ok()?)))
    }

    /// The numbers that stand in a first or further block, sound or not, and cannot be fetched, ascending. In an unsound block any byte may be wrong, so that a number may
    /// stand here that no entry had, and one that was lost may not.
    pub fn damaged(&self) -> Vec<u32> {
        let blocks = self.area().chunks_exact(BLOCK).filter(|block| [FIRST, FURTHER].contains(&block[KIND_AT]));
        let seen: BTreeSet<u32> = blocks.map(|block| u32::from_le_bytes([0, 1, 2, 3].map(|at| block[NUMBER_AT + at]))).collect();
        seen.into_iter().filter(|&number| self.fetch(number).is_err()).collect()
    }

    /// Adds every entry that survives to another register, and says which numbers these are, in order of blocks. Where one is refused there (23, 24, 25), nothing is added.
    pub fn copy_survivors<B: AsRef<[u8]> + AsMut<[u8]>>(&self, into: &mut Blocks<B>) -> Result<Vec<u32>, Refusal> {
        let mut copy = Blocks { area: into.area().to_vec() };
        let mut numbers = Vec::new();
        for (number, entry) in self.survivors() {
            copy.add(number, &entry.peptidoform, &entry.placement)?;
            numbers.push(number);
        }
        into.area.as_mut().copy_from_slice(&copy.area);
        Ok(numbers)
    }
}

impl<A: AsRef<[u8]> + AsMut<[u8]>> Blocks<A> {
    /// Adds an entry under a number, with a placement that has a position for each floater and is allowed: else 18; then 25, as [`fetch`](Self::fetch) has it, 23 where the
    /// number has an entry, 24 where there are too few free blocks. A refusal changes nothing.
    pub fn add(&mut self, number: u32, p: &Peptidoform, placement: &[Position]) -> Result<(), Refusal> {
        let placement = p.lent_placement(placement);
        lent::blocks_add(self.area.as_mut(), number, &placement, p.as_str().as_bytes())
    }

    /// Removes the entry with this number; 22 and 25 as [`fetch`](Self::fetch) has them. A damaged entry cannot be removed: copy the survivors into an empty area.
    pub fn remove(&mut self, number: u32) -> Result<(), Refusal> {
        lent::blocks_remove(self.area.as_mut(), number)
    }

    /// Makes all blocks free, whatever they held.
    pub fn empty(&mut self) -> Result<(), Refusal> {
        lent::blocks_empty(self.area.as_mut())
    }
}

impl<A: AsRef<[u8]>> Debug for Blocks<A> {
    fn fmt(&self, f: &mut Formatter<'_>) -> fmt::Result {
        f.debug_struct("Blocks").field("survey", &self.survey()).field("numbers", &self.numbers().collect::<Vec<_>>()).finish()
    }
}
