//! "The register kept in blocks" (02, L5): entries by their numbers, "in a
//! lent area of at most 128 blocks of 512 bytes".
//!
//! Beside the calls over bytes stands [`Map`], the "plain map" that they
//! answer as "over any sequence of calls on an undamaged area".

use std::collections::BTreeMap;

use crate::canonical::canonical;
use crate::line::{Line, Refusal};
use crate::positions::{floaters, is_allowed, Placement, Position};
use crate::reader::read;

/// "blocks of 512 bytes"
pub const BLOCK: usize = 512;
/// "at most 128 blocks"
pub const MOST_BLOCKS: usize = 128;

/// "Byte 0 is the kind (1 free, 2 first of an entry, 3 further)"
pub const KIND: usize = 0;
pub const FREE: u8 = 1;
pub const FIRST: u8 = 2;
pub const FURTHER: u8 = 3;
/// "bytes 1 and 2 the used length"
pub const USED: usize = 1;
/// "3 the next block (255 none)"
pub const NEXT: usize = 3;
pub const NONE: u8 = 255;
/// "4 to 7 the entry number"
pub const NUMBER: usize = 4;
/// "8 to 507 content"
pub const CONTENT: usize = 8;
/// "The last four [..] are the sum of (i+1) times byte i, i from 0 to 507."
pub const SUM: usize = 508;

/// The bytes of content that a block has room for.
pub const ROOM: usize = SUM - CONTENT;
/// "eight position bytes"
pub const POSITION_BYTES: usize = Line::MOST_FLOATERS;

/// The sum that a block should have.
pub fn sum(block: &[u8]) -> u32 {
    (1..)
        .zip(&block[..SUM])
        .map(|(factor, &byte)| factor * u32::from(byte))
        .sum()
}

/// Puts the right sum behind a block.
pub fn seal(block: &mut [u8]) {
    let sum = sum(block);
    block[SUM..].copy_from_slice(&sum.to_le_bytes());
}

/// "A free block holds zeros up to byte 507 apart from its kind and next 255."
pub fn free_block() -> [u8; BLOCK] {
    let mut block = [0; BLOCK];
    block[KIND] = FREE;
    block[NEXT] = NONE;
    seal(&mut block);
    block
}

/// The block at an index of an area.
pub fn block_of(area: &[u8], index: usize) -> &[u8] {
    &area[index * BLOCK..][..BLOCK]
}

fn block_in(area: &mut [u8], index: usize) -> &mut [u8] {
    &mut area[index * BLOCK..][..BLOCK]
}

/// How many blocks an area has, or 26: "the area isn't 1 to 128 whole blocks".
fn count(area: &[u8]) -> Result<usize, Refusal> {
    let blocks = area.len() / BLOCK;
    let whole = area.len() == blocks * BLOCK && (1..=MOST_BLOCKS).contains(&blocks);
    whole.then_some(blocks).ok_or(Refusal::new(26, 0))
}

/// "A block is sound when this holds for it and its next is in the area or
/// 255."
pub fn is_sound(area: &[u8], index: usize) -> bool {
    let block = block_of(area, index);
    let next_is_there = block[NEXT] == NONE || usize::from(block[NEXT]) < area.len() / BLOCK;
    next_is_there && block[SUM..] == sum(block).to_le_bytes()
}

/// The number in a block, "low bytes first".
pub fn number_in(block: &[u8]) -> u32 {
    u32::from_le_bytes([block[4], block[5], block[6], block[7]])
}

fn used_in(block: &[u8]) -> usize {
    usize::from(u16::from_le_bytes([block[USED], block[USED + 1]]))
}

/// The sound blocks of a kind, in order.
fn of_kind(area: &[u8], kind: u8) -> impl Iterator<Item = usize> + '_ {
    let sound = move |&index: &usize| block_of(area, index)[KIND] == kind && is_sound(area, index);
    (0..area.len() / BLOCK).filter(sound)
}

/// What an entry is: "one chosen allowed placement [..], then the canonical
/// line".
#[derive(Clone, Debug, PartialEq, Eq)]
pub struct Entry {
    pub placement: Placement,
    pub line: Vec<u8>,
}

/// What there is of a number.
#[derive(Clone, Debug, PartialEq, Eq)]
pub enum Looked {
    Absent,
    Damaged,
    Present { blocks: Vec<usize>, entry: Entry },
}

/// "25 is given when the number has two sound first blocks, when its chain
/// meets an unsound block, a wrong kind or number, a block twice or content
/// other than stated, and when no sound first block has it while some block
/// is unsound."
pub fn look(area: &[u8], number: u32) -> Looked {
    let is_first = |&index: &usize| {
        let block = block_of(area, index);
        block[KIND] == FIRST && number_in(block) == number && is_sound(area, index)
    };
    let firsts: Vec<usize> = (0..area.len() / BLOCK).filter(is_first).collect();
    let found = match firsts[..] {
        [] if (0..area.len() / BLOCK).all(|index| is_sound(area, index)) => return Looked::Absent,
        [first] => chain(area, number, first),
        _ => None,
    };
    let present = found.and_then(|(blocks, content)| {
        let entry = entry_in(&content)?;
        Some(Looked::Present { blocks, entry })
    });
    present.unwrap_or(Looked::Damaged)
}

/// The blocks of the chain that begins in a sound first block of the number,
/// and their content in a row; none where the chain is damaged.
fn chain(area: &[u8], number: u32, first: usize) -> Option<(Vec<usize>, Vec<u8>)> {
    let mut blocks = vec![first];
    let mut content = Vec::new();
    loop {
        let block = block_of(area, blocks[blocks.len() - 1]);
        content.extend_from_slice(content_of(block)?);
        if block[NEXT] == NONE {
            return Some((blocks, content));
        }
        let next = usize::from(block[NEXT]);
        let fits = !blocks.contains(&next)
            && is_sound(area, next)
            && block_of(area, next)[KIND] == FURTHER
            && number_in(block_of(area, next)) == number;
        if !fits {
            return None;
        }
        blocks.push(next);
    }
}

/// A block's content, "zero past the used length", "every block but an
/// entry's last full".
fn content_of(block: &[u8]) -> Option<&[u8]> {
    let used = used_in(block);
    let full_or_last = used == ROOM || block[NEXT] == NONE;
    let (content, rest) = block[CONTENT..SUM].split_at_checked(used)?;
    (full_or_last && rest.iter().all(|&byte| byte == 0)).then_some(content)
}

/// The entry that a content states: an allowed placement of an accepted line,
/// which is its own canonical one.
fn entry_in(content: &[u8]) -> Option<Entry> {
    let (positions, line) = content.split_at_checked(POSITION_BYTES)?;
    let held = read(line).ok()?;
    let mut placement = Placement::default();
    for (position, &byte) in placement.iter_mut().zip(positions) {
        *position = Position::from(byte);
    }
    let stated = canonical(&held) == line && is_allowed(&floaters(&held), &placement);
    stated.then(|| Entry {
        placement,
        line: line.to_vec(),
    })
}

/// What is kept of a line and a placement: the first [`POSITION_BYTES`]
/// entries count. The line's own refusals, then 18.
pub fn kept(line: &[u8], placement: &[Position]) -> Result<Entry, Refusal> {
    let held = read(line)?;
    let mut chosen = Placement::default();
    chosen.copy_from_slice(&placement[..POSITION_BYTES]);
    if !is_allowed(&floaters(&held), &chosen) {
        return Err(Refusal::new(18, 0));
    }
    Ok(Entry {
        placement: chosen,
        line: canonical(&held),
    })
}

/// How many blocks an entry takes.
pub fn blocks_for(entry: &Entry) -> usize {
    (POSITION_BYTES + entry.line.len()).div_ceil(ROOM)
}

/// "One call makes an empty area."
pub fn empty(area: &mut [u8]) -> Result<(), Refusal> {
    count(area)?;
    for block in area.chunks_exact_mut(BLOCK) {
        block.copy_from_slice(&free_block());
    }
    Ok(())
}

/// "Adding tries the line's own refusals and 18 first; then come 26, 25, 22 to
/// 24"; before all of them 13, where too few entries of a placement are lent.
pub fn add(
    area: &mut [u8],
    number: u32,
    placement: &[Position],
    line: &[u8],
) -> Result<(), Refusal> {
    if placement.len() < POSITION_BYTES {
        return Err(Refusal::new(13, 0));
    }
    let entry = kept(line, placement)?;
    count(area)?;
    match look(area, number) {
        Looked::Absent => {}
        Looked::Damaged => return Err(Refusal::new(25, 0)),
        Looked::Present { .. } => return Err(Refusal::new(23, 0)),
    }
    let mut content: Vec<u8> = entry
        .placement
        .iter()
        .map(|&position| position as u8)
        .collect();
    content.extend_from_slice(&entry.line);
    // "Blocks are taken lowest free first"
    let taken: Vec<usize> = of_kind(area, FREE).take(blocks_for(&entry)).collect();
    if taken.len() < blocks_for(&entry) {
        return Err(Refusal::new(24, 0));
    }
    for (at, piece) in content.chunks(ROOM).enumerate() {
        let block = block_in(area, taken[at]);
        block.fill(0);
        block[KIND] = if at == 0 { FIRST } else { FURTHER };
        block[USED..NEXT].copy_from_slice(&(piece.len() as u16).to_le_bytes());
        block[NEXT] = taken.get(at + 1).map_or(NONE, |&next| next as u8);
        block[NUMBER..CONTENT].copy_from_slice(&number.to_le_bytes());
        block[CONTENT..][..piece.len()].copy_from_slice(piece);
        seal(block);
    }
    Ok(())
}

/// The blocks and the entry of a number: 26, 25, 22.
fn found(area: &[u8], number: u32) -> Result<(Vec<usize>, Entry), Refusal> {
    count(area)?;
    match look(area, number) {
        Looked::Absent => Err(Refusal::new(22, 0)),
        Looked::Damaged => Err(Refusal::new(25, 0)),
        Looked::Present { blocks, entry } => Ok((blocks, entry)),
    }
}

/// Fetches an entry into a placement and an output of any length: how long its
/// line is. 13, 26, 25, 22, and "15 last", with the length needed.
pub fn fetch(
    area: &[u8],
    number: u32,
    placement: &mut [Position],
    out: &mut [u8],
) -> Result<usize, Refusal> {
    let Some(chosen) = placement.get_mut(..POSITION_BYTES) else {
        return Err(Refusal::new(13, 0));
    };
    let (_, entry) = found(area, number)?;
    let length = entry.line.len();
    let front = out.get_mut(..length).ok_or(Refusal::new(15, length))?;
    front.copy_from_slice(&entry.line);
    chosen.copy_from_slice(&entry.placement);
    Ok(length)
}

/// Removes an entry: "freed ones again".
pub fn remove(area: &mut [u8], number: u32) -> Result<(), Refusal> {
    let (blocks, _) = found(area, number)?;
    for index in blocks {
        block_in(area, index).copy_from_slice(&free_block());
    }
    Ok(())
}

/// The first sound first block from one on, and its number: 26, 17.
pub fn entry_from(area: &[u8], from: usize) -> Result<(usize, u32), Refusal> {
    count(area)?;
    let mut firsts = of_kind(area, FIRST).skip_while(|&index| index < from);
    let block = firsts.next().ok_or(Refusal::new(17, 0))?;
    Ok((block, number_in(block_of(area, block))))
}

/// How many blocks are sound and of each kind, and how many are not sound.
#[derive(Clone, Copy, Debug, PartialEq, Eq, Default)]
pub struct Survey {
    pub free: usize,
    pub first: usize,
    pub further: usize,
    pub other: usize,
    pub unsound: usize,
}

/// Counts every block once: 26.
pub fn survey(area: &[u8]) -> Result<Survey, Refusal> {
    let mut survey = Survey::default();
    for index in 0..count(area)? {
        let counter = match (is_sound(area, index), block_of(area, index)[KIND]) {
            (false, _) => &mut survey.unsound,
            (true, FREE) => &mut survey.free,
            (true, FIRST) => &mut survey.first,
            (true, FURTHER) => &mut survey.further,
            (true, _) => &mut survey.other,
        };
        *counter += 1;
    }
    Ok(survey)
}

/// The "plain map": entries by number, with room for so many blocks.
#[derive(Clone, Debug, Default)]
pub struct Map {
    pub room: usize,
    pub entries: BTreeMap<u32, Entry>,
}

impl Map {
    /// A map with nothing in it.
    pub fn of(room: usize) -> Self {
        Self {
            room,
            entries: BTreeMap::new(),
        }
    }

    /// How many blocks its entries take together.
    pub fn taken(&self) -> usize {
        self.entries.values().map(blocks_for).sum()
    }

    pub fn add(&mut self, number: u32, placement: &[Position], line: &[u8]) -> Result<(), Refusal> {
        let entry = kept(line, placement)?;
        if self.entries.contains_key(&number) {
            return Err(Refusal::new(23, 0));
        }
        if self.taken() + blocks_for(&entry) > self.room {
            return Err(Refusal::new(24, 0));
        }
        self.entries.insert(number, entry);
        Ok(())
    }

    pub fn fetch(&self, number: u32, room: usize) -> Result<&Entry, Refusal> {
        let entry = self.entries.get(&number).ok_or(Refusal::new(22, 0))?;
        let length = entry.line.len();
        (length <= room)
            .then_some(entry)
            .ok_or(Refusal::new(15, length))
    }

    pub fn remove(&mut self, number: u32) -> Result<(), Refusal> {
        let removed = self.entries.remove(&number);
        removed.map(|_| ()).ok_or(Refusal::new(22, 0))
    }
}
