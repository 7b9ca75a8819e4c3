//! The lent areas: "Lent areas have the fixed sizes these [limits] give".
//! "Texts are packed in order of appearance; unused room is zero."
//!
//! The bytes area, in order:
//! - the number of residues and the number of brackets;
//! - 254 letters in upper case, then 254 sections;
//! - 64 rows of 53 bytes, one for each bracket: kind, first position, last
//!   position, count, number of parts, score (0 none, else 1 + its decimals);
//!   then for each of four parts: kind, key, decimals, length of its text,
//!   length of its label, and the offset of its text, which its label directly
//!   follows; then the number of places, and 16 places, each a letter, 1 for
//!   the N-terminus or 2 for the C-terminus;
//! - 4,096 bytes of texts.
//!
//! The number of residues, positions and offsets take two bytes, low byte
//! first; every other one of these numbers takes one.
//!
//! The numbers area: 64 rows of the masses of the four parts and the score, in
//! millionths.

use crate::canonical::canonical;
use crate::line::{
    Bracket, Composition, Content, Key, Kind, Label, Line, Number, Part, Residue, Section, Site,
};
use crate::reader::read;

const RESIDUE_COUNT: usize = 0;
const BRACKET_COUNT: usize = 2;
/// Where the letters begin, behind the two counts.
pub const LETTERS: usize = 3;
/// Where the sections begin.
pub const SECTIONS: usize = LETTERS + Line::MOST_RESIDUES;
/// Where the brackets' rows begin.
pub const ROWS: usize = SECTIONS + Line::MOST_RESIDUES;
const ROW_HEAD: usize = 8;
const PART: usize = 7;
/// Where a row's number of places stands, with the places behind it.
pub const ROW_PLACES: usize = ROW_HEAD + Bracket::MOST_PARTS * PART;
/// The bytes of a bracket's row.
pub const ROW: usize = ROW_PLACES + 1 + Bracket::MOST_PLACES;
/// Where the texts begin.
pub const TEXTS: usize = ROWS + Line::MOST_BRACKETS * ROW;
const NUMBER_ROW: usize = Bracket::MOST_PARTS + 1;

/// The fixed size of the bytes area.
pub const BYTES_SIZE: usize = TEXTS + Line::LONGEST;
/// The fixed size of the numbers area.
pub const NUMBERS_SIZE: usize = Line::MOST_BRACKETS * NUMBER_ROW;

const MASS: u8 = 1;
const TEXT: u8 = 2;
const REFERENCE: u8 = 3;
const COMPOSITION: u8 = 4;

/// The areas that an accepted line reads to.
pub fn encode(line: &Line) -> (Vec<u8>, Vec<i64>) {
    let mut bytes = vec![0; BYTES_SIZE];
    let mut numbers = vec![0; NUMBERS_SIZE];
    bytes[RESIDUE_COUNT..][..2].copy_from_slice(&two_bytes(line.residues.len()));
    bytes[BRACKET_COUNT] = line.brackets.len() as u8;
    for (index, residue) in line.residues.iter().enumerate() {
        bytes[LETTERS + index] = residue.letter;
        bytes[SECTIONS + index] = residue.section as u8;
    }
    let (tables, texts) = bytes.split_at_mut(TEXTS);
    let rows = tables[ROWS..].chunks_exact_mut(ROW);
    let number_rows = numbers.chunks_exact_mut(NUMBER_ROW);
    let mut packer = Packer { texts, used: 0 };
    for ((bracket, row), number_row) in line.brackets.iter().zip(rows).zip(number_rows) {
        encode_bracket(line, bracket, row, number_row, &mut packer);
    }
    (bytes, numbers)
}

/// A number that takes two bytes, low byte first.
fn two_bytes(number: usize) -> [u8; 2] {
    [(number % 256) as u8, (number / 256) as u8]
}

/// The number whose two bytes begin here.
fn wide(bytes: &[u8], at: usize) -> usize {
    usize::from(bytes[at]) + 256 * usize::from(bytes[at + 1])
}

/// Packs texts and labels in order of appearance.
struct Packer<'t> {
    texts: &'t mut [u8],
    used: usize,
}

impl Packer<'_> {
    fn pack(&mut self, text: &[u8]) {
        self.texts[self.used..][..text.len()].copy_from_slice(text);
        self.used += text.len();
    }
}

fn encode_bracket(
    line: &Line,
    bracket: &Bracket,
    row: &mut [u8],
    number_row: &mut [i64],
    packer: &mut Packer,
) {
    let (head, behind) = row.split_at_mut(ROW_HEAD);
    let (part_rows, places) = behind.split_at_mut(ROW_PLACES - ROW_HEAD);
    let score = line.label_of(bracket).and_then(|label| label.score);
    let [first_low, first_high] = two_bytes(bracket.first);
    let [last_low, last_high] = two_bytes(bracket.last);
    head.copy_from_slice(&[
        bracket.kind as u8,
        first_low,
        first_high,
        last_low,
        last_high,
        bracket.count,
        bracket.part_count as u8,
        score.map_or(0, |score| 1 + score.decimals),
    ]);
    number_row[Bracket::MOST_PARTS] = score.map_or(0, |score| score.millionths);
    let parts = line.parts_of(bracket).iter();
    for (index, (part, row)) in parts.zip(part_rows.chunks_exact_mut(PART)).enumerate() {
        match &part.content {
            Content::Mass(mass) => number_row[index] = mass.millionths,
            Content::Composition(one) => number_row[index] = one.mass.millionths,
            Content::Text(_) | Content::Reference => {}
        }
        encode_part(part, row, packer);
    }
    places[0] = bracket.place_count as u8;
    for (site, byte) in line.places_of(bracket).iter().zip(&mut places[1..]) {
        *byte = site.to_byte();
    }
}

fn encode_part(part: &Part, row: &mut [u8], packer: &mut Packer) {
    let (kind, decimals, text): (u8, u8, &[u8]) = match &part.content {
        Content::Mass(mass) => (MASS, mass.decimals, b""),
        Content::Text(text) => (TEXT, 0, text),
        Content::Reference => (REFERENCE, 0, b""),
        Content::Composition(one) => (COMPOSITION, one.mass.decimals, &one.text),
    };
    let label = part.label.map_or(&b""[..], |label| label.name);
    let empty = text.is_empty() && label.is_empty();
    let [low, high] = two_bytes(if empty { 0 } else { packer.used });
    row.copy_from_slice(&[
        kind,
        part.key as u8,
        decimals,
        text.len() as u8,
        label.len() as u8,
        low,
        high,
    ]);
    packer.pack(text);
    packer.pack(label);
}

/// What the areas hold, where they hold something that can be written as a
/// line at all. It need not be what any line reads to:
/// [`tables_of_some_line`] decides that. Areas may be longer than their fixed
/// sizes.
pub fn decode<'a>(bytes: &'a [u8], numbers: &[i64]) -> Option<Line<'a>> {
    let bytes = bytes.get(..BYTES_SIZE)?;
    let numbers = numbers.get(..NUMBERS_SIZE)?;
    let (tables, texts) = bytes.split_at(TEXTS);
    let mut line = Line {
        residues: decode_residues(tables)?,
        ..Line::default()
    };
    let bracket_count = usize::from(tables[BRACKET_COUNT]);
    if bracket_count > Line::MOST_BRACKETS {
        return None;
    }
    let rows = tables[ROWS..].chunks_exact(ROW);
    let number_rows = numbers.chunks_exact(NUMBER_ROW);
    for (row, number_row) in rows.zip(number_rows).take(bracket_count) {
        decode_bracket(row, number_row, texts, &mut line)?;
    }
    Some(line)
}

fn decode_residues(tables: &[u8]) -> Option<Vec<Residue>> {
    let count = wide(tables, RESIDUE_COUNT);
    let letters = tables[LETTERS..SECTIONS].get(..count)?;
    let sections = tables[SECTIONS..ROWS].get(..count)?;
    let pairs = letters.iter().zip(sections);
    pairs
        .map(|(&letter, &section)| {
            Some(Residue {
                letter,
                section: Section::from_byte(section)?,
            })
        })
        .collect()
}

fn decode_bracket<'a>(
    row: &[u8],
    number_row: &[i64],
    texts: &'a [u8],
    line: &mut Line<'a>,
) -> Option<()> {
    let (head, behind) = row.split_at(ROW_HEAD);
    let (part_rows, places) = behind.split_at(ROW_PLACES - ROW_HEAD);
    let part_count = usize::from(head[6]);
    if !(1..=Bracket::MOST_PARTS).contains(&part_count) {
        return None;
    }
    let first_part = line.parts.len();
    for (row, &mass) in part_rows
        .chunks_exact(PART)
        .zip(number_row)
        .take(part_count)
    {
        line.parts.push(decode_part(row, mass, texts)?);
    }
    if let Some(decimals) = head[7].checked_sub(1) {
        let score = decode_number(number_row[Bracket::MOST_PARTS], decimals)?;
        let labels = line.parts[first_part..].iter_mut();
        labels.filter_map(|part| part.label.as_mut()).next()?.score = Some(score);
    }
    let place_count = usize::from(places[0]);
    let first_place = line.places.len();
    for &byte in places[1..].get(..place_count)? {
        line.places.push(Site::from_byte(byte)?);
    }
    line.brackets.push(Bracket {
        kind: Kind::from_byte(head[0])?,
        first: wide(head, 1),
        last: wide(head, 3),
        count: head[5],
        first_part,
        part_count,
        first_place,
        place_count,
    });
    Some(())
}

fn decode_part<'a>(row: &[u8], mass: i64, texts: &'a [u8]) -> Option<Part<'a>> {
    let &[kind, key, decimals, text_length, label_length, ..] = row else {
        return None;
    };
    let after = texts.get(wide(row, 5)..)?;
    let text = after.get(..usize::from(text_length))?;
    let name = after[text.len()..].get(..usize::from(label_length))?;
    let content = match kind {
        MASS => Content::Mass(decode_number(mass, decimals)?),
        TEXT => Content::Text(text),
        REFERENCE => Content::Reference,
        COMPOSITION => Content::Composition(Box::new(Composition {
            text: text.to_vec(),
            mass: decode_number(mass, decimals)?,
        })),
        _ => return None,
    };
    Some(Part {
        key: Key::from_byte(key)?,
        content,
        label: (!name.is_empty()).then_some(Label { name, score: None }),
    })
}

fn decode_number(millionths: i64, decimals: u8) -> Option<Number> {
    (usize::from(decimals) <= Number::MOST_DECIMALS).then_some(Number {
        millionths,
        decimals,
    })
}

/// The canonical line, when some accepted line reads to exactly these areas;
/// else none: refusal 14, "tables that no accepted line reads to".
///
/// The canonical line of such tables is itself one that reads to them, so
/// that one line is enough to ask.
pub fn tables_of_some_line(bytes: &[u8], numbers: &[i64]) -> Option<Vec<u8>> {
    let written = canonical(&decode(bytes, numbers)?);
    let (same_bytes, same_numbers) = encode(&read(&written).ok()?);
    let same = bytes[..BYTES_SIZE] == same_bytes && numbers[..NUMBERS_SIZE] == same_numbers;
    same.then_some(written)
}
