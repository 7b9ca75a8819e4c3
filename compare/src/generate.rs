//! Lines to compare on: deterministic, pseudo-random, of all kinds and sizes,
//! near every limit and over it, and spoilt in every way that documents 01 and
//! 02 give a number to. No line holds a byte 10, so that lines can be put in a
//! file.

use crate::glycans::SUGARS;
use crate::line::Line;

/// So many; where HWEMIDUK_SHARE is a number n, one of every n of them. The tests take that many generated lines, and expect that much of them.
pub fn share(count: usize) -> usize {
    let one_of = std::env::var("HWEMIDUK_SHARE").ok().and_then(|n| n.parse().ok()).unwrap_or(1);
    count / std::cmp::max(one_of, 1)
}

/// A xorshift generator with a multiplied output.
pub struct Random {
    state: u64,
}

impl Random {
    pub fn new(seed: u64) -> Self {
        // Any seed but the one that would leave the state at zero.
        let state = seed.wrapping_add(0x9E37_79B9_7F4A_7C15);
        let mut random = Self {
            state: if state == 0 { 1 } else { state },
        };
        for _ in 0..8 {
            random.next();
        }
        random
    }

    fn next(&mut self) -> u64 {
        self.state ^= self.state >> 12;
        self.state ^= self.state << 25;
        self.state ^= self.state >> 27;
        self.state.wrapping_mul(0x2545_F491_4F6C_DD1D)
    }

    /// A number below this one, which is not 0.
    pub fn below(&mut self, beyond: usize) -> usize {
        ((self.next() >> 32) as usize * beyond) >> 32
    }

    /// A number from one to another, both included.
    pub fn between(&mut self, least: usize, most: usize) -> usize {
        least + self.below(most - least + 1)
    }

    /// True so many times in a hundred.
    pub fn chance(&mut self, percent: usize) -> bool {
        self.below(100) < percent
    }

    pub fn pick<'a, T: ?Sized>(&mut self, choices: &[&'a T]) -> &'a T {
        choices[self.below(choices.len())]
    }
}

/// The inside of a bracket.
type Inside = Vec<u8>;

/// An unknown-position bracket with what is written behind its `^`.
struct Unknown {
    inside: Inside,
    count: Option<Vec<u8>>,
}

/// A declaration: what stands in its bracket, and its places as they are
/// written.
struct Declaration {
    inside: Inside,
    places: Vec<Vec<u8>>,
}

struct DraftResidue {
    letter: u8,
    brackets: Vec<Inside>,
}

#[derive(Clone, Copy, PartialEq)]
enum Grouping {
    Plain,
    Range,
    Ambiguous,
}

struct Piece {
    grouping: Grouping,
    residues: Vec<DraftResidue>,
    /// The brackets of a range.
    brackets: Vec<Inside>,
}

/// A line before it is written down.
struct Draft {
    declared: Vec<Declaration>,
    unknown: Vec<Unknown>,
    labile: Vec<Inside>,
    n_terminal: Vec<Inside>,
    pieces: Vec<Piece>,
    c_terminal: Vec<Inside>,
    /// How many floating copies may still be added.
    floaters_left: usize,
    /// How many brackets may still be added.
    brackets_left: usize,
}

impl Draft {
    fn residue_count(&self) -> usize {
        self.pieces.iter().map(|piece| piece.residues.len()).sum()
    }

    /// The brackets of the residue with this index.
    fn residue_brackets(&mut self, index: usize) -> &mut Vec<Inside> {
        let mut residues = self
            .pieces
            .iter_mut()
            .flat_map(|piece| piece.residues.iter_mut());
        let residue = residues.nth(index).expect("a residue of the draft");
        &mut residue.brackets
    }

    /// A place for a bracket that may hold a reference: a residue or terminus.
    fn single_position(&mut self, random: &mut Random) -> &mut Vec<Inside> {
        match random.below(12) {
            0 => &mut self.n_terminal,
            1 => &mut self.c_terminal,
            _ => {
                let index = random.below(self.residue_count());
                self.residue_brackets(index)
            }
        }
    }

    fn a_range(&mut self, random: &mut Random) -> Option<&mut Piece> {
        let mut ranges: Vec<&mut Piece> = self
            .pieces
            .iter_mut()
            .filter(|piece| piece.grouping == Grouping::Range)
            .collect();
        if ranges.is_empty() {
            return None;
        }
        let index = random.below(ranges.len());
        Some(ranges.swap_remove(index))
    }

    fn add_unknown(&mut self, inside: Inside, count: Option<Vec<u8>>) {
        self.unknown.push(Unknown { inside, count });
    }

    /// The letter of the residue with this index.
    fn letter(&self, index: usize) -> u8 {
        let mut residues = self.pieces.iter().flat_map(|piece| &piece.residues);
        residues.nth(index).expect("a residue of the draft").letter
    }

    /// Writes the line, its unknown runs split here and there.
    fn write(&self, random: &mut Random) -> Vec<u8> {
        let mut out = Vec::new();
        for one in &self.declared {
            out.push(b'<');
            write_enclosed(b'[', &one.inside, b']', &mut out);
            write_enclosed(b'@', &one.places.join(&b','), b'>', &mut out);
        }
        self.write_unknown(random, &mut out);
        for inside in &self.labile {
            write_enclosed(b'{', inside, b'}', &mut out);
        }
        write_brackets(&self.n_terminal, &mut out);
        if !self.n_terminal.is_empty() {
            out.push(b'-');
        }
        for piece in &self.pieces {
            write_piece(piece, &mut out);
        }
        if !self.c_terminal.is_empty() {
            out.push(b'-');
            write_brackets(&self.c_terminal, &mut out);
        }
        out
    }

    fn write_unknown(&self, random: &mut Random, out: &mut Vec<u8>) {
        for (index, unknown) in self.unknown.iter().enumerate() {
            write_enclosed(b'[', &unknown.inside, b']', out);
            if let Some(count) = &unknown.count {
                out.push(b'^');
                out.extend_from_slice(count);
            }
            if index + 1 == self.unknown.len() || random.chance(25) {
                out.push(b'?');
            }
        }
    }
}

fn write_piece(piece: &Piece, out: &mut Vec<u8>) {
    match piece.grouping {
        Grouping::Plain => {}
        Grouping::Range => out.push(b'('),
        Grouping::Ambiguous => out.extend_from_slice(b"(?"),
    }
    for residue in &piece.residues {
        out.push(residue.letter);
        write_brackets(&residue.brackets, out);
    }
    if piece.grouping != Grouping::Plain {
        out.push(b')');
    }
    write_brackets(&piece.brackets, out);
}

fn write_brackets(brackets: &[Inside], out: &mut Vec<u8>) {
    for inside in brackets {
        write_enclosed(b'[', inside, b']', out);
    }
}

fn write_enclosed(opening: u8, inside: &[u8], closing: u8, out: &mut Vec<u8>) {
    out.push(opening);
    out.extend_from_slice(inside);
    out.push(closing);
}

const NAMES: [&str; 22] = [
    "Oxidation",
    "Phospho",
    "Acetyl",
    "half cystine",
    "L-methionine sulfoxide",
    "(2S,4R)-5-hydroxyleucine",
    "Gln->pyro-Glu",
    "Cation:Mg[II]",
    "Xlink:Disulfide",
    "x",
    "35",
    "1.5",
    "Formula",
    "CoMKPs",
    "INFO",
    "U",
    "MODx:1",
    "UNIMOD",
    "{a[b]}c",
    "[|#]",
    ":",
    "[]",
];

const PREFIXES: [&str; 6] = ["U:", "M:", "R:", "X:", "G:", "C:"];

const LABELS: [&str; 10] = [
    "a",
    "b",
    "A",
    "g1",
    "s1",
    "1",
    "X",
    "BRANCH1",
    "lX",
    "label0123456789x",
];

const EXCLUDED_NAMES: [&str; 4] = [
    "CoMKP",
    "CoMUP",
    "ColocaliseModificationsOfKnownPosition",
    "ColocaliseModificationsOfUnknownPosition",
];

const EXCLUDED_LABELS: [&str; 5] = ["XL1", "XL", "BRANCH", "xlA9", "branch"];

const NUMBERS_IN_RANGE: [&str; 8] = [
    "999999.999999",
    "0.000001",
    "0",
    "000",
    "0.000000",
    "999999",
    "0000000999999.5",
    "100000.00",
];

const NUMBERS_OUT_OF_RANGE: [&str; 8] = [
    "1000000",
    "999999.9999990",
    "1.0000000",
    "0.0000001",
    "1000000.5",
    "01000000",
    "99999999999999999999999999",
    "0.00000000000000000000000001",
];

const COUNTS_IN_RANGE: [&str; 6] = ["1", "01", "2", "003", "1", "02"];
const COUNTS_OUT_OF_RANGE: [&str; 6] = ["0", "00", "100", "0100", "1000", "18446744073709551617"];

/// What no count of a name is.
const BAD_COUNTS: [&str; 6] = ["0", "01", "00", "100", "1000", "1 "];

const UNLISTED_NAMES: [&str; 9] = ["S", "Ac", "Gc", "NAc", "enaHex", "enHex", "Xyl", "a", "Man"];

const NO_COMPOSITIONS: [&str; 9] = [
    "{C8H13N1O5}1Hex2",
    "Hex 10 HexNAc 4",
    "Hex:5",
    "+5",
    "-162.05",
    "x",
    "HexN1Ac",
    "[]",
    "[|#]",
];

/// Bytes that mean something somewhere in a composition, or are taken for it.
const TELLING_IN_COMPOSITIONS: &[u8] = b"0129 SsNnAaEeXxHhPp,+-.()";

/// Bytes that mean something somewhere in a line.
const TELLING_BYTES: &[u8] = b"[]{}()|#^?-+.:AaUx012 ,<>@";

/// Places that are none.
const NO_PLACES: [&str; 14] = [
    "", " ", "KR", "N-te", "N-", "Nterm", "N-term:Q", "K-term", "C_term", "1", "[K]", "N-termC", "-term", "K ",
];

/// What masses the modifications of a draft have.
#[derive(Clone, Copy)]
enum Masses {
    /// Each has a stated one.
    Stated,
    /// Each has one, stated or only measured.
    Given,
    /// Each has one or none.
    Any,
}

/// The lines.
pub struct Generator {
    random: Random,
    /// What masses the modifications of the draft in hand have.
    masses: Masses,
}

impl Iterator for Generator {
    type Item = Vec<u8>;

    fn next(&mut self) -> Option<Vec<u8>> {
        Some(self.line())
    }
}

impl Generator {
    pub fn new(seed: u64) -> Self {
        Self {
            random: Random::new(seed),
            masses: Masses::Any,
        }
    }

    /// The next line.
    pub fn line(&mut self) -> Vec<u8> {
        self.choose_masses();
        match self.random.below(100) {
            0 => Vec::new(),
            1..=2 => self.line_of_length_near_limit(),
            3..=4 => self.line_with_bad_byte(),
            5..=7 => self.noise(),
            8..=19 => self.mutated(),
            20..=31 => self.line_near_limit(),
            32..=58 => self.spoilt(),
            59..=66 => self.crowded(),
            67..=72 => self.declared(),
            _ => self.sound(),
        }
    }

    fn choose_masses(&mut self) {
        self.masses = match self.random.below(20) {
            0..=8 => Masses::Stated,
            9..=11 => Masses::Given,
            _ => Masses::Any,
        };
    }

    /// A line that is of the order and mostly accepted.
    fn sound(&mut self) -> Vec<u8> {
        self.draft().write(&mut self.random)
    }

    /// A line with one to three faults, so that numbers compete.
    fn spoilt(&mut self) -> Vec<u8> {
        let mut draft = self.draft();
        let faults = [1, 1, 1, 1, 2, 3][self.random.below(6)];
        for _ in 0..faults {
            self.spoil(&mut draft);
        }
        draft.write(&mut self.random)
    }

    // Drafts

    fn draft(&mut self) -> Draft {
        let residues = match self.random.below(20) {
            0..=6 => self.random.between(1, 3),
            7..=14 => self.random.between(4, 12),
            15..=18 => self.random.between(13, 60),
            _ => self.random.between(61, Line::MOST_RESIDUES),
        };
        let mut draft = self.bare_draft(residues);
        self.add_range_brackets(&mut draft);
        self.add_labels(&mut draft);
        if self.random.chance(12) {
            for _ in 0..self.few().min(draft.brackets_left) {
                let places = self.random.between(1, 4);
                self.add_declaration(&mut draft, places);
            }
        }
        self.add_front(&mut draft);
        self.add_residue_brackets(&mut draft);
        draft
    }

    /// A declaration with so many places.
    fn add_declaration(&mut self, draft: &mut Draft, places: usize) {
        let inside = self.modification();
        let places = self.places(draft, places);
        draft.declared.push(Declaration { inside, places });
        draft.brackets_left = draft.brackets_left.saturating_sub(1);
    }

    /// So many places in some case or other; most letters are of the draft's.
    fn places(&mut self, draft: &Draft, count: usize) -> Vec<Vec<u8>> {
        let mut places = Vec::new();
        for _ in 0..count {
            places.push(match self.random.below(10) {
                0 => self.cased("N-term"),
                1 => self.cased("C-term"),
                2 => vec![b'A' + self.random.below(26) as u8],
                3 => self.random.pick(&["N", "C", "n", "c"]).into(),
                _ => vec![draft.letter(self.random.below(draft.residue_count()))],
            });
        }
        places
    }

    /// A draft with nothing but its sequence.
    fn bare_draft(&mut self, residues: usize) -> Draft {
        let mut pieces = Vec::new();
        let mut left = residues;
        let grouped = self.random.chance(50);
        while left > 0 {
            let (grouping, most) = match self.random.below(8) {
                0 if grouped => (Grouping::Range, 6),
                1 if grouped => (Grouping::Ambiguous, 4),
                _ => (Grouping::Plain, 12),
            };
            let length = self.random.between(1, most.min(left));
            pieces.push(Piece {
                grouping,
                residues: (0..length).map(|_| self.bare_residue()).collect(),
                brackets: Vec::new(),
            });
            left -= length;
        }
        Draft {
            declared: Vec::new(),
            unknown: Vec::new(),
            labile: Vec::new(),
            n_terminal: Vec::new(),
            pieces,
            c_terminal: Vec::new(),
            floaters_left: Line::MOST_FLOATERS,
            brackets_left: Line::MOST_BRACKETS,
        }
    }

    fn bare_residue(&mut self) -> DraftResidue {
        let first = if self.random.chance(10) { b'a' } else { b'A' };
        DraftResidue {
            letter: first + self.random.below(26) as u8,
            brackets: Vec::new(),
        }
    }

    /// Every range has a bracket; where it must not float, it is INFO.
    fn add_range_brackets(&mut self, draft: &mut Draft) {
        let mut floaters_left = draft.floaters_left;
        let mut brackets_left = draft.brackets_left;
        for piece in &mut draft.pieces {
            if piece.grouping != Grouping::Range {
                continue;
            }
            for _ in 0..self.few() {
                let floats = floaters_left > 0 && self.random.chance(70);
                floaters_left -= usize::from(floats);
                brackets_left = brackets_left.saturating_sub(1);
                piece.brackets.push(if floats {
                    self.modification()
                } else {
                    self.information()
                });
            }
        }
        draft.floaters_left = floaters_left;
        draft.brackets_left = brackets_left;
    }

    /// Labels with their definitions and references.
    fn add_labels(&mut self, draft: &mut Draft) {
        let labels = [0, 0, 0, 1, 1, 2, 3][self.random.below(7)];
        let first = self.random.below(LABELS.len());
        for index in 0..labels {
            if draft.floaters_left == 0 || draft.brackets_left < 6 {
                return;
            }
            let name = LABELS[(first + index) % LABELS.len()];
            draft.floaters_left -= 1;
            let references = self.add_definition(draft, name);
            for _ in 0..references {
                let reference = self.label(name);
                draft.single_position(&mut self.random).push(reference);
            }
            draft.brackets_left -= 1 + references;
        }
    }

    /// Adds a label's definition; how many references it is to have.
    fn add_definition(&mut self, draft: &mut Draft, name: &str) -> usize {
        let definition = self.labelled(name);
        let in_run = self.random.chance(30);
        if in_run {
            draft.add_unknown(definition, None);
        } else if self.random.chance(25) {
            match draft.a_range(&mut self.random) {
                Some(range) => range.brackets.push(definition),
                None => draft.n_terminal.push(definition),
            }
        } else {
            draft.single_position(&mut self.random).push(definition);
        }
        self.random.between(usize::from(in_run), 4)
    }

    /// Unlabelled unknown ones, labile ones and those of the N-terminus.
    fn add_front(&mut self, draft: &mut Draft) {
        if self.random.chance(25) {
            for _ in 0..self.few() {
                let most = draft.floaters_left.min(draft.brackets_left);
                if most == 0 {
                    break;
                }
                let copies = self.random.between(1, most.min(3));
                let count = self.written_count(copies);
                let modification = self.modification();
                draft.add_unknown(modification, count);
                draft.floaters_left -= copies;
                draft.brackets_left -= 1;
            }
        }
        if self.random.chance(12) {
            for _ in 0..self.few().min(draft.brackets_left) {
                let labile = self.modification();
                draft.labile.push(labile);
                draft.brackets_left -= 1;
            }
        }
    }

    fn written_count(&mut self, copies: usize) -> Option<Vec<u8>> {
        if copies == 1 && self.random.chance(80) {
            return None;
        }
        let zeros = if self.random.chance(15) { "00" } else { "" };
        Some(format!("{zeros}{copies}").into_bytes())
    }

    fn add_residue_brackets(&mut self, draft: &mut Draft) {
        let most = match self.random.below(10) {
            0..=5 => 4,
            6..=8 => 12,
            _ => Line::MOST_BRACKETS,
        };
        for _ in 0..self.random.below(most.min(draft.brackets_left) + 1) {
            let inside = if self.random.chance(80) {
                self.modification()
            } else {
                self.information()
            };
            draft.single_position(&mut self.random).push(inside);
        }
    }

    /// Mostly one.
    fn few(&mut self) -> usize {
        [1, 1, 1, 1, 2, 3][self.random.below(6)]
    }

    // The insides of brackets

    fn modification(&mut self) -> Inside {
        let before = usize::from(self.random.chance(10));
        let after = usize::from(self.random.chance(25)) * self.random.between(1, 2);
        let mut parts: Vec<Inside> = (0..before).map(|_| self.any_part()).collect();
        parts.push(self.modification_part());
        parts.extend((0..after).map(|_| self.any_part()));
        parts.join(&b'|')
    }

    fn information(&mut self) -> Inside {
        let count = self.few();
        let parts: Vec<Inside> = (0..count).map(|_| self.information_part()).collect();
        parts.join(&b'|')
    }

    // Lines with declarations

    /// A short line with 0 to 10 declarations, each of 1 to 20 places; now and
    /// then one has only INFO.
    pub fn declared(&mut self) -> Vec<u8> {
        self.choose_masses();
        let residues = self.random.between(1, 12);
        let mut draft = self.bare_draft(residues);
        self.add_range_brackets(&mut draft);
        self.add_labels(&mut draft);
        let declarations = match self.random.below(10) {
            0 => self.random.between(9, 10),
            1..=3 => self.random.between(5, 8),
            _ => self.random.between(0, 4),
        };
        for _ in 0..declarations {
            let places = match self.random.below(60) {
                0 => self.random.between(17, 20),
                1..=10 => self.random.between(5, 16),
                _ => self.random.between(1, 4),
            };
            self.add_declaration(&mut draft, places);
        }
        if let Some(last) = draft.declared.last_mut() {
            if self.random.chance(5) {
                last.inside = self.information();
            }
        }
        self.add_front(&mut draft);
        self.add_residue_brackets(&mut draft);
        draft.write(&mut self.random)
    }

    /// A bracket with a labelled part, perhaps among others.
    fn labelled(&mut self, name: &str) -> Inside {
        let mut part = self.modification_part();
        part.extend(self.label(name));
        let mut parts = vec![part];
        if self.random.chance(25) {
            let other = self.any_part();
            let index = self.random.below(2);
            parts.insert(index, other);
        }
        parts.join(&b'|')
    }

    /// `#`, a name and perhaps a score.
    fn label(&mut self, name: &str) -> Inside {
        let mut label = format!("#{name}").into_bytes();
        if self.random.chance(35) {
            label.push(b'(');
            label.extend_from_slice(self.random.pick(&["", "", "", "+", "-"]).as_bytes());
            label.extend(self.number());
            label.push(b')');
        }
        label
    }

    fn any_part(&mut self) -> Inside {
        match self.random.below(10) {
            0..=3 => self.information_part(),
            4..=5 => self.measured_part(),
            _ => self.modification_part(),
        }
    }

    fn information_part(&mut self) -> Inside {
        let mut part = self.cased("INFO:");
        let length = self.random.between(1, 20);
        self.text(length, 0, false, &mut part);
        part
    }

    fn modification_part(&mut self) -> Inside {
        match (self.random.below(20), self.masses) {
            (12..=14, _) => self.composition_part(),
            (_, Masses::Stated) => self.stated_part(),
            (_, Masses::Given) | (0..=8, _) => self.mass_part(),
            (9..=11, _) => self.accession_part(),
            _ => self.name_part(),
        }
    }

    fn composition_part(&mut self) -> Inside {
        let mut part = self.cased("Glycan:");
        part.extend(self.composition());
        part
    }

    /// A few listed names with counts or without.
    fn composition(&mut self) -> Vec<u8> {
        let mut text = Vec::new();
        for _ in 0..self.random.between(1, 4) {
            let name = SUGARS[self.random.below(SUGARS.len())].name;
            text.extend(self.cased(name));
            match self.random.below(10) {
                0..=4 => {}
                5..=6 => text.push(b'1'),
                7..=8 => text.push(b'2' + self.random.below(8) as u8),
                _ => text.extend_from_slice(self.random.between(10, 99).to_string().as_bytes()),
            }
        }
        text
    }

    /// A composition of this very length, which is 10 or more.
    fn composition_of_length(&mut self, length: usize) -> Vec<u8> {
        const LAST: &str = "Sug Hex9 Hex10 HexNAc en,aHex HexNAc12 Phosphate";
        let mut text = Vec::new();
        while length - text.len() > 12 {
            let most = length - text.len() - 3;
            let next = self.composition();
            if next.len() <= most {
                text.extend(next);
            } else {
                let piece = self.random.pick(&["Hex", "Fuc2", "NeuAc", "dHex99"]);
                text.extend(self.cased(piece));
            }
        }
        if length - text.len() > 9 {
            text.extend(self.cased("Pen2"));
        }
        let left = length - text.len();
        let last = LAST.split(' ').find(|piece| piece.len() == left);
        text.extend(self.cased(last.expect("a piece of three to nine bytes")));
        text
    }

    /// What no composition is, or hardly any: bytes of one changed, removed,
    /// inserted or doubled, counts that are none, names that are not listed.
    fn damaged_composition(&mut self) -> Vec<u8> {
        let mut text = self.composition();
        let index = self.random.below(text.len());
        let byte = TELLING_IN_COMPOSITIONS[self.random.below(TELLING_IN_COMPOSITIONS.len())];
        match self.random.below(12) {
            0 => text[index] = byte,
            1 => text.insert(index, byte),
            2 if text.len() > 1 => {
                text.remove(index);
            }
            3 => text.extend_from_slice(self.random.pick(&BAD_COUNTS).as_bytes()),
            4 => text.insert(0, b'1' + self.random.below(9) as u8),
            5 => text.extend_from_slice(self.random.pick(&UNLISTED_NAMES).as_bytes()),
            6 => text = self.random.pick(&NO_COMPOSITIONS).into(),
            7 => text.insert(index, b' '),
            8 => {
                let end = self.random.between(index, text.len());
                let stretch = text[index..end].to_vec();
                text.splice(end..end, stretch);
            }
            9 => text.truncate(index.max(1)),
            10 => text.swap(index, 0),
            _ => self.letters_or_digits(3, &mut text),
        }
        text
    }

    fn mass_part(&mut self) -> Inside {
        if self.random.chance(35) {
            self.measured_part()
        } else {
            self.stated_part()
        }
    }

    fn stated_part(&mut self) -> Inside {
        let part = if self.random.chance(25) {
            self.prefix()
        } else {
            Vec::new()
        };
        self.with_mass(part)
    }

    fn measured_part(&mut self) -> Inside {
        let part = self.cased("Obs:");
        self.with_mass(part)
    }

    /// A mass behind a key or prefix, or behind none.
    fn with_mass(&mut self, mut part: Inside) -> Inside {
        part.push(if self.random.chance(60) { b'+' } else { b'-' });
        part.extend(self.number());
        part
    }

    fn prefix(&mut self) -> Inside {
        let prefix = self.random.pick(&PREFIXES);
        self.cased(prefix)
    }

    fn number(&mut self) -> Inside {
        if self.random.chance(8) {
            return self.random.pick(&NUMBERS_IN_RANGE).into();
        }
        let digits = self.random.between(1, 6);
        let mut number = if self.random.chance(8) {
            vec![b'0'; 2]
        } else {
            Vec::new()
        };
        self.digits(digits, &mut number);
        if self.random.chance(50) {
            number.push(b'.');
            let decimals = self.random.between(1, 6);
            self.digits(decimals, &mut number);
        }
        number
    }

    fn digits(&mut self, count: usize, out: &mut Vec<u8>) {
        out.extend((0..count).map(|_| b'0' + self.random.below(10) as u8));
    }

    fn letters_or_digits(&mut self, count: usize, out: &mut Vec<u8>) {
        const ALPHABET: &[u8] = b"abcdefghijklmnopqrstuvwxyzABCDEFGHIJKLMNOPQRSTUVWXYZ0123456789";
        out.extend((0..count).map(|_| ALPHABET[self.random.below(ALPHABET.len())]));
    }

    fn accession_part(&mut self) -> Inside {
        let key = self
            .random
            .pick(&["UNIMOD:", "MOD:", "XLMOD:", "RESID:", "GNO:"]);
        let mut part = self.cased(key);
        let length = self.random.between(1, 8);
        if matches!(key, "RESID:" | "GNO:") {
            self.letters_or_digits(length, &mut part);
        } else {
            self.digits(length, &mut part);
        }
        part
    }

    fn name_part(&mut self) -> Inside {
        let mut part = if self.random.chance(30) {
            self.prefix()
        } else {
            Vec::new()
        };
        if self.random.chance(70) {
            let name = self.random.pick(&NAMES);
            part.extend_from_slice(name.as_bytes());
            // After U or M a name all digits is refusal 9, wanted elsewhere.
            if name == "35" {
                part.push(b'a');
            }
        } else {
            self.letters_or_digits(1, &mut part);
            part.push(b'~');
            let length = self.random.between(1, 24);
            self.text(length, 0, true, &mut part);
        }
        part
    }

    /// A text of about this length, which a label may follow or not.
    fn text(&mut self, length: usize, depth: usize, before_label: bool, out: &mut Vec<u8>) {
        for _ in 0..length {
            if depth < 8 && self.random.chance(4) {
                let (opening, closing) = self.pair_bytes();
                out.push(opening);
                let length = self.random.below(6);
                self.text(length, depth + 1, before_label, out);
                out.push(closing);
            } else {
                let byte = self.plain_byte(depth > 0, before_label);
                out.push(byte);
            }
        }
    }

    fn pair_bytes(&mut self) -> (u8, u8) {
        if self.random.chance(50) {
            (b'[', b']')
        } else {
            (b'{', b'}')
        }
    }

    fn plain_byte(&mut self, inside_pair: bool, before_label: bool) -> u8 {
        loop {
            let byte = self.random.between(32, 126) as u8;
            match byte {
                b'[' | b']' | b'{' | b'}' => {}
                b'|' if !inside_pair => {}
                b'#' if !inside_pair && before_label => {}
                _ => return byte,
            }
        }
    }

    /// A key word in some case or other.
    fn cased(&mut self, word: &str) -> Inside {
        let mut word = word.as_bytes().to_vec();
        match self.random.below(10) {
            0..=5 => {}
            6 => word.make_ascii_lowercase(),
            7 => word.make_ascii_uppercase(),
            _ => {
                for byte in &mut word {
                    if self.random.chance(50) {
                        *byte = byte.to_ascii_lowercase();
                    } else {
                        *byte = byte.to_ascii_uppercase();
                    }
                }
            }
        }
        word
    }

    // Faults

    fn spoil(&mut self, draft: &mut Draft) {
        match self.random.below(26) {
            0 => self.spoil_depth(draft),
            1..=2 => self.spoil_limits(draft),
            3..=4 => self.spoil_numbers(draft),
            5..=7 => self.spoil_with_excluded(draft),
            8..=9 => self.spoil_with_digits_for_name(draft),
            10..=11 => self.spoil_with_information(draft),
            12..=16 => self.spoil_labels(draft),
            17..=18 => self.spoil_floaters(draft),
            19..=22 => self.spoil_declarations(draft),
            _ => self.spoil_composition(draft),
        }
    }

    /// Puts a bracket somewhere: most often at a residue or terminus.
    fn put(&mut self, draft: &mut Draft, inside: Inside) {
        match self.random.below(10) {
            0 => draft.labile.push(inside),
            1 => draft.add_unknown(inside, None),
            2 => match draft.a_range(&mut self.random) {
                Some(range) => range.brackets.push(inside),
                None => draft.c_terminal.push(inside),
            },
            3 if !inside.contains(&b'#') => {
                let count = self.random.between(1, 3);
                let places = self.places(draft, count);
                draft.declared.push(Declaration { inside, places });
            }
            _ => draft.single_position(&mut self.random).push(inside),
        }
    }

    /// Refusal 5.
    fn spoil_depth(&mut self, draft: &mut Draft) {
        let depth = self.random.between(9, 12);
        let inside = self.nested(depth);
        self.put(draft, inside);
    }

    /// A part with pairs so deep.
    fn nested(&mut self, depth: usize) -> Inside {
        let mut part = match self.random.below(4) {
            0 => self.cased("INFO:"),
            1 => self.prefix(),
            _ => b"x".to_vec(),
        };
        let mut closings = Vec::new();
        for _ in 0..depth {
            let (opening, closing) = self.pair_bytes();
            part.push(opening);
            closings.push(closing);
            if self.random.chance(30) {
                part.extend_from_slice(self.random.pick(&["y", "{}", "[z]", "#", "|"]).as_bytes());
            }
        }
        part.extend(closings.iter().rev());
        part
    }

    /// Refusal 6, but for residues and brackets, which drafts come near to by
    /// themselves.
    fn spoil_limits(&mut self, draft: &mut Draft) {
        let inside = match self.random.below(3) {
            0 => self.part_count(5),
            1 => self.text_of_length(129),
            _ => self.label_of_length(17),
        };
        self.put(draft, inside);
    }

    fn part_count(&mut self, count: usize) -> Inside {
        let mut parts: Vec<Inside> = (0..count).map(|_| self.any_part()).collect();
        let index = self.random.below(count);
        parts[index] = self.modification_part();
        parts.join(&b'|')
    }

    /// A part with a text of this very length.
    fn text_of_length(&mut self, length: usize) -> Inside {
        let mut part = Vec::new();
        match self.random.below(6) {
            0 => {
                part = self.cased("UNIMOD:");
                self.digits(length, &mut part);
                return part;
            }
            1 => {
                part = self.cased("RESID:");
                self.letters_or_digits(length, &mut part);
                return part;
            }
            2 => part = self.cased("INFO:"),
            3 => part = self.prefix(),
            4 if self.random.chance(50) => {
                part = self.cased("Glycan:");
                part.extend(self.composition_of_length(length));
                return part;
            }
            _ => {}
        }
        let pair = self.random.pick(&["[]", "{}", "{|#}", "", ""]);
        part.push(b'k');
        part.extend_from_slice(pair.as_bytes());
        self.letters_or_digits(length - 1 - pair.len(), &mut part);
        part
    }

    /// A definition with a label of this length.
    fn label_of_length(&mut self, length: usize) -> Inside {
        let mut inside = self.modification_part();
        inside.push(b'#');
        inside.push(b'k');
        self.letters_or_digits(length - 1, &mut inside);
        inside
    }

    /// Refusal 7.
    fn spoil_numbers(&mut self, draft: &mut Draft) {
        if self.random.chance(25) {
            let count = self.random.pick(&COUNTS_OUT_OF_RANGE);
            let inside = self.modification();
            draft.add_unknown(inside, Some(count.into()));
            return;
        }
        let number = self.random.pick(&NUMBERS_OUT_OF_RANGE);
        let inside = self.with_number(number);
        self.put(draft, inside);
    }

    /// A bracket with this number as its mass or score.
    fn with_number(&mut self, number: &str) -> Inside {
        let sign = self.random.pick(&["+", "-"]);
        if self.random.chance(30) {
            let sign = self.random.pick(&["", sign]);
            return format!("x#{}({sign}{number})", self.random.pick(&LABELS)).into_bytes();
        }
        let mut inside = match self.random.below(4) {
            0 => self.prefix(),
            1 => self.cased("Obs:"),
            _ => Vec::new(),
        };
        inside.extend_from_slice(sign.as_bytes());
        inside.extend_from_slice(number.as_bytes());
        inside
    }

    /// Refusal 8.
    fn spoil_with_excluded(&mut self, draft: &mut Draft) {
        let mut inside = Vec::new();
        match self.random.below(4) {
            0 => {
                let key = self.random.pick(&["Formula:", "Position:", "Limit:"]);
                inside = self.cased(key);
                self.text(6, 0, false, &mut inside);
            }
            1 => {
                let name = self.random.pick(&EXCLUDED_NAMES);
                inside = self.cased(name);
                if self.random.chance(20) {
                    inside.extend_from_slice(b"#a");
                }
            }
            _ => {
                if self.random.chance(50) {
                    inside = self.modification_part();
                }
                let label = self.random.pick(&EXCLUDED_LABELS);
                inside.push(b'#');
                inside.extend(self.cased(label));
            }
        }
        if self.random.chance(20) && inside[0] != b'#' {
            inside = [self.any_part(), inside].join(&b'|');
        }
        self.put(draft, inside);
    }

    /// Refusal 9.
    fn spoil_with_digits_for_name(&mut self, draft: &mut Draft) {
        let prefix = self.random.pick(&["U:", "M:", "M:", "R:"]);
        let mut inside = self.cased(prefix);
        let count = self.random.between(1, 5);
        self.digits(count, &mut inside);
        if self.random.chance(15) {
            inside.extend(self.label("a"));
        }
        self.put(draft, inside);
    }

    /// Refusal 10.
    fn spoil_with_information(&mut self, draft: &mut Draft) {
        let inside = self.information();
        if self.random.chance(50) {
            draft.labile.push(inside);
        } else {
            let count = self.random.between(1, 2);
            let count = self.written_count(count);
            draft.add_unknown(inside, count);
        }
    }

    /// Refusal 11, each of its ways.
    fn spoil_labels(&mut self, draft: &mut Draft) {
        let name = self.random.pick(&LABELS);
        match self.random.below(6) {
            0 => {
                let other = self.random.pick(&LABELS);
                let inside = [self.labelled(name), self.labelled(other)].join(&b'|');
                draft.single_position(&mut self.random).push(inside);
            }
            1 => {
                for _ in 0..2 {
                    let inside = self.labelled(name);
                    draft.single_position(&mut self.random).push(inside);
                }
            }
            2 => {
                let reference = self.label(name);
                draft.single_position(&mut self.random).push(reference);
            }
            3 => {
                let inside = self.labelled(name);
                let count = self.random.pick(&COUNTS_IN_RANGE);
                draft.add_unknown(inside, Some(count.into()));
                let reference = self.label(name);
                draft.single_position(&mut self.random).push(reference);
            }
            4 => {
                let inside = self.labelled(name);
                draft.add_unknown(inside, None);
            }
            _ => {
                let inside = self.labelled(name);
                draft.add_unknown(inside, None);
                let again = self.labelled(name);
                self.put(draft, again);
            }
        }
    }

    /// Refusal 12.
    fn spoil_floaters(&mut self, draft: &mut Draft) {
        let copies = draft.floaters_left + self.random.between(1, 3);
        if self.random.chance(50) {
            let inside = self.modification();
            draft.add_unknown(inside, Some(copies.to_string().into_bytes()));
            return;
        }
        for _ in 0..copies {
            let inside = self.modification();
            self.add_floating(draft, inside);
        }
    }

    /// Refusal 21; 6 for a ninth declaration and a seventeenth place; 4 for
    /// labels, counts and what is no place.
    fn spoil_declarations(&mut self, draft: &mut Draft) {
        let count = self.random.between(1, 3);
        let mut one = Declaration {
            inside: self.modification(),
            places: self.places(draft, count),
        };
        match self.random.below(8) {
            0 => {
                let count = self.random.between(17, 20);
                one.places = self.places(draft, count);
            }
            1 => {
                for _ in draft.declared.len()..self.random.between(8, 9) {
                    self.add_declaration(draft, 1);
                }
            }
            2 => {
                let name = self.random.pick(&LABELS);
                one.inside.extend(self.label(name));
            }
            3 => {
                let index = self.random.below(one.places.len());
                one.places[index] = self.random.pick(&NO_PLACES).into();
            }
            _ => one.inside = self.information(),
        }
        let index = self.random.below(draft.declared.len() + 1);
        draft.declared.insert(index, one);
    }

    /// Refusal 19.
    fn spoil_composition(&mut self, draft: &mut Draft) {
        let mut inside = self.cased("Glycan:");
        if self.random.chance(80) {
            inside.extend(self.damaged_composition());
        } else {
            let length = self.random.between(1, 12);
            self.text(length, 0, true, &mut inside);
        }
        if self.random.chance(15) {
            inside.extend(self.label("a"));
        }
        if self.random.chance(20) {
            inside = [self.any_part(), inside].join(&b'|');
        }
        self.put(draft, inside);
    }

    /// Adds an unlabelled bracket on a range or, without one, in the run.
    fn add_floating(&mut self, draft: &mut Draft, inside: Inside) {
        match draft.a_range(&mut self.random) {
            Some(range) => range.brackets.push(inside),
            None => draft.add_unknown(inside, None),
        }
    }

    // Limits

    /// A line at a limit, just below it or just above it.
    fn line_near_limit(&mut self) -> Vec<u8> {
        let mut draft = match self.random.below(4) {
            0 => self.draft(),
            _ => self.bare_draft_without_groups(3),
        };
        match self.random.below(14) {
            0 => {
                let residues = self.random.between(252, 257);
                draft = self.bare_draft_without_groups(residues);
            }
            1 => draft = self.draft_with_brackets_near_limit(),
            2 => {
                let count = self.random.between(3, 6);
                let inside = self.part_count(count);
                self.put(&mut draft, inside);
            }
            3 => {
                let length = self.random.between(126, 130);
                let inside = self.text_of_length(length);
                self.put(&mut draft, inside);
            }
            4 => {
                let length = self.random.between(15, 18);
                let inside = self.label_of_length(length);
                draft.single_position(&mut self.random).push(inside);
            }
            5 => {
                let depth = self.random.between(7, 10);
                let inside = self.nested(depth);
                self.put(&mut draft, inside);
            }
            6 => {
                let count = self
                    .random
                    .pick(&["0", "1", "8", "9", "99", "100", "099", "0", "08"]);
                let inside = self.modification();
                draft.add_unknown(inside, Some(count.into()));
            }
            7 => draft = self.draft_with_floaters_near_limit(),
            8 => {
                let length = self.random.between(126, 140);
                let mut inside = self.cased("Glycan:");
                inside.extend(self.composition_of_length(length));
                self.put(&mut draft, inside);
            }
            9 => {
                for _ in draft.declared.len()..self.random.between(7, 10) {
                    self.add_declaration(&mut draft, 2);
                }
            }
            10 => {
                let places = self.random.between(15, 18);
                self.add_declaration(&mut draft, places);
            }
            _ => {
                let numbers = if self.random.chance(50) {
                    NUMBERS_IN_RANGE
                } else {
                    NUMBERS_OUT_OF_RANGE
                };
                let number = self.random.pick(&numbers);
                let inside = self.with_number(number);
                self.put(&mut draft, inside);
            }
        }
        draft.write(&mut self.random)
    }

    fn bare_draft_without_groups(&mut self, residues: usize) -> Draft {
        let mut draft = self.bare_draft(residues);
        for piece in &mut draft.pieces {
            if piece.grouping == Grouping::Range {
                piece.grouping = Grouping::Plain;
            }
        }
        draft
    }

    fn draft_with_brackets_near_limit(&mut self) -> Draft {
        let mut draft = self.bare_draft_without_groups(20);
        for _ in 0..self.random.between(62, 66) {
            let inside = match self.random.below(3) {
                0 => self.information(),
                _ => self.modification(),
            };
            if self.random.chance(10) {
                let labile = self.modification();
                draft.labile.push(labile);
            } else if draft.declared.len() < 8 && self.random.chance(5) {
                self.add_declaration(&mut draft, 1);
            } else {
                draft.single_position(&mut self.random).push(inside);
            }
        }
        draft
    }

    fn draft_with_floaters_near_limit(&mut self) -> Draft {
        let residues = self.random.between(1, 12);
        let mut draft = self.bare_draft(residues);
        self.add_range_brackets(&mut draft);
        let floaters = Line::MOST_FLOATERS - draft.floaters_left;
        let wanted = self.random.between(7, 10);
        for index in floaters..wanted {
            if self.random.chance(50) {
                let inside = self.labelled(&format!("n{index}"));
                draft.single_position(&mut self.random).push(inside);
            } else {
                let inside = self.modification();
                self.add_floating(&mut draft, inside);
            }
        }
        draft
    }

    /// A line of about 4,096 bytes, full of texts, with leading zeros to make
    /// up its length.
    fn line_of_length_near_limit(&mut self) -> Vec<u8> {
        let length = match self.random.below(6) {
            0 => self.random.between(4093, 4095),
            1 => 4096,
            2 => 4098 + self.random.below(4000),
            _ => 4097,
        };
        let residues = self.random.between(1, Line::MOST_RESIDUES);
        let mut draft = self.bare_draft_without_groups(residues);
        for _ in 0..self.random.below(50) {
            let length = self.random.between(1, 60);
            let mut inside = self.cased("INFO:");
            self.text(length, 0, false, &mut inside);
            draft.single_position(&mut self.random).push(inside);
        }
        let mut line = draft.write(&mut self.random);
        if draft.c_terminal.is_empty() {
            line.push(b'-');
        }
        line.extend_from_slice(b"[+");
        let ending = b"1]";
        line.resize(line.len().max(length - ending.len()), b'0');
        line.extend_from_slice(ending);
        line
    }

    // Lines where placing is tight

    /// A short line with many floaters that compete for few positions.
    fn crowded(&mut self) -> Vec<u8> {
        let residues = self.random.between(1, 9);
        let mut draft = self.bare_draft(residues);
        draft.floaters_left = self.random.between(4, Line::MOST_FLOATERS);
        self.add_range_brackets(&mut draft);
        let mut index = 0;
        while draft.floaters_left > 0 {
            draft.floaters_left -= 1;
            index += 1;
            if self.random.chance(40) {
                let name = format!("c{index}");
                for _ in 0..self.add_definition(&mut draft, &name) {
                    let reference = self.label(&name);
                    draft.single_position(&mut self.random).push(reference);
                }
            } else {
                let inside = self.modification();
                if self.random.chance(60) {
                    self.add_floating(&mut draft, inside);
                } else {
                    draft.add_unknown(inside, None);
                }
            }
        }
        for _ in 0..self.random.below(3) {
            let inside = self.modification();
            draft.single_position(&mut self.random).push(inside);
        }
        if self.random.chance(20) {
            let places = self.random.between(1, 2);
            self.add_declaration(&mut draft, places);
        }
        draft.write(&mut self.random)
    }

    // Bytes

    /// Refusal 3.
    fn line_with_bad_byte(&mut self) -> Vec<u8> {
        let mut line = match self.random.below(3) {
            0 => self.spoilt(),
            _ => self.sound(),
        };
        for _ in 0..self.few() {
            let index = self.random.below(line.len() + 1);
            let byte = [0, 9, 13, 31, 127, 128, 200, 255][self.random.below(8)];
            if index < line.len() && self.random.chance(50) {
                line[index] = byte;
            } else {
                line.insert(index, byte);
            }
        }
        line
    }

    /// A sound or spoilt line with bytes changed, inserted, removed, cut off
    /// or spliced.
    fn mutated(&mut self) -> Vec<u8> {
        let mut line = match self.random.below(5) {
            0 => self.spoilt(),
            1 => self.crowded(),
            2 => self.declared(),
            _ => self.sound(),
        };
        for _ in 0..self.few() {
            self.mutate(&mut line);
        }
        line
    }

    fn mutate(&mut self, line: &mut Vec<u8>) {
        if line.is_empty() {
            return;
        }
        let index = self.random.below(line.len());
        match self.random.below(8) {
            0..=1 => line[index] = self.telling_byte(),
            2..=3 => {
                let byte = self.telling_byte();
                line.insert(index, byte);
            }
            4 => {
                line.remove(index);
            }
            5 => line.truncate(index),
            6 => self.double_a_stretch(line, index),
            _ => self.splice(line, index),
        }
    }

    fn telling_byte(&mut self) -> u8 {
        if self.random.chance(85) {
            TELLING_BYTES[self.random.below(TELLING_BYTES.len())]
        } else {
            self.random.between(32, 126) as u8
        }
    }

    fn double_a_stretch(&mut self, line: &mut Vec<u8>, index: usize) {
        let end = self.random.between(index, line.len().min(index + 12));
        let stretch = line[index..end].to_vec();
        line.splice(end..end, stretch);
    }

    /// The front of this line and the end of another.
    fn splice(&mut self, line: &mut Vec<u8>, index: usize) {
        let other = self.sound();
        let from = self.random.below(other.len());
        line.truncate(index);
        line.extend_from_slice(&other[from..]);
    }

    /// Telling bytes in no order.
    fn noise(&mut self) -> Vec<u8> {
        let length = self.random.between(1, 12);
        (0..length).map(|_| self.telling_byte()).collect()
    }
}
