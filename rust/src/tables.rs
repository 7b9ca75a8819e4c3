//! What the tables of an accepted line hold.

use std::fmt::{self, Display, Formatter};
use std::ops::RangeInclusive;

use crate::lent::layout::{BRACKETS_AT, BRACKETS_USED_AT, HEAD, LETTERS_AT, PART, PLACES_AT, RESIDUES_AT, ROW, SECTIONS_AT, TEXTS_AT};
use crate::lent::{self, Mass, Position, BYTES, NUMBERS, PARTS, POSITIONS, SUGARS};
use crate::Refusal;

/// What a residue stands in.
#[derive(Clone, Copy, Debug, PartialEq, Eq, Hash)]
pub enum Section {
    /// Neither a range nor a group.
    Plain,
    /// The first residue of a range `(..)`.
    RangeFirst,
    /// A further residue of a range.
    RangeNext,
    /// The first residue of a group `(?..)`.
    UnsureFirst,
    /// A further residue of a group.
    UnsureNext,
}

/// Where a bracket stands.
#[derive(Clone, Copy, Debug, PartialEq, Eq, Hash)]
pub enum Kind {
    /// In a run of unknown positions.
    Unknown,
    /// In `{..}`.
    Labile,
    /// At the N-terminus.
    NTerm,
    /// On a residue.
    Residue,
    /// On a range.
    Range,
    /// At the C-terminus.
    CTerm,
    /// In a declaration: [`Declaration`](crate::Declaration) has its places and where these are.
    Declared,
}

/// A part's key word or prefix.
#[derive(Clone, Copy, Debug, PartialEq, Eq, Hash)]
#[allow(missing_docs)]
pub enum Key {
    None,
    U,
    M,
    R,
    X,
    G,
    C,
    Obs,
    Unimod,
    Mod,
    Xlmod,
    Resid,
    Gno,
    Info,
    Glycan,
}

// In the order of their numbers in the tables: sections from 0, kinds from 1, keys from 0 but for the last, which is 15.
const SECTIONS: [Section; 5] = [Section::Plain, Section::RangeFirst, Section::RangeNext, Section::UnsureFirst, Section::UnsureNext];
const KINDS: [Kind; 7] = [Kind::Unknown, Kind::Labile, Kind::NTerm, Kind::Residue, Kind::Range, Kind::CTerm, Kind::Declared];
const KEYS: [(Key, &str); 15] = [
    (Key::None, ""),
    (Key::U, "U:"),
    (Key::M, "M:"),
    (Key::R, "R:"),
    (Key::X, "X:"),
    (Key::G, "G:"),
    (Key::C, "C:"),
    (Key::Obs, "Obs:"),
    (Key::Unimod, "UNIMOD:"),
    (Key::Mod, "MOD:"),
    (Key::Xlmod, "XLMOD:"),
    (Key::Resid, "RESID:"),
    (Key::Gno, "GNO:"),
    (Key::Info, "INFO:"),
    (Key::Glycan, "Glycan:"),
];
const GLYCAN: u8 = 15;
const MASS: u8 = 1;
const TEXT: u8 = 2;
const COMPOSITION: u8 = 4;
const N_TERMINUS: u8 = 1;
const C_TERMINUS: u8 = 2;

impl Key {
    /// The key in its canonical spelling, with its colon.
    pub fn spelling(self) -> &'static str {
        KEYS[self as usize].1
    }
}

/// A mass or a score: its value in millionths, and how many decimals were written.
#[derive(Clone, Copy, Debug, PartialEq, Eq, Hash)]
pub struct Number {
    /// The value.
    pub millionths: i64,
    /// How many decimals were written.
    pub decimals: u8,
}

/// As it is written: a sign where it is negative, or where one is asked for (`{:+}`), and its decimals.
impl Display for Number {
    fn fmt(&self, f: &mut Formatter<'_>) -> fmt::Result {
        let size = self.millionths.unsigned_abs();
        let sign = match (self.millionths < 0, f.sign_plus()) {
            (true, _) => "-",
            (false, true) => "+",
            (false, false) => "",
        };
        write!(f, "{sign}{}", size / 1_000_000)?;
        if self.decimals > 0 {
            let places = usize::from(self.decimals);
            write!(f, ".{:.places$}", format!("{:06}", size % 1_000_000))?;
        }
        Ok(())
    }
}

/// A label, with its score if it has one.
#[derive(Clone, Debug, PartialEq, Eq, Hash)]
pub struct Label {
    /// Letters and digits.
    pub name: String,
    /// Its score.
    pub score: Option<Number>,
}

/// What a part says.
#[derive(Clone, Debug, PartialEq, Eq, Hash)]
pub enum Content {
    /// A delta mass.
    Mass(Number),
    /// A text, without its key or prefix.
    Text(String),
    /// Nothing but its label: a lone reference.
    Reference,
    /// A glycan composition.
    Composition {
        /// Its text in the list's spelling, without counts of 1.
        text: String,
        /// Its mass, with four decimals.
        mass: Number,
    },
}

/// A part of a bracket.
#[derive(Clone, Debug, PartialEq, Eq, Hash)]
pub struct Part {
    /// Its key word or prefix.
    pub key: Key,
    /// Its mass or text.
    pub content: Content,
    /// Its label.
    pub label: Option<Label>,
}

impl Part {
    /// The names and counts of a composition, in the order of its text, as the library cuts it; none where the part is no composition.
    ///
    /// ```
    /// # use hwemiduk::Peptidoform;
    /// let p: Peptidoform = "N[glycan:hexnac1HEX2]".parse()?;
    /// assert_eq!(p.brackets()[0].parts[0].composition(), Some(vec![("HexNAc", 1), ("Hex", 2)]));
    /// # Ok::<(), hwemiduk::Refusal>(())
    /// ```
    pub fn composition(&self) -> Option<Vec<(&'static str, u8)>> {
        match &self.content {
            Content::Composition { text, .. } => composition(text.as_bytes()).ok(),
            _ => None,
        }
    }
}

/// Cuts a text into the names and counts of a composition, in the order of the text, a count being 1 where none is written; or refuses it with 19. The names are those of
/// [`SUGARS`], and found in either case.
///
/// ```
/// assert_eq!(hwemiduk::composition(b"Hex5HexNAc4NeuAc")?, [("Hex", 5), ("HexNAc", 4), ("NeuAc", 1)]);
/// assert_eq!(hwemiduk::composition(b"Man5").unwrap_err().number(), 19);
/// # Ok::<(), hwemiduk::Refusal>(())
/// ```
pub fn composition(text: &[u8]) -> Result<Vec<(&'static str, u8)>, Refusal> {
    // a name has three bytes or more, and a piece takes two
    let mut pieces = vec![0; 2 * (text.len() / 3)];
    let length = lent::composition(text, &mut pieces)?;
    Ok(pieces[..length].chunks_exact(2).map(|piece| (SUGARS[usize::from(piece[0])], piece[1])).collect())
}

/// As it is written in the canonical line.
impl Display for Part {
    fn fmt(&self, f: &mut Formatter<'_>) -> fmt::Result {
        f.write_str(self.key.spelling())?;
        match &self.content {
            Content::Mass(mass) => write!(f, "{mass:+}")?,
            Content::Text(text) | Content::Composition { text, .. } => f.write_str(text)?,
            Content::Reference => {}
        }
        if let Some(label) = &self.label {
            write!(f, "#{}", label.name)?;
            if let Some(score) = label.score {
                write!(f, "({score})")?;
            }
        }
        Ok(())
    }
}

/// A bracket: what it says, where it stands, and how often.
#[derive(Clone, Debug, PartialEq, Eq, Hash)]
pub struct Bracket {
    /// Where it stands.
    pub kind: Kind,
    /// The positions it stands on; none where it is unknown, labile or declared.
    pub positions: Option<RangeInclusive<Position>>,
    /// How many copies; 1 where no count is written, and of a declaration, however many positions it reaches.
    pub count: u8,
    /// What it says, in synonyms.
    pub parts: Vec<Part>,
    /// The mass of one copy, as the library tells it: stated, only measured, or none. Only a stated one enters sums.
    pub mass: Mass,
}

impl Bracket {
    /// Its label: it has at most one.
    pub fn label(&self) -> Option<&Label> {
        self.parts.iter().find_map(|part| part.label.as_ref())
    }

    /// Whether it is a modification: neither a lone reference nor only INFO.
    pub fn is_modification(&self) -> bool {
        self.parts.iter().any(|part| part.key != Key::Info && part.content != Content::Reference)
    }
}

/// As it is written in the canonical line, without its count.
impl Display for Bracket {
    fn fmt(&self, f: &mut Formatter<'_>) -> fmt::Result {
        let (open, close) = if self.kind == Kind::Labile { ("{", "}") } else { ("[", "]") };
        f.write_str(open)?;
        for (index, part) in self.parts.iter().enumerate() {
            write!(f, "{}{part}", if index == 0 { "" } else { "|" })?;
        }
        f.write_str(close)
    }
}

/// A place that a declaration names.
#[derive(Clone, Copy, Debug, PartialEq, Eq, Hash)]
pub enum Place {
    /// Each residue with this letter, which is in upper case.
    Letter(char),
    /// The N-terminus.
    NTerm,
    /// The C-terminus.
    CTerm,
}

impl Place {
    fn of(site: u8) -> Self {
        match site {
            N_TERMINUS => Self::NTerm,
            C_TERMINUS => Self::CTerm,
            letter => Self::Letter(char::from(letter)),
        }
    }
}

/// As it is written in the canonical line.
impl Display for Place {
    fn fmt(&self, f: &mut Formatter<'_>) -> fmt::Result {
        match self {
            Self::Letter(letter) => write!(f, "{letter}"),
            Self::NTerm => f.write_str("N-term"),
            Self::CTerm => f.write_str("C-term"),
        }
    }
}

/// A modification that is declared once for the line: it is placed on each position that one of its places names.
#[derive(Clone, Debug, PartialEq, Eq, Hash)]
pub struct Declaration {
    /// Its bracket: the first declaration has the first bracket of the line, the second the second one.
    pub bracket: Bracket,
    /// Its places, as they are written.
    pub places: Vec<Place>,
    /// The positions that it reaches, ascending and each once, as the library tells them.
    pub positions: Vec<Position>,
}

/// As it is written in the canonical line.
impl Display for Declaration {
    fn fmt(&self, f: &mut Formatter<'_>) -> fmt::Result {
        write!(f, "<{}", self.bracket)?;
        for (index, place) in self.places.iter().enumerate() {
            write!(f, "{}{place}", if index == 0 { "@" } else { "," })?;
        }
        f.write_str(">")
    }
}

/// A floating copy: its bracket, which copy of it, and where it may stand.
#[derive(Clone, Debug, PartialEq, Eq, Hash)]
pub struct Floater {
    /// Its bracket's index among the brackets.
    pub index: usize,
    /// Its bracket.
    pub bracket: Bracket,
    /// Which copy of the bracket it is, counted from 1.
    pub copy: u8,
    /// The permitted positions, ascending: those with a placed modification are struck out.
    pub positions: Vec<Position>,
}

/// What a call answers over the tables of a canonical line, which is proved not to be refused.
pub(crate) fn held<T>(answer: Result<T, Refusal>) -> T {
    answer.unwrap_or_else(|refusal| unreachable!("the library refuses the tables of a canonical line: {refusal}"))
}

/// The areas that a line was read into.
#[derive(Clone)]
pub(crate) struct Tables {
    pub bytes: [u8; BYTES],
    pub numbers: [i64; NUMBERS],
}

/// A number that takes two bytes, the low one first.
fn wide(bytes: &[u8], at: usize) -> u16 {
    u16::from_le_bytes([bytes[at], bytes[at + 1]])
}

impl Tables {
    fn residue_count(&self) -> usize {
        usize::from(wide(&self.bytes, RESIDUES_AT))
    }

    pub fn residues(&self) -> String {
        self.bytes[LETTERS_AT..].iter().take(self.residue_count()).map(|&letter| char::from(letter)).collect()
    }

    pub fn sections(&self) -> Vec<Section> {
        self.bytes[SECTIONS_AT..].iter().take(self.residue_count()).map(|&code| SECTIONS[usize::from(code)]).collect()
    }

    pub fn brackets(&self) -> Vec<Bracket> {
        let rows = self.bytes[BRACKETS_AT..TEXTS_AT].chunks_exact(ROW);
        let numbers = self.numbers.chunks_exact(PARTS + 1);
        let used = rows.zip(numbers).take(usize::from(self.bytes[BRACKETS_USED_AT])).enumerate();
        used.map(|(index, (row, numbers))| self.bracket(index, row, numbers)).collect()
    }

    /// The declarations, whose brackets are the first ones of the line.
    pub fn declared(&self) -> Vec<Declaration> {
        let rows = self.bytes[BRACKETS_AT..TEXTS_AT].chunks_exact(ROW);
        let declared = self.brackets().into_iter().take_while(|bracket| bracket.kind == Kind::Declared);
        let declarations = declared.zip(rows).enumerate().map(|(index, (bracket, row))| {
            let (used, sites) = (usize::from(row[PLACES_AT]), &row[PLACES_AT + 1..]);
            Declaration { bracket, places: sites[..used].iter().map(|&site| Place::of(site)).collect(), positions: self.reached(index) }
        });
        declarations.collect()
    }

    fn reached(&self, bracket: usize) -> Vec<Position> {
        let mut positions = vec![0; POSITIONS];
        let count = held(lent::reached(&self.bytes, &self.numbers, bracket, &mut positions));
        positions.truncate(count);
        positions
    }

    fn bracket(&self, index: usize, row: &[u8], numbers: &[i64]) -> Bracket {
        let (kind, first, last, count, parts, score) = (row[0], wide(row, 1), wide(row, 3), row[5], row[6], row[7]);
        let kind = KINDS[usize::from(kind) - 1];
        let score = score.checked_sub(1).map(|decimals| Number { millionths: numbers[PARTS], decimals });
        let rows = row[HEAD..PLACES_AT].chunks_exact(PART).zip(numbers).take(usize::from(parts));
        Bracket {
            kind,
            positions: (!matches!(kind, Kind::Unknown | Kind::Labile | Kind::Declared)).then_some(first..=last),
            count,
            parts: rows.map(|(row, &mass)| self.part(row, mass, score)).collect(),
            mass: held(lent::bracket_mass(&self.bytes, &self.numbers, index)),
        }
    }

    fn part(&self, row: &[u8], mass: i64, score: Option<Number>) -> Part {
        let (value, key, decimals, text_length, label_length) = (row[0], row[1], row[2], usize::from(row[3]), usize::from(row[4]));
        let texts = &self.bytes[TEXTS_AT + usize::from(wide(row, 5))..];
        let spelled = |bytes: &[u8]| bytes.iter().map(|&byte| char::from(byte)).collect::<String>();
        Part {
            key: if key == GLYCAN { Key::Glycan } else { KEYS[usize::from(key)].0 },
            content: match value {
                MASS => Content::Mass(Number { millionths: mass, decimals }),
                TEXT => Content::Text(spelled(&texts[..text_length])),
                COMPOSITION => Content::Composition { text: spelled(&texts[..text_length]), mass: Number { millionths: mass, decimals } },
                _ => Content::Reference,
            },
            label: (label_length > 0).then(|| Label { name: spelled(&texts[text_length..][..label_length]), score }),
        }
    }
}
