//! What a read line holds ("The tables"), and the limits: "The limits stand
//! once, with the type they belong to".

/// A number of document 01's list and what it leaves ("Numbers and what they
/// leave"). `place` is the place, the length needed or how many, as the list
/// says for each number.
#[derive(Clone, Copy, Debug, PartialEq, Eq)]
pub struct Refusal {
    pub number: u8,
    pub place: usize,
}

impl Refusal {
    pub const fn new(number: u8, place: usize) -> Self {
        Self { number, place }
    }
}

/// One linear peptidoform. Texts and labels are parts of the line (or of the
/// lent texts) that it was read from.
#[derive(Clone, Debug, PartialEq, Eq, Default)]
pub struct Line<'a> {
    pub residues: Vec<Residue>,
    /// In order of appearance.
    pub brackets: Vec<Bracket>,
    /// The parts of all brackets, in order of appearance.
    pub parts: Vec<Part<'a>>,
    /// The places of all declarations, in order of appearance.
    pub places: Vec<Site>,
}

impl<'a> Line<'a> {
    /// "line 1 to 4,096 bytes"
    pub const LONGEST: usize = 4096;
    /// "residues 1 to 254"
    pub const MOST_RESIDUES: usize = 254;
    /// "brackets, square and curly together, 64"
    pub const MOST_BRACKETS: usize = 64;
    /// "floating copies 8"
    pub const MOST_FLOATERS: usize = 8;
    /// "up to eight declarations"
    pub const MOST_DECLARATIONS: usize = 8;

    /// The parts of one of this line's brackets.
    pub fn parts_of(&self, bracket: &Bracket) -> &[Part<'a>] {
        &self.parts[bracket.first_part..][..bracket.part_count]
    }

    /// The places of one of this line's brackets, which only a declaration
    /// has.
    pub fn places_of(&self, bracket: &Bracket) -> &[Site] {
        &self.places[bracket.first_place..][..bracket.place_count]
    }

    /// What stands at a position, as a declaration names it.
    pub fn site_at(&self, position: usize) -> Option<Site> {
        match position.checked_sub(1) {
            None => Some(Site::NTerminus),
            Some(index) if index == self.residues.len() => Some(Site::CTerminus),
            Some(index) => self
                .residues
                .get(index)
                .map(|residue| Site::Letter(residue.letter)),
        }
    }

    /// The C-terminus: "n+1 the C-terminus".
    pub fn c_terminus(&self) -> usize {
        self.residues.len() + 1
    }

    /// The label of a bracket, in a definition or in a reference.
    pub fn label_of(&self, bracket: &Bracket) -> Option<&Label<'a>> {
        self.parts_of(bracket)
            .iter()
            .find_map(|part| part.label.as_ref())
    }

    /// "a lone reference `#label`"
    pub fn is_reference(&self, bracket: &Bracket) -> bool {
        matches!(
            self.parts_of(bracket),
            [Part {
                content: Content::Reference,
                ..
            }]
        )
    }

    /// "A bracket with only INFO is no modification." Neither is a reference,
    /// which names the modification of its label's definition.
    pub fn is_modification(&self, bracket: &Bracket) -> bool {
        !self.is_reference(bracket) && !self.is_only_information(bracket)
    }

    pub fn is_only_information(&self, bracket: &Bracket) -> bool {
        self.parts_of(bracket)
            .iter()
            .all(|part| part.key == Key::Info)
    }

    /// "A modification is placed when it is unlabelled and stands on a residue
    /// or terminus."
    pub fn is_placed(&self, bracket: &Bracket) -> bool {
        bracket.kind.is_single_position()
            && self.is_modification(bracket)
            && self.label_of(bracket).is_none()
    }

    /// How many floating copies stand in a bracket: "each copy of an
    /// unlabelled unknown one (every copy is a floater of its own); each
    /// unlabelled one on a range; each label's definition".
    pub fn floating_copies(&self, bracket: &Bracket) -> usize {
        if !self.is_modification(bracket) {
            return 0;
        }
        match (self.label_of(bracket), bracket.kind) {
            (Some(_), _) => 1,
            (None, Kind::Unknown) => usize::from(bracket.count),
            (None, Kind::Range) => 1,
            (None, _) => 0,
        }
    }

    /// How many floating copies the line has.
    pub fn floaters(&self) -> usize {
        self.brackets
            .iter()
            .map(|bracket| self.floating_copies(bracket))
            .sum()
    }
}

/// A residue in upper case with its section.
#[derive(Clone, Copy, Debug, PartialEq, Eq)]
pub struct Residue {
    pub letter: u8,
    pub section: Section,
}

#[derive(Clone, Copy, Debug, PartialEq, Eq)]
#[repr(u8)]
pub enum Section {
    Plain = 0,
    RangeFirst = 1,
    RangeFurther = 2,
    /// First residue of a `(?..)`.
    AmbiguousFirst = 3,
    AmbiguousFurther = 4,
}

impl Section {
    pub fn from_byte(byte: u8) -> Option<Self> {
        Some(match byte {
            0 => Self::Plain,
            1 => Self::RangeFirst,
            2 => Self::RangeFurther,
            3 => Self::AmbiguousFirst,
            4 => Self::AmbiguousFurther,
            _ => return None,
        })
    }
}

/// A bracket with its kind, its positions and its count.
#[derive(Clone, Copy, Debug, PartialEq, Eq)]
pub struct Bracket {
    pub kind: Kind,
    /// Position 0 is the N-terminus, 1 to n the residues, n+1 the C-terminus;
    /// 0 too where a bracket has no position.
    pub first: usize,
    pub last: usize,
    pub count: u8,
    /// Where its parts begin among the parts of the line.
    pub first_part: usize,
    pub part_count: usize,
    /// Where its places begin among the places of the line.
    pub first_place: usize,
    pub place_count: usize,
}

impl Bracket {
    /// "parts in a bracket 4"
    pub const MOST_PARTS: usize = 4;
    /// "count 1 to 99"
    pub const LEAST_COUNT: u64 = 1;
    pub const MOST_COUNT: u64 = 99;
    /// Of a declaration: "up to 16 places"
    pub const MOST_PLACES: usize = 16;
}

/// "a place being a letter, `N-term` or `C-term`"; a letter is in upper case.
#[derive(Clone, Copy, Debug, PartialEq, Eq)]
pub enum Site {
    Letter(u8),
    NTerminus,
    CTerminus,
}

impl Site {
    pub fn from_byte(byte: u8) -> Option<Self> {
        Some(match byte {
            1 => Self::NTerminus,
            2 => Self::CTerminus,
            b'A'..=b'Z' => Self::Letter(byte),
            _ => return None,
        })
    }

    pub fn to_byte(self) -> u8 {
        match self {
            Self::NTerminus => 1,
            Self::CTerminus => 2,
            Self::Letter(letter) => letter,
        }
    }
}

#[derive(Clone, Copy, Debug, PartialEq, Eq)]
#[repr(u8)]
pub enum Kind {
    Unknown = 1,
    Labile = 2,
    NTerminal = 3,
    Residue = 4,
    Range = 5,
    CTerminal = 6,
    /// The bracket of a declaration.
    Declared = 7,
}

impl Kind {
    pub fn from_byte(byte: u8) -> Option<Self> {
        Some(match byte {
            1 => Self::Unknown,
            2 => Self::Labile,
            3 => Self::NTerminal,
            4 => Self::Residue,
            5 => Self::Range,
            6 => Self::CTerminal,
            7 => Self::Declared,
            _ => return None,
        })
    }

    /// Whether a bracket of this kind stands at one position.
    pub fn is_single_position(self) -> bool {
        matches!(self, Self::NTerminal | Self::Residue | Self::CTerminal)
    }
}

/// A part with its key or prefix, its text or mass, and its label.
#[derive(Clone, Debug, PartialEq, Eq)]
pub struct Part<'a> {
    pub key: Key,
    pub content: Content<'a>,
    pub label: Option<Label<'a>>,
}

impl Part<'_> {
    /// "text of a part, after key or prefix, 128 bytes"
    pub const LONGEST_TEXT: usize = 128;
    /// "pairs within a text 8 deep"
    pub const DEEPEST_PAIR: usize = 8;
}

#[derive(Clone, Debug, PartialEq, Eq)]
pub enum Content<'a> {
    Mass(Number),
    /// The text without its key or prefix.
    Text(&'a [u8]),
    /// A lone reference has its label and nothing else.
    Reference,
    Composition(Box<Composition>),
}

/// "The list's spelling is written, a count of 1 dropped": a composition's text
/// so, and its mass.
#[derive(Clone, Debug, PartialEq, Eq)]
pub struct Composition {
    pub text: Vec<u8>,
    pub mass: Number,
}

#[derive(Clone, Copy, Debug, PartialEq, Eq)]
#[repr(u8)]
pub enum Key {
    None = 0,
    U = 1,
    M = 2,
    R = 3,
    X = 4,
    G = 5,
    C = 6,
    Obs = 7,
    Unimod = 8,
    Mod = 9,
    Xlmod = 10,
    Resid = 11,
    Gno = 12,
    Info = 13,
    /// 14, 16 and 17 are the keys of refusal 8.
    Glycan = 15,
}

impl Key {
    const ALL: [Key; 15] = [
        Key::None,
        Key::U,
        Key::M,
        Key::R,
        Key::X,
        Key::G,
        Key::C,
        Key::Obs,
        Key::Unimod,
        Key::Mod,
        Key::Xlmod,
        Key::Resid,
        Key::Gno,
        Key::Info,
        Key::Glycan,
    ];

    pub fn from_byte(byte: u8) -> Option<Self> {
        Self::ALL.iter().copied().find(|&key| key as u8 == byte)
    }

    /// The key and its colon "in the spelling given here".
    pub fn spelling(self) -> &'static [u8] {
        match self {
            Key::None => b"",
            Key::U => b"U:",
            Key::M => b"M:",
            Key::R => b"R:",
            Key::X => b"X:",
            Key::G => b"G:",
            Key::C => b"C:",
            Key::Obs => b"Obs:",
            Key::Unimod => b"UNIMOD:",
            Key::Mod => b"MOD:",
            Key::Xlmod => b"XLMOD:",
            Key::Resid => b"RESID:",
            Key::Gno => b"GNO:",
            Key::Info => b"INFO:",
            Key::Glycan => b"Glycan:",
        }
    }
}

/// "A label is letters and digits, then perhaps a score".
#[derive(Clone, Copy, Debug, PartialEq, Eq)]
pub struct Label<'a> {
    pub name: &'a [u8],
    pub score: Option<Number>,
}

impl Label<'_> {
    /// "label 16"
    pub const LONGEST: usize = 16;
}

/// "A number keeps its value in millionths and its count of decimals."
#[derive(Clone, Copy, Debug, PartialEq, Eq)]
pub struct Number {
    pub millionths: i64,
    pub decimals: u8,
}

impl Number {
    /// "below 1,000,000 in size"
    pub const BEYOND: u64 = 1_000_000;
    /// "with at most 6 decimals"
    pub const MOST_DECIMALS: usize = 6;
    /// How many millionths make a whole.
    pub const WHOLE: u64 = 1_000_000;
}
