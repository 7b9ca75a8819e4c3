//! Glycan compositions (document 02, L1): "names from source document 001's
//! list (10.2), in either case, each perhaps with a count, 1 to 99, no leading
//! zeros".
//!
//! All ways to cut a text are counted, from its end to its front, one number
//! for each place in it. "A composition is accepted exactly when the text can
//! be cut into listed names and counts in one way only, and still so with its
//! counts of 1 dropped": a second way is told, and never found.

use crate::line::Number;

/// A name of 001's list in its spelling, with its mass: "Masses are that
/// list's, to four decimals".
pub struct Sugar {
    pub name: &'static str,
    pub daltons: &'static str,
}

const fn sugar(name: &'static str, daltons: &'static str) -> Sugar {
    Sugar { name, daltons }
}

/// The list of 001, 10.2, in its order, with its masses as they stand there.
pub const SUGARS: [Sugar; 24] = [
    sugar("Hex", "162.0528"),
    sugar("HexNAc", "203.0793"),
    sugar("HexS", "242.0096"),
    sugar("HexP", "242.0191"),
    sugar("HexNAcS", "283.0361"),
    sugar("HexN", "161.0688"),
    sugar("HexNS", "241.0256"),
    sugar("dHex", "146.0579"),
    sugar("aHex", "176.0321"),
    sugar("en,aHex", "158.0215"),
    sugar("Neu", "249.0849"),
    sugar("NeuAc", "291.0954"),
    sugar("NeuGc", "307.0903"),
    sugar("Sug", "42.0106"),
    sugar("Tri", "72.0211"),
    sugar("Tet", "102.0317"),
    sugar("Pen", "132.0422"),
    sugar("Hep", "192.0634"),
    sugar("Oct", "222.0740"),
    sugar("Non", "252.0845"),
    sugar("Dec", "282.0951"),
    sugar("Fuc", "146.0579"),
    sugar("Sulfate", "79.9568"),
    sugar("Phosphate", "79.9663"),
];

impl Sugar {
    /// The decimals that the list's masses have.
    pub const DECIMALS: u8 = 4;

    /// Its mass in millionths.
    pub fn millionths(&self) -> i64 {
        let (whole, decimals) = self.daltons.split_once('.').expect("a point");
        assert_eq!(decimals.len(), usize::from(Self::DECIMALS));
        let number = |digits: &str| digits.parse::<i64>().expect("digits");
        number(whole) * 1_000_000 + number(decimals) * 100
    }
}

/// A listed name, by its number in the list from 0, and how often it is taken.
#[derive(Clone, Copy, Debug, PartialEq, Eq)]
pub struct Piece {
    pub name: usize,
    pub count: u8,
}

/// The most that a count may be: "1 to 99".
const MOST_COUNT: u8 = 99;

/// What came of cutting a text.
#[derive(Clone, Debug, PartialEq, Eq)]
pub enum Cutting {
    /// Refusal 19: "no cutting".
    None,
    /// The pieces, in the order of the text.
    One(Vec<Piece>),
    /// Refusal 20: "more than one, as given or so shortened".
    Many,
}

/// In how many ways a text can be cut, as given.
pub fn ways(text: &[u8]) -> u64 {
    Ways::of(text).count()
}

/// Cuts a text of any length, as given and with its counts of 1 dropped.
pub fn cut(text: &[u8]) -> Cutting {
    let ways = Ways::of(text);
    match ways.count() {
        0 => Cutting::None,
        1 => {
            let pieces = ways.first();
            match Ways::of(&spelled(&pieces)).count() {
                1 => Cutting::One(pieces),
                _ => Cutting::Many,
            }
        }
        _ => Cutting::Many,
    }
}

/// "The list's spelling is written, a count of 1 dropped."
pub fn spelled(pieces: &[Piece]) -> Vec<u8> {
    let mut text = Vec::new();
    for piece in pieces {
        text.extend_from_slice(SUGARS[piece.name].name.as_bytes());
        if piece.count > 1 {
            text.extend_from_slice(piece.count.to_string().as_bytes());
        }
    }
    text
}

/// The sum of the list's masses, each as often as its count says.
pub fn mass(pieces: &[Piece]) -> Number {
    let of = |piece: &Piece| i64::from(piece.count) * SUGARS[piece.name].millionths();
    Number {
        millionths: pieces.iter().map(of).sum(),
        decimals: Sugar::DECIMALS,
    }
}

/// For each place of a text in how many ways the rest of it can be cut, and
/// the first piece of one of them with the place behind it.
struct Ways {
    counts: Vec<u64>,
    firsts: Vec<Option<(Piece, usize)>>,
}

impl Ways {
    fn of(text: &[u8]) -> Self {
        let end = text.len();
        let mut ways = Self {
            counts: vec![0; end + 1],
            firsts: vec![None; end + 1],
        };
        // Nothing is cut in one way, into no pieces. The text of a part is never
        // empty.
        ways.counts[end] = 1;
        for at in (0..end).rev() {
            for (name, sugar) in SUGARS.iter().enumerate() {
                let behind = at + sugar.name.len();
                let given = text.get(at..behind);
                if !given.is_some_and(|given| given.eq_ignore_ascii_case(sugar.name.as_bytes())) {
                    continue;
                }
                for (count, digits) in counts(&text[behind..]) {
                    let rest = behind + digits;
                    if ways.counts[rest] > 0 {
                        ways.counts[at] = ways.counts[at].saturating_add(ways.counts[rest]);
                        ways.firsts[at] = Some((Piece { name, count }, rest));
                    }
                }
            }
        }
        ways
    }

    /// In how many ways the whole text can be cut.
    fn count(&self) -> u64 {
        self.counts[0]
    }

    /// The pieces of one of them.
    fn first(&self) -> Vec<Piece> {
        let mut pieces = Vec::new();
        let mut at = 0;
        while let Some((piece, rest)) = self.firsts[at] {
            pieces.push(piece);
            at = rest;
        }
        pieces
    }
}

/// What a text may begin with as a count, and how many digits that takes:
/// nothing, which is once; and each number of 1 to 99 without leading zeros.
fn counts(text: &[u8]) -> Vec<(u8, usize)> {
    let mut counts = vec![(1, 0)];
    let mut value = 0;
    for (index, byte) in text.iter().enumerate().take(2) {
        if !byte.is_ascii_digit() || (index == 0 && *byte == b'0') {
            break;
        }
        value = value * 10 + (byte - b'0');
        if value <= MOST_COUNT {
            counts.push((value, index + 1));
        }
    }
    counts
}
