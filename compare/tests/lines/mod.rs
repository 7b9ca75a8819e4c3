//! Lines to try, and areas to lend: what the areas hold is made by the independent code, with junk behind it.
#![allow(dead_code)]

use compare::areas::{encode, ROW, ROWS, ROW_PLACES};
use compare::floating::crowded;
use compare::generate::{share, Generator, Random};
use compare::line::{Composition, Content, Key, Kind, Label, Line, Number, Site};
use compare::reader::read;

pub const JUNK_BYTE: u8 = 0xA5;
pub const JUNK_NUMBER: i64 = -6_148_914_691_236_517_205;

const LINES: &[u8] = include_bytes!("../../vectors/lines.in");
const OUTCOMES: &str = include_str!("../../vectors/lines.json");

/// Two areas. The calls only read them: `unchanged` says that they did.
#[derive(Clone)]
pub struct Lent {
    pub bytes: Vec<u8>,
    pub numbers: Vec<i64>,
}

impl Lent {
    /// The areas that a line reads to, some longer than they need be.
    pub fn of(line: &Line) -> Self {
        let (mut bytes, mut numbers) = encode(line);
        bytes.resize(bytes.len() + line.residues.len() % 4, JUNK_BYTE);
        numbers.resize(numbers.len() + line.residues.len() % 3, JUNK_NUMBER);
        Self { bytes, numbers }
    }

    pub fn same(&self, other: &Self) -> bool {
        self.bytes == other.bytes && self.numbers == other.numbers
    }
}

/// Areas with a composition that no accepted line reads to, each with what is wrong in it: the part is one of `A[+1|Glycan:HexNAcHex2#a]C[#a]` with something changed.
pub fn wrong_compositions() -> Vec<(String, Lent)> {
    let right = Composition { text: b"HexNAcHex2".to_vec(), mass: Number { millionths: 527_184_900, decimals: 4 } };
    let of = |key: Key, content: Content<'static>| {
        let mut line = read(b"A[+1|Glycan:HexNAcHex2#a]C[#a]").unwrap();
        assert_eq!((line.parts[1].key, &line.parts[1].content), (Key::Glycan, &Content::Composition(Box::new(right.clone()))));
        line.parts[1].key = key;
        line.parts[1].content = content;
        Lent::of(&line)
    };
    let composition = |text: &[u8], millionths: i64, decimals: u8| {
        Content::Composition(Box::new(Composition { text: text.to_vec(), mass: Number { millionths, decimals } }))
    };
    let mut wrong = Vec::new();
    for millionths in [0, 1, -527_184_900, 527_184_800, 527_184_899, 527_184_901, 5_271_849_000, 365_132_100, i64::MAX, i64::MIN] {
        wrong.push((format!("the mass {millionths}"), of(Key::Glycan, composition(&right.text, millionths, 4))));
    }
    for decimals in [0, 1, 3, 5, 6, 7, 255] {
        wrong.push((format!("{decimals} decimals"), of(Key::Glycan, composition(&right.text, right.mass.millionths, decimals))));
    }
    for key in [Key::None, Key::U, Key::G, Key::Obs, Key::Unimod, Key::Gno, Key::Info] {
        wrong.push((format!("the key {key:?}"), of(key, composition(&right.text, right.mass.millionths, 4))));
    }
    for text in ["hexNAcHex2", "HexNacHex2", "HEXNACHEX2", "HexNAc1Hex2", "HexNAcHex02", "HexNAcHex", "HexNAcHex1Hex", "HexNAcHexHex1", "Hex", "foo", "HexNAcHex2 ", ""] {
        wrong.push((format!("the text {text:?}"), of(Key::Glycan, composition(text.as_bytes(), right.mass.millionths, 4))));
    }
    wrong.push(("a text".to_owned(), of(Key::Glycan, Content::Text(b"HexNAcHex2"))));
    wrong.push(("a mass".to_owned(), of(Key::Glycan, Content::Mass(right.mass))));
    wrong.push(("a reference".to_owned(), of(Key::Glycan, Content::Reference)));
    wrong
}

/// Areas with places or a declaration that no accepted line reads to, each with what is wrong in it.
pub fn wrong_places() -> Vec<(String, Lent)> {
    const LINE: &[u8] = b"<[+1]@K,N-term><[x]@C>[+2]?{+3}[+4]-KA[+5](CD)[+6]-[+7]";
    let right = Lent::of(&read(LINE).unwrap());
    let mut wrong = Vec::new();
    // bytes of a row: where in it, and what is put there
    let mut put = |what: String, row: usize, bytes: &[(usize, u8)]| {
        let mut lent = right.clone();
        for &(at, byte) in bytes {
            lent.bytes[ROWS + row * ROW + at] = byte;
        }
        assert!(!lent.same(&right), "{what}");
        wrong.push((what, lent));
    };
    let seventeen: Vec<(usize, u8)> = (1..=16).map(|at| (ROW_PLACES + at, b'K')).collect();
    for many in [17, 18, 75, 255] {
        put(format!("{many} places"), 0, &[(ROW_PLACES, many)]);
        put(format!("{many} places and sites"), 0, &[&seventeen[..], &[(ROW_PLACES, many)]].concat());
    }
    put("no places".to_owned(), 0, &[(ROW_PLACES, 0), (ROW_PLACES + 1, 0), (ROW_PLACES + 2, 0)]);
    for many in [0, 1, 3, 16] {
        put(format!("two sites and {many} places"), 0, &[(ROW_PLACES, many)]);
    }
    for site in [0, 3, 64, 91, b'k', 127, 128, 200, 255] {
        for at in 1..=2 {
            put(format!("site {site} at {at}"), 0, &[(ROW_PLACES + at, site)]);
        }
    }
    for site in [1, 2, 3, b'K', 200] {
        for at in [3, 4, 15, 16] {
            put(format!("site {site} behind the count at {at}"), 0, &[(ROW_PLACES + at, site)]);
        }
    }
    // each kind of bracket but a declaration's, and a row that is not used
    for row in 2..9 {
        put(format!("a place in row {row}"), row, &[(ROW_PLACES, 1), (ROW_PLACES + 1, b'K')]);
        put(format!("a terminus in row {row}"), row, &[(ROW_PLACES, 1), (ROW_PLACES + 1, 1)]);
        put(format!("a site in row {row}"), row, &[(ROW_PLACES + 1, b'K')]);
        put(format!("a number of places in row {row}"), row, &[(ROW_PLACES, 1)]);
        put(format!("the last site in row {row}"), row, &[(ROW_PLACES + 16, 2)]);
        put(format!("kind 7 in row {row}"), row, &[(0, 7)]);
        // the first row behind the declarations may be one more
        if row > 2 {
            put(format!("kind 7 with a place in row {row}"), row, &[(0, 7), (ROW_PLACES, 1), (ROW_PLACES + 1, b'K')]);
        }
    }
    for kind in [0, 1, 2, 3, 4, 5, 6, 8, 255] {
        put(format!("kind {kind} with places"), 0, &[(0, kind)]);
    }
    for (at, name) in [(1, "first"), (2, "first, high"), (3, "last"), (4, "last, high"), (5, "count"), (7, "score")] {
        for byte in [1, 2, 3] {
            if (at, byte) != (5, 1) {
                put(format!("{name} {byte}"), 0, &[(at, byte)]);
            }
        }
    }
    put("first and last 1".to_owned(), 0, &[(1, 1), (3, 1)]);
    put("count 0".to_owned(), 1, &[(5, 0)]);
    // what a declaration does not hold, and where none stands
    let mut of = |what: &str, edit: &dyn Fn(&mut Line)| {
        let mut line = read(LINE).unwrap();
        edit(&mut line);
        wrong.push((what.to_owned(), Lent::of(&line)));
    };
    let label = Label { name: b"a", score: None };
    of("a label", &|line| line.parts[0].label = Some(label));
    of("a reference", &|line| {
        line.parts[0].content = Content::Reference;
        line.parts[0].label = Some(label);
    });
    of("only INFO", &|line| {
        line.parts[0].key = Key::Info;
        line.parts[0].content = Content::Text(b"x");
    });
    of("a declaration behind an unknown one", &|line| line.brackets.swap(1, 2));
    of("a declaration behind a labile one", &|line| line.brackets.swap(1, 3));
    of("a declaration at the end", &|line| {
        let last = line.brackets.len() - 1;
        line.brackets.swap(0, last);
    });
    of("nine declarations", &|line| {
        for _ in 0..7 {
            let one = line.brackets[1];
            line.brackets.insert(1, one);
        }
        assert_eq!(line.brackets.iter().filter(|one| one.kind == Kind::Declared).count(), 9);
    });
    of("a letter that is none", &|line| line.places[0] = Site::Letter(b'['));
    wrong
}

/// The line with another mass in the place of each measured one, and with a name in the place of each.
pub fn remeasured<'a>(line: &Line<'a>) -> [Line<'a>; 2] {
    let with = |key: Key, content: Content<'a>| {
        let mut other = line.clone();
        for part in other.parts.iter_mut().filter(|part| part.key == Key::Obs) {
            part.key = key;
            part.content = content.clone();
        }
        other
    };
    [with(Key::Obs, Content::Mass(Number { millionths: 98_765_432_101, decimals: 6 })), with(Key::None, Content::Text(b"x"))]
}

pub fn shown(line: &[u8]) -> String {
    String::from_utf8_lossy(line).into_owned()
}

/// Calls with each vector that is accepted: the line, what it reads to, and its outcome as the vectors have it.
pub fn for_vectors(mut check: impl FnMut(&[u8], &Line, &str)) {
    let mut met = 0;
    let lines = LINES.split(|&byte| byte == 10);
    for (line, outcome) in lines.zip(OUTCOMES.lines()) {
        if let Ok(held) = read(line) {
            check(line, &held, outcome);
            met += 1;
        }
    }
    assert_eq!(met, 1132);
}

/// So many times more lines, and other ones, on request.
fn asked(name: &str, otherwise: usize) -> usize {
    std::env::var(name).ok().and_then(|value| value.parse().ok()).unwrap_or(otherwise)
}

pub fn seeded(seed: u64) -> u64 {
    seed + 1_000 * asked("HWEMIDUK_SEED", 0) as u64
}

pub fn many(count: usize) -> usize {
    share(count * asked("HWEMIDUK_TIMES", 1))
}

/// Calls with each accepted one of so many generated lines.
pub fn for_generated(seed: u64, count: usize, mut check: impl FnMut(&[u8], &Line)) {
    let mut met = 0;
    let count = many(count);
    for line in Generator::new(seeded(seed)).take(count) {
        if let Ok(held) = read(&line) {
            check(&line, &held);
            met += 1;
        }
    }
    assert!(met * 4 > count, "{met} accepted");
}

/// Calls with each accepted one of so many lines with 0 to 10 declarations.
pub fn for_declared(seed: u64, count: usize, mut check: impl FnMut(&[u8], &Line)) {
    let mut generator = Generator::new(seeded(seed));
    let mut met = 0;
    let count = many(count);
    for _ in 0..count {
        let line = generator.declared();
        if let Ok(held) = read(&line) {
            check(&line, &held);
            met += 1;
        }
    }
    assert!(met * 3 > count, "{met} accepted");
}

/// Calls with so many short lines full of floating copies.
pub fn for_crowded(seed: u64, count: usize, most_residues: usize, mut check: impl FnMut(&[u8], &Line)) {
    let mut random = Random::new(seeded(seed));
    let mut met = 0;
    let count = many(count);
    while met < count {
        let line = crowded(&mut random, most_residues);
        if let Ok(held) = read(&line) {
            check(&line, &held);
            met += 1;
        }
    }
}
