//! The proved library against the independent reader: on the outside vectors, on generated lines, on lines of every awkward length.

use compare::areas::{encode, BYTES_SIZE, NUMBERS_SIZE};
use compare::generate::{share, Generator, Random};
use compare::glycans::{cut, Cutting, SUGARS};
use compare::line::Refusal;
use compare::trials::{declarations, measured};
use compare::{proved, reader, register};

const JUNK_BYTE: u8 = 0xA5;
const JUNK_NUMBER: i64 = -6_148_914_691_236_517_205;

/// The answer, and every byte and number of areas that were full of junk and longer than they need be.
fn alike(line: &[u8]) {
    let shown = String::from_utf8_lossy(line);
    let ours = reader::read(line);
    assert_eq!(proved::verdict(line), ours.clone().map(|_| ()), "{shown:?}");
    let mut bytes = vec![JUNK_BYTE; BYTES_SIZE + 3];
    let mut numbers = vec![JUNK_NUMBER; NUMBERS_SIZE + 2];
    let theirs = proved::read(line, &mut bytes, &mut numbers);
    assert_eq!(theirs, ours.clone().map(|_| ()), "{shown:?}");
    let (mut want_bytes, mut want_numbers) = match &ours {
        Ok(held) => encode(held),
        Err(_) => (vec![JUNK_BYTE; BYTES_SIZE], vec![JUNK_NUMBER; NUMBERS_SIZE]),
    };
    want_bytes.resize(BYTES_SIZE + 3, JUNK_BYTE);
    want_numbers.resize(NUMBERS_SIZE + 2, JUNK_NUMBER);
    assert!(bytes == want_bytes, "bytes of {shown:?}");
    assert!(numbers == want_numbers, "numbers of {shown:?}");
}

/// The register's entry of a line, into outputs that are longer than need be, just long enough and too short, all of junk.
fn entered(number: u64, line: &[u8]) {
    let mut ours = Vec::new();
    register::answer(number, line, &mut ours);
    for room in [ours.len() + 5, ours.len(), ours.len() - 1, 0] {
        let mut out = vec![JUNK_BYTE; room];
        let answer = proved::entry(number, line, &mut out);
        if room < ours.len() {
            assert_eq!(answer, Err(Refusal { number: 15, place: ours.len() }));
            assert!(out.iter().all(|&x| x == JUNK_BYTE));
        } else {
            assert_eq!(answer, Ok(ours.len()));
            assert!(out[..ours.len()] == ours[..] && out[ours.len()..].iter().all(|&x| x == JUNK_BYTE), "{:?}", String::from_utf8_lossy(line));
        }
    }
}

#[test]
fn entries() {
    let lines = include_bytes!("../vectors/lines.in");
    for (line, number) in lines.split(|&b| b == 10).zip(0..) {
        entered(number, line);
    }
    for line in Generator::new(29).take(share(5_000)) {
        entered(u64::MAX, &line);
    }
    for one in declarations().iter().chain(&measured()) {
        entered(1, &one.line);
    }
}

#[test]
fn short_areas() {
    let thirteen = Err(Refusal { number: 13, place: 0 });
    for (b, n) in [(BYTES_SIZE - 1, NUMBERS_SIZE), (BYTES_SIZE, NUMBERS_SIZE - 1), (0, 0), (0, NUMBERS_SIZE), (BYTES_SIZE, 0)] {
        for line in [&b"A"[..], b"", b"A[", &[0]] {
            let mut bytes = vec![JUNK_BYTE; b];
            let mut numbers = vec![JUNK_NUMBER; n];
            assert_eq!(proved::read(line, &mut bytes, &mut numbers), thirteen);
            assert!(bytes.iter().all(|&x| x == JUNK_BYTE) && numbers.iter().all(|&x| x == JUNK_NUMBER));
        }
    }
}

#[test]
fn vectors() {
    let lines = include_bytes!("../vectors/lines.in");
    let outs = include_str!("../vectors/lines.out");
    let mut count = 0;
    for (line, out) in lines.split(|&b| b == 10).zip(outs.lines()) {
        let words: Vec<&str> = out.splitn(5, ' ').collect();
        let said = proved::verdict(line);
        if words[1] == "ok" {
            assert!(said.is_ok(), "{out}");
        } else {
            let refusal = said.expect_err(out);
            assert_eq!(refusal.number.to_string(), words[2], "{out}");
            assert_eq!(refusal.place.to_string(), words[3], "{out}");
        }
        count += 1;
    }
    assert_eq!(count, 2400);
}

#[test]
fn generated_lines() {
    let count = std::env::var("HWEMIDUK_LINES").ok().and_then(|n| n.parse().ok()).unwrap_or(share(200_000));
    let mut refused = [0usize; 22];
    for line in Generator::new(20261115).take(count) {
        alike(&line);
        if let Err(refusal) = reader::read(&line) {
            refused[refusal.number as usize] += 1;
        }
    }
    // a test that met no refusal of some number would show nothing of it
    for number in (3..=12).chain([19, 21]) {
        let met = refused[number];
        assert!(met * 200 >= count, "refusal {number} was met {met} times");
    }
}

/// What the library says of a text, into rooms that are longer than need be, just long enough and too short, all of junk, against all ways to cut it. Whether it is
/// cut.
fn cut_alike(text: &[u8]) -> bool {
    let shown = String::from_utf8_lossy(text);
    let pieces: Vec<u8> = match cut(text) {
        Cutting::One(pieces) => pieces.iter().flat_map(|piece| [piece.name as u8, piece.count]).collect(),
        Cutting::None => {
            for room in [0, 1, text.len() + 2] {
                let mut out = vec![JUNK_BYTE; room];
                assert_eq!(proved::composition(text, &mut out), Err(Refusal { number: 19, place: 0 }), "{shown:?}");
                assert!(out.iter().all(|&x| x == JUNK_BYTE), "{shown:?}");
            }
            return false;
        }
        Cutting::Many => panic!("a second cutting of {shown:?}"),
    };
    for room in [pieces.len() + 3, pieces.len(), pieces.len().saturating_sub(1), 0] {
        let mut out = vec![JUNK_BYTE; room];
        let answer = proved::composition(text, &mut out);
        if room < pieces.len() {
            assert_eq!(answer, Err(Refusal { number: 15, place: pieces.len() }), "{shown:?}");
            assert!(out.iter().all(|&x| x == JUNK_BYTE), "{shown:?}");
        } else {
            assert_eq!(answer, Ok(pieces.len()), "{shown:?}");
            assert!(out[..pieces.len()] == pieces[..] && out[pieces.len()..].iter().all(|&x| x == JUNK_BYTE), "{shown:?}");
        }
    }
    true
}

/// A few names with counts, some of them no counts, in some case or other.
fn named(random: &mut Random, most: usize) -> Vec<u8> {
    let mut text = Vec::new();
    for _ in 0..random.between(1, most) {
        let name = SUGARS[random.below(SUGARS.len())].name.as_bytes();
        text.extend(name.iter().map(|byte| if random.chance(50) { byte.to_ascii_lowercase() } else { byte.to_ascii_uppercase() }));
        text.extend_from_slice(random.pick(&["", "", "", "1", "2", "9", "10", "99", "12", "0", "01", "100"]).as_bytes());
    }
    text
}

#[test]
fn pieces_of_compositions() {
    let mut random = Random::new(34);
    let (mut whole, mut none) = (0, 0);
    let mut count = |is_cut: bool| if is_cut { whole += 1 } else { none += 1 };
    for first in &SUGARS {
        for digits in ["", "1", "2", "10", "99", "0", "00", "01", "100"] {
            for second in &SUGARS {
                count(cut_alike(format!("{}{digits}{}", first.name, second.name).as_bytes()));
                count(cut_alike(format!("{}{}{digits}", first.name, second.name).to_lowercase().as_bytes()));
            }
        }
    }
    for _ in 0..share(20_000) {
        let text = named(&mut random, 6);
        count(cut_alike(&text));
        let at = random.below(text.len());
        let mut other = text.clone();
        other[at] = b"0129 SsNnAaEeXxHhPp,cCgGdDtTuU"[random.below(30)];
        count(cut_alike(&other));
        other.remove(at);
        count(cut_alike(&other));
        count(cut_alike(&text[at..]));
        count(cut_alike(&text[..at]));
    }
    for length in [0usize, 1, 3, 126, 127, 128, 129, 4096, 100_000] {
        count(cut_alike(&vec![b'H'; length]));
        count(cut_alike(&b"Hex".repeat(length.min(2000))));
        count(cut_alike(&b"Hex9".repeat(length.min(2000))));
        count(cut_alike(&vec![0; length]));
        count(cut_alike(&vec![b'9'; length]));
    }
    for a in 0..=255u8 {
        for b in 0..=255u8 {
            count(cut_alike(&[b'H', b'e', b'x', a, b]));
        }
    }
    assert!(whole > share(20_000) && none > share(30_000), "{whole} {none}");
}

#[test]
fn compositions_in_lines() {
    let mut random = Random::new(35);
    for _ in 0..share(20_000) {
        let text = named(&mut random, 30);
        let line = [b"A[Glycan:", &text[..], b"]"].concat();
        alike(&line);
        alike(&[b"{+1|", &line[2..line.len() - 1], b"}A"].concat());
        alike(&[&line[..line.len() - 1], b"#a(0.5)]C[#a]"].concat());
    }
}

/// The lines with declarations whose outcomes are written down.
#[test]
fn given_declarations() {
    for one in declarations() {
        alike(&one.line);
        let outcome = String::from_utf8(one.outcome).unwrap();
        let words: Vec<&str> = outcome.split(' ').collect();
        let said = match proved::verdict(&one.line) {
            Ok(()) => "ok".to_owned(),
            Err(refusal) => format!("no {} {}", refusal.number, refusal.place),
        };
        let expected = if words[0] == "ok" { "ok" } else { outcome.as_str() };
        assert_eq!(said, expected, "{}", String::from_utf8_lossy(&one.line));
    }
}

/// The lines with measured masses: the register prints what is written down.
#[test]
fn given_measured_masses() {
    for one in measured() {
        alike(&one.line);
        let expected = [b"7 ", &one.outcome[..], b"\n"].concat();
        let mut out = vec![JUNK_BYTE; expected.len()];
        assert_eq!(proved::entry(7, &one.line, &mut out), Ok(expected.len()));
        assert_eq!(String::from_utf8_lossy(&out), String::from_utf8_lossy(&expected));
    }
}

/// Lines with 0 to 10 declarations of 1 to 20 places, and each with a byte changed, doubled, removed and cut off at every place.
#[test]
fn damaged_declarations() {
    const BYTES: &[u8] = b"<>@,[]{}|#^?-()+:NCnctermTERMKk1 ";
    let mut random = Random::new(36);
    let mut generator = Generator::new(36);
    for line in std::iter::repeat_with(|| generator.declared()).filter(|line| line.len() < 150).take(share(400).max(10)) {
        alike(&line);
        for at in 0..line.len() {
            let mut other = line.clone();
            other[at] = BYTES[random.below(BYTES.len())];
            alike(&other);
            other.insert(at, line[at]);
            alike(&other);
            other.drain(at..at + 2);
            alike(&other);
            alike(&line[..at]);
        }
    }
}

/// Every byte and pair of bytes where a place stands, behind a terminus's letter and between two declarations; every number of places and of declarations.
#[test]
fn places_of_declarations() {
    for a in 0..=255u8 {
        alike(&[b"<[x]@", &[a][..], b">K"].concat());
        alike(&[b"<[x]@N-ter", &[a][..], b">K"].concat());
        alike(&[b"<[x]@K>", &[a][..], b"<[x]@K>K"].concat());
        alike(&[b"<[x]", &[a][..], b"@K>K"].concat());
        alike(&[b"<", &[a][..], b"[x]@K>K"].concat());
        for b in b'+'..=b'z' {
            if !a.is_ascii_graphic() {
                break;
            }
            alike(&[b"<[x]@", &[a, b][..], b">K"].concat());
            alike(&[b"<[x]@C-", &[a, b][..], b"rm>K"].concat());
            alike(&[b"<[x]@K", &[a, b][..], b">K"].concat());
        }
    }
    for count in 0..=40 {
        for place in ["K", "n-term", "C-TERM", "z"] {
            let places = vec![place; count].join(",");
            alike(format!("<[+1]@{places}>K").as_bytes());
            alike(format!("<[+1]@K><[INFO:x]@{places}>K[#a]").as_bytes());
        }
        alike(format!("{}K", "<[+1|x]@K,N-term>".repeat(count)).as_bytes());
        alike(format!("{}K{}", "<[+1]@K>".repeat(count), "[x]".repeat(60)).as_bytes());
        alike(format!("{}[+1]^2?K", "<[INFO:x]@K>".repeat(count)).as_bytes());
    }
    for n in [1usize, 250, 4095, 4096, 4097] {
        alike(&vec![b'<'; n]);
        alike(&[b"<[x]@", &b"K,".repeat(n)[..], b"K>A"].concat());
        alike(&[&b"<[x]@K>".repeat(n)[..], b"A"].concat());
    }
}

#[test]
fn awkward_lengths() {
    for n in [0usize, 1, 253, 254, 255, 4095, 4096, 4097, 100_000] {
        alike(&vec![b'A'; n]);
        alike(&vec![b'['; n]);
        alike(&vec![b' '; n]);
        alike(&vec![0; n]);
        alike(&vec![255; n]);
        let mut text = b"A[".to_vec();
        text.resize(n.max(3), b'x');
        alike(&text);
        let mut deep = b"A[".to_vec();
        while deep.len() + 2 < n {
            deep.extend(b"{[");
        }
        alike(&deep);
        let mut zeros = b"A[+".to_vec();
        zeros.resize(n.max(5) - 1, b'0');
        zeros.push(b']');
        alike(&zeros);
    }
}

/// Pairs as deep as one call of the proved reader keeps closers for, less deep and deeper: closed, with one closer that is another's, and with one too few.
#[test]
fn nested_pairs() {
    for depth in [1usize, 2, 8, 9, 62, 63, 64, 65, 66, 127, 128, 129, 130, 193, 700, 2046] {
        let square = |level: usize| (level * level / 3) % 2 == 0;
        let opening: Vec<u8> = (0..depth).map(|level| if square(level) { b'[' } else { b'{' }).collect();
        let closing: Vec<u8> = (0..depth).rev().map(|level| if square(level) { b']' } else { b'}' }).collect();
        let line = |closing: &[u8]| [b"A[", &opening[..], closing, b"]"].concat();
        alike(&line(&closing));
        alike(&line(&closing[1..]));
        for at in [0, 1, depth / 2, depth.saturating_sub(65), depth.saturating_sub(64), depth.saturating_sub(63), depth - 1] {
            if at < depth {
                let mut other = closing.clone();
                other[at] ^= b']' ^ b'}';
                alike(&line(&other));
            }
        }
        // more pairs behind the innermost one, and behind all of them
        alike(&line(&[b"[]{x}[]", &closing[..], b"{[]}x[]"].concat()));
    }
}

#[test]
fn every_single_byte_and_pair() {
    for a in 0..=255u8 {
        alike(&[a]);
        for b in 0..=255u8 {
            alike(&[a, b]);
            alike(&[b'A', b'[', a, b, b']']);
        }
    }
}
