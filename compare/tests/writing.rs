//! The proved writer, and refusal 14 of every call, against the vectors and the independent code.

#[allow(dead_code)]
mod json;
mod lines;

use compare::areas::{encode, tables_of_some_line, BYTES_SIZE, LETTERS, NUMBERS_SIZE, ROW, ROWS, ROW_PLACES, SECTIONS, TEXTS};
use compare::canonical::canonical;
use compare::generate::{share, Random};
use compare::line::{Kind, Line, Refusal};
use compare::masses::Display;
use compare::proved::{self, Listing, Site};
use compare::reader::read;
use compare::reasons::why_none;
use json::Json;
use lines::{for_crowded, for_declared, for_generated, for_vectors, shown, wrong_compositions, wrong_places, Lent, JUNK_BYTE, JUNK_NUMBER};

const FOURTEEN: Refusal = Refusal::new(14, 0);

/// What is written into an output of this length that is full of junk. The bytes behind what is written stay, all of them on a refusal.
fn written(lent: &Lent, room: usize) -> Result<Vec<u8>, Refusal> {
    let mut out = vec![JUNK_BYTE; room];
    let answer = proved::write(&lent.bytes, &lent.numbers, &mut out);
    let behind = out.split_off(answer.unwrap_or(0));
    assert!(behind.iter().all(|&byte| byte == JUNK_BYTE));
    answer.map(|_| out)
}

/// The canonical line of tables, from outputs that are too short, just long enough and longer.
fn check_written(lent: &Lent, want: &[u8]) {
    let before = lent.clone();
    let needed = want.len();
    let fifteen = Err(Refusal::new(15, needed));
    assert_eq!(written(lent, 0), fifteen, "{}", shown(want));
    assert_eq!(written(lent, needed - 1), fifteen, "{}", shown(want));
    for room in [needed, needed + 1, needed + 300] {
        let out = written(lent, room).expect("room for the line");
        assert_eq!(shown(&out), shown(want));
    }
    assert!(lent.same(&before), "{}", shown(want));
}

fn check_line(line: &[u8], held: &Line) {
    let lent = Lent::of(held);
    let want = canonical(held);
    check_written(&lent, &want);
    assert!(want.len() <= line.len(), "{}", shown(line));
    // the canonical line reads to the same areas, by both readers
    let tables = encode(held);
    assert!(encode(&read(&want).unwrap()) == tables, "{}", shown(line));
    let mut bytes = vec![JUNK_BYTE; BYTES_SIZE];
    let mut numbers = vec![JUNK_NUMBER; NUMBERS_SIZE];
    proved::read(&want, &mut bytes, &mut numbers).unwrap();
    assert!((bytes, numbers) == tables, "{}", shown(line));
}

#[test]
fn canonical_lines_of_vectors() {
    let mut changed = 0;
    for_vectors(|line, held, outcome| {
        check_line(line, held);
        let outcome = Json::read(outcome);
        let canon = outcome.get("canon").text();
        assert_eq!(written(&Lent::of(held), 4096).as_deref(), Ok(canon.as_bytes()));
        changed += usize::from(canon.as_bytes() != line);
    });
    assert!(changed > 300, "{changed}");
}

#[test]
fn canonical_lines_of_generated_lines() {
    let mut shorter = 0;
    let mut check = |line: &[u8], held: &Line| {
        check_line(line, held);
        shorter += usize::from(canonical(held).len() < line.len());
    };
    for_generated(21, 100_000, &mut check);
    for_crowded(22, 5_000, 12, &mut check);
    assert!(shorter > share(2_000), "{shorter}");
}

/// The lines that document 01 names.
#[test]
fn named_lines() {
    for (line, want) in [
        ("a[+01.50]", "A[+1.50]"),
        ("A[-0]", "A[+0]"),
        ("[+1]?[+2]^1?A", "[+1][+2]?A"),
        ("[+1]^2?ac", "[+1]^2?AC"),
        ("[Acetyl]-A", "[Acetyl]-A"),
        ("A[gLYCAN:hexnac1HEX2]", "A[Glycan:HexNAcHex2]"),
        ("A[Glycan:hex1HEX2Hex]", "A[Glycan:HexHex2Hex]"),
        ("<[+1]@k,n-TERM>Ak", "<[+1]@K,N-term>AK"),
        ("<[+1]@K,k,K>AK", "<[+1]@K,K,K>AK"),
        ("<[x]@W,c-TERM,n>[+1]?[+2]?A", "<[x]@W,C-term,N>[+1][+2]?A"),
    ] {
        let held = read(line.as_bytes()).unwrap();
        assert_eq!(written(&Lent::of(&held), 64).unwrap(), want.as_bytes());
    }
}

/// A line of 4,096 bytes that is its own canonical line.
#[test]
fn longest_line() {
    let mut line = vec![b'A'; 100];
    while line.len() + 200 < 4096 {
        line.extend(b"[");
        line.extend(vec![b'x'; 128]);
        line.extend(b"]");
    }
    let left = 4096 - line.len() - 3;
    line.extend(b"[");
    line.extend(vec![b'y'; left.min(128)]);
    line.extend(b"]");
    while line.len() < 4096 {
        line.insert(0, b'A');
    }
    let held = read(&line).unwrap();
    assert_eq!(canonical(&held), line);
    check_written(&Lent::of(&held), &line);
}

/// Every call over tables tells whether there is a line that reads to them: the line, or 14.
fn check_any(lent: &Lent) -> bool {
    let before = lent.clone();
    let (bytes, numbers) = (&lent.bytes, &lent.numbers);
    let answer = match tables_of_some_line(bytes, numbers) {
        Some(want) => {
            check_written(lent, &want);
            let held = read(&want).unwrap();
            assert_eq!(proved::residues(bytes, numbers), Ok(held.residues.len()));
            assert_eq!(proved::brackets(bytes, numbers), Ok(held.brackets.len()));
            assert_eq!(proved::floaters(bytes, numbers), Ok(held.floaters()));
            assert_eq!(proved::why_none(bytes, numbers), Ok(why_none(&held)));
            true
        }
        None => {
            check_fourteen(bytes, numbers);
            false
        }
    };
    assert!(lent.same(&before));
    answer
}

fn check_fourteen(bytes: &[u8], numbers: &[i64]) {
    let mut out = [JUNK_BYTE; 64];
    let mut entries = [JUNK_NUMBER; 256];
    assert_eq!(proved::write(bytes, numbers, &mut out), Err(FOURTEEN));
    assert_eq!(proved::write(bytes, numbers, &mut []), Err(FOURTEEN));
    for call in [proved::residues, proved::brackets, proved::floaters] {
        assert_eq!(call(bytes, numbers), Err(FOURTEEN));
    }
    assert_eq!(proved::total(bytes, numbers), Err(FOURTEEN));
    assert_eq!(proved::bracket_mass(bytes, numbers, 0), Err(FOURTEEN));
    let (mut brackets, mut copies) = ([JUNK_BYTE; 8], [JUNK_BYTE; 8]);
    assert_eq!(proved::floater_brackets(bytes, numbers, &mut brackets, &mut copies), Err(FOURTEEN));
    assert!(brackets.iter().chain(&copies).all(|&byte| byte == JUNK_BYTE));
    assert_eq!(proved::why_none(bytes, numbers), Err(FOURTEEN));
    assert_eq!(proved::shown(bytes, numbers), Display::Refused(14));
    assert_eq!(proved::allowed(bytes, numbers, &[0; 8]), Err(FOURTEEN));
    assert_eq!(proved::ledger(bytes, numbers, &[0; 8], &mut entries), Err(FOURTEEN));
    assert!(out.iter().all(|&byte| byte == JUNK_BYTE) && entries.iter().all(|&one| one == JUNK_NUMBER));
    let mut listing = Listing::FRESH;
    assert_eq!(proved::next(bytes, numbers, &mut listing), Err(FOURTEEN));
    assert_eq!(listing, Listing::FRESH);
    let junk = Site { floater: JUNK_BYTE, position: 0x5AC3 };
    let mut rows = [junk; 2048];
    assert_eq!(proved::rows(bytes, numbers, &mut rows), Err(FOURTEEN));
    assert!(rows.iter().all(|&row| row == junk));
}

#[test]
fn noise_in_areas() {
    let mut random = Random::new(23);
    for round in 0..share(3_000) {
        let most = [2, 16, 128, 256][round % 4];
        let mut bytes = vec![0; BYTES_SIZE];
        bytes.fill_with(|| random.below(most) as u8);
        let mut numbers = vec![0; NUMBERS_SIZE];
        if round % 3 > 0 {
            numbers.fill_with(|| random.below(1 << 20) as i64 - (1 << 19));
        }
        if round % 5 > 0 {
            bytes[..LETTERS].copy_from_slice(&[random.between(1, 254) as u8, 0, random.below(65) as u8]);
        }
        assert!(!check_any(&Lent { bytes, numbers }));
    }
    for (byte, number) in [(0, 0), (0, -1), (255, i64::MIN), (255, i64::MAX), (1, 0), (65, 65)] {
        let (bytes, numbers) = (vec![byte; BYTES_SIZE], vec![number; NUMBERS_SIZE]);
        assert!(!check_any(&Lent { bytes, numbers }));
    }
}

/// Changes one entry, most often one that is in use.
fn change(random: &mut Random, held: &Line, lent: &mut Lent) {
    let brackets = held.brackets.len().max(1);
    let near = |random: &mut Random, old: u8| old.wrapping_add([1, 255, 2, 32, 224][random.below(5)]);
    let at = match random.below(7) {
        0 => random.below(LETTERS),
        1 => {
            lent.bytes[LETTERS + random.below(held.residues.len())] = b'A' + random.below(27) as u8;
            return;
        }
        2 => SECTIONS + random.below(held.residues.len()),
        3 | 4 => ROWS + random.below(brackets * ROW),
        5 => random.below(BYTES_SIZE),
        _ => {
            let at = random.below(brackets * 5);
            let old = lent.numbers[at];
            let values = [0, 1, -5, 1_000_000, -old, old + 1, old + 1_000_000, 10 * old, 999_999_999_999, 1_000_000_000_000, i64::MIN, i64::MAX];
            lent.numbers[at] = values[random.below(values.len())];
            return;
        }
    };
    lent.bytes[at] = if random.chance(50) { near(random, lent.bytes[at]) } else { random.below(256) as u8 };
}

#[test]
fn changed_tables() {
    let mut random = Random::new(24);
    let (mut other, mut refused) = (0, 0);
    let mut check = |_: &[u8], held: &Line| {
        let mut lent = Lent::of(held);
        let before = lent.clone();
        for _ in 0..random.between(1, 2) {
            change(&mut random, held, &mut lent);
        }
        if !check_any(&lent) {
            refused += 1;
        } else if !lent.same(&before) {
            other += 1;
        }
    };
    for_generated(25, 100_000, &mut check);
    for_crowded(26, 20_000, 6, &mut check);
    assert!(other > share(5_000) && refused > share(30_000), "{other} {refused}");
}

/// Every byte and number that is in use, and one behind, one up, one down and far off.
#[test]
fn each_entry_changed() {
    let (mut other, mut refused) = (0, 0);
    for line in [
        &b"A[+1.5]"[..],
        b"[+1#a(0.5)][Acetyl|INFO:x]^2?{Hex}[U:Oxidation]-(?AC)(DE)[M:x|Obs:-2]F[#a(-1.25)]-[UNIMOD:35]",
        b"A[RESID:AA0581][x#q][#q]B[#q]",
        b"[Glycan:Hex#a]?{Glycan:en,aHex12}A[+1|Glycan:HexNAcHex2]C[#a]",
        b"<[+1|x]@K,N-term,C-term><[U:y]@A,a,A,A,A,A,A,A,A,A,A,A,A,A,A,A>[+2]?K",
    ] {
        let held = read(line).unwrap();
        let lent = Lent::of(&held);
        let (residues, brackets) = (held.residues.len() + 1, held.brackets.len() + 1);
        let ranges = [0..LETTERS + residues, SECTIONS..SECTIONS + residues, ROWS..ROWS + ROW * brackets, TEXTS..TEXTS + 80];
        for at in ranges.into_iter().flatten() {
            for by in [1, 2, 255, 128, 16] {
                let mut lent = lent.clone();
                lent.bytes[at] = lent.bytes[at].wrapping_add(by);
                if check_any(&lent) {
                    other += 1;
                } else {
                    refused += 1;
                }
            }
        }
        for at in 0..5 * (held.brackets.len() + 1) {
            for by in [1, -1, 1_000_000, -2_000_000, 1 << 40] {
                let mut lent = lent.clone();
                lent.numbers[at] += by;
                if check_any(&lent) {
                    other += 1;
                } else {
                    refused += 1;
                }
            }
        }
    }
    assert!(other > 100 && refused > 2_000, "{other} {refused}");
}

#[test]
fn areas_with_wrong_compositions() {
    for (what, lent) in wrong_compositions() {
        assert!(!check_any(&lent), "{what}");
    }
}

#[test]
fn areas_with_wrong_places() {
    for (what, lent) in wrong_places() {
        assert!(!check_any(&lent), "{what}");
    }
}

/// Areas of lines with declarations, whole and with an entry changed.
#[test]
fn declared_tables() {
    let mut random = Random::new(27);
    let (mut other, mut refused) = (0, 0);
    for_declared(28, 20_000, |line, held| {
        check_line(line, held);
        let mut lent = Lent::of(held);
        let before = lent.clone();
        // most often in the places of a declaration
        let declared = held.brackets.iter().filter(|one| one.kind == Kind::Declared).count();
        if declared > 0 && random.chance(70) {
            let at = ROWS + random.below(declared) * ROW + ROW_PLACES + random.below(1 + 16);
            lent.bytes[at] = [0, 1, 2, 3, 16, 17, b'A', b'Z', b'[', b'k', 200][random.below(11)];
        } else {
            change(&mut random, held, &mut lent);
        }
        if !check_any(&lent) {
            refused += 1;
        } else if !lent.same(&before) {
            other += 1;
        }
    });
    assert!(other > share(1_000) && refused > share(5_000), "{other} {refused}");
}

#[test]
fn areas_that_are_too_short() {
    let lent = Lent::of(&read(b"[+1]?A").unwrap());
    let mut out = [JUNK_BYTE; 64];
    for (b, n) in [(BYTES_SIZE - 1, NUMBERS_SIZE), (BYTES_SIZE, NUMBERS_SIZE - 1), (BYTES_SIZE, 0), (0, NUMBERS_SIZE), (0, 0)] {
        for room in [0, 64] {
            let answer = proved::write(&lent.bytes[..b], &lent.numbers[..n], &mut out[..room]);
            assert_eq!(answer, Err(Refusal::new(13, 0)));
        }
    }
    assert!(out.iter().all(|&byte| byte == JUNK_BYTE));
}
