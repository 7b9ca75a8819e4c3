//! What holds for every line, tried on generated ones.

mod lines;

use std::collections::BTreeSet;

use compare::areas::{
    decode, encode, tables_of_some_line, BYTES_SIZE, LETTERS, NUMBERS_SIZE, ROW, ROWS, SECTIONS,
};
use compare::canonical::canonical;
use compare::floating::crowded;
use compare::generate::{share, Generator, Random};
use compare::glycans::{cut, spelled, ways, Cutting, Piece, SUGARS};
use compare::line::{Bracket, Key, Kind, Line, Site};
use compare::masses::{bracket_mass, display, display_areas, ledger, missing, total, Display, Mass};
use compare::positions::{
    all_placements, first_placement, first_row, floaters, is_allowed, next_placement, placed_on,
    plain_next, rows, Floater, Listing, Placement, Position, Row, Search, MOST_ROWS,
};
use compare::reader::{read, Refusal};

/// Calls with each of so many generated lines.
fn for_generated(seed: u64, count: usize, mut check: impl FnMut(&[u8])) {
    for line in Generator::new(seed).take(share(count)) {
        check(&line);
    }
}

/// The same with the accepted ones only and what they read to.
fn for_accepted(seed: u64, count: usize, mut check: impl FnMut(&[u8], &Line)) {
    for_generated(seed, count, |bytes| {
        if let Ok(line) = read(bytes) {
            check(bytes, &line);
        }
    });
}

fn shown(line: &[u8]) -> String {
    String::from_utf8_lossy(line).into_owned()
}

#[test]
fn canonical_line_is_accepted_reads_to_the_same_and_is_no_longer() {
    for_accepted(11, 50_000, |bytes, line| {
        let written = canonical(line);
        let again = read(&written).unwrap_or_else(|no| panic!("{no:?} {}", shown(bytes)));
        assert!(encode(&again) == encode(line), "{}", shown(bytes));
        assert!(written.len() <= bytes.len(), "{}", shown(bytes));
        assert_eq!(canonical(&again), written, "{}", shown(bytes));
    });
}

#[test]
fn areas_give_back_the_line() {
    for_accepted(12, 50_000, |bytes, line| {
        let (area, numbers) = encode(line);
        assert_eq!((area.len(), numbers.len()), (7999, 320));
        let decoded = decode(&area, &numbers);
        assert!(decoded.as_ref() == Some(line), "{}", shown(bytes));
        let written = tables_of_some_line(&area, &numbers);
        assert!(written == Some(canonical(line)), "{}", shown(bytes));
    });
}

/// Areas with a few entries changed are of some line only if a line reads to
/// just these.
#[test]
fn changed_areas_are_refused_or_of_another_line() {
    let mut random = Random::new(13);
    let mut of_another = 0;
    let mut refused = 0;
    for_accepted(13, 20_000, |_, line| {
        let (mut area, mut numbers) = encode(line);
        let before = (area.clone(), numbers.clone());
        for _ in 0..random.between(1, 2) {
            change(&mut random, line, &mut area, &mut numbers);
        }
        match tables_of_some_line(&area, &numbers) {
            Some(written) => {
                let read = read(&written).expect("a line of these tables");
                assert!(encode(&read) == (area.clone(), numbers.clone()));
                of_another += usize::from((area, numbers) != before);
            }
            None => {
                refused += 1;
                assert_eq!(display_areas(&area, &numbers), Display::Refused(14));
            }
        }
    });
    assert!(
        of_another > share(1000) && refused > share(2000),
        "{of_another} {refused}"
    );
}

/// Changes one entry, most often one that is in use.
fn change(random: &mut Random, line: &Line, area: &mut [u8], numbers: &mut [i64]) {
    let brackets = line.brackets.len().max(1);
    match random.below(6) {
        0 => area[random.below(LETTERS)] = random.below(256) as u8,
        1 => area[LETTERS + random.below(line.residues.len())] = b'A' + random.below(27) as u8,
        2 => area[SECTIONS + random.below(line.residues.len())] = random.below(6) as u8,
        3 => area[ROWS + random.below(brackets * ROW)] = random.below(16) as u8,
        4 => area[random.below(BYTES_SIZE)] = random.between(32, 127) as u8,
        _ => {
            let value = [0, 1, -5, 1_000_000, 999_999_999_999, i64::MIN][random.below(6)];
            numbers[random.below(brackets * 5)] = value;
        }
    }
}

#[test]
fn noise_in_areas_is_refused() {
    let mut random = Random::new(14);
    for _ in 0..share(2000) {
        let mut area = vec![0; BYTES_SIZE];
        area.fill_with(|| random.below(256) as u8);
        area[..LETTERS].copy_from_slice(&[random.between(1, 254) as u8, 0, random.below(65) as u8]);
        let mut numbers = vec![0; NUMBERS_SIZE];
        numbers.fill_with(|| random.below(1 << 20) as i64);
        assert_eq!(tables_of_some_line(&area, &numbers), None);
    }
}

#[test]
fn areas_that_are_too_short_or_longer() {
    let (mut area, mut numbers) = encode(&read(b"A[+1.5]").unwrap());
    let daltons = Display::Daltons(1.5);
    assert_eq!(display_areas(&area, &numbers), daltons);
    assert_eq!(display_areas(&area[1..], &numbers), Display::Refused(13));
    assert_eq!(display_areas(&area, &numbers[1..]), Display::Refused(13));
    area.push(7);
    numbers.push(7);
    assert_eq!(display_areas(&area, &numbers), daltons);
}

/// The layout by hand, once.
#[test]
fn layout_of_the_areas() {
    let line = read(b"[u:x#ab(0.50)]?{-2.5|INFO:yz}d(Ec[+1])[G:p|obs:+7](?k)-[#ab]").unwrap();
    let (area, numbers) = encode(&line);
    let mut expected = vec![0; 7999];
    expected[..3].copy_from_slice(&[4, 0, 5]);
    expected[3..7].copy_from_slice(b"DECK");
    expected[257..261].copy_from_slice(&[0, 1, 2, 3]);
    let rows: [&[u8]; 5] = [
        &[1, 0, 0, 0, 0, 1, 1, 3, 2, 1, 0, 1, 2, 0, 0],
        &[2, 0, 0, 0, 0, 1, 2, 0, 1, 0, 1, 0, 0, 0, 0, 2, 13, 0, 2, 0, 3, 0],
        &[4, 3, 0, 3, 0, 1, 1, 0, 1, 0, 0, 0, 0, 0, 0],
        &[5, 2, 0, 3, 0, 1, 2, 0, 2, 5, 0, 1, 0, 5, 0, 1, 7, 0, 0, 0, 0, 0],
        &[6, 5, 0, 5, 0, 1, 1, 0, 3, 0, 0, 0, 2, 6, 0],
    ];
    for (index, row) in rows.iter().enumerate() {
        expected[511 + index * 53..][..row.len()].copy_from_slice(row);
    }
    expected[3903..3911].copy_from_slice(b"xabyzpab");
    assert_eq!(area, expected);
    let mut expected = vec![0; 320];
    expected[4] = 500_000;
    expected[5] = -2_500_000;
    expected[10] = 1_000_000;
    expected[16] = 7_000_000;
    assert_eq!(numbers, expected);
}

/// The same with compositions: their texts are those that are written.
#[test]
fn layout_of_compositions() {
    let line = read(b"[glycan:hex1#a]?A[INFO:x|Glycan:HexNAc1Hex2#b]C[#a]").unwrap();
    let (area, numbers) = encode(&line);
    let mut expected = vec![0; 7999];
    expected[..3].copy_from_slice(&[2, 0, 3]);
    expected[3..5].copy_from_slice(b"AC");
    let rows: [&[u8]; 3] = [
        &[1, 0, 0, 0, 0, 1, 1, 0, 4, 15, 4, 3, 1, 0, 0],
        &[4, 1, 0, 1, 0, 1, 2, 0, 2, 13, 0, 1, 0, 4, 0, 4, 15, 4, 10, 1, 5, 0],
        &[4, 2, 0, 2, 0, 1, 1, 0, 3, 0, 0, 0, 1, 16, 0],
    ];
    for (index, row) in rows.iter().enumerate() {
        expected[511 + index * 53..][..row.len()].copy_from_slice(row);
    }
    expected[3903..3920].copy_from_slice(b"HexaxHexNAcHex2ba");
    assert_eq!(area, expected);
    let mut expected = vec![0; 320];
    expected[0] = 162_052_800;
    expected[6] = 527_184_900;
    assert_eq!(numbers, expected);
}

#[test]
fn wrong_compositions_in_areas_are_refused() {
    let wrong = lines::wrong_compositions();
    assert!(wrong.len() > 30);
    for (what, lent) in wrong {
        assert_eq!(tables_of_some_line(&lent.bytes, &lent.numbers), None, "{what}");
        assert_eq!(display_areas(&lent.bytes, &lent.numbers), Display::Refused(14), "{what}");
    }
}

/// The same with declarations, which come first among the brackets.
#[test]
fn layout_of_declarations() {
    let line = read(b"<[+1.5|x]@k,n-TERM,K><[u:y]@C-term,c,N>[+2]?Ak").unwrap();
    let (area, numbers) = encode(&line);
    let mut expected = vec![0; 7999];
    expected[..3].copy_from_slice(&[2, 0, 3]);
    expected[3..5].copy_from_slice(b"AK");
    let rows: [(&[u8], &[u8]); 3] = [
        (
            &[7, 0, 0, 0, 0, 1, 2, 0, 1, 0, 1, 0, 0, 0, 0, 2, 0, 0, 1, 0, 0, 0],
            &[3, 75, 1, 75],
        ),
        (&[7, 0, 0, 0, 0, 1, 1, 0, 2, 1, 0, 1, 0, 1, 0], &[3, 2, 67, 78]),
        (&[1, 0, 0, 0, 0, 1, 1, 0, 1, 0, 0, 0, 0, 0, 0], &[]),
    ];
    for (index, (row, places)) in rows.iter().enumerate() {
        expected[511 + index * 53..][..row.len()].copy_from_slice(row);
        expected[511 + index * 53 + 36..][..places.len()].copy_from_slice(places);
    }
    expected[3903..3905].copy_from_slice(b"xy");
    assert_eq!(area, expected);
    let mut expected = vec![0; 320];
    expected[0] = 1_500_000;
    expected[10] = 2_000_000;
    assert_eq!(numbers, expected);
}

#[test]
fn wrong_places_in_areas_are_refused() {
    let wrong = lines::wrong_places();
    assert!(wrong.len() > 100);
    for (what, lent) in wrong {
        assert_eq!(tables_of_some_line(&lent.bytes, &lent.numbers), None, "{what}");
        assert_eq!(display_areas(&lent.bytes, &lent.numbers), Display::Refused(14), "{what}");
    }
}

/// The rows of a line with all kinds of brackets, and every byte of them with
/// every value: of some line only if a line reads to just these.
#[test]
fn every_byte_of_a_row_with_places() {
    let line = read(b"<[+1]@A,N-term,C-term><[x]@W>[+2]?A").unwrap();
    let (area, numbers) = encode(&line);
    let mut of_another = 0;
    for at in (ROWS + 36..ROWS + 53).chain(ROWS + ROW + 36..ROWS + ROW + 53) {
        for value in 0..=255 {
            let mut area = area.clone();
            let before = std::mem::replace(&mut area[at], value);
            let used = matches!(at - ROWS, 37..=39 | 90);
            let is_place = matches!(value, 1 | 2 | b'A'..=b'Z');
            let good = value == before || (used && is_place);
            let written = tables_of_some_line(&area, &numbers);
            assert_eq!(written.is_some(), good, "{at} {value}");
            of_another += usize::from(good && value != before);
        }
    }
    assert_eq!(of_another, 4 * 27);
}

/// Calls with each of so many lines with declarations.
fn for_declared(seed: u64, count: usize, mut check: impl FnMut(&[u8])) {
    let mut generator = Generator::new(seed);
    for _ in 0..share(count) {
        let line = generator.declared();
        check(&line);
    }
}

/// A declaration adds its modification and nothing else: without the
/// declarations a line is accepted too, its total is less by so many times
/// each mass as a place of it is found in the line, and its floaters are
/// permitted all that they were, and what was struck out.
#[test]
fn declarations_add_placed_modifications() {
    let (mut met, mut reaching, mut struck) = (0, 0, 0);
    let mut check = |bytes: &[u8]| {
        let Ok(line) = read(bytes) else { return };
        let is_declared = |one: &&Bracket| one.kind == Kind::Declared;
        let declared: Vec<Bracket> = line.brackets.iter().filter(is_declared).copied().collect();
        if declared.is_empty() {
            return;
        }
        met += 1;
        assert!(line.brackets.iter().take(declared.len()).all(|one| one.kind == Kind::Declared));
        let mut bare = line.clone();
        bare.brackets.drain(..declared.len());
        let written = canonical(&bare);
        let whole = canonical(&line);
        assert!(whole.ends_with(&written) && whole[whole.len() - written.len() - 1] == b'>');
        let bare = read(&written).unwrap_or_else(|no| panic!("{no:?} {}", shown(bytes)));
        let (mut added, mut lacking) = (0, 0);
        let mut reached = [false; 256];
        for one in &declared {
            let named = |site: Site| line.places_of(one).contains(&site);
            let last = line.residues.len() + 1;
            let mut positions = Vec::new();
            positions.extend(named(Site::NTerminus).then_some(0));
            for (residue, position) in line.residues.iter().zip(1..) {
                positions.extend(named(Site::Letter(residue.letter)).then_some(position));
            }
            positions.extend(named(Site::CTerminus).then_some(last));
            positions.iter().for_each(|&position| reached[position] = true);
            let found: Vec<usize> = placed_on(&line, one).iter().map(usize::from).collect();
            assert_eq!(found, positions, "{}", shown(bytes));
            match bracket_mass(line.parts_of(one)).stated() {
                Some(mass) => added += mass * positions.len() as i64,
                None => lacking += positions.len(),
            }
        }
        assert_eq!(missing(&line), missing(&bare) + lacking, "{}", shown(bytes));
        if missing(&line) == 0 {
            assert_eq!(total(&line).unwrap(), total(&bare).unwrap() + added, "{}", shown(bytes));
        }
        let (with, without) = (floaters(&line), floaters(&bare));
        assert_eq!(with.len(), without.len());
        for (with, without) in with.iter().zip(&without) {
            assert_eq!(with.bracket, without.bracket + declared.len());
            for position in 0..256 {
                let free = without.permitted.contains(position) && !reached[usize::from(position)];
                assert_eq!(with.permitted.contains(position), free, "{}", shown(bytes));
            }
            struck += usize::from(with.permitted != without.permitted);
        }
        reaching += usize::from(reached.contains(&true));
    };
    for_declared(41, 20_000, &mut check);
    for_generated(42, 20_000, &mut check);
    assert!(met > share(10_000) && reaching > share(8_000) && struck > share(4_000), "{met} {reaching} {struck}");
}

/// Lines with declarations, with a byte changed, removed or inserted at every
/// place: what is still accepted is written and read again, and a refusal
/// stands within the line.
#[test]
fn damaged_declarations() {
    const BYTES: &[u8] = b"<>@,[]{}|#^?-()+:NCnctermTERMKk1 ";
    let mut random = Random::new(43);
    let (mut accepted, mut refused) = (0, [0; 22]);
    let mut check = |bytes: &[u8]| match read(bytes) {
        Ok(line) => {
            let written = canonical(&line);
            let again = read(&written).unwrap_or_else(|no| panic!("{no:?} {}", shown(bytes)));
            assert!(again == line, "{}", shown(bytes));
            accepted += 1;
        }
        Err(refusal) => {
            assert!(refusal.place <= bytes.len());
            let at = bytes.get(refusal.place).copied();
            match refusal.number {
                21 => assert_eq!(at, Some(b'['), "{}", shown(bytes)),
                10..=12 => assert!(matches!(at, Some(b'[' | b'{')), "{}", shown(bytes)),
                _ => {}
            }
            refused[usize::from(refusal.number)] += 1;
        }
    };
    let lines = share(300).max(30);
    let mut generator = Generator::new(45);
    for line in std::iter::repeat_with(|| generator.declared()).filter(|line| line.len() < 150).take(lines) {
        check(&line);
        for at in 0..line.len() {
            let byte = BYTES[random.below(BYTES.len())];
            let mut other = line.to_vec();
            other[at] = byte;
            check(&other);
            other.insert(at, line[at]);
            check(&other);
            other.drain(at..at + 2);
            check(&other);
            check(&line[..at]);
            check(&line[at..]);
        }
    }
    assert!(accepted > 20 * lines, "{accepted}");
    for number in [4, 6, 11, 21] {
        assert!(refused[number] > lines, "{refused:?}");
    }
}

/// Places against a plain splitting at commas.
#[test]
fn places_by_splitting() {
    const PIECES: [&str; 30] = [
        "K", "k", "N", "n", "C", "c", "N-term", "n-TERM", "C-term", "c-tErm", "A", "Z", "X", "R", "b", "K", "N-term", "C", "C-term", "Q",
        "", "N-", "N-te", "NC", "Nterm", "N-term:Q", "K-term", "N-terms", " K", "1",
    ];
    let mut random = Random::new(44);
    let (mut accepted, mut six, mut four) = (0, 0, 0);
    for _ in 0..share(40_000) {
        let good_only = random.chance(80);
        let count = if random.chance(30) { random.between(13, 20) } else { random.between(1, 6) };
        let pieces: Vec<&str> = (0..count).map(|_| PIECES[random.below(if good_only { 20 } else { 30 })]).collect();
        let text = pieces.join(",");
        let line = format!("<[+1]@{text}>KNcaZ");
        let is_place = |piece: &str| match piece.as_bytes() {
            [letter] => letter.is_ascii_alphabetic(),
            _ => ["n-term", "c-term"].contains(&piece.to_ascii_lowercase().as_str()),
        };
        let outcome = read(line.as_bytes());
        match pieces.iter().position(|piece| !is_place(piece)) {
            Some(bad) => {
                let first = 6 + pieces[..bad].iter().map(|piece| piece.len() + 1).sum::<usize>();
                let refusal = outcome.expect_err("what is no place");
                assert_eq!(refusal.number, 4, "{line}");
                assert!((first..=first + pieces[bad].len()).contains(&refusal.place), "{line}");
                four += 1;
            }
            None if count > 16 => {
                let place = 6 + pieces[..16].iter().map(|piece| piece.len() + 1).sum::<usize>();
                assert_eq!(outcome.err(), Some(Refusal::new(6, place)), "{line}");
                six += 1;
            }
            None => {
                let held = outcome.unwrap_or_else(|no| panic!("{no:?} {line}"));
                let named = |place: &str| pieces.iter().any(|piece| piece.eq_ignore_ascii_case(place));
                let reached = ["N-term", "K", "N", "C", "A", "Z", "C-term"].map(named);
                let sum = ledger(&held, &[0; 8]).unwrap();
                assert_eq!(reached.map(|one| i64::from(one) * 1_000_000), sum[..7], "{line}");
                let written: Vec<String> = pieces
                    .iter()
                    .map(|piece| piece[..1].to_ascii_uppercase() + &piece[1..].to_ascii_lowercase())
                    .collect();
                assert_eq!(canonical(&held), format!("<[+1]@{}>KNCAZ", written.join(",")).as_bytes());
                accepted += 1;
            }
        }
    }
    assert!(accepted > share(15_000) && six > share(2_000) && four > share(3_000), "{accepted} {six} {four}");
}

/// The counts that names are tried with, and how each is written.
const COUNTS: [(u8, &str); 5] = [(1, ""), (1, "1"), (2, "2"), (10, "10"), (99, "99")];

/// A text in some case or other.
fn in_some_case(random: &mut Random, text: &str) -> Vec<u8> {
    let either = |byte: u8| if random.chance(50) { byte.to_ascii_lowercase() } else { byte.to_ascii_uppercase() };
    text.bytes().map(either).collect()
}

/// Every text of one to three names with these counts is cut into just these
/// pieces, and in no second way, as given or with counts of 1 dropped.
#[test]
fn a_composition_is_cut_in_one_way_only() {
    let mut random = Random::new(31);
    let choices: Vec<(Piece, String)> = SUGARS
        .iter()
        .enumerate()
        .flat_map(|(name, sugar)| COUNTS.map(|(count, digits)| (Piece { name, count }, format!("{}{digits}", sugar.name))))
        .collect();
    let mut tried = 0;
    let mut check = |chosen: &[&(Piece, String)]| {
        let pieces: Vec<Piece> = chosen.iter().map(|one| one.0).collect();
        let text: String = chosen.iter().map(|one| one.1.as_str()).collect();
        let cased = in_some_case(&mut random, &text);
        assert_eq!(cut(&cased), Cutting::One(pieces), "{text}");
        tried += 1;
    };
    let third = choices.len().min(share(choices.len()).max(1));
    for first in &choices {
        check(&[first]);
        for second in &choices {
            check(&[first, second]);
            for other in &choices[..third] {
                check(&[first, second, other]);
            }
        }
    }
    assert_eq!(tried, 120 + 120 * 120 * (1 + third));
}

/// All ways to cut a text, one after another: slow, and plain.
fn plain_ways(text: &[u8]) -> u64 {
    if text.is_empty() {
        return 1;
    }
    let mut found = 0;
    for sugar in &SUGARS {
        let length = sugar.name.len();
        if text.len() < length || !text[..length].eq_ignore_ascii_case(sugar.name.as_bytes()) {
            continue;
        }
        let digits = text[length..].iter().take_while(|byte| byte.is_ascii_digit()).count();
        for taken in 0..=digits {
            let count = std::str::from_utf8(&text[length..length + taken]).unwrap();
            let fits = count.is_empty() || (!count.starts_with('0') && count.len() <= 2);
            if fits {
                found += plain_ways(&text[length + taken..]);
            }
        }
    }
    found
}

/// Compositions with a byte changed, removed or inserted at every place, and
/// two of them run together: the ways are counted rightly, there is never a
/// second one, and what is written is cut into the same pieces.
#[test]
fn damaged_compositions() {
    let mut random = Random::new(32);
    let (mut cut_still, mut not_cut) = (0, 0);
    let mut check = |text: &[u8]| {
        assert_eq!(ways(text), plain_ways(text), "{}", shown(text));
        match cut(text) {
            Cutting::None => not_cut += 1,
            Cutting::One(pieces) => {
                let written = spelled(&pieces);
                assert!(written.len() <= text.len());
                assert_eq!(cut(&written), Cutting::One(pieces), "{}", shown(text));
                cut_still += 1;
            }
            Cutting::Many => panic!("a second cutting of {}", shown(text)),
        }
    };
    for _ in 0..share(2_000).max(20) {
        let mut text = Vec::new();
        for _ in 0..random.between(1, 4) {
            let name = SUGARS[random.below(SUGARS.len())].name;
            text.extend(in_some_case(&mut random, name));
            text.extend_from_slice(COUNTS[random.below(COUNTS.len())].1.as_bytes());
        }
        check(&text);
        for at in 0..text.len() {
            let byte = b"0129 SsNnAaEeXxHhPp,cCgGdDtTuU"[random.below(30)];
            let mut other = text.clone();
            other[at] = byte;
            check(&other);
            other = text.clone();
            other.insert(at, byte);
            check(&other);
            other = text.clone();
            other.remove(at);
            check(&other);
            check(&text[at..]);
            check(&text[..at]);
        }
    }
    assert!(cut_still > share(20_000) && not_cut > share(50_000), "{cut_still} {not_cut}");
}

/// Compositions about as long as a text may be, in lines.
#[test]
fn long_compositions() {
    let mut random = Random::new(33);
    for length in 120..=140 {
        for _ in 0..share(200).max(10) {
            let mut text = Vec::new();
            let mut millionths = 0;
            while text.len() < length {
                let sugar = &SUGARS[random.below(SUGARS.len())];
                let (count, digits) = COUNTS[random.below(COUNTS.len())];
                let piece = format!("{}{digits}", sugar.name);
                let left = length - text.len();
                // three bytes are a name, and one or two are digits of a count of some other
                if piece.len() == left || piece.len() + 3 <= left {
                    text.extend(in_some_case(&mut random, &piece));
                    millionths += i64::from(count) * sugar.millionths();
                }
            }
            let line = [b"A[Glycan:", &text[..], b"]"].concat();
            match read(&line) {
                Ok(held) => {
                    assert!(length <= 128, "{}", shown(&line));
                    assert_eq!(total(&held), Ok(millionths), "{}", shown(&line));
                }
                Err(refusal) => {
                    assert!(length > 128, "{}", shown(&line));
                    assert_eq!(refusal, Refusal::new(6, 2));
                }
            }
        }
    }
}

/// The quick ways to placements against plain backtracking and against the
/// whole list.
#[test]
fn placements_agree_with_plain_backtracking() {
    const CAP: usize = 60;
    const BUDGET: u64 = 20_000;
    let mut checked = 0;
    for_accepted(15, 30_000, |bytes, line| {
        let floaters = floaters(line);
        let (all, complete) = all_placements(&floaters, CAP);
        assert!(all.windows(2).all(|pair| pair[0] < pair[1]), "ascending");
        assert_eq!(first_placement(&floaters), all.first().copied());
        let mut after = None;
        for index in 0..all.len() + usize::from(complete) {
            let expected = all.get(index).copied();
            let plain = plain_next(&floaters, after.as_ref(), BUDGET);
            match plain {
                Search::OutOfBudget => {}
                Search::Found(found) => assert_eq!(Some(found), expected, "{}", shown(bytes)),
                Search::NoneLeft => assert_eq!(None, expected, "{}", shown(bytes)),
            }
            checked += usize::from(plain != Search::OutOfBudget);
            if let Some(after) = after {
                assert_eq!(next_placement(&floaters, &after), expected);
            }
            after = expected;
        }
    });
    assert!(checked > share(50_000), "{checked}");
}

#[test]
fn allowed_placements_are_those_in_the_list() {
    let mut random = Random::new(16);
    for_accepted(16, 20_000, |_, line| {
        let floaters = floaters(line);
        let (all, complete) = all_placements(&floaters, 5000);
        if !complete {
            return;
        }
        for _ in 0..8 {
            let mut placement = match all.len() {
                0 => [0; 8],
                count => all[random.below(count)],
            };
            let entry = random.below(8);
            placement[entry] = random.below(line.c_terminus() + 1) as Position;
            let listed = all.binary_search(&placement).is_ok();
            assert_eq!(is_allowed(&floaters, &placement), listed);
        }
    });
}

#[test]
fn a_listing_answers_seventeen_and_eighteen() {
    let line = read(b"[+1]^2?AC").unwrap();
    let floaters = floaters(&line);
    let refused = |fresh: bool, placement: Placement, number: u8| {
        let mut listing = Listing { fresh, placement };
        let before = listing;
        let answer = listing.request(&floaters);
        assert_eq!(answer, Err(Refusal::new(number, 0)));
        assert_eq!(listing, before, "a refusal changes no record");
    };
    refused(true, [1, 2, 0, 0, 0, 0, 0, 0], 18);
    refused(false, [0; 8], 18);
    refused(false, [1, 1, 0, 0, 0, 0, 0, 0], 18);
    refused(false, [1, 2, 0, 0, 0, 0, 0, 1], 18);
    refused(false, [1, 258, 0, 0, 0, 0, 0, 0], 18);
    refused(false, [2, 1, 0, 0, 0, 0, 0, 0], 18);
    refused(false, [1, 2, 0, 0, 0, 0, 0, 0], 17);
    let mut listing = Listing::FRESH;
    assert_eq!(listing.request(&floaters), Ok([1, 2, 0, 0, 0, 0, 0, 0]));
    assert_eq!(listing.request(&floaters), Err(Refusal::new(17, 0)));
    let mut listing = Listing::FRESH;
    assert_eq!(listing.request(&[]), Ok([0; 8]));
    assert_eq!(listing.request(&[]), Err(Refusal::new(17, 0)));
}

/// Every way to give each floater a position of its own, whether copies of a
/// bracket ascend or not: the rule of document 01 before L4. None where there
/// are more ways than `most` to give each some position.
fn in_any_order(floaters: &[Floater], most: usize) -> Option<Vec<Vec<Position>>> {
    let many = floaters.iter().map(|one| one.permitted.len()).try_fold(1_usize, usize::checked_mul)?;
    match many {
        0 => return Some(Vec::new()),
        _ if many > most => return None,
        _ => {}
    }
    let mut ways = vec![Vec::new()];
    for floater in floaters {
        let longer = ways.iter().flat_map(|way: &Vec<Position>| {
            let free = floater.permitted.iter().filter(move |position| !way.contains(position));
            free.map(move |position| [&way[..], &[position]].concat())
        });
        ways = longer.collect();
    }
    Some(ways)
}

/// A placement with the copies of each bracket put in ascending order.
fn copies_sorted(floaters: &[Floater], way: &[Position]) -> Vec<Position> {
    let mut sorted: Vec<(usize, Position)> = floaters.iter().map(|one| one.bracket).zip(way.iter().copied()).collect();
    sorted.sort();
    sorted.into_iter().map(|(_, position)| position).collect()
}

/// Calls with short lines full of copies, and with generated ones.
fn for_copied(seed: u64, mut check: impl FnMut(&[u8], &Line)) {
    let mut random = Random::new(seed);
    for _ in 0..share(20_000) {
        let bytes = crowded(&mut random, 7);
        if let Ok(line) = read(&bytes) {
            check(&bytes, &line);
        }
    }
    for_accepted(seed, 20_000, check);
}

/// "Two copies of one thing are alike": each placement in any order is, with
/// its copies sorted, one in the list, and the list has no others. So 17 comes
/// at the start of a listing exactly where no placement in any order exists.
#[test]
fn no_molecule_is_lost_or_new_by_ascent() {
    let (mut met, mut fewer, mut none) = (0, 0, 0);
    for_copied(20, |bytes, line| {
        let floaters = floaters(line);
        let Some(ways) = in_any_order(&floaters, 20_000) else {
            return;
        };
        let molecules: BTreeSet<Vec<Position>> = ways.iter().map(|way| copies_sorted(&floaters, way)).collect();
        let (all, complete) = all_placements(&floaters, 20_000);
        let listed: Vec<Vec<Position>> = all.iter().map(|one| one[..floaters.len()].to_vec()).collect();
        assert!(complete && listed.iter().eq(&molecules), "{}", shown(bytes));
        // as many in any order as each bracket's copies can be put in
        let orders: usize = floaters.chunk_by(|one, next| one.bracket == next.bracket).map(|copies| (1..=copies.len()).product::<usize>()).product();
        assert_eq!(ways.len(), listed.len() * orders, "{}", shown(bytes));
        let mut listing = Listing::FRESH;
        assert_eq!(listing.request(&floaters) == Err(Refusal::new(17, 0)), ways.is_empty(), "{}", shown(bytes));
        met += 1;
        fewer += usize::from(orders > 1 && listed.len() > 1);
        none += usize::from(orders > 1 && listed.is_empty());
    });
    assert!(met > share(20_000) && fewer > share(2_000) && none > share(2_000), "{met} {fewer} {none}");
}

/// Each placement in any order whose copies do not ascend gets 18, from an
/// allowed placement, a ledger (16 before it) and a listing record, which stays;
/// each that ascends is allowed.
#[test]
fn descending_copies_are_not_allowed() {
    let (mut ascending, mut descending) = (0, 0);
    for_copied(21, |bytes, line| {
        let floaters = floaters(line);
        for way in in_any_order(&floaters, 500).unwrap_or_default() {
            let mut placement: Placement = [0; 8];
            placement[..way.len()].copy_from_slice(&way);
            let ascends = copies_sorted(&floaters, &way) == way;
            assert_eq!(is_allowed(&floaters, &placement), ascends, "{} {way:?}", shown(bytes));
            let expected = total(line).err().or((!ascends).then_some(Refusal::new(18, 0)));
            assert_eq!(ledger(line, &placement).err(), expected, "{} {way:?}", shown(bytes));
            if ascends {
                ascending += 1;
                continue;
            }
            let mut listing = Listing { fresh: false, placement };
            assert_eq!(listing.request(&floaters), Err(Refusal::new(18, 0)), "{} {way:?}", shown(bytes));
            assert_eq!(listing, Listing { fresh: false, placement }, "a refusal changes no record");
            descending += 1;
        }
    });
    assert!(ascending > share(50_000) && descending > share(20_000), "{ascending} {descending}");
}

/// Equal brackets side by side stay apart: with a bracket for each copy, the
/// floaters and the rows are the same, and the copies stand in any order.
#[test]
fn equal_brackets_stay_apart() {
    let mut met = 0;
    for_copied(22, |bytes, line| {
        if line.brackets.iter().all(|one| one.count == 1) {
            return;
        }
        let mut again = line.clone();
        let once = |bracket: &Bracket| std::iter::repeat_n(Bracket { count: 1, ..*bracket }, usize::from(bracket.count));
        again.brackets = line.brackets.iter().flat_map(once).collect();
        let (one, other) = (floaters(line), floaters(&again));
        assert_eq!(rows(&one), rows(&other), "{}", shown(bytes));
        assert_eq!(total(line), total(&again), "{}", shown(bytes));
        let Some(ways) = in_any_order(&one, 2_000) else {
            return;
        };
        let (all, complete) = all_placements(&other, 2_000);
        let listed = all.iter().map(|placement| placement[..other.len()].to_vec());
        assert!(complete && listed.eq(ways), "{}", shown(bytes));
        met += 1;
    });
    assert!(met > share(3_000), "{met}");
}

#[test]
fn lookup_among_rows() {
    let row = |floater, position| Row { floater, position };
    let mut rows = vec![row(0, 0); MOST_ROWS];
    rows[3] = row(2, 9);
    rows[5] = row(2, 4);
    rows[2047] = row(7, 1);
    rows.push(row(8, 1));
    assert_eq!(first_row(&rows, 6, 2), Ok((3, 9)));
    assert_eq!(first_row(&rows, 3, 2), Err(Refusal::new(17, 0)));
    assert_eq!(first_row(&rows, 2048, 7), Ok((2047, 1)));
    assert_eq!(first_row(&rows, usize::MAX, 8), Err(Refusal::new(17, 0)));
    assert_eq!(first_row(&rows[..2047], 1, 0), Err(Refusal::new(13, 0)));
}

#[test]
fn rows_ledgers_and_totals_agree() {
    for_accepted(17, 30_000, |bytes, line| {
        let floaters = floaters(line);
        let rows = rows(&floaters);
        assert!(rows.len() <= MOST_ROWS);
        assert!(rows.windows(2).all(|pair| pair[0] < pair[1]), "ascending");
        let (all, _) = all_placements(&floaters, 5);
        for placement in &all {
            match ledger(line, placement) {
                Ok(ledger) => {
                    let labile = total(line).unwrap() - ledger.iter().sum::<i64>();
                    assert_eq!(labile, labile_total(line), "{}", shown(bytes));
                }
                Err(refusal) => assert_eq!(refusal, Refusal::new(16, missing(line))),
            }
        }
    });
}

/// What a ledger leaves out of the total.
fn labile_total(line: &Line) -> i64 {
    let mut only_labile = line.clone();
    let is_labile = |bracket: &Bracket| bracket.kind == Kind::Labile;
    only_labile.brackets.retain(is_labile);
    total(&only_labile).unwrap()
}

/// "Measured masses stay out of sums": with other ones, and with names in their
/// place, a line has the same total or as many that lack one, the same display
/// and the same ledgers.
#[test]
fn measured_masses_stay_out_of_sums() {
    let (mut summed, mut lacking) = (0, 0);
    for_copied(46, |bytes, line| {
        let others = lines::remeasured(line);
        if others[0] == *line {
            return;
        }
        let (all, _) = all_placements(&floaters(line), 3);
        for other in &others {
            assert_eq!(total(other), total(line), "{}", shown(bytes));
            assert_eq!(display(other), display(line), "{}", shown(bytes));
            for placement in &all {
                assert_eq!(ledger(other, placement), ledger(line, placement), "{}", shown(bytes));
            }
        }
        match total(line) {
            Ok(_) => summed += 1,
            Err(_) => lacking += 1,
        }
    });
    assert!(summed > share(5_000) && lacking > share(4_000), "{summed} {lacking}");
}

/// Were the measured masses stated ones, so many fewer would lack one as there
/// are copies, and positions reached, of brackets with only a measured mass.
/// Generated lines have enough of these in every kind, and lack nothing else.
#[test]
fn generated_lines_measure_in_every_kind() {
    // By the numbers of the kinds; then counted ones, labelled ones, and
    // declarations that reach nothing.
    let mut met = [0; 11];
    let mut check = |bytes: &[u8], line: &Line| {
        let mut stated = line.clone();
        stated.parts.iter_mut().filter(|part| part.key == Key::Obs).for_each(|part| part.key = Key::None);
        let mut fewer = 0;
        let mut kinds = [false; 11];
        for one in &line.brackets {
            if !matches!(bracket_mass(line.parts_of(one)), Mass::Measured(_)) {
                continue;
            }
            let reached = placed_on(line, one).len();
            let counted = if one.kind == Kind::Declared { reached } else { usize::from(one.count) };
            fewer += counted;
            kinds[if counted == 0 { 10 } else { one.kind as usize }] = true;
            kinds[8] |= one.count > 1;
            kinds[9] |= line.label_of(one).is_some();
        }
        assert_eq!(missing(line), missing(&stated) + fewer, "{}", shown(bytes));
        if missing(&stated) == 0 {
            met.iter_mut().zip(kinds).for_each(|(met, kind)| *met += usize::from(kind));
        }
    };
    for_copied(47, &mut check);
    for_accepted(48, 30_000, &mut check);
    for_declared(49, 20_000, |bytes| {
        if let Ok(line) = read(bytes) {
            check(bytes, &line);
        }
    });
    assert_eq!(met[0], 0);
    assert!(met[1..].iter().all(|&lines| lines > share(60)), "{met:?}");
}

/// "first byte with which no line of any length begins so": up to that byte
/// the line can be completed, and with it nothing that follows matters.
#[test]
fn refusal_four_stands_at_the_first_wrong_byte() {
    let mut checked = 0;
    for_generated(18, 20_000, |bytes| {
        let Err(Refusal { number: 4, place }) = read(bytes) else {
            return;
        };
        checked += 1;
        let mut begun = bytes[..place].to_vec();
        assert!(can_be_completed(&mut begun, 60), "{}", shown(bytes));
        if place < bytes.len() {
            let mut wrong = bytes[..=place].to_vec();
            for ending in [&b""[..], b"]", b"1)]A", b"?A", b"-[x]", b"]@K>A", b">A", b"-term>A"] {
                wrong.truncate(place + 1);
                wrong.extend_from_slice(ending);
                assert_eq!(read(&wrong).err(), Some(Refusal::new(4, place)));
            }
        }
    });
    assert!(checked > share(1000), "{checked}");
}

/// Whether some so many bytes at most make a line of the order of this.
fn can_be_completed(begun: &mut Vec<u8>, bytes_left: usize) -> bool {
    match read(begun) {
        Err(Refusal { number: 1, .. }) => {}
        Err(Refusal { number: 4, place }) if place < begun.len() => return false,
        Err(Refusal { number: 4, .. }) => {}
        _ => return true,
    }
    if bytes_left == 0 {
        return false;
    }
    b"]})?>A@-1[term".iter().any(|&byte| {
        begun.push(byte);
        let completed = can_be_completed(begun, bytes_left - 1);
        begun.pop();
        completed
    })
}

#[test]
fn generated_lines_meet_every_number() {
    const COUNT: usize = 50_000;
    let mut outcomes = [0; 22];
    for_generated(19, COUNT, |bytes| {
        assert!(!bytes.contains(&10), "no byte 10");
        match read(bytes) {
            Ok(_) => outcomes[0] += 1,
            Err(refusal) => outcomes[usize::from(refusal.number)] += 1,
        }
    });
    assert!(outcomes[0] >= share(COUNT) / 4, "{outcomes:?}");
    let refused = &outcomes[1..=12];
    assert!(
        refused[..2].iter().all(|&lines| lines >= share(COUNT) / 200),
        "{outcomes:?}"
    );
    assert!(
        refused[2..].iter().all(|&lines| lines >= share(COUNT) / 100),
        "{outcomes:?}"
    );
    assert!(outcomes[19] >= share(COUNT) / 100, "{outcomes:?}");
    assert_eq!(outcomes[20], 0, "a second cutting");
    assert!(outcomes[21] >= share(COUNT) / 100, "{outcomes:?}");
}

#[test]
fn generated_lines_follow_from_their_seed() {
    let lines = |seed| Generator::new(seed).take(200).collect::<Vec<_>>();
    assert_eq!(lines(5), lines(5));
    assert_ne!(lines(5), lines(6));
}
