//! Rows, lookups, allowed placements and listings of the proved library, against the vectors, plain enumeration and the independent code.

#[allow(dead_code)]
mod json;
mod lines;

use std::collections::BTreeSet;
use std::time::{Duration, Instant};

use compare::areas::LETTERS;
use compare::floating::{adversarial, nested};
use compare::generate::{share, Random};
use compare::line::{Kind, Line, Refusal};
use compare::positions::{self, floaters, is_allowed, next_placement, placed_on, plain_next, Floater, Placement, Position, Row, Search};
use compare::proved::{self, Limits, Listing, Site};
use compare::reader::read;
use compare::trials::declarations;
use json::Json;
use lines::{for_crowded, for_declared, for_generated, for_vectors, shown, Lent, JUNK_NUMBER};

const THIRTEEN: Refusal = Refusal::new(13, 0);
const SEVENTEEN: Refusal = Refusal::new(17, 0);
const EIGHTEEN: Refusal = Refusal::new(18, 0);
const NONE: Placement = [0; 8];
const JUNK: Site = Site { floater: 0xA5, position: 0x5AC3 };

/// "The limits stand once": as document 01 has them, and the sizes that these give.
#[test]
fn limits() {
    let expected = Limits {
        line: 4096,
        residues: 254,
        brackets: 64,
        parts: 4,
        text: 128,
        label: 16,
        depth: 8,
        count: 99,
        declarations: 8,
        places: 16,
        copies: 8,
        rows: 2048,
        positions: 256,
        size: 1_000_000,
        decimals: 6,
        bytes: 3 + 254 + 254 + 64 * (8 + 4 * 7 + 1 + 16) + 4096,
        numbers: 64 * 5,
        block: 512,
        blocks: 128,
    };
    assert_eq!(proved::limits(), expected);
    let (mut bytes, mut numbers) = proved::areas();
    proved::read(b"A", &mut bytes, &mut numbers).unwrap();
    assert_eq!(proved::read(b"A", &mut bytes[1..], &mut numbers), Err(THIRTEEN));
    assert_eq!(proved::read(b"A", &mut bytes, &mut numbers[1..]), Err(THIRTEEN));
}

/// One request: what it answers, and what the record then holds.
fn request(lent: &Lent, listing: &mut Listing) -> Result<Placement, Refusal> {
    let before = *listing;
    let answer = proved::next(&lent.bytes, &lent.numbers, listing);
    match answer {
        Ok(()) => {
            assert_eq!(listing.mark, 0);
            Ok(listing.at)
        }
        Err(refusal) => {
            assert_eq!(*listing, before, "a refusal changes no record");
            Err(refusal)
        }
    }
}

/// Every placement that requests from a fresh record give, up to so many; the last answer, where there was one.
fn listed(lent: &Lent, most: usize) -> (Vec<Placement>, Option<Refusal>) {
    let mut listing = Listing::FRESH;
    let mut found = Vec::new();
    while found.len() < most {
        match request(lent, &mut listing) {
            Ok(placement) => found.push(placement),
            Err(refusal) => return (found, Some(refusal)),
        }
    }
    (found, None)
}

/// Plain enumeration: every way to give each floater one of its positions, as number lists ascending, of which those stay that use no position twice and have the copies of each
/// bracket in ascending order.
fn enumerated(floaters: &[Floater]) -> Vec<Placement> {
    let mut ways = in_any_order(floaters);
    ways.retain(|way| sorted(floaters, way) == *way);
    ways
}

/// A placement with the copies of each bracket put in ascending order.
fn sorted(floaters: &[Floater], way: &Placement) -> Placement {
    let mut sorted = *way;
    let mut rest = &mut sorted[..];
    for copies in floaters.chunk_by(|one, next| one.bracket == next.bracket) {
        let (own, others) = rest.split_at_mut(copies.len());
        own.sort();
        rest = others;
    }
    sorted
}

/// The same before L4: copies of a bracket stand in any order.
fn in_any_order(floaters: &[Floater]) -> Vec<Placement> {
    let mut ways = vec![(NONE, 0)];
    for floater in floaters {
        let positions: Vec<Position> = (0..512).filter(|&one| floater.permitted.contains(one)).collect();
        let longer = ways.iter().flat_map(|&(way, used)| {
            positions.iter().map(move |&position| {
                let mut way: Placement = way;
                way[used] = position;
                (way, used + 1)
            })
        });
        ways = longer.collect();
    }
    let distinct = |way: &[Position]| (1..way.len()).all(|at| !way[..at].contains(&way[at]));
    ways.retain(|(way, used)| distinct(&way[..*used]));
    ways.into_iter().map(|(way, _)| way).collect()
}

/// How many ways there are before those that use a position twice are left out.
fn ways(floaters: &[Floater]) -> usize {
    floaters.iter().map(|one| one.permitted.len()).fold(1, usize::saturating_mul)
}

#[test]
fn placements_of_vectors() {
    let (mut listed_whole, mut without) = (0, 0);
    for_vectors(|line, held, outcome| {
        let outcome = Json::read(outcome);
        let given: Vec<Vec<Position>> = outcome.get("placements").list().iter().map(|one| one.numbers().iter().map(|&entry| entry as Position).collect()).collect();
        let lent = Lent::of(held);
        let before = lent.clone();
        // the vectors may give only the first placements
        let (found, last) = listed(&lent, given.len().max(1));
        assert!(found.iter().map(|one| one.to_vec()).eq(given.iter().cloned()), "{}", shown(line));
        assert_eq!(last, given.is_empty().then_some(SEVENTEEN), "{}", shown(line));
        // -1 where they were too many to count
        let number = outcome.get("nplace").number();
        if (0..=2_000).contains(&number) {
            let (found, last) = listed(&lent, number as usize + 1);
            assert_eq!((found.len() as i64, last), (number, Some(SEVENTEEN)), "{}", shown(line));
            listed_whole += 1;
        }
        without += usize::from(number == 0);
        assert!(lent.same(&before));
    });
    assert!(listed_whole > 800 && without > 50, "{listed_whole} {without}");
}

#[test]
fn placements_by_plain_enumeration() {
    let (mut met, mut without, mut handed) = (0, 0, 0);
    for_crowded(41, 30_000, 6, |line, held| {
        let floaters = floaters(held);
        if ways(&floaters) > 4_000 {
            return;
        }
        let expected = enumerated(&floaters);
        let lent = Lent::of(held);
        let (found, last) = listed(&lent, expected.len() + 1);
        assert_eq!(found, expected, "{}", shown(line));
        assert_eq!(last, Some(SEVENTEEN), "{}", shown(line));
        met += 1;
        without += usize::from(expected.is_empty());
        handed += expected.len();
    });
    assert!(met > share(20_000) && without > share(5_000) && handed > share(60_000), "{met} {without} {handed}");
}

/// A placement whose used entries are these.
fn at(used: &[Position]) -> Placement {
    let mut placement = NONE;
    placement[..used.len()].copy_from_slice(used);
    placement
}

/// A line lists these placements, and then answers 17.
fn check_listed(line: &str, expected: &[&[Position]]) {
    let lent = Lent::of(&read(line.as_bytes()).unwrap());
    let expected: Vec<Placement> = expected.iter().map(|&used| at(used)).collect();
    assert_eq!(listed(&lent, expected.len() + 1), (expected, Some(SEVENTEEN)), "{line}");
}

/// "positions of one bracket's copies ascend": written from document 02 by the readings of docs/DECISIONS.md. Equal brackets stay apart, and between copies of different
/// brackets nothing is asked.
#[test]
fn copies_ascend() {
    for (line, expected) in [
        ("[+1]^2?AC", &[&[1, 2][..]][..]),
        ("[+1]^2?A", &[]),
        ("[+1][+1]?AC", &[&[1, 2], &[2, 1]]),
        ("[+1]?[+1]?AC", &[&[1, 2], &[2, 1]]),
        ("[+1]^2[x]?ACD", &[&[1, 2, 3], &[1, 3, 2], &[2, 3, 1]]),
        ("[x][+1]^2?ACD", &[&[1, 2, 3], &[2, 1, 3], &[3, 1, 2]]),
        ("[+1]^2[+1]^2?ACDE", &[&[1, 2, 3, 4], &[1, 3, 2, 4], &[1, 4, 2, 3], &[2, 3, 1, 4], &[2, 4, 1, 3], &[3, 4, 1, 2]]),
        ("[+1]^3?ACDE", &[&[1, 2, 3], &[1, 2, 4], &[1, 3, 4], &[2, 3, 4]]),
        ("[+1]^2?(AC)[+1]", &[]),
        ("[+1]^2?(AC)[+1]D", &[&[1, 3, 2], &[2, 3, 1]]),
        ("[+1]^2?A[+9]CD[#a]E[+2#a]", &[&[2, 3, 4], &[2, 4, 3]]),
        ("(AC)[+1][+1]", &[&[1, 2], &[2, 1]]),
        ("[+1]^8?ACDEFGHI", &[&[1, 2, 3, 4, 5, 6, 7, 8]]),
    ] {
        check_listed(line, expected);
    }
}

/// Descending copies get 18 of an allowed placement, of a ledger, into which nothing is written, and of a listing record, which stays.
fn check_descending(lent: &Lent, placement: &Placement, lacking: Option<Refusal>, line: &str) {
    assert_eq!(proved::allowed(&lent.bytes, &lent.numbers, placement), Err(EIGHTEEN), "{line} {placement:?}");
    let mut entries = vec![JUNK_NUMBER; 256];
    let answer = proved::ledger(&lent.bytes, &lent.numbers, placement, &mut entries);
    assert_eq!(answer, Err(lacking.unwrap_or(EIGHTEEN)), "{line} {placement:?}");
    assert!(entries.iter().all(|&entry| entry == JUNK_NUMBER), "{line} {placement:?}");
    assert_eq!(request(lent, &mut Listing::holding(*placement)), Err(EIGHTEEN), "{line} {placement:?}");
}

#[test]
fn descending_copies() {
    for (line, used, lacking) in [
        ("[+1]^2?AC", &[2, 1][..], 0),
        ("[+1]^2[+2]?ACD", &[2, 1, 3], 0),
        ("[+1]^2[x]?ACD", &[3, 2, 1], 1),
        ("[+2][+1]^2?ACD", &[1, 3, 2], 0),
        ("[+1]^3?ACD", &[1, 3, 2], 0),
        ("[+1]^3?ACD", &[2, 1, 3], 0),
        ("[+1]^2[+1]^2?ACDE", &[1, 2, 4, 3], 0),
        ("[+1]^8?ACDEFGHIK", &[1, 2, 3, 4, 5, 6, 9, 8], 0),
        ("[+1]^8?ACDEFGHIK", &[2, 1, 3, 4, 5, 6, 7, 8], 0),
    ] {
        let lent = Lent::of(&read(line.as_bytes()).unwrap());
        let lacking = (lacking > 0).then_some(Refusal::new(16, lacking));
        check_descending(&lent, &at(used), lacking, line);
    }
    // the same positions where nothing asks for ascent
    for (line, used) in [("[+1][+1]?AC", &[2, 1][..]), ("[+1]^2[+1]?ACD", &[2, 3, 1]), ("[+1][+1]^2?ACD", &[3, 1, 2]), ("(AC)[+1][+1]", &[2, 1])] {
        let lent = Lent::of(&read(line.as_bytes()).unwrap());
        assert_eq!(proved::allowed(&lent.bytes, &lent.numbers, &at(used)), Ok(()), "{line}");
        assert_eq!(proved::ledger(&lent.bytes, &lent.numbers, &at(used), &mut [0; 256]), Ok(()), "{line}");
        assert_eq!(request(&lent, &mut Listing::holding(at(used))), Err(SEVENTEEN), "{line}");
    }
}

/// Each placement in any order is, its copies sorted, one that is listed, and no other is; where its copies descend it gets 18. 17 comes at the start exactly where none exists in any order.
#[test]
fn no_molecule_is_lost_or_new_by_ascent() {
    let (mut met, mut copied, mut descending, mut none) = (0, 0, 0, 0);
    for_crowded(52, 10_000, 6, |line, held| {
        let floaters = floaters(held);
        if ways(&floaters) > 2_000 {
            return;
        }
        let lent = Lent::of(held);
        let any = in_any_order(&floaters);
        let molecules: BTreeSet<Placement> = any.iter().map(|way| sorted(&floaters, way)).collect();
        let (found, last) = listed(&lent, molecules.len() + 1);
        assert!(found.iter().eq(&molecules), "{}", shown(line));
        assert_eq!(last, Some(SEVENTEEN), "{}", shown(line));
        assert_eq!(request(&lent, &mut Listing::FRESH.clone()) == Err(SEVENTEEN), any.is_empty(), "{}", shown(line));
        let lacking = proved::total(&lent.bytes, &lent.numbers).err();
        for way in any.iter().filter(|way| sorted(&floaters, way) != **way).take(20) {
            check_descending(&lent, way, lacking, &shown(line));
            descending += 1;
        }
        let copies = floaters.windows(2).any(|pair| pair[0].bracket == pair[1].bracket);
        met += 1;
        copied += usize::from(copies && found.len() > 1);
        none += usize::from(copies && any.is_empty());
    });
    assert!(met > share(8_000) && copied > share(700) && descending > share(5_000) && none > share(1_000), "{met} {copied} {descending} {none}");
}

/// A declared modification strikes out what it reaches, for every floater, labels too.
#[test]
fn placements_beside_declarations() {
    for (line, expected) in [
        ("<[+1]@K>[+2]?KA", &[&[2][..]][..]),
        ("<[+1]@K>[+2]?K", &[]),
        ("<[+1]@K>K[+2#a]A[#a]", &[&[2]]),
        ("<[+1]@N-term>[+2#a]-A[#a]", &[&[1]]),
        ("<[+1]@C-term>A[#a]-[+2#a]", &[&[1]]),
        ("<[+1]@K>(KAK)[+2]", &[&[2]]),
        ("<[x]@W>[+2]?KA", &[&[1], &[2]]),
        ("<[+1]@K,W>[+2]^2?KACW", &[&[2, 3]]),
        ("<[+1]@K,W>[+2][+2]?KACW", &[&[2, 3], &[3, 2]]),
        ("<[+1]@A,C-term,N-term>A", &[&[]]),
    ] {
        check_listed(line, expected);
    }
    for_declared(40, 10_000, |line, held| {
        let floaters = floaters(held);
        if ways(&floaters) <= 400 {
            let expected = enumerated(&floaters);
            assert_eq!(listed(&Lent::of(held), expected.len() + 1), (expected, Some(SEVENTEEN)), "{}", shown(line));
        }
    });
}

/// At the last placement a record stays there, and answers 17 as often as it is asked.
#[test]
fn last_placement() {
    let held = read(b"[+1]^2?AC").unwrap();
    let lent = Lent::of(&held);
    let mut listing = Listing::FRESH;
    assert_eq!(request(&lent, &mut listing), Ok([1, 2, 0, 0, 0, 0, 0, 0]));
    for _ in 0..3 {
        assert_eq!(request(&lent, &mut listing), Err(SEVENTEEN));
        assert_eq!(listing, Listing::holding([1, 2, 0, 0, 0, 0, 0, 0]));
    }
    // with no floater there is one placement, all zeros
    let lent = Lent::of(&read(b"A").unwrap());
    let mut listing = Listing::FRESH;
    assert_eq!(request(&lent, &mut listing), Ok(NONE));
    assert_eq!(listing, Listing::holding(NONE));
    assert_eq!(request(&lent, &mut listing), Err(SEVENTEEN));
}

/// Records of any content, near an allowed placement and far from one.
#[test]
fn any_record() {
    let mut random = Random::new(42);
    let mut met = [0; 19];
    let mut check = |line: &[u8], held: &Line| {
        let floaters = floaters(held);
        let lent = Lent::of(held);
        for round in 0..4 {
            let mut at = NONE;
            if round < 2 {
                for (entry, floater) in at.iter_mut().zip(&floaters) {
                    let positions: Vec<Position> = floater.permitted.iter().collect();
                    *entry = if positions.is_empty() { 0 } else { positions[random.below(positions.len())] };
                }
                if random.chance(50) {
                    at = sorted(&floaters, &at);
                }
            }
            // another position, or one that is none: far off, also by its high byte alone
            if round % 2 == 1 {
                let entry = random.below(8);
                at[entry] = if random.chance(20) { at[entry] ^ (256 << random.below(8)) } else { random.below(held.residues.len() + 3) as Position };
            }
            let fresh = random.chance(15);
            let mut listing = Listing { at, mark: u8::from(fresh) };
            let mut ours = positions::Listing { fresh, placement: at };
            let answer = request(&lent, &mut listing);
            assert_eq!(answer, ours.request(&floaters), "{} {at:?}", shown(line));
            assert_eq!((listing.mark, listing.at), (u8::from(ours.fresh), ours.placement), "{} {at:?}", shown(line));
            met[answer.err().map_or(0, |refusal| usize::from(refusal.number))] += 1;
            let expected = if is_allowed(&floaters, &at) { Ok(()) } else { Err(EIGHTEEN) };
            assert_eq!(proved::allowed(&lent.bytes, &lent.numbers, &at), expected, "{} {at:?}", shown(line));
        }
    };
    for_crowded(43, 15_000, 12, &mut check);
    for_generated(44, 20_000, &mut check);
    assert!(met[0] > share(5_000) && met[17] > share(2_000) && met[18] > share(20_000), "{met:?}");
}

/// A mark of any other byte gets 18, whatever the entries, and stays.
#[test]
fn any_mark() {
    let lent = Lent::of(&read(b"[+1]^2?AC").unwrap());
    for mark in 2..=255 {
        for at in [NONE, [1, 2, 0, 0, 0, 0, 0, 0]] {
            assert_eq!(request(&lent, &mut Listing { at, mark }), Err(EIGHTEEN));
        }
    }
}

/// Every pair of positions, and every unused entry, on a line with two floaters.
#[test]
fn every_record_of_two_floaters() {
    for line in [&b"[+1#a]?(AC)[+2]D[#a]-[#a]"[..], b"[+1]^2?AC[+3]D", b"[+1][+1]?AC[+3]D", b"[+1]^2?ACDEFG", b"[+1#a]?[#a]-AC[#a](DE)[x]"] {
        let held = read(line).unwrap();
        let floaters = floaters(&held);
        let lent = Lent::of(&held);
        let allowed = enumerated(&floaters);
        for one in (0..=300).chain([511, 512, 0x7FFF, 0x8000, 0xFF00, 0xFF01, Position::MAX]) {
            for two in (0..10).chain([127, 128, 254, 255, 256, 257, 258, 0x8001, Position::MAX]) {
                for unused in [0, 1] {
                    let at = [one, two, 0, 0, 0, 0, 0, unused];
                    let mut listing = Listing::holding(at);
                    let expected = match allowed.iter().position(|way| *way == at) {
                        None => Err(EIGHTEEN),
                        Some(index) => allowed.get(index + 1).copied().ok_or(SEVENTEEN),
                    };
                    assert_eq!(request(&lent, &mut listing), expected, "{} {at:?}", shown(line));
                }
            }
        }
    }
}

/// The quickest of three times that one request takes, and what it answers.
fn timed(lent: &Lent, listing: &mut Listing) -> (Duration, Result<Placement, Refusal>) {
    let before = *listing;
    let mut quickest = Duration::MAX;
    let mut answer = Err(THIRTEEN);
    for _ in 0..3 {
        *listing = before;
        let start = Instant::now();
        answer = request(lent, listing);
        quickest = quickest.min(start.elapsed());
    }
    (quickest, answer)
}

#[test]
fn requests_are_quick() {
    let mut random = Random::new(45);
    let mut worst = Duration::ZERO;
    let (mut first, mut none) = (0, 0);
    for line in adversarial() {
        let held = read(line.as_bytes()).unwrap_or_else(|refusal| panic!("{refusal:?} {line}"));
        let lent = Lent::of(&held);
        let floaters = floaters(&held);
        let mut listing = Listing::FRESH;
        for _ in 0..40 {
            let before = listing;
            let (time, answer) = timed(&lent, &mut listing);
            worst = worst.max(time);
            let expected = if before.is_fresh() {
                positions::first_placement(&floaters)
            } else {
                next_placement(&floaters, &before.at)
            };
            assert_eq!(answer, expected.ok_or(SEVENTEEN), "{line}");
            if before.is_fresh() {
                first += usize::from(answer.is_ok());
                none += usize::from(answer.is_err());
            }
        }
        // from allowed placements anywhere among them
        for _ in 0..300 {
            let mut at = NONE;
            for (entry, floater) in at.iter_mut().zip(&floaters) {
                let positions: Vec<Position> = floater.permitted.iter().collect();
                let high = random.chance(60);
                *entry = if positions.is_empty() { 0 } else { positions[if high { positions.len() - 1 - random.below(positions.len().min(9)) } else { random.below(positions.len()) }] };
            }
            if random.chance(80) {
                at = sorted(&floaters, &at);
            }
            let mut listing = Listing::holding(at);
            let (time, answer) = timed(&lent, &mut listing);
            worst = worst.max(time);
            let expected = if is_allowed(&floaters, &at) { next_placement(&floaters, &at).ok_or(SEVENTEEN) } else { Err(EIGHTEEN) };
            assert_eq!(answer, expected, "{line} {at:?}");
        }
    }
    assert!(first >= 7 && none >= 5, "{first} {none}");
    assert!(worst < Duration::from_millis(10), "{worst:?}");
}

/// Placements on adversarial lines that are plain to see.
#[test]
fn plain_to_see() {
    let first = |line: String| request(&Lent::of(&read(line.as_bytes()).unwrap()), &mut Listing::FRESH.clone());
    let free = "A".repeat(253);
    assert_eq!(first(format!("[+1]^6?(A)[+2][+3]{free}")), Err(SEVENTEEN));
    assert_eq!(first(format!("[+1]^7?(A)[+2]{free}")), Ok([2, 3, 4, 5, 6, 7, 8, 1]));
    assert_eq!(first(format!("[+1]^7?{free}(A)[+2]")), Ok([1, 2, 3, 4, 5, 6, 7, 254]));
    assert_eq!(first("[+1]^8?AAAAAAA".to_owned()), Err(SEVENTEEN));
    let eight = "[+1]".repeat(8);
    let lent = Lent::of(&read(format!("{eight}?A{free}").as_bytes()).unwrap());
    let mut last = Listing::holding([254, 253, 252, 251, 250, 249, 248, 247]);
    assert_eq!(request(&lent, &mut last), Err(SEVENTEEN));
    let mut carried = Listing::holding([1, 254, 253, 252, 251, 250, 249, 248]);
    assert_eq!(request(&lent, &mut carried), Ok([2, 1, 3, 4, 5, 6, 7, 8]));
    // the copies of one bracket
    let lent = Lent::of(&read(format!("[+1]^8?A{free}").as_bytes()).unwrap());
    let mut last = Listing::holding([247, 248, 249, 250, 251, 252, 253, 254]);
    assert_eq!(request(&lent, &mut last), Err(SEVENTEEN));
    let mut carried = Listing::holding([1, 248, 249, 250, 251, 252, 253, 254]);
    assert_eq!(request(&lent, &mut carried), Ok([2, 3, 4, 5, 6, 7, 8, 9]));
    let mut within = Listing::holding([1, 2, 3, 4, 5, 252, 253, 254]);
    assert_eq!(request(&lent, &mut within), Ok([1, 2, 3, 4, 6, 7, 8, 9]));
    // two brackets of four: the first stays, and the second goes on
    let lent = Lent::of(&read(format!("[+1]^4[+1]^4?A{free}").as_bytes()).unwrap());
    let mut carried = Listing::holding([5, 6, 7, 8, 251, 252, 253, 254]);
    assert_eq!(request(&lent, &mut carried), Ok([5, 6, 7, 9, 1, 2, 3, 4]));
    let mut within = Listing::holding([1, 2, 253, 254, 3, 250, 251, 252]);
    assert_eq!(request(&lent, &mut within), Ok([1, 2, 253, 254, 4, 5, 6, 7]));
}

/// The first of eight nested labels can only stand on the last position, the second on the one before it, and so on; the last three have three positions between them.
#[test]
fn nested_labels() {
    let orders = [[224, 235, 242], [224, 242, 235], [235, 224, 242], [235, 242, 224], [242, 224, 235], [242, 235, 224]];
    let expected = orders.map(|[one, two, three]| [254, 252, 248, 247, 243, one, two, three]);
    let lines = nested();
    assert_eq!(lines.iter().map(|(_, line)| line.len()).collect::<Vec<_>>(), [451, 4_064, 455]);
    for (name, line) in &lines[..2] {
        let lent = Lent::of(&read(line.as_bytes()).unwrap());
        assert_eq!(listed(&lent, 9), (expected.to_vec(), Some(SEVENTEEN)), "{name}");
    }
    // the last four have 1, 248, 249 and 250 between them, of which the last two may not take 250
    let lent = Lent::of(&read(lines[2].1.as_bytes()).unwrap());
    assert_eq!(request(&lent, &mut Listing::FRESH.clone()), Ok([254, 253, 252, 251, 1, 250, 248, 249]));
}

/// Eight floaters on eight positions: all 40,320 orders, ascending; of the copies of one bracket, one.
#[test]
fn eight_on_eight() {
    check_listed("[+1]^8?AAAAAAAA", &[&[1, 2, 3, 4, 5, 6, 7, 8]]);
    let lent = Lent::of(&read(("[+1]".repeat(8) + "?AAAAAAAA").as_bytes()).unwrap());
    let mut listing = Listing::FRESH;
    let mut order: Placement = [1, 2, 3, 4, 5, 6, 7, 8];
    let mut met = 0;
    loop {
        assert_eq!(request(&lent, &mut listing), Ok(order));
        met += 1;
        // the next order of the same numbers
        let Some(at) = (0..7).rev().find(|&at| order[at] < order[at + 1]) else { break };
        let with = (0..8).rev().find(|&with| order[with] > order[at]).unwrap();
        order.swap(at, with);
        order[at + 1..].reverse();
    }
    assert_eq!(met, 40_320);
    assert_eq!(request(&lent, &mut listing), Err(SEVENTEEN));
}

/// Long lines: the next placement by plain backtracking, where that ends within its budget.
#[test]
fn placements_of_long_lines() {
    let (mut met, mut over) = (0, 0);
    for_crowded(46, 4_000, 60, |line, held| {
        let floaters = floaters(held);
        let lent = Lent::of(held);
        let mut listing = Listing::FRESH;
        for _ in 0..5 {
            let before = listing;
            let answer = request(&lent, &mut listing);
            match plain_next(&floaters, (!before.is_fresh()).then_some(&before.at), 20_000) {
                Search::Found(placement) => assert_eq!(answer, Ok(placement), "{}", shown(line)),
                Search::NoneLeft => assert_eq!(answer, Err(SEVENTEEN), "{}", shown(line)),
                Search::OutOfBudget => over += 1,
            }
            met += 1;
        }
    });
    assert!(met - over > share(15_000), "{met} {over}");
}

/// The rows that are handed out into so much room that is full of junk; all of it stays on a refusal.
fn handed(lent: &Lent, room: usize) -> Result<Vec<Site>, Refusal> {
    let mut rows = vec![JUNK; room];
    let answer = proved::rows(&lent.bytes, &lent.numbers, &mut rows);
    let behind = rows.split_off(answer.unwrap_or(0));
    assert!(behind.iter().all(|&row| row == JUNK));
    answer.map(|_| rows)
}

/// The bracket and the copy of each floater, from two slices that are full of junk and longer or shorter than they need be; all of it stays on a refusal.
fn by_brackets(lent: &Lent, rooms: (usize, usize)) -> Result<Vec<(usize, u8)>, Refusal> {
    let (mut brackets, mut copies) = (vec![0xA5; rooms.0], vec![0x5A; rooms.1]);
    let answer = proved::floater_brackets(&lent.bytes, &lent.numbers, &mut brackets, &mut copies);
    let found = answer.unwrap_or(0);
    assert!(brackets.split_off(found).iter().all(|&one| one == 0xA5) && copies.split_off(found).iter().all(|&one| one == 0x5A));
    answer.map(|_| brackets.iter().map(|&one| usize::from(one)).zip(copies).collect())
}

fn check_brackets(line: &[u8], held: &Line, lent: &Lent) {
    let floaters = floaters(held);
    let copy = |i: usize| floaters[..=i].iter().filter(|one| one.bracket == floaters[i].bracket).count() as u8;
    let expected: Vec<(usize, u8)> = (0..floaters.len()).map(|i| (floaters[i].bracket, copy(i))).collect();
    for rooms in [(8, 8), (11, 9)] {
        assert_eq!(by_brackets(lent, rooms), Ok(expected.clone()), "{}", shown(line));
    }
    for rooms in [(7, 8), (8, 7), (0, 0)] {
        assert_eq!(by_brackets(lent, rooms), Err(THIRTEEN));
    }
}

fn check_rows(line: &[u8], held: &Line) -> usize {
    let lent = Lent::of(held);
    let before = lent.clone();
    check_brackets(line, held, &lent);
    let expected: Vec<Site> = positions::rows(&floaters(held)).iter().map(|row| Site { floater: row.floater, position: row.position }).collect();
    for room in [2048, 2051] {
        assert_eq!(handed(&lent, room), Ok(expected.clone()), "{}", shown(line));
    }
    assert_eq!(handed(&lent, 2047), Err(THIRTEEN));
    assert!(lent.same(&before));
    expected.len()
}

#[test]
fn rows_of_lines() {
    let mut met = 0;
    for_vectors(|line, held, outcome| {
        check_rows(line, held);
        let given: Vec<Vec<i64>> = Json::read(outcome).get("rows").list().iter().map(|row| row.numbers()).collect();
        let found = handed(&Lent::of(held), 2048).unwrap();
        let found: Vec<Vec<i64>> = found.iter().map(|row| vec![i64::from(row.floater), i64::from(row.position)]).collect();
        assert_eq!(found, given, "{}", shown(line));
        met += given.len();
    });
    for_generated(47, 20_000, |line, held| met += check_rows(line, held));
    for_crowded(48, 10_000, 12, |line, held| met += check_rows(line, held));
    for_declared(49, 10_000, |line, held| met += check_rows(line, held));
    assert!(met > share(50_000), "{met}");
    // the most rows that a line has: eight floaters on 254 residues
    let line = format!("[+1]^8?{}", "A".repeat(254));
    assert_eq!(check_rows(line.as_bytes(), &read(line.as_bytes()).unwrap()), 8 * 254);
}

/// The positions that each bracket reaches, into slices of junk that are longer than need be and just long enough, by the independent reader: those where a declaration is
/// placed, and none of another bracket. How many there are.
fn check_reached(line: &[u8], held: &Line) -> usize {
    const JUNK: Position = 0xA5C3;
    let lent = Lent::of(held);
    let before = lent.clone();
    let (bytes, numbers) = (&lent.bytes, &lent.numbers);
    let most = held.residues.len() % 5 + 256;
    let mut met = 0;
    for (k, bracket) in held.brackets.iter().enumerate() {
        let ours: Vec<Position> = match bracket.kind {
            Kind::Declared => placed_on(held, bracket).iter().collect(),
            _ => Vec::new(),
        };
        for room in [most, 256] {
            let mut positions = vec![JUNK; room];
            assert_eq!(proved::reached(bytes, numbers, k, &mut positions), Ok(ours.len()), "{} {k}", shown(line));
            assert_eq!(positions[..ours.len()], ours[..], "{} {k}", shown(line));
            assert!(positions[ours.len()..].iter().all(|&one| one == JUNK), "{} {k}", shown(line));
        }
        met += ours.len();
    }
    // no such bracket; and 13 before it
    let mut positions = vec![JUNK; most];
    for none in [held.brackets.len(), 64, 65, 256, 1 << 32, usize::MAX] {
        if none >= held.brackets.len() {
            assert_eq!(proved::reached(bytes, numbers, none, &mut positions), Err(SEVENTEEN), "{} {none}", shown(line));
        }
    }
    for room in [0, 1, 255] {
        for k in [0, held.brackets.len(), usize::MAX] {
            assert_eq!(proved::reached(bytes, numbers, k, &mut positions[..room]), Err(THIRTEEN), "{} {k}", shown(line));
        }
    }
    assert!(positions.iter().all(|&one| one == JUNK) && lent.same(&before), "{}", shown(line));
    met
}

#[test]
fn positions_reached() {
    let (mut met, mut most) = (0, 0);
    let mut check = |line: &[u8], held: &Line| {
        let reached = check_reached(line, held);
        met += usize::from(reached > 0);
        most = most.max(reached);
    };
    for_vectors(|line, held, _| check(line, held));
    for_generated(37, 20_000, &mut check);
    for_declared(38, 20_000, &mut check);
    for one in declarations() {
        if let Ok(held) = read(&one.line) {
            check(&one.line, &held);
        }
    }
    assert!(met > share(5_000), "{met}");
    // eight declarations at each of 256 positions
    assert_eq!(most, 8 * 256);
}

/// The positions that the readings of document 02 give (docs/DECISIONS.md), bracket by bracket.
#[test]
fn positions_reached_by_hand() {
    for (line, expected) in [
        ("<[+1]@k,n-TERM>Ak", &[&[0, 2][..]][..]),
        ("<[+1]@K,k,K>AK", &[&[2]]),
        ("<[+1]@A>(?AC)(AD)[+2]", &[&[1, 3], &[]]),
        ("<[+1]@D>B", &[&[]]),
        ("<[+1]@N>N", &[&[1]]),
        ("<[+1]@K><[+1]@K>K", &[&[1], &[1]]),
        ("<[+1]@K,N-term,C-term>[+2]-K[+3]", &[&[0, 1, 2], &[], &[]]),
        ("<[+1]@N-term>[+2#a]-A[#a]", &[&[0], &[], &[]]),
        ("<[TMT6plex]@K,N-term>ATPEILTCNSIGCLK", &[&[0, 15]]),
        ("<[Oxidation]@C,M>MTPEILTCNSIGCLK", &[&[1, 8, 13]]),
        ("<[Oxidation]@C,M>EPELVESGGGLAQP", &[&[]]),
    ] {
        let lent = Lent::of(&read(line.as_bytes()).unwrap());
        for (k, ours) in expected.iter().enumerate() {
            let mut positions = [9; 256];
            assert_eq!(proved::reached(&lent.bytes, &lent.numbers, k, &mut positions), Ok(ours.len()), "{line} {k}");
            assert_eq!(positions[..ours.len()], **ours, "{line} {k}");
        }
        assert_eq!(proved::reached(&lent.bytes, &lent.numbers, expected.len(), &mut [9; 256]), Err(SEVENTEEN), "{line}");
    }
}

#[test]
fn lookups_in_any_rows() {
    let mut random = Random::new(49);
    let (mut found, mut missed) = (0, 0);
    for round in 0..share(4_000) {
        let room = 2048 + round % 3;
        let mut rows = vec![JUNK; room];
        let few = [3, 9, 256][round % 3];
        let filled = random.below(room + 1);
        rows[..filled].fill_with(|| Site { floater: random.below(few) as u8, position: random.below(65_536) as Position });
        if round % 2 == 0 {
            rows.sort_by_key(|row| (row.floater, row.position));
        }
        let ours: Vec<Row> = rows.iter().map(|row| Row { floater: row.floater, position: row.position }).collect();
        for n in [0, 1, filled, random.below(2049), 2047, 2048, 2049, usize::MAX] {
            for floater in [0, 1, random.below(few + 1) as u8, JUNK.floater, 255] {
                let expected = positions::first_row(&ours, n, floater);
                assert_eq!(proved::first_row(&rows, n, floater), expected, "{n} {floater}");
                match expected {
                    Ok(_) => found += 1,
                    Err(_) => missed += 1,
                }
            }
        }
        let kept: Vec<Row> = rows.iter().map(|row| Row { floater: row.floater, position: row.position }).collect();
        assert!(kept == ours);
    }
    assert!(found > share(20_000) && missed > share(20_000), "{found} {missed}");
    // rows past the first 2,048 do not count
    let mut rows = vec![JUNK; 2049];
    rows[2048] = Site { floater: 1, position: 7 };
    assert_eq!(proved::first_row(&rows, usize::MAX, 1), Err(SEVENTEEN));
    rows[2047] = Site { floater: 1, position: 9 };
    assert_eq!(proved::first_row(&rows, 2048, 1), Ok((2047, 9)));
    assert_eq!(proved::first_row(&rows, 2047, 1), Err(SEVENTEEN));
    for short in [0, 1, 2047] {
        assert_eq!(proved::first_row(&rows[..short], 1, JUNK.floater), Err(THIRTEEN));
    }
}

/// The rows of a line, shuffled: the first row of each floater is still found.
#[test]
fn lookups_in_shuffled_rows() {
    let mut random = Random::new(50);
    for_crowded(51, 2_000, 12, |line, held| {
        let rows = handed(&Lent::of(held), 2048).unwrap();
        let count = rows.len();
        let mut shuffled = rows.clone();
        for at in (1..count).rev() {
            shuffled.swap(at, random.below(at + 1));
        }
        for mut one in [rows, shuffled] {
            one.resize(2048, JUNK);
            for floater in 0..=9 {
                let index = (0..count).find(|&at| one[at].floater == floater);
                let expected = index.map(|at| (at, one[at].position)).ok_or(SEVENTEEN);
                assert_eq!(proved::first_row(&one, count, floater), expected, "{} {floater}", shown(line));
            }
        }
    });
}

#[test]
fn areas_that_are_too_short_or_no_tables() {
    let lent = Lent::of(&read(b"[+1]?AC").unwrap());
    let limits = proved::limits();
    let mut rows = vec![JUNK; limits.rows];
    let mut check = |bytes: &[u8], numbers: &[i64], number: u8| {
        let refusal = Err(Refusal::new(number, 0));
        for before in [Listing::FRESH, Listing::holding([1, 0, 0, 0, 0, 0, 0, 0]), Listing { at: [9; 8], ..Listing::FRESH }] {
            let mut listing = before;
            assert_eq!(proved::next(bytes, numbers, &mut listing), refusal);
            assert_eq!(listing, before);
        }
        assert_eq!(proved::rows(bytes, numbers, &mut rows), Err(Refusal::new(number, 0)));
        assert!(rows.iter().all(|&row| row == JUNK));
        let mut positions = vec![JUNK.position; limits.positions];
        for k in [0, 1, usize::MAX] {
            assert_eq!(proved::reached(bytes, numbers, k, &mut positions), Err(Refusal::new(number, 0)));
        }
        assert!(positions.iter().all(|&one| one == JUNK.position));
    };
    check(&lent.bytes[..limits.bytes - 1], &lent.numbers, 13);
    check(&lent.bytes, &lent.numbers[..limits.numbers - 1], 13);
    check(&[], &[], 13);
    let mut none = lent.clone();
    none.bytes[LETTERS] = b'a';
    check(&none.bytes, &none.numbers, 14);
    none.bytes[LETTERS] = b'A';
    none.numbers[1] = 1;
    check(&none.bytes, &none.numbers, 14);
    // 13 for the room of rows and of positions comes before 14
    assert_eq!(proved::rows(&none.bytes, &none.numbers, &mut []), Err(THIRTEEN));
    assert_eq!(proved::reached(&none.bytes, &none.numbers, 0, &mut vec![0; limits.positions - 1]), Err(THIRTEEN));
}
