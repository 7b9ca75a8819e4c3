//! Counts, totals, totals for display and ledgers of the proved library, against the vectors and the independent code.

#[allow(dead_code)]
mod json;
mod lines;

use compare::areas::{BYTES_SIZE, NUMBERS_SIZE};
use compare::generate::{share, Random};
use compare::line::{Kind, Line, Refusal};
use compare::masses::{bracket_mass, display, ledger, total, Display, Ledger, Mass};
use compare::positions::{all_placements, floaters, is_allowed, Placement, Position};
use compare::proved;
use compare::reader::read;
use compare::trials::measured;
use json::Json;
use lines::{for_crowded, for_declared, for_generated, for_vectors, remeasured, shown, Lent, JUNK_NUMBER};

const THIRTEEN: Refusal = Refusal::new(13, 0);

/// What a ledger call answers, with the entries in a slice that is longer than it need be; these are junk where nothing is written.
fn booked(lent: &Lent, placement: &[Position]) -> Result<Ledger, Refusal> {
    let mut entries = vec![JUNK_NUMBER; 256 + 5];
    let answer = proved::ledger(&lent.bytes, &lent.numbers, placement, &mut entries);
    let (written, behind) = entries.split_at(256);
    assert!(behind.iter().all(|&one| one == JUNK_NUMBER));
    if answer.is_err() {
        assert!(written.iter().all(|&one| one == JUNK_NUMBER));
    }
    answer.map(|()| Ledger::try_from(written).unwrap())
}

/// Bit for bit: a display is compared by what its double is made of.
fn alike(one: Display, two: Display) -> bool {
    match (one, two) {
        (Display::Daltons(one), Display::Daltons(two)) => one.to_bits() == two.to_bits(),
        _ => one == two,
    }
}

fn check_sums(line: &[u8], held: &Line) {
    let lent = Lent::of(held);
    let before = lent.clone();
    let (bytes, numbers) = (&lent.bytes, &lent.numbers);
    assert_eq!(proved::residues(bytes, numbers), Ok(held.residues.len()), "{}", shown(line));
    assert_eq!(proved::brackets(bytes, numbers), Ok(held.brackets.len()), "{}", shown(line));
    assert_eq!(proved::floaters(bytes, numbers), Ok(held.floaters()), "{}", shown(line));
    assert_eq!(proved::total(bytes, numbers), total(held), "{}", shown(line));
    for (k, bracket) in held.brackets.iter().enumerate() {
        let expected = bracket_mass(held.parts_of(bracket));
        assert_eq!(proved::bracket_mass(bytes, numbers, k), Ok(expected), "{} {k}", shown(line));
    }
    for none in [held.brackets.len(), 64, 256, usize::MAX] {
        if none >= held.brackets.len() {
            assert_eq!(proved::bracket_mass(bytes, numbers, none), Err(Refusal::new(17, 0)), "{} {none}", shown(line));
        }
    }
    assert!(alike(proved::shown(bytes, numbers), display(held)), "{}", shown(line));
    if let Ok(millionths) = total(held) {
        let daltons = Display::Daltons(millionths as f64 / 1e6);
        assert!(alike(proved::shown(bytes, numbers), daltons), "{}", shown(line));
    }
    assert!(lent.same(&before));
}

#[test]
fn sums_of_vectors() {
    for_vectors(|line, held, outcome| {
        check_sums(line, held);
        let outcome = Json::read(outcome);
        let lent = Lent::of(held);
        let counts = [proved::residues, proved::brackets, proved::floaters].map(|call| call(&lent.bytes, &lent.numbers));
        let expected = ["res", "br", "fl"].map(|name| Ok(outcome.get(name).number() as usize));
        assert_eq!(counts, expected, "{}", shown(line));
        let missing = outcome.get("missing").number() as usize;
        let expected = if missing == 0 {
            Ok(outcome.get("total").number() as i64)
        } else {
            Err(Refusal::new(16, missing))
        };
        assert_eq!(proved::total(&lent.bytes, &lent.numbers), expected, "{}", shown(line));
    });
}

#[test]
fn sums_of_generated_lines() {
    let (mut summed, mut lacking) = (0, 0);
    let mut check = |line: &[u8], held: &Line| {
        check_sums(line, held);
        match total(held) {
            Ok(millionths) => summed += usize::from(millionths != 0),
            Err(_) => lacking += 1,
        }
    };
    for_generated(31, 60_000, &mut check);
    for_crowded(32, 20_000, 12, &mut check);
    assert!(summed > share(10_000) && lacking > share(2_000), "{summed} {lacking}");
}

/// The mass of each bracket in whole daltons, as document 02 has it: "stated, only measured, or none".
#[test]
fn masses_of_brackets() {
    let (stated, only, none) = (|daltons: i64| Mass::Stated(daltons * 1_000_000), |daltons: i64| Mass::Measured(daltons * 1_000_000), Mass::None);
    for (line, expected) in [
        ("A[Obs:+1]", &[only(1)][..]),
        ("A[Obs:+2|+1]", &[stated(1)]),
        ("A[+1|Obs:+2]", &[stated(1)]),
        ("A[Obs:+1|U:+2|+3]", &[stated(2)]),
        ("A[x|Obs:-2|Obs:+3]", &[only(-2)]),
        ("A[obs:-0][+0|Obs:+1][x]", &[only(0), stated(0), none]),
        ("A[INFO:Obs:+1][U:Obs:+1][INFO:x|Obs:+1]", &[none, none, only(1)]),
        ("A[Obs:+1#a]C[#a]", &[only(1), none]),
        (
            "<[Obs:+1]@W><[Obs:+2|+3]@A>[Obs:+4]^3[Obs:+5]?{Obs:-6}[Obs:+7]-(A)[Obs:+8]-[Obs:+9]",
            &[only(1), stated(3), only(4), only(5), only(-6), only(7), only(8), only(9)],
        ),
    ] {
        let lent = Lent::of(&read(line.as_bytes()).unwrap());
        let masses: Vec<Mass> = (0..expected.len()).map(|k| proved::bracket_mass(&lent.bytes, &lent.numbers, k).unwrap()).collect();
        assert_eq!(masses, expected, "{line}");
        assert_eq!(proved::bracket_mass(&lent.bytes, &lent.numbers, expected.len()), Err(Refusal::new(17, 0)), "{line}");
    }
}

/// The lines with measured masses whose outcomes are written down: the total, or how many lack a mass, for display too; and where some do, 16 for a ledger, whatever the
/// placement.
#[test]
fn given_measured_masses() {
    let (mut summed, mut lacking) = (0, 0);
    for one in measured() {
        let Ok(held) = read(&one.line) else { continue };
        check_sums(&one.line, &held);
        let lent = Lent::of(&held);
        let outcome = String::from_utf8(one.outcome).unwrap();
        let sixth = outcome.split(' ').nth(4).unwrap();
        let (answer, display) = (proved::total(&lent.bytes, &lent.numbers), proved::shown(&lent.bytes, &lent.numbers));
        match sixth.strip_prefix('?') {
            None => {
                let millionths: i64 = sixth.parse().unwrap();
                assert_eq!(answer, Ok(millionths), "{outcome}");
                assert!(alike(display, Display::Daltons(millionths as f64 / 1e6)), "{outcome}");
                summed += 1;
            }
            Some(many) => {
                let sixteen = Refusal::new(16, many.parse().unwrap());
                assert_eq!(answer, Err(sixteen), "{outcome}");
                assert_eq!(display, Display::Missing(sixteen.place), "{outcome}");
                let first = all_placements(&floaters(&held), 1).0;
                for placement in first.iter().chain(&[[0; 8], [9; 8]]) {
                    assert_eq!(booked(&lent, placement), Err(sixteen), "{outcome} {placement:?}");
                }
                lacking += 1;
            }
        }
    }
    assert!(summed > 10 && lacking > 30, "{summed} {lacking}");
}

/// "Measured masses stay out of sums": with other ones, and with names in their place, the library answers the same total or as many that lack one, the same display and the
/// same ledgers.
#[test]
fn measured_masses_stay_out_of_sums() {
    let (mut summed, mut lacking) = (0, 0);
    let mut check = |line: &[u8], held: &Line| {
        let others = remeasured(held);
        if others[0] == *held {
            return;
        }
        let lent = Lent::of(held);
        let answer = proved::total(&lent.bytes, &lent.numbers);
        let (placements, _) = all_placements(&floaters(held), 3);
        for other in others.iter().map(Lent::of) {
            assert_eq!(proved::total(&other.bytes, &other.numbers), answer, "{}", shown(line));
            assert!(alike(proved::shown(&other.bytes, &other.numbers), proved::shown(&lent.bytes, &lent.numbers)), "{}", shown(line));
            for placement in &placements {
                assert_eq!(booked(&other, placement), booked(&lent, placement), "{} {placement:?}", shown(line));
            }
        }
        match answer {
            Ok(_) => summed += 1,
            Err(_) => lacking += 1,
        }
    };
    for_generated(37, 20_000, &mut check);
    for_declared(38, 10_000, &mut check);
    for_crowded(39, 5_000, 12, &mut check);
    assert!(summed > share(5_000) && lacking > share(5_000), "{summed} {lacking}");
}

/// The largest totals that a line can have: "Below 71 times 10^12" without declarations; with eight of them at all of 256 positions, 2,111 times.
#[test]
fn largest_totals() {
    for (sign, size) in [('+', 1), ('-', -1)] {
        let mass = format!("{sign}999999.999999");
        let labile = |many: usize| format!("{{{mass}}}").repeat(many);
        let declared = format!("<[{mass}]@A,N-term,C-term>").repeat(8);
        for (line, times) in [
            (format!("[{mass}]^8?{}A", labile(63)), 71),
            (format!("{declared}[{mass}]^8?{}{}", labile(55), "A".repeat(254)), 2_111),
            (format!("{declared}{}{}", labile(56), "A".repeat(254)), 2_104),
        ] {
            let held = read(line.as_bytes()).unwrap();
            let lent = Lent::of(&held);
            let expected = size * times * 999_999_999_999;
            assert_eq!(proved::total(&lent.bytes, &lent.numbers), Ok(expected));
            let daltons = Display::Daltons(expected as f64 / 1e6);
            assert!(alike(proved::shown(&lent.bytes, &lent.numbers), daltons));
        }
    }
}

/// Ledgers of lines with declarations, whole daltons up to the C-terminus, under the first placement; and eight declarations that reach every position.
#[test]
fn ledgers_of_declarations() {
    for (line, expected) in [
        ("<[+1]@k,n-TERM>Ak", &[1, 0, 1, 0][..]),
        ("<[+1]@A>(?AC)(AD)[+2]", &[0, 1, 0, 1, 2, 0]),
        ("<[+1]@K>K[+2]", &[0, 3, 0]),
        ("<[+1]@K>[+2]?KA", &[0, 1, 2, 0]),
        ("<[+1]@K>K[+2#a]A[#a]", &[0, 1, 2, 0]),
        ("<[+1]@N-term>[+2#a]-A[#a]", &[1, 2, 0]),
        ("<[+1]@K><[+1]@K>K", &[0, 2, 0]),
        ("<[+1]@K,N-term,C-term>[+2]-K[+3]", &[3, 4, 1]),
        ("<[+1]@D>B", &[0, 0, 0]),
    ] {
        let held = read(line.as_bytes()).unwrap();
        let first = all_placements(&floaters(&held), 1).0[0];
        let entries = booked(&Lent::of(&held), &first).unwrap();
        let mut expected: Vec<i64> = expected.iter().map(|entry| entry * 1_000_000).collect();
        expected.resize(256, 0);
        assert_eq!(entries.to_vec(), expected, "{line}");
    }
    let line = "<[+999999.999999]@A,N-term,C-term>".repeat(8) + &"A".repeat(254);
    let entries = booked(&Lent::of(&read(line.as_bytes()).unwrap()), &[0; 8]).unwrap();
    assert!(entries.iter().all(|&entry| entry == 8 * 999_999_999_999));
}

/// Sums and ledgers of lines with 0 to 10 declarations.
#[test]
fn sums_of_declarations() {
    let mut met = 0;
    for_declared(36, 20_000, |line, held| {
        check_sums(line, held);
        let lent = Lent::of(held);
        for placement in &all_placements(&floaters(held), 5).0 {
            assert_eq!(booked(&lent, placement), ledger(held, placement), "{} {placement:?}", shown(line));
            met += 1;
        }
    });
    assert!(met > share(10_000), "{met}");
}

#[test]
fn ledgers_of_vectors() {
    let mut met = 0;
    for_vectors(|line, held, outcome| {
        let outcome = Json::read(outcome);
        let placements = outcome.get("placements").list();
        let Some(first) = placements.first() else { return };
        if outcome.get("missing").number() > 0 {
            return;
        }
        let first: Vec<Position> = first.numbers().iter().map(|&entry| entry as Position).collect();
        let mut expected = outcome.get("ledger").numbers().iter().map(|&entry| entry as i64).collect::<Vec<_>>();
        expected.resize(256, 0);
        assert_eq!(booked(&Lent::of(held), &first).unwrap().to_vec(), expected, "{}", shown(line));
        met += 1;
    });
    assert!(met > 250, "{met}");
}

/// The masses of labile modifications, which no entry holds.
fn labile(held: &Line) -> i64 {
    let labile = held.brackets.iter().filter(|one| one.kind == Kind::Labile);
    labile.filter(|one| held.is_modification(one)).map(|one| bracket_mass(held.parts_of(one)).stated().unwrap()).sum()
}

#[test]
fn ledgers_of_every_placement() {
    let (mut written, mut lacking) = (0, 0);
    for_crowded(33, 5_000, 5, |line, held| {
        let lent = Lent::of(held);
        let before = lent.clone();
        let (placements, _) = all_placements(&floaters(held), 60);
        for placement in &placements {
            let expected = ledger(held, placement);
            assert_eq!(booked(&lent, placement), expected, "{} {placement:?}", shown(line));
            match total(held) {
                Ok(total) => {
                    assert_eq!(expected.unwrap().iter().sum::<i64>() + labile(held), total);
                    written += 1;
                }
                Err(sixteen) => {
                    assert_eq!(expected, Err(sixteen));
                    lacking += 1;
                }
            }
        }
        assert!(lent.same(&before));
    });
    assert!(written > share(8_000) && lacking > share(500), "{written} {lacking}");
}

/// Placements of any content: 18 where they are not allowed, but 16 before it.
#[test]
fn ledgers_of_any_placement() {
    let mut random = Random::new(34);
    let mut met = [0; 19];
    for_crowded(35, 20_000, 4, |line, held| {
        let lent = Lent::of(held);
        let floaters = floaters(held);
        let mut placement: Placement = [0; 8];
        let used = if random.chance(80) { floaters.len() } else { 8 };
        placement[..used].fill_with(|| random.below(held.residues.len() + 3) as Position);
        if random.chance(10) {
            placement[random.below(8)] ^= 256 << random.below(8);
        }
        let answer = booked(&lent, &placement);
        assert_eq!(answer, ledger(held, &placement), "{} {placement:?}", shown(line));
        met[answer.err().map_or(0, |refusal| usize::from(refusal.number))] += 1;
        // further entries of the slice do not count
        let mut longer = placement.to_vec();
        longer.push(7);
        assert_eq!(booked(&lent, &longer), answer);
        let allowed = is_allowed(&floaters, &placement);
        let expected = if allowed { Ok(()) } else { Err(Refusal::new(18, 0)) };
        for slice in [&placement[..], &longer] {
            assert_eq!(proved::allowed(&lent.bytes, &lent.numbers, slice), expected, "{} {placement:?}", shown(line));
        }
    });
    assert!(met[0] > share(1_000) && met[16] > share(500) && met[18] > share(1_000), "{met:?}");
}

#[test]
fn what_is_too_short() {
    let held = read(b"[+1]?A[x]").unwrap();
    let lent = Lent::of(&held);
    let placement = [9; 8];
    let mut entries = vec![JUNK_NUMBER; 256];
    for (b, n) in [(BYTES_SIZE - 1, NUMBERS_SIZE), (BYTES_SIZE, NUMBERS_SIZE - 1), (0, 0)] {
        let (bytes, numbers) = (&lent.bytes[..b], &lent.numbers[..n]);
        for call in [proved::residues, proved::brackets, proved::floaters] {
            assert_eq!(call(bytes, numbers), Err(THIRTEEN));
        }
        assert_eq!(proved::total(bytes, numbers), Err(THIRTEEN));
        for k in [0, 1, 2] {
            assert_eq!(proved::bracket_mass(bytes, numbers, k), Err(THIRTEEN));
        }
        assert_eq!(proved::floater_brackets(bytes, numbers, &mut [0; 8], &mut [0; 8]), Err(THIRTEEN));
        assert_eq!(proved::why_none(bytes, numbers), Err(THIRTEEN));
        assert_eq!(proved::shown(bytes, numbers), Display::Refused(13));
        assert_eq!(proved::allowed(bytes, numbers, &placement), Err(THIRTEEN));
        assert_eq!(proved::ledger(bytes, numbers, &placement, &mut entries), Err(THIRTEEN));
    }
    let (bytes, numbers) = (&lent.bytes, &lent.numbers);
    for short in 0..8 {
        assert_eq!(proved::allowed(bytes, numbers, &placement[..short]), Err(THIRTEEN));
        assert_eq!(proved::ledger(bytes, numbers, &placement[..short], &mut entries), Err(THIRTEEN));
    }
    for short in [0, 1, 8, 255] {
        assert_eq!(proved::ledger(bytes, numbers, &placement, &mut entries[..short]), Err(THIRTEEN));
    }
    assert!(entries.iter().all(|&one| one == JUNK_NUMBER));
    // with room enough it is the mass that is missing, not the placement
    assert_eq!(proved::ledger(bytes, numbers, &placement, &mut entries), Err(Refusal::new(16, 1)));
    assert_eq!(proved::allowed(bytes, numbers, &placement), Err(Refusal::new(18, 0)));
}
