//! Why there is no placement (02, L7): the lines written by hand, and what holds of every answer, by the rows, by plain trying and by changing places rather than by counting sets.

#[allow(dead_code)]
mod json;
mod lines;

use std::collections::{BTreeMap, BTreeSet};
use std::time::{Duration, Instant};

use compare::areas::{encode, LETTERS, ROW, ROWS, TEXTS};
use compare::canonical::canonical;
use compare::floating::{adversarial, alone, labelled, lacking, scarce};
use compare::generate::{share, Random};
use compare::line::{Bracket, Line, Refusal};
use compare::positions::{all_placements, floaters, plain_next, rows, Floater, Listing, Position, Row, Search};
use compare::proved;
use compare::reader::read;
use compare::reasons::{why_none, why_none_areas};
use json::Json;
use lines::{for_crowded, for_declared, for_generated, for_vectors, many, seeded, shown, wrong_compositions, wrong_places, Lent};

const REASONS: &str = include_str!("../vectors/reasons.txt");
const NOTES: &str = include_str!("../vectors/reasons.notes");

/// A call that says why, over two areas.
type Call = fn(&[u8], &[i64]) -> Result<Vec<u8>, Refusal>;

/// The calls that are held to one another: every test below asks all of them.
const CALLS: [(&str, Call); 2] = [("the independent code", why_none_areas), ("the proved library", proved::why_none)];

/// What is said of a line: by each call the same as by the line itself, and the areas stay as they were.
fn said(line: &[u8], held: &Line) -> Vec<u8> {
    let said = why_none(held);
    let lent = Lent::of(held);
    for (name, call) in CALLS {
        let before = lent.clone();
        assert_eq!(call(&lent.bytes, &lent.numbers), Ok(said.clone()), "{name}: {}", shown(line));
        assert!(lent.same(&before), "{name}: {}", shown(line));
    }
    said
}

/// Areas that each call refuses.
fn check_refused(bytes: &[u8], numbers: &[i64], number: u8, what: &str) {
    for (name, call) in CALLS {
        assert_eq!(call(bytes, numbers), Err(Refusal::new(number, 0)), "{name}: {what}");
    }
}

/// The lines written by hand, each with its numbers.
fn by_hand() -> Vec<(&'static str, Vec<u8>)> {
    let row = |row: &'static str| {
        let (line, numbers) = row.split_once('\t').expect("a line and its numbers");
        (line, numbers.split_whitespace().map(|number| number.parse().expect("a number")).collect())
    };
    REASONS.lines().map(row).collect()
}

/// Written from document 02, L7, by its readings, before src/reasons.rs was; the notes say why for each.
#[test]
fn lines_written_by_hand() {
    let lines = by_hand();
    let notes: Vec<&str> = NOTES.lines().map(|row| row.split_once('\t').expect("a line and a note").0).collect();
    assert!(lines.iter().map(|row| row.0).eq(notes), "each line has its note");
    assert_eq!(lines.len(), 40);
    for (line, expected) in lines {
        let held = read(line.as_bytes()).unwrap_or_else(|no| panic!("{no:?} {line}"));
        assert_eq!(said(line.as_bytes(), &held), expected, "{line}");
    }
}

/// Calls with so many lines that have few positions for their labels.
fn for_scarce(seed: u64, count: usize, mut check: impl FnMut(&[u8], &Line)) {
    let mut random = Random::new(seeded(seed));
    let mut met = 0;
    while met < many(count) {
        // now and then one has too many brackets
        let line = scarce(&mut random);
        match read(line.as_bytes()) {
            Ok(held) => check(line.as_bytes(), &held),
            Err(refusal) => {
                assert_eq!(refusal.number, 6, "{line}");
                continue;
            }
        }
        met += 1;
    }
}

/// Every line of these tests: generated ones, ones with declarations, short ones full of floating copies, ones with few positions for their labels, the vectors, the lines on which a plain search
/// does not end, those written by hand, and one or two copies more than residues.
fn for_all(seed: u64, mut check: impl FnMut(&[u8], &Line)) {
    for_generated(seed, 10_000, &mut check);
    for_declared(seed + 1, 5_000, &mut check);
    for most_residues in [2, 4, 6, 9, 30] {
        for_crowded(seed + most_residues as u64, 6_000, most_residues, &mut check);
    }
    for_scarce(seed + 7, 6_000, &mut check);
    for_vectors(|line, held, _| check(line, held));
    let mut lines = adversarial();
    lines.extend(by_hand().into_iter().map(|row| row.0.to_owned()));
    for copies in 2..=8 {
        lines.extend([1, 2].map(|fewer| format!("[+1]^{copies}?{}", "A".repeat((copies - fewer).max(1)))));
    }
    for line in lines {
        check(line.as_bytes(), &read(line.as_bytes()).unwrap());
    }
}

/// Whether the listing of the proved library answers 17 at its start.
fn lists_none(held: &Line) -> bool {
    let lent = Lent::of(held);
    let answer = proved::next(&lent.bytes, &lent.numbers, &mut proved::Listing::FRESH.clone());
    assert!(answer.is_ok() || answer == Err(Refusal::new(17, 0)));
    answer.is_err()
}

/// "When the listing answers 17 at its start", the model's and the proved library's, and only then; a search that runs into its budget says nothing. The vectors bring their own number of
/// placements.
#[test]
fn something_is_said_exactly_where_there_is_no_placement() {
    let (mut none, mut some, mut undecided) = (0, 0, 0);
    for_all(60, |line, held| {
        let floaters = floaters(held);
        let without = !said(line, held).is_empty();
        assert_eq!(Listing::FRESH.clone().request(&floaters) == Err(Refusal::new(17, 0)), without, "{}", shown(line));
        assert_eq!(lists_none(held), without, "{}", shown(line));
        assert_eq!(all_placements(&floaters, 1).0.is_empty(), without, "{}", shown(line));
        match plain_next(&floaters, None, 100_000) {
            Search::Found(_) => assert!(!without, "{}", shown(line)),
            Search::NoneLeft => assert!(without, "{}", shown(line)),
            Search::OutOfBudget => undecided += 1,
        }
        none += usize::from(without);
        some += usize::from(!without && !floaters.is_empty());
    });
    assert!(none > share(8_000) && some > share(15_000) && undecided < 30 + many(100), "{none} {some} {undecided}");
    let mut none = 0;
    for_vectors(|line, held, outcome| {
        let without = Json::read(outcome).get("nplace").number() == 0;
        assert_eq!(!said(line, held).is_empty(), without, "{}", shown(line));
        assert_eq!(lists_none(held), without, "{}", shown(line));
        none += usize::from(without);
    });
    assert!(none > 50, "{none}");
}

/// The numbers rise and are floaters'; by the rows their positions are one fewer than they are.
#[test]
fn one_position_is_lacking() {
    let mut met = BTreeMap::new();
    for_all(70, |line, held| {
        let set = said(line, held);
        assert!(set.windows(2).all(|pair| pair[0] < pair[1]), "{}", shown(line));
        assert!(set.iter().all(|&number| (1..=held.floaters()).contains(&usize::from(number))), "{}", shown(line));
        if !set.is_empty() {
            let rows: Vec<Row> = rows(&floaters(held));
            let own = rows.iter().filter(|row| set.contains(&row.floater));
            let together: BTreeSet<Position> = own.map(|row| row.position).collect();
            assert_eq!(together.len() + 1, set.len(), "{}", shown(line));
            *met.entry(set.len()).or_insert(0) += 1;
        }
    });
    assert!((1..=8).all(|size| met.get(&size).is_some_and(|&lines| lines > share(100))), "{met:?}");
}

/// The floaters with these numbers.
fn some_of(floaters: &[Floater], set: &[u8]) -> Vec<Floater> {
    set.iter().map(|&number| floaters[usize::from(number) - 1]).collect()
}

/// Whether floaters can stand by themselves, each at a position of its own: every position is tried for the first one, with every one for the next, and so on.
fn can_stand(floaters: &[Floater], taken: &[Position]) -> bool {
    let Some((first, rest)) = floaters.split_first() else {
        return true;
    };
    (0..=255).filter(|position| first.permitted.contains(*position) && !taken.contains(position)).any(|position| can_stand(rest, &[taken, &[position]].concat()))
}

/// The same, quicker: one floater after another is put somewhere, and whoever stands there already goes elsewhere.
fn can_change_places(floaters: &[Floater]) -> bool {
    let mut standing = BTreeMap::new();
    (0..floaters.len()).all(|one| goes_somewhere(floaters, one, &mut standing, &mut BTreeSet::new()))
}

fn goes_somewhere(floaters: &[Floater], one: usize, standing: &mut BTreeMap<Position, usize>, tried: &mut BTreeSet<Position>) -> bool {
    for position in 0..=255 {
        if floaters[one].permitted.contains(position) && tried.insert(position) {
            let other = standing.get(&position).copied();
            if other.is_none_or(|other| goes_somewhere(floaters, other, standing, tried)) {
                standing.insert(position, one);
                return true;
            }
        }
    }
    false
}

/// How many ways there are to give each floater one of its positions.
fn ways(floaters: &[Floater]) -> usize {
    floaters.iter().map(|one| one.permitted.len().max(1)).fold(1, usize::saturating_mul)
}

/// Without any one of them the others can stand, so that each belongs to the reason; and with all of them they cannot.
#[test]
fn each_one_is_needed() {
    let (mut met, mut tried) = (0, 0);
    for_all(80, |line, held| {
        let set = said(line, held);
        if set.is_empty() {
            return;
        }
        let members = some_of(&floaters(held), &set);
        let plainly = ways(&members) <= 3_000;
        assert!(!can_change_places(&members), "{}", shown(line));
        assert!(!plainly || !can_stand(&members, &[]), "{}", shown(line));
        for (without, number) in set.iter().enumerate() {
            let mut others = members.clone();
            others.remove(without);
            assert!(can_change_places(&others), "{} without {number}", shown(line));
            assert!(!plainly || can_stand(&others, &[]), "{} without {number}", shown(line));
        }
        met += 1;
        tried += usize::from(plainly);
    });
    assert!(met > share(8_000) && tried > share(7_000), "{met} {tried}");
}

/// Every ascending list of so many numbers up to one, the least list first.
fn lists_of(size: usize, from: u8, to: u8) -> Vec<Vec<u8>> {
    if size == 0 {
        return vec![Vec::new()];
    }
    let with = |first: u8| lists_of(size - 1, first + 1, to).into_iter().map(move |rest| [vec![first], rest].concat());
    (from..=to).flat_map(with).collect()
}

/// The first floaters that cannot stand by themselves, in order of size and then of their lists: no position is counted. By Hall's theorem they are the smallest short set: those that are short
/// cannot stand, and those that cannot have short ones among them, which are all of them where any fewer can stand.
fn first_that_cannot_stand(count: usize, stands: impl Fn(&[u8]) -> bool) -> Vec<u8> {
    let mut lists = (1..=count).flat_map(|size| lists_of(size, 1, count as u8));
    lists.find(|list| !stands(list)).unwrap_or_default()
}

#[test]
fn lists_ascend() {
    assert_eq!(lists_of(2, 1, 4), [[1, 2], [1, 3], [1, 4], [2, 3], [2, 4], [3, 4]]);
    for size in 0..=8 {
        let lists = lists_of(size, 1, 8);
        assert!(lists.windows(2).all(|pair| pair[0] < pair[1]));
        assert!(lists.iter().all(|list| list.len() == size && list.windows(2).all(|pair| pair[0] < pair[1])));
    }
    assert_eq!((0..=8).map(|size| lists_of(size, 1, 8).len()).sum::<usize>(), 256);
}

/// No smaller set and no earlier one is short: on small lines by trying every placement of every set.
#[test]
fn no_smaller_and_no_earlier_set_by_plain_trying() {
    let (mut met, mut without, mut later) = (0, 0, 0);
    for (seed, most_residues) in [(90, 2), (91, 3), (92, 4), (93, 6)] {
        for_crowded(seed, 4_000, most_residues, |line, held| {
            let floaters = floaters(held);
            if ways(&floaters) > 600 {
                return;
            }
            let expected = first_that_cannot_stand(floaters.len(), |list| can_stand(&some_of(&floaters, list), &[]));
            assert_eq!(said(line, held), expected, "{}", shown(line));
            met += 1;
            without += usize::from(!expected.is_empty());
            later += usize::from(expected.iter().zip(1..).any(|(&number, first)| number != first));
        });
    }
    assert!(met > share(10_000) && without > share(4_000) && later > share(1_000), "{met} {without} {later}");
}

/// On every line by changing places.
#[test]
fn no_smaller_and_no_earlier_set_by_changing_places() {
    let (mut without, mut later) = (0, 0);
    for_all(100, |line, held| {
        let floaters = floaters(held);
        let expected = first_that_cannot_stand(floaters.len(), |list| can_change_places(&some_of(&floaters, list)));
        assert_eq!(said(line, held), expected, "{}", shown(line));
        without += usize::from(!expected.is_empty());
        later += usize::from(expected.iter().zip(1..).any(|(&number, first)| number != first));
    });
    assert!(without > share(8_000) && later > share(2_000), "{without} {later}");
}

/// Every set of every number of floaters is the answer to some line, and no other set of that line has too few positions without it.
#[test]
fn every_set_of_up_to_eight() {
    let mut random = Random::new(seeded(105));
    for floaters in 1..=8 {
        for set in 1_usize..1 << floaters {
            for _ in 0..3 {
                let line = lacking(&mut random, floaters, set);
                let held = read(line.as_bytes()).unwrap_or_else(|no| panic!("{no:?} {line}"));
                let expected: Vec<u8> = (1..=8).filter(|number| set >> (number - 1) & 1 == 1).collect();
                assert_eq!(held.floaters(), floaters, "{line}");
                assert_eq!(said(line.as_bytes(), &held), expected, "{line}");
                assert!(lists_none(&held), "{line}");
            }
        }
    }
}

/// Two sets of one size that share no floater, of one to four of eight: of every such pair the one with the lesser list is said, wherever its residues lie.
#[test]
fn of_two_equals_the_first() {
    let mut met = 0;
    for size in 1..=4 {
        let lists = lists_of(size, 1, 8);
        for (one, other) in lists.iter().flat_map(|one| lists.iter().map(move |other| (one, other))) {
            if one < other && one.iter().all(|number| !other.contains(number)) {
                // the lesser list has residues behind those of the other, or in front
                for behind in [0, 20] {
                    let shared = |from: usize| -> Vec<usize> { (1..size.max(2)).map(|residue| from + residue).collect() };
                    let list = |number: u8| match (one.contains(&number), other.contains(&number)) {
                        (true, _) => shared(behind),
                        (_, true) => shared(10),
                        _ => vec![30 + usize::from(number)],
                    };
                    let lists: Vec<Vec<usize>> = (1..=8).map(list).collect();
                    let line = labelled(&lists, if size == 1 { &[1, 11, 21] } else { &[] });
                    assert_eq!(said(line.as_bytes(), &read(line.as_bytes()).unwrap()), *one, "{line}");
                    met += 1;
                }
            }
        }
    }
    assert_eq!(met, 2 * (28 + 210 + 280 + 35));
}

/// Of the lines on which the most sets are tried: all eight, and of six that are alone with two on their residues, the first seven.
#[test]
fn lines_made_for_the_search() {
    let lines = alone();
    assert_eq!(lines.iter().map(|(_, line)| line.len()).collect::<Vec<_>>(), [351, 4_064, 351, 367]);
    for (number, (name, line)) in lines.iter().enumerate() {
        let last = if number == 3 { 7 } else { 8 };
        assert_eq!(said(line.as_bytes(), &read(line.as_bytes()).unwrap()), (1..=last).collect::<Vec<u8>>(), "{name}");
    }
}

/// On every line on which a plain search does not end, and on those made for this search, there is an answer at once: the quickest of three.
#[test]
fn answers_are_quick() {
    let mut worst = Duration::ZERO;
    let mut without = 0;
    for line in adversarial() {
        let lent = Lent::of(&read(line.as_bytes()).unwrap());
        let mut quickest = Duration::MAX;
        let mut set = [0; 8];
        for _ in 0..3 {
            let start = Instant::now();
            let count = proved::why_none_into(&lent.bytes, &lent.numbers, &mut set);
            quickest = quickest.min(start.elapsed());
            without += usize::from(count.unwrap() > 0);
        }
        worst = worst.max(quickest);
    }
    assert!(without >= 3 * 10, "{without}");
    assert!(worst < Duration::from_millis(10), "{worst:?}");
}

/// Tables with something changed: where they are still some line's, what this line says; else 14.
#[test]
fn damaged_tables() {
    let mut random = Random::new(seeded(115));
    let (mut tables, mut none, mut without) = (0, 0, 0);
    for_scarce(116, 2_000, |line, held| {
        let mut lent = Lent::of(held);
        for _ in 0..4 {
            let row = ROWS + random.below(held.brackets.len()) * ROW;
            let at = match random.below(4) {
                0 => random.below(LETTERS + held.residues.len()),
                1 => row + random.below(ROW),
                2 => row + random.below(8),
                _ => random.below(TEXTS + 64),
            };
            let before = lent.bytes[at];
            lent.bytes[at] = before.wrapping_add(*random.pick(&[&1, &255, &2, &32, &128]));
            let expected = why_none_areas(&lent.bytes, &lent.numbers);
            for (name, call) in CALLS {
                let before = lent.clone();
                assert_eq!(call(&lent.bytes, &lent.numbers), expected, "{name}: {} with another byte {at}", shown(line));
                assert!(lent.same(&before), "{name}: {}", shown(line));
            }
            match expected {
                Ok(set) => {
                    tables += 1;
                    without += usize::from(!set.is_empty());
                }
                Err(refusal) => {
                    assert_eq!(refusal, Refusal::new(14, 0));
                    none += 1;
                }
            }
            if random.chance(70) {
                lent.bytes[at] = before;
            }
        }
    });
    assert!(tables > share(150) && none > share(3_000) && without > share(100), "{tables} {none} {without}");
}

/// Copies are floaters of their own and ascent plays no part: a line with each copy in a bracket of its own is answered alike, and so is the canonical line.
#[test]
fn copies_apart_and_canonical_lines() {
    let (mut copied, mut without) = (0, 0);
    for_all(110, |line, held| {
        let set = said(line, held);
        let written = canonical(held);
        assert_eq!(said(&written, &read(&written).unwrap()), set, "{}", shown(line));
        let mut apart = held.clone();
        let single = |one: &Bracket| std::iter::repeat_n(Bracket { count: 1, ..*one }, usize::from(one.count));
        apart.brackets = held.brackets.iter().flat_map(single).collect();
        if apart.brackets.len() > held.brackets.len() && apart.brackets.len() <= Line::MOST_BRACKETS {
            let written = canonical(&apart);
            if let Ok(apart) = read(&written) {
                assert_eq!(said(&written, &apart), set, "{} {}", shown(line), shown(&written));
                copied += 1;
                without += usize::from(!set.is_empty());
            }
        }
    });
    assert!(copied > share(8_000) && without > share(2_500), "{copied} {without}");
}

/// 13 and then 14, whatever there would be to say.
#[test]
fn areas_that_are_too_short_or_no_tables() {
    for line in ["[+1]?AC", "[+1]^2?A"] {
        let held = read(line.as_bytes()).unwrap();
        let (bytes, numbers) = encode(&held);
        check_refused(&bytes[1..], &numbers, 13, line);
        check_refused(&bytes[..bytes.len() - 1], &numbers, 13, line);
        check_refused(&bytes, &numbers[..numbers.len() - 1], 13, line);
        check_refused(&[], &[], 13, line);
        let mut none = Lent { bytes, numbers };
        none.bytes[LETTERS] = b'a';
        check_refused(&none.bytes, &none.numbers, 14, line);
        check_refused(&none.bytes, &none.numbers[1..], 13, line);
        none.bytes[LETTERS] = b'A';
        none.numbers[1] = 1;
        check_refused(&none.bytes, &none.numbers, 14, line);
    }
    for (what, lent) in wrong_compositions().into_iter().chain(wrong_places()) {
        check_refused(&lent.bytes, &lent.numbers, 14, &what);
    }
}
