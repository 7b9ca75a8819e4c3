//! How long the calls of the proved library take, beside the independent code doing the same, in one run:
//! `cargo run --release --bins && ../target/compare/release/bench` (after `bin/prove export` and `bin/prove register`).

use std::fs::File;
use std::hint::black_box;
use std::path::Path;
use std::process::{Command, Stdio};
use std::time::{Duration, Instant};

use compare::areas::{decode, encode, tables_of_some_line};
use compare::blocks::{self, BLOCK, MOST_BLOCKS};
use compare::floating::{adversarial, alone, labelled, nested};
use compare::generate::{Generator, Random};
use compare::line::Line;
use compare::positions::{first_placement, floaters, next_placement, Placement};
use compare::proved::{self, Listing};
use compare::{masses, reader, reasons};

/// How many lines of a sort: few enough that their areas stay in the cache.
const LINES: usize = 200;
/// How many calls a round has at least.
const CALLS: usize = 1_000;
/// Each measurement is the quickest of so many rounds over all lines.
const ROUNDS: usize = 40;

fn main() {
    measure("typical", &typical(LINES));
    measure("mixed", &mixed());
    let worst = worst();
    let lines: Vec<Vec<u8>> = worst.iter().map(|(_, line)| line.clone()).collect();
    measure("worst", &lines);
    println!("worst lines, each read");
    for (name, line) in &worst {
        reading(name, &held(std::slice::from_ref(line)));
    }
    println!("the slowest requests known, each for the first placement");
    for (name, line) in nested() {
        first(name, &held(&[line.into_bytes()]).iter().collect::<Vec<_>>());
    }
    println!("why_none, slowest lines known");
    for (name, line) in alone() {
        why(name, &held(&[line.into_bytes()]).iter().collect::<Vec<_>>());
    }
    println!("why_none, other lines");
    for (name, line) in ordinary() {
        why(name, &held(&[line.into_bytes()]).iter().collect::<Vec<_>>());
    }
    requests();
    full_area();
    program();
}

/// 7 to 40 residues with up to four modifications of the usual sorts.
fn typical(count: usize) -> Vec<Vec<u8>> {
    let mut random = Random::new(1);
    let mut lines = Vec::new();
    while lines.len() < count {
        let n = random.between(7, 40);
        let mut after = vec![String::new(); n];
        let (mut before, mut behind) = (String::new(), String::new());
        for _ in 0..random.below(5) {
            let at = random.below(n);
            match random.below(10) {
                0 => before = "[Acetyl]-".to_owned(),
                1 if before.is_empty() => before = "[+79.966331]?".to_owned(),
                2 => behind = "-[Amidated]".to_owned(),
                3 => after[at] = "[UNIMOD:21]".to_owned(),
                4 | 5 => after[at] = "[+15.994915]".to_owned(),
                6 => after[at] = "[Carbamidomethyl]".to_owned(),
                7 => after[at] = "[U:Phospho|+79.966331]".to_owned(),
                _ => after[at] = "[Oxidation]".to_owned(),
            }
        }
        let mut line = before;
        for one in &after {
            line.push(b"ACDEFGHIKLMNPQRSTVWY"[random.below(20)] as char);
            line += one;
        }
        lines.push((line + &behind).into_bytes());
    }
    lines
}

fn mixed() -> Vec<Vec<u8>> {
    let accepted = |line: &Vec<u8>| reader::read(line).is_ok();
    Generator::new(2).filter(accepted).take(LINES).collect()
}

/// Lines of up to 4,096 bytes that each cost as much as a line of its sort can.
fn worst() -> Vec<(&'static str, Vec<u8>)> {
    let keys = [
        "UNIMO", "MO", "XLMO", "RESI", "GN", "INF", "OB", "Formul", "Glyca", "Positio", "Limi", "CoMK", "CoMU", "U", "M", "R", "X", "G", "C", "UNIMODx:", "INFOx:", "GNOx:",
    ];
    let deep = "[{".repeat(4) + &"}]".repeat(4);
    let names: Vec<String> = (0..20).map(|at| keys.iter().cycle().skip(at).take(20).copied().collect::<Vec<_>>().join("-")).collect();
    let insides = [
        ("pairs eight deep", deep.repeat(8)),
        ("four parts, each bracket", format!("{}|+1.500000|U:Oxidation|Obs:-99999.123456", "x".repeat(14))),
        ("200 zeros in a mass", format!("+{}1.5", "0".repeat(200))),
        ("like every key", names.iter().map(|name| &name[..60]).take(4).collect::<Vec<_>>().join("|")),
        ("texts of 128 bytes", "x".repeat(128)),
        ("INFO of 120 bytes", format!("INFO:{}", "#!".repeat(60))),
    ];
    let mut lines = Vec::new();
    for (name, inside) in &insides {
        let mut line = "A".to_owned();
        for _ in 0..Line::MOST_BRACKETS {
            let next = format!("A[{inside}]");
            if line.len() + next.len() <= Line::LONGEST {
                line += &next;
            }
        }
        lines.push((*name, line.into_bytes()));
    }
    lines.push(("64 brackets", "A[+1]".repeat(64).into_bytes()));
    lines.push(("254 residues", vec![b'A'; 254]));
    lines.push(("8 copies, 254 residues", format!("[+1]^8?{}", "A".repeat(254)).into_bytes()));
    lines
}

/// Lines with and without a placement, to ask why there is none.
fn ordinary() -> Vec<(&'static str, String)> {
    let own: Vec<Vec<usize>> = (1..=8).map(|residue| vec![residue]).collect();
    vec![
        ("8 copies, 254 residues", format!("[+1]^8?{}", "A".repeat(254))),
        ("eight alone", labelled(&own, &[])),
        ("nested, 451 bytes", nested().swap_remove(0).1),
        ("2 copies, 1 residue", "[+1]^2?A".to_owned()),
        ("8 copies, 7 residues", "[+1]^8?AAAAAAA".to_owned()),
        ("6 copies, 2 on one", format!("[+1]^6?(A)[+2][+3]{}", "A".repeat(253))),
    ]
}

/// What the independent code makes of lent areas, with refusal 14 tried as the library tries it.
fn tables<'a>(one: &'a Held) -> Line<'a> {
    assert!(tables_of_some_line(&one.bytes, &one.numbers).is_some());
    decode(&one.bytes, &one.numbers).expect("tables of a line")
}

struct Held<'a> {
    line: &'a [u8],
    bytes: Vec<u8>,
    numbers: Vec<i64>,
    first: Option<Placement>,
    weighed: bool,
}

/// Lines with the areas that they read to, as the independent code has them.
fn held(lines: &[Vec<u8>]) -> Vec<Held<'_>> {
    let held = lines.iter().map(|line| {
        let held = reader::read(line).unwrap_or_else(|no| panic!("{no:?} {}", String::from_utf8_lossy(line)));
        let (bytes, numbers) = encode(&held);
        let first = first_placement(&floaters(&held));
        let weighed = masses::missing(&held) == 0;
        Held { line, bytes, numbers, first, weighed }
    });
    held.collect()
}

fn reading(name: &str, lines: &[Held]) {
    let all: Vec<&Held> = lines.iter().collect();
    let (mut area, mut sums) = proved::areas();
    beside(name, &all, |one| proved::read(one.line, &mut area, &mut sums).is_ok(), |one| !encode(&reader::read(one.line).unwrap()).0.is_empty());
}

fn first(name: &str, placed: &[&Held]) {
    beside(name, placed, |one| proved::next(&one.bytes, &one.numbers, &mut Listing::FRESH.clone()).is_ok(), |one| {
        first_placement(&floaters(&tables(one))).is_some()
    });
}

fn why(name: &str, lines: &[&Held]) {
    let mut set = vec![0; proved::limits().copies];
    beside(name, lines, |one| proved::why_none_into(&one.bytes, &one.numbers, &mut set).is_ok_and(|count| (count == 0) == one.first.is_some()), |one| {
        reasons::why_none(&tables(one)).is_empty() == one.first.is_some()
    });
}

fn measure(name: &str, lines: &[Vec<u8>]) {
    let all = held(lines);
    let placed: Vec<&Held> = all.iter().filter(|one| one.first.is_some()).collect();
    let weighed: Vec<&Held> = placed.iter().copied().filter(|one| one.weighed).collect();
    let bytes: usize = lines.iter().map(Vec::len).sum();
    println!("{name}: {} lines of {} bytes on average", lines.len(), bytes / lines.len());
    println!("  {:<24} {:>12} {:>8} {:>16} {:>8}", "call", "ns per line", "MB/s", "independent ns", "ratio");

    let mut out = vec![0; proved::limits().line];
    let mut entries = vec![0; proved::limits().positions];
    reading("read", &all);
    let all: Vec<&Held> = all.iter().collect();
    beside("verdict", &all, |one| proved::verdict(one.line).is_ok(), |one| reader::read(one.line).is_ok());
    beside("write", &all, |one| proved::write(&one.bytes, &one.numbers, &mut out).is_ok(), |one| tables_of_some_line(&one.bytes, &one.numbers).is_some());
    beside("counts", &all, |one| counts(one), |one| independent_counts(one));
    beside("total", &all, |one| proved::total(&one.bytes, &one.numbers).is_ok() == one.weighed, |one| {
        masses::total(&tables(one)).is_ok() == one.weighed
    });
    first("first", &placed);
    beside("next", &placed, |one| {
        let mut listing = Listing::holding(one.first.unwrap());
        black_box(proved::next(&one.bytes, &one.numbers, &mut listing)).map_or(true, |()| true)
    }, |one| {
        black_box(next_placement(&floaters(&tables(one)), &one.first.unwrap())).map_or(true, |_| true)
    });
    why("why_none", &placed);
    beside("ledger", &weighed, |one| proved::ledger(&one.bytes, &one.numbers, &one.first.unwrap(), &mut entries).is_ok(), |one| {
        masses::ledger(&tables(one), &one.first.unwrap()).is_ok()
    });
}

fn counts(one: &Held) -> bool {
    let calls = [proved::residues, proved::brackets, proved::floaters];
    calls.iter().all(|call| call(&one.bytes, &one.numbers).is_ok())
}

fn independent_counts(one: &Held) -> bool {
    let count = [|held: &Line| held.residues.len(), |held: &Line| held.brackets.len(), |held: &Line| held.floaters()];
    count.iter().all(|count| {
        black_box(count(&tables(one))) < 4096
    })
}

/// One call over some lines, by the library and by the independent code, in turns: the quickest round of each.
fn beside(call: &str, lines: &[&Held], mut ours: impl FnMut(&Held) -> bool, mut theirs: impl FnMut(&Held) -> bool) {
    if lines.is_empty() {
        return;
    }
    let (mut proved, mut independent) = (f64::MAX, f64::MAX);
    for _ in 0..ROUNDS {
        proved = proved.min(round(lines, &mut ours));
        independent = independent.min(round(lines, &mut theirs));
    }
    let bytes = lines.iter().map(|one| one.line.len()).sum::<usize>() as f64 / lines.len() as f64;
    println!("  {call:<24} {proved:>12.0} {:>8.1} {independent:>16.0} {:>8.2}", bytes / proved * 1e3, proved / independent);
}

/// The nanoseconds that a line takes in one round over all lines.
fn round(lines: &[&Held], call: &mut impl FnMut(&Held) -> bool) -> f64 {
    let times = CALLS.div_ceil(lines.len());
    let start = Instant::now();
    for _ in 0..times {
        for one in lines {
            assert!(black_box(call(black_box(one))));
        }
    }
    start.elapsed().as_nanos() as f64 / (times * lines.len()) as f64
}

/// The slowest request on lines that a plain search does not end on: the first, and those that follow.
fn requests() {
    let mut worst = (Duration::ZERO, String::new());
    for line in adversarial() {
        let held = reader::read(line.as_bytes()).expect("an accepted line");
        let (bytes, numbers) = encode(&held);
        let mut listing = Listing::FRESH;
        for _ in 0..1_000 {
            let before = listing;
            let mut quickest = Duration::MAX;
            for _ in 0..3 {
                listing = before;
                let start = Instant::now();
                let _ = black_box(proved::next(&bytes, &numbers, &mut listing));
                quickest = quickest.min(start.elapsed());
            }
            if quickest > worst.0 {
                worst = (quickest, line.clone());
            }
        }
    }
    let (time, line) = worst;
    println!("slowest request on adversarial lines: {} ns, on {}", time.as_nanos(), &line[..line.len().min(60)]);
}

/// Calls over a full area of 128 blocks: typical lines, one to a block, and one line of 4,096 bytes in nine. Beside each call stands the independent code, and beside all of them one pass
/// over the area that computes the sums of its blocks and does nothing else, which a call that needs every block to be sound cannot do without.
fn full_area() {
    let mut random = Random::new(3);
    let mut area = vec![0; MOST_BLOCKS * BLOCK];
    blocks::empty(&mut area).expect("whole blocks");
    let longest = worst().into_iter().find(|(name, _)| *name == "texts of 128 bytes").expect("a line").1;
    let longest: Vec<u8> = [&longest[..], &vec![b'A'; Line::LONGEST - longest.len()]].concat();
    let mut lines = typical(MOST_BLOCKS);
    lines.truncate(MOST_BLOCKS - 9);
    for (number, line) in (0..).zip(&lines) {
        let first = first_placement(&floaters(&reader::read(line).expect("an accepted line"))).expect("a placement");
        blocks::add(&mut area, number, &first, line).expect("room");
    }
    let short = lines.len() as u32;
    blocks::add(&mut area, short, &Placement::default(), &longest).expect("room for nine blocks");
    assert_eq!(blocks::survey(&area).map(|survey| survey.free), Ok(0));
    println!("a full area of 128 blocks: {short} typical lines, and one of 4,096 bytes");
    println!("  {:<32} {:>12} {:>16} {:>8}", "call", "µs", "independent µs", "ratio");
    let numbers: Vec<u32> = (0..CALLS).map(|_| random.below(short as usize) as u32).collect();
    let (mut next, mut and_next) = (numbers.iter().cycle(), numbers.iter().cycle());
    let (mut placement, mut out) = (Placement::default(), vec![0; Line::LONGEST]);
    let (mut other_placement, mut other_out) = (placement, out.clone());
    in_microseconds(
        "fetch, a typical line",
        || proved::blocks_fetch(&area, *next.next().unwrap(), &mut placement, &mut out).is_ok(),
        || blocks::fetch(&area, *and_next.next().unwrap(), &mut other_placement, &mut other_out).is_ok(),
    );
    in_microseconds(
        "fetch, 4,096 bytes",
        || proved::blocks_fetch(&area, short, &mut placement, &mut out).is_ok(),
        || blocks::fetch(&area, short, &mut other_placement, &mut other_out).is_ok(),
    );
    in_microseconds("fetch, no such entry", || proved::blocks_fetch(&area, short + 1, &mut placement, &mut out).is_err(), || {
        blocks::fetch(&area, short + 1, &mut other_placement, &mut other_out).is_err()
    });
    // What a call changes is put back from the full area, or from one without the entry: its blocks alone.
    for (name, number, line, from, many) in [("a typical line", short / 2, &lines[short as usize / 2], short as usize / 2, 1), ("4,096 bytes", short, &longest, short as usize, 9)] {
        let own = from * BLOCK..(from + many) * BLOCK;
        let first = first_placement(&floaters(&reader::read(line).expect("an accepted line"))).expect("a placement");
        let mut without = area.clone();
        blocks::remove(&mut without, number).expect("an entry");
        let (mut ours, mut theirs) = (area.clone(), area.clone());
        in_microseconds(
            &format!("add, {name}"),
            || {
                ours[own.clone()].copy_from_slice(&without[own.clone()]);
                proved::blocks_add(&mut ours, number, &first, line).is_ok()
            },
            || {
                theirs[own.clone()].copy_from_slice(&without[own.clone()]);
                blocks::add(&mut theirs, number, &first, line).is_ok()
            },
        );
        assert!(ours == area && theirs == area);
        in_microseconds(
            &format!("remove, {name}"),
            || {
                ours[own.clone()].copy_from_slice(&area[own.clone()]);
                proved::blocks_remove(&mut ours, number).is_ok()
            },
            || {
                theirs[own.clone()].copy_from_slice(&area[own.clone()]);
                blocks::remove(&mut theirs, number).is_ok()
            },
        );
        assert!(ours == without && theirs == without);
    }
    in_microseconds("survey", || proved::blocks_survey(&area).is_ok(), || blocks::survey(&area).is_ok());
    let (mut ours, mut theirs) = (area.clone(), area.clone());
    in_microseconds("empty", || proved::blocks_empty(&mut ours).is_ok(), || blocks::empty(&mut theirs).is_ok());
    let sums = || black_box(&area).chunks_exact(BLOCK).map(blocks::sum).fold(0, u32::wrapping_add) != 1;
    in_microseconds("the sums of all blocks, alone", sums, sums);
}

/// One call by the library and by the independent code, in turns: the quickest round of each.
fn in_microseconds(call: &str, mut ours: impl FnMut() -> bool, mut theirs: impl FnMut() -> bool) {
    let (mut proved, mut independent) = (f64::MAX, f64::MAX);
    for _ in 0..ROUNDS {
        for (quickest, call) in [(&mut proved, &mut ours as &mut dyn FnMut() -> bool), (&mut independent, &mut theirs)] {
            let start = Instant::now();
            for _ in 0..CALLS / 10 {
                assert!(black_box(call()));
            }
            *quickest = quickest.min(start.elapsed().as_nanos() as f64 / 1e3 / (CALLS / 10) as f64);
        }
    }
    println!("  {call:<32} {proved:>12.2} {independent:>16.2} {:>8.2}", proved / independent);
}

/// The whole program on 300,000 typical lines, from a file to nowhere, beside the independent one: the quickest of five runs each.
fn program() {
    let lines = typical(300_000);
    let input: Vec<u8> = lines.iter().flat_map(|line| line.iter().copied().chain([b'\n'])).collect();
    let file = std::env::temp_dir().join(format!("hwemiduk-bench-{}", std::process::id()));
    std::fs::write(&file, &input).expect("room for the input");
    let ours = Path::new(env!("CARGO_MANIFEST_DIR")).join("../target/bin/register");
    let theirs = std::env::current_exe().expect("a path").with_file_name("register");
    let mut quickest = [Duration::MAX; 2];
    for _ in 0..5 {
        for (program, time) in [&ours, &theirs].into_iter().zip(&mut quickest) {
            let start = Instant::now();
            let run = Command::new(program).stdin(File::open(&file).expect("the input")).stdout(Stdio::null()).status();
            assert!(run.is_ok_and(|status| status.success()), "{} must be built", program.display());
            *time = (*time).min(start.elapsed());
        }
    }
    std::fs::remove_file(&file).expect("the input");
    let [proved, independent] = quickest.map(|time| time.as_nanos() as f64 / lines.len() as f64);
    let rate = input.len() as f64 / lines.len() as f64 / proved * 1e3;
    println!("the register program on 300,000 typical lines: {proved:.0} ns per line, {rate:.1} MB/s; independent {independent:.0} ns, ratio {:.2}", proved / independent);
}
