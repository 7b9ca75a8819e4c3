//! Every number of digits of every number that is written: masses, scores and counts of canonical lines, and all numbers of the register's entries. What must be written
//! is worked out by `format!` alone, and no code of this package that writes or reads a line has a part in it.

#[allow(dead_code)]
mod programs;

use std::path::Path;

use compare::line::Refusal;
use compare::proved;

const JUNK: u8 = 0xA5;

/// The greatest mass in millionths: 999999.999999.
const GREATEST: i64 = 999_999_999_999;

/// 0, and of each number of digits up to so many: 1000, 2000 .. 9000, 1999, 2999 .. 9999, and 1001, 1234, 1020.
fn of_digits(most: u32) -> Vec<u64> {
    let mut all = vec![0];
    for (digits, power) in (1..=most).map(|digits| (digits, 10_u64.pow(digits - 1))) {
        let leading = (1..=9).filter_map(|digit| power.checked_mul(digit));
        all.extend(leading.flat_map(|least| [Some(least), least.checked_add(power - 1)]).flatten());
        let front_of = |long: u64| long / 10_u64.pow(20 - digits);
        all.extend([power + 1, front_of(12_345_678_901_234_567_890), front_of(10_203_040_506_070_809_010)]);
    }
    all
}

/// Numbers with 0 to 6 decimals and up to 6 digits before these: how they are written without a sign, and how many millionths they are.
fn sizes() -> Vec<(String, i64)> {
    let mut all = Vec::new();
    for decimals in 0..=6 {
        let one = 10_u64.pow(decimals);
        for number in of_digits(6 + decimals) {
            let (whole, rest) = (number / one, number % one);
            let text = if decimals == 0 { format!("{whole}") } else { format!("{whole}.{rest:0width$}", width = decimals as usize) };
            all.push((text, (number * 10_u64.pow(6 - decimals)) as i64));
        }
    }
    all
}

/// A mass of so many millionths, with six decimals.
fn mass(millionths: i64) -> String {
    let sign = if millionths < 0 { '-' } else { '+' };
    let size = millionths.unsigned_abs();
    format!("{sign}{}.{:06}", size / 1_000_000, size % 1_000_000)
}

/// What a call writes into outputs full of junk: longer than need be, just long enough, and too short by a byte.
fn writes(want: &str, call: impl Fn(&mut [u8]) -> Result<usize, Refusal>) {
    let needed = want.len();
    for room in [needed + 30, needed, needed - 1] {
        let mut out = vec![JUNK; room];
        let answer = call(&mut out);
        let behind = out.split_off(answer.unwrap_or(0));
        assert!(behind.iter().all(|&byte| byte == JUNK), "{want}");
        if room < needed {
            assert_eq!(answer, Err(Refusal::new(15, needed)), "{want}");
        } else {
            assert_eq!(String::from_utf8_lossy(&out), want);
        }
    }
}

/// The areas that the library reads a line to.
fn areas_of(line: &str) -> (Vec<u8>, Vec<i64>) {
    let (mut bytes, mut numbers) = proved::areas();
    assert_eq!(proved::read(line.as_bytes(), &mut bytes, &mut numbers), Ok(()), "{line}");
    (bytes, numbers)
}

/// A line's total in millionths, and its canonical line.
fn check(line: &str, total: i64, want: &str) {
    let (bytes, numbers) = areas_of(line);
    assert_eq!(proved::total(&bytes, &numbers), Ok(total), "{line}");
    writes(want, |out| proved::write(&bytes, &numbers, out));
}

/// "masses always signed", "decimals as many as written", the sign of zero and leading zeros not kept.
#[test]
fn masses() {
    for (size, millionths) in sizes() {
        check(&format!("A[+00{size}]"), millionths, &format!("A[+{size}]"));
        let sign = if millionths == 0 { '+' } else { '-' };
        check(&format!("A[-00{size}]"), -millionths, &format!("A[{sign}{size}]"));
    }
}

/// "scores signed only when negative".
#[test]
fn scores() {
    for (size, millionths) in sizes() {
        let sign = if millionths == 0 { "" } else { "-" };
        let line = format!("A[+1#g1(00{size})]C[#g1(+00{size})]D[#g1(-00{size})]");
        check(&line, 1_000_000, &format!("A[+1#g1({size})]C[#g1({size})]D[#g1({sign}{size})]"));
    }
}

/// Counts behind `^`, of which eight copies are the most and 1 is dropped; and those of compositions, up to 99.
#[test]
fn counts() {
    check("[+1]^001?A", 1_000_000, "[+1]?A");
    for count in 2..=8 {
        check(&format!("[+1]^00{count}?A"), count * 1_000_000, &format!("[+1]^{count}?A"));
    }
    for count in 9..=99 {
        assert_eq!(proved::verdict(format!("[+1]^{count}?A").as_bytes()), Err(Refusal::new(12, 0)));
    }
    check("A[Glycan:hex1]", 162_052_800, "A[Glycan:Hex]");
    for count in 2..=99 {
        check(&format!("A[Glycan:hex{count}]"), count * 162_052_800, &format!("A[Glycan:Hex{count}]"));
    }
}

/// A canonical line with so many copies of a modification and a last residue: eight declarations reach each C, and labile ones make up the number. Also what the register
/// prints of its residues, brackets and floaters.
fn with_copies(copies: usize, modification: &str, last: &str) -> (String, String) {
    let (letters, labile) = (copies / 8, copies % 8);
    let declared = format!("<[{modification}]@C>").repeat(8);
    let line = format!("{declared}{}{}{last}", format!("{{{modification}}}").repeat(labile), "C".repeat(letters));
    let brackets = 8 + labile + last.matches('[').count();
    (line, format!("{} {brackets} 0", letters + 1))
}

/// The canonical line with the most copies, 2,111, of 254 residues, 64 brackets and 8 floaters.
fn with_most_copies(modification: &str) -> String {
    let declared = format!("<[{modification}]@A,N-term,C-term>").repeat(8);
    format!("{declared}[{modification}]^8?{}{}", format!("{{{modification}}}").repeat(55), "A".repeat(254))
}

/// Canonical lines, their totals in millionths, and what the register prints of their residues, brackets and floaters. A total has at most 16 digits.
fn lines_with_totals() -> Vec<(String, i64, String)> {
    let mut all = Vec::new();
    for sign in [1, -1] {
        let greatest = sign * GREATEST;
        for total in of_digits(16).into_iter().map(|size| sign * size as i64).filter(|total| total / greatest <= 2_000) {
            let rest = mass(total % greatest);
            let (line, fields) = with_copies((total / greatest) as usize, &mass(greatest), &format!("A[{rest}]"));
            all.push((line, total, fields));
        }
        all.push((with_most_copies(&mass(greatest)), 2_111 * greatest, "254 64 8".to_owned()));
        all.push((format!("A[{}][{}]", mass(greatest), mass(-greatest)), 0, "1 2 0".to_owned()));
    }
    all
}

#[test]
fn totals() {
    for (line, total, _) in lines_with_totals() {
        check(&line, total, &line);
    }
}

/// Lines, and what the register prints behind their numbers: each field with every number of digits that it can have.
fn reports() -> Vec<(String, String)> {
    let mut all = Vec::new();
    for (line, total, fields) in lines_with_totals() {
        let report = format!("ok {fields} {total:+} {line}");
        all.push((line, report));
    }
    // those that lack a mass
    for copies in of_digits(4).into_iter().map(|copies| copies as usize).filter(|copies| (1..=2_000).contains(copies)) {
        let (line, fields) = with_copies(copies, "x", "A");
        let report = format!("ok {fields} ?{copies} {line}");
        all.push((line, report));
    }
    let line = with_most_copies("x");
    all.push((line.clone(), format!("ok 254 64 8 ?2111 {line}")));
    let mut counted = |line: String, fields: String| all.push((line.clone(), format!("ok {fields} +0 {line}")));
    for residues in 1..=254 {
        counted("A".repeat(residues), format!("{residues} 0 0"));
    }
    for brackets in 0..=64 {
        counted(format!("A{}", "[+0]".repeat(brackets)), format!("1 {brackets} 0"));
    }
    for floaters in 2..=8 {
        counted(format!("[+0]^{floaters}?A"), format!("1 1 {floaters}"));
    }
    // a byte outside 32 to 126, and a reference without definition behind a mass with leading zeros
    for place in of_digits(4).into_iter().map(|place| place as usize) {
        if place < 4_096 {
            all.push((format!("{}\x7f", "A".repeat(place)), format!("no 3 {place}")));
        }
        if (5..=4_092).contains(&place) {
            all.push((format!("A[+{:0width$}][#a]", 1, width = place - 4), format!("no 11 {place}")));
        }
    }
    for length in [4_097, 9_999, 10_000] {
        all.push(("A".repeat(length), "no 2 4096".to_owned()));
    }
    all
}

#[test]
fn entries() {
    for ((line, report), number) in reports().into_iter().zip(1..) {
        writes(&format!("{number} {report}\n"), |out| proved::entry(number, line.as_bytes(), out));
    }
    for number in of_digits(20).into_iter().chain([u64::MAX]) {
        writes(&format!("{number} ok 1 1 0 ?1 A[x]\n"), |out| proved::entry(number, b"a[x]", out));
        writes(&format!("{number} no 4 2\n"), |out| proved::entry(number, b"A[", out));
    }
}

/// Outputs of every length that is too short, which end within a number or between two.
#[test]
fn outputs_too_short() {
    let line = "[+0]^7?A[-123456.789012#a(-123456.789012)]";
    let (bytes, numbers) = areas_of(line);
    let entry = format!("{} ok 1 2 8 {:+} {line}\n", u64::MAX, -123_456_789_012_i64);
    for room in 0..entry.len() {
        let mut out = vec![JUNK; room];
        if room < line.len() {
            assert_eq!(proved::write(&bytes, &numbers, &mut out), Err(Refusal::new(15, line.len())));
        }
        assert_eq!(proved::entry(u64::MAX, line.as_bytes(), &mut out), Err(Refusal::new(15, entry.len())));
        assert!(out.iter().all(|&byte| byte == JUNK), "{room}");
    }
}

/// What the proved program prints for lines, against what it must print behind their numbers.
fn printed(reports: &[(String, String)]) {
    let input: String = reports.iter().map(|(line, _)| format!("{line}\n")).collect();
    let output = programs::printed(&Path::new(env!("CARGO_MANIFEST_DIR")).join("../target/bin/register"), input.as_bytes());
    let output = String::from_utf8(output).unwrap();
    for ((got, (_, report)), number) in output.lines().zip(reports).zip(1..) {
        assert_eq!(got, format!("{number} {report}"));
    }
    assert_eq!(output.lines().count(), reports.len());
    assert!(output.ends_with('\n'));
}

#[test]
fn the_program() {
    printed(&reports());
}

/// Line numbers of one digit up to six.
#[test]
fn line_numbers() {
    printed(&vec![("a".to_owned(), "ok 1 0 0 +0 A".to_owned()); 100_001]);
}
