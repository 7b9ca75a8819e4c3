//! Lines full of floating copies: random ones that are short, and ones that a plain search does not end on.

use crate::generate::Random;

/// A line with floating copies of every sort: unknown ones with counts, ones on ranges, labels that are defined anywhere and referred to on
/// residues and termini; and placed modifications and declared ones, which strike positions out, and INFO, which does not. Of every two lines one has little beside unknown ones
/// with counts, and no more floating copies than residues: else copies of one bracket would seldom have more than one placement.
pub fn crowded(random: &mut Random, most_residues: usize) -> Vec<u8> {
    let n = random.between(1, most_residues);
    let roomy = random.chance(50);
    let chance = |random: &mut Random, percent: [usize; 2]| random.chance(percent[usize::from(roomy)]);
    let mut front = String::new();
    // 0 the N-terminus, 1 to n the residues, n + 1 the C-terminus; then the ranges, by their last residue
    let mut at = vec![String::new(); n + 2];
    let mut on_range = vec![String::new(); n + 1];
    let mut ranges = Vec::new();
    let mut residue = 1;
    while residue <= n {
        let last = (residue + random.below(3)).min(n);
        if chance(random, [40, 10]) {
            ranges.push((residue, last));
            on_range[last] += &bracket(random, "");
        }
        residue = last + 1;
    }
    let mut left = random.below(9_usize.saturating_sub(ranges.len()));
    if roomy {
        left = left.min(n.saturating_sub(ranges.len()));
    }
    let mut name = b'a';
    while left > 0 {
        left -= 1;
        if chance(random, [50, 85]) {
            front += &bracket(random, "");
            let count = random.between(1, left + 1);
            if chance(random, [40, 75]) {
                front += &format!("^{count}");
                left -= count - 1;
            }
            continue;
        }
        let label = format!("#{}", name as char);
        name += 1;
        let defined = bracket(random, &label);
        match random.below(3) {
            0 => front += &defined,
            1 if !ranges.is_empty() => on_range[ranges[random.below(ranges.len())].1] += &defined,
            _ => at[random.below(n + 2)] += &defined,
        }
        for _ in 0..random.between(1, 4) {
            at[random.below(n + 2)] += &format!("[{label}]");
        }
    }
    for one in at.iter_mut() {
        if chance(random, [12, 3]) {
            *one += &bracket(random, "");
        }
        if random.chance(6) {
            *one += "[INFO:x]";
        }
    }
    let letters: Vec<char> = (0..n).map(|_| (b'A' + random.below(26) as u8) as char).collect();
    let mut line = String::new();
    while random.chance(12) {
        let declared = bracket(random, "");
        let letter = letters[random.below(n)];
        line += &format!("<{declared}@{letter}{}>", random.pick(&["", "", ",N-term", ",c-term", ",K"]));
    }
    line += &front;
    if !front.is_empty() {
        line.push('?');
    }
    if random.chance(15) {
        line += &format!("{{{}+{}}}", random.pick(&["", "", "", "", "", "", "", "", "", "Obs:"]), random.below(50));
    }
    if !at[0].is_empty() {
        line += &at[0];
        line.push('-');
    }
    for residue in 1..=n {
        if ranges.iter().any(|range| range.0 == residue) {
            line.push('(');
        }
        line.push(letters[residue - 1]);
        line += &at[residue];
        if ranges.iter().any(|range| range.1 == residue) {
            line.push(')');
            line += &on_range[residue];
        }
    }
    if !at[n + 1].is_empty() {
        line.push('-');
        line += &at[n + 1];
    }
    line.into_bytes()
}

/// A bracket with a stated mass, now and then with one that is only measured, or without one.
fn bracket(random: &mut Random, label: &str) -> String {
    let mass = random.between(1, 99);
    match random.below(40) {
        0 => format!("[Oxidation{label}]"),
        1 => format!("[Obs:+{mass}{label}]"),
        2..=9 => format!("[Obs:+7|-{mass}.5{label}]"),
        _ => format!("[+{mass}{label}]"),
    }
}

/// The slowest requests known are for the first placement of these: eight labels, each of which may stand where the one before it may, less some of the last positions. There are no more
/// positions than labels, so that whoever comes later moves all others; and the positions lie far from the first residue, or far from the one that lies there. Of the second line the
/// texts are as long as they can be.
pub fn nested() -> Vec<(&'static str, String)> {
    const FAR: [usize; 8] = [224, 235, 242, 243, 247, 248, 252, 254];
    const APART: [usize; 8] = [1, 248, 249, 250, 251, 252, 253, 254];
    vec![
        ("nested, 451 bytes", nested_line(FAR, [8, 7, 6, 5, 4, 3, 3, 3], 451)),
        ("nested, 4,064 bytes", nested_line(FAR, [8, 7, 6, 5, 4, 3, 3, 3], 4_064)),
        ("nested from residue 1 on", nested_line(APART, [8, 7, 6, 5, 4, 4, 3, 3], 455)),
    ]
}

/// Label i may stand on the first `many[i]` of the positions.
fn nested_line(positions: [usize; 8], many: [usize; 8], bytes: usize) -> String {
    let lists: Vec<&[usize]> = many.iter().map(|&many| &positions[..many]).collect();
    long_line(&lists, bytes)
}

/// The slowest answers known to why there is no placement are of these: seven labels have a residue each, and the eighth has those of all seven. Only all eight have too few positions, and a set
/// without the eighth has just as many positions as labels, so that none of the sets shows before its end that it need not be tried. Of the second line the texts are as long as they can be. In
/// the third the label on all seven comes first; in the fourth two labels have the residues of six.
pub fn alone() -> Vec<(&'static str, String)> {
    const FAR: [usize; 7] = [248, 249, 250, 251, 252, 253, 254];
    let own: Vec<&[usize]> = FAR.chunks(1).collect();
    let first = [&[&FAR[..]], &own[..]].concat();
    let last = [&own[..], &[&FAR[..]]].concat();
    let two = [&own[..6], &[&FAR[..6], &FAR[..6]]].concat();
    vec![
        ("seven alone, 351 bytes", long_line(&last, 351)),
        ("seven alone, 4,064 bytes", long_line(&last, 4_064)),
        ("the eighth in front", long_line(&first, 351)),
        ("six alone", long_line(&two, 367)),
    ]
}

/// 254 residues and a label for each list, the texts of their definitions so long that the line has so many bytes: a label may stand on the residues of its list.
fn long_line(lists: &[&[usize]], bytes: usize) -> String {
    let mut sequence = String::new();
    for residue in 1..=254 {
        sequence.push('A');
        for (i, _) in lists.iter().enumerate().filter(|(_, list)| list.contains(&residue)) {
            sequence += &format!("[{}]", label(i));
        }
    }
    let room = bytes - sequence.len() - "?".len() - lists.len() * "[#a]".len();
    let definitions = (0..lists.len()).map(|i| format!("[{}{}]", parts((room + i) / lists.len()), label(i)));
    definitions.collect::<String>() + "?" + &sequence
}

fn label(i: usize) -> String {
    format!("#{}", (b'a' + i as u8) as char)
}

/// Parts of up to 128 bytes, so many bytes in all.
fn parts(bytes: usize) -> String {
    let mut parts = "x".repeat(bytes);
    for bar in (128..bytes).step_by(129) {
        parts.replace_range(bar..=bar, "|");
    }
    parts
}

/// A line with a label for each list, in this order, that may stand on the residues of its list; every residue named `struck` has a placed modification beside.
pub fn labelled(lists: &[Vec<usize>], struck: &[usize]) -> String {
    let last = lists.iter().flatten().chain(struck).max().copied().unwrap_or(1);
    let mut line: String = (0..lists.len()).map(|i| format!("[+{}{}]", i + 1, label(i))).collect();
    if !lists.is_empty() {
        line.push('?');
    }
    for residue in 1..=last {
        line.push('A');
        for (i, _) in lists.iter().enumerate().filter(|(_, list)| list.contains(&residue)) {
            line += &format!("[{}]", label(i));
        }
        if struck.contains(&residue) {
            line += "[+9]";
        }
    }
    line
}

/// For every set of some of so many floaters, by a bit for each, a line on which just these have too few positions: they share one position fewer than they are, or one that is struck out, and each
/// other one has a position that is in no other list, and now and then theirs too.
pub fn lacking(random: &mut Random, floaters: usize, set: usize) -> String {
    let size = set.count_ones() as usize;
    let shared: Vec<usize> = (1..=(size - 1).max(1)).collect();
    let list = |i: usize| {
        let mut list = if set >> i & 1 == 1 || random.chance(30) { shared.clone() } else { Vec::new() };
        if set >> i & 1 == 0 {
            list.push(9 + i);
        }
        list
    };
    let lists: Vec<Vec<usize>> = (0..floaters).map(list).collect();
    labelled(&lists, if size == 1 { &[1] } else { &[] })
}

/// A line with up to eight labels and few places for them: some of the labels, as many as the places that they share and one more or two, and the others anywhere. Some positions are struck out.
pub fn scarce(random: &mut Random) -> String {
    let floaters = random.between(1, 8).max(random.between(1, 8));
    let many = random.between(1, floaters);
    let shared = many.saturating_sub(random.between(1, 2)).max(1);
    let (dense, wide) = (random.between(20, 95), random.between(shared, shared + 4));
    let struck: Vec<usize> = (1..=wide).filter(|_| random.chance(8)).collect();
    let mut lists: Vec<Vec<usize>> = Vec::new();
    for i in 0..floaters {
        let to = if i < many { shared } else { wide };
        let mut list: Vec<usize> = (1..=to).filter(|_| random.chance(dense)).collect();
        if list.is_empty() {
            list.push(random.between(1, to));
        }
        let at = random.between(0, i);
        lists.insert(at, list);
    }
    labelled(&lists, &struck)
}

/// Lines on which a search that tries one position after another does not end.
pub fn adversarial() -> Vec<String> {
    let free = |residues: usize| "A".repeat(residues);
    let apart = |brackets: usize| "[+1]".repeat(brackets);
    let mut lines = vec![
        // six that may stand anywhere, and two on one position
        format!("[+1]^6?(A)[+2][+3]{}", free(253)),
        format!("[+1]^6?{}(A)[+2][+3]", free(253)),
        // eight on seven
        "[+1]^8?AAAAAAA".to_owned(),
        "[+1]^7?AAAAAA(A)[+2]".to_owned(),
        // seven that may stand anywhere, and one that may only stand on the first or the last residue
        format!("[+1]^7?(A)[+2]{}", free(253)),
        format!("[+1]^7?{}(A)[+2]", free(253)),
        // eight anywhere
        format!("[+1]^8?{}", free(254)),
        // the same with a bracket for each, or with two brackets: in any order, or in two runs that each ascend
        format!("{}?(A)[+2][+3]{}", apart(6), free(253)),
        format!("{}?(A)[+2]{}", apart(7), free(253)),
        format!("{}?{}(A)[+2]", apart(7), free(253)),
        format!("{}?{}", apart(8), free(254)),
        format!("{}?AAAAAAA", apart(8)),
        format!("{}?AAAAAAAA", apart(8)),
        format!("[+1]^4[+1]^4?{}", free(254)),
        format!("[+1]^3[+1]^4?{}(A)[+2]", free(253)),
        "[+1]^4[+1]^4?AAAAAAAA".to_owned(),
        // copies on the last residues only, beside labels there
        format!("[+1]^4[+1#a][+1#b]?{}AA[#a]AA[#b]A[#a]A[#b]", "A[+9]".repeat(57)),
        // eight anywhere, but for one residue that is declared; eight on nine, of which two are
        format!("<[+2]@C>[+1]^8?{}C", free(253)),
        "<[+2]@C>[+1]^8?AAAACAAAC".to_owned(),
        // eight on eight, and one position of nine struck out
        "[+1]^8?AAAAAAAA".to_owned(),
        "[+1]^8?AAAA[+5]AAAAA".to_owned(),
        // two ranges that hold three together, three floaters on each
        "[+1]^2?(AC)[+1][+2][+3](D)[+4][+5][+6]".to_owned(),
    ];
    // a chain of labels, each on its own residue or the next; and the same closed to a ring, and with one more that has nowhere to go
    let chain = |closed: bool, more: &str| {
        let mut line = more.to_owned();
        for at in 0..7 {
            line += &format!("A[+1#l{at}]");
            if at > 0 {
                line += &format!("[#l{}]", at - 1);
            }
        }
        if closed {
            line += "A[+1#l7][#l6]C[#l7]";
        } else {
            line += "A[#l6]";
        }
        line
    };
    lines.push(chain(false, ""));
    lines.push(chain(true, ""));
    lines.push(chain(false, "[+9]?"));
    // labels referred to all over, of which the last two share one residue
    let mut scattered = "[+1#a][+1#b][+1#c][+1#d][+1#e][+1#f]?".to_owned();
    for at in 0..9 {
        scattered += &format!("A[#{}]", ["a", "b", "c", "d", "e", "f"][at % 6]);
        scattered += &format!("[#{}]", ["f", "a", "b", "c", "d", "e"][at % 6]);
    }
    scattered += "(A)[+7][+8]";
    lines.push(scattered);
    lines.extend(nested().into_iter().chain(alone()).map(|(_, line)| line));
    lines
}
