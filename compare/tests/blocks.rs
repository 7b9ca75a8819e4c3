//! The register kept in blocks (02, L5): the proved library beside the independent code over bytes, beside a plain map, and beside what the words of document 02 give by hand. Every
//! call is made of both on areas of their own, and every answer and every byte of the area, the output and the placement is compared.

mod lines;

use std::fmt::Debug;

use compare::blocks::{self, free_block, is_sound, look, seal, Entry, Looked, Map, Survey, BLOCK, CONTENT, FIRST, FREE, FURTHER, KIND, MOST_BLOCKS, NEXT, NONE, NUMBER, ROOM, SUM, USED};
use compare::floating::crowded;
use compare::generate::{share, Generator, Random};
use compare::line::Refusal;
use compare::positions::{all_placements, floaters, Placement, Position};
use compare::proved;
use compare::reader::read;
use lines::{many, seeded, shown, JUNK_BYTE};

const JUNK_POSITION: Position = 0x5AC3;
const ZEROS: Placement = [0; 8];

fn refusal<T>(number: u8) -> Result<T, Refusal> {
    Err(Refusal::new(number, 0))
}

/// An area that is held twice: the library has one of the two, the independent code the other.
#[derive(Clone)]
struct Beside {
    proved: Vec<u8>,
    plain: Vec<u8>,
}

impl Beside {
    fn of(area: Vec<u8>) -> Self {
        Self { proved: area.clone(), plain: area }
    }

    /// An empty area of so many blocks.
    fn empty_of(count: usize) -> Self {
        let mut area = Self::of(vec![JUNK_BYTE; count * BLOCK]);
        assert_eq!(area.empty(), Ok(()));
        area
    }

    fn blocks(&self) -> usize {
        self.plain.len() / BLOCK
    }

    /// Changes both by hand.
    fn by_hand(&mut self, change: impl Fn(&mut [u8])) {
        change(&mut self.proved);
        change(&mut self.plain);
    }

    fn same(&self, what: &dyn Debug) {
        let at = self.proved.iter().zip(&self.plain).position(|(one, other)| one != other);
        assert_eq!(at.map(|at| (at / BLOCK, at % BLOCK)), None, "block and byte that differ after {what:?}");
    }

    /// A call that may change the area. A refusal changes no byte.
    fn changed(&mut self, what: &dyn Debug, proved: impl Fn(&mut [u8]) -> Result<(), Refusal>, plain: impl Fn(&mut [u8]) -> Result<(), Refusal>) -> Result<(), Refusal> {
        let before = self.plain.clone();
        let answer = plain(&mut self.plain);
        assert_eq!(proved(&mut self.proved), answer, "{what:?}");
        self.same(what);
        assert!(answer.is_ok() || self.plain == before, "a refusal changes no byte: {what:?}");
        answer
    }

    fn empty(&mut self) -> Result<(), Refusal> {
        self.changed(&"empty", proved::blocks_empty, blocks::empty)
    }

    fn add(&mut self, number: u32, placement: &[Position], line: &[u8]) -> Result<(), Refusal> {
        let what = ("add", number, placement, shown(line));
        self.changed(&what, |area| proved::blocks_add(area, number, placement, line), |area| blocks::add(area, number, placement, line))
    }

    fn remove(&mut self, number: u32) -> Result<(), Refusal> {
        self.changed(&("remove", number), |area| proved::blocks_remove(area, number), |area| blocks::remove(area, number))
    }

    /// Fetches into an output of so many bytes, and into a placement that is some longer than it need be; junk lies in both.
    fn fetch(&self, number: u32, room: usize) -> Result<Entry, Refusal> {
        let (mut placement, mut out) = (vec![JUNK_POSITION; ZEROS.len() + number as usize % 3], vec![JUNK_BYTE; room]);
        let (mut plain_placement, mut plain_out) = (placement.clone(), out.clone());
        let answer = blocks::fetch(&self.plain, number, &mut plain_placement, &mut plain_out);
        assert_eq!(proved::blocks_fetch(&self.proved, number, &mut placement, &mut out), answer, "fetch {number}");
        assert_eq!(placement, plain_placement, "fetch {number}");
        assert!(out == plain_out, "fetch {number}: the output differs");
        self.same(&("fetch", number));
        answer.map(|length| Entry { placement: placement[..ZEROS.len()].try_into().unwrap(), line: out[..length].to_vec() })
    }

    fn entry(&self, from: usize) -> Result<(usize, u32), Refusal> {
        let answer = blocks::entry_from(&self.plain, from);
        assert_eq!(proved::blocks_entry(&self.proved, from), answer, "entry from {from}");
        answer
    }

    fn survey(&self) -> Result<Survey, Refusal> {
        let answer = blocks::survey(&self.plain);
        let told = proved::blocks_survey(&self.proved);
        let told = told.map(|proved::Survey { free, first, further, other, unsound }| Survey { free, first, further, other, unsound });
        assert_eq!(told, answer, "survey");
        answer
    }

    /// The numbers that are listed, in order of blocks.
    fn numbers(&self) -> Vec<u32> {
        let listed = std::iter::successors(self.entry(0).ok(), |(block, _)| self.entry(block + 1).ok());
        listed.map(|(_, number)| number).collect()
    }

    /// Every call over this area for each of these numbers; those that change it over a copy.
    fn every_call(&self, numbers: &[u32]) {
        let long = of_length(1200);
        for &number in numbers {
            if let Ok(entry) = self.fetch(number, 4096) {
                assert_eq!(self.fetch(number, entry.line.len() - 1), Err(Refusal::new(15, entry.line.len())));
            }
            let _ = self.clone().remove(number);
            let _ = self.clone().add(number, &ZEROS, b"A");
            let _ = self.clone().add(number, &ZEROS, &long);
        }
        for from in 0..=self.blocks() + 1 {
            let _ = self.entry(from);
        }
        let _ = self.survey();
    }
}

/// One of how many is taken where the gate is emulated, and takes less of everything.
fn step() -> usize {
    100 / share(100).max(1)
}

/// An accepted line that is its own canonical one, of so many bytes, 1 to 4,096. Nothing floats in it.
fn of_length(length: usize) -> Vec<u8> {
    let residues = if length <= 254 { length } else { 100 };
    let mut line = vec![b'A'; residues];
    let rest = length - residues;
    let brackets = rest.div_ceil(130);
    for at in 0..brackets {
        let size = rest * (at + 1) / brackets - rest * at / brackets;
        line.push(b'[');
        line.resize(line.len() + size - 2, b'a' + (at % 26) as u8);
        line.push(b']');
    }
    assert_eq!(line.len(), length);
    line
}

/// A line to add, with some placements of it that are allowed, where there are any, and one that may not be.
struct Candidate {
    line: Vec<u8>,
    allowed: Vec<Placement>,
    other: Placement,
}

impl Candidate {
    fn of(random: &mut Random, line: Vec<u8>) -> Self {
        let allowed = read(&line).map_or(Vec::new(), |held| all_placements(&floaters(&held), 4).0);
        let mut other = allowed.first().copied().unwrap_or(ZEROS);
        other[random.below(8)] = [0, 1, 2, 255, 256, 257, Position::MAX][random.below(7)];
        Self { line, allowed, other }
    }

    fn placement(&self, random: &mut Random) -> Vec<Position> {
        let mut placement = if self.allowed.is_empty() || random.chance(8) { self.other } else { self.allowed[random.below(self.allowed.len())] }.to_vec();
        // a longer slice is as good, and a shorter one is not
        match random.below(20) {
            0 => placement.truncate(random.below(8)),
            1 | 2 => placement.resize(8 + random.below(4), JUNK_POSITION),
            _ => {}
        }
        placement
    }
}

/// Lines of all sorts: generated ones, accepted and refused; short ones full of floating copies; and ones of every length.
fn candidates(seed: u64) -> Vec<Candidate> {
    let mut random = Random::new(seeded(seed));
    let mut lines: Vec<Vec<u8>> = Generator::new(seeded(seed)).take(120).collect();
    lines.extend((0..100).map(|_| crowded(&mut random, 12)));
    for _ in 0..200 {
        let most = [30, 491, 1_500, 4_096][random.below(4)];
        let length = random.between(1, most);
        lines.push(of_length(length));
        if length <= 4_089 {
            lines.push([b"[+01]?", &of_length(length)[..]].concat());
        }
    }
    lines.into_iter().map(|line| Candidate::of(&mut random, line)).collect()
}

const NUMBERS: [u32; 12] = [0, 1, 2, 254, 255, 256, 65_535, 65_536, 0x0001_0203, 1 << 24, u32::MAX - 1, u32::MAX];

/// Junk for one area after another: random bytes, which are seldom sound; or blocks whose sums are right, whatever they hold.
fn junk(random: &mut Random, count: usize) -> Vec<u8> {
    let mut area: Vec<u8> = (0..count * BLOCK).map(|_| random.below(256) as u8).collect();
    if random.chance(50) {
        for block in area.chunks_exact_mut(BLOCK) {
            block[KIND] = random.below(5) as u8;
            block[NEXT] = if random.chance(50) { NONE } else { random.below(count + 1) as u8 };
            block[NUMBER..CONTENT].copy_from_slice(&NUMBERS[random.below(3)].to_le_bytes());
            seal(block);
        }
    }
    area
}

/// One change of an area that no call makes: a byte, a field of a header with the sum made right again or left, or a block over another.
fn damage(random: &mut Random, area: &mut Beside) {
    let count = area.blocks();
    let block = random.below(count);
    let (at, by) = (random.below(BLOCK), random.between(1, 255) as u8);
    let (from, to) = (random.below(count), random.below(count));
    let field = match random.below(6) {
        0 => vec![(KIND, random.below(6) as u8)],
        1 => [0, 8, 9, 499, 500, 501, 65_535][random.below(7)].to_le_bytes_of_two().to_vec(),
        2 => vec![(NEXT, [0, count - 1, count, 254, 255, random.below(count)][random.below(6)] as u8)],
        3 => (NUMBER..).zip(NUMBERS[random.below(12)].to_le_bytes()).collect(),
        4 => vec![(CONTENT + random.below(16), random.below(256) as u8)],
        _ => vec![(random.between(CONTENT, SUM - 1), random.below(2) as u8)],
    };
    let sealed = random.chance(80);
    match random.below(10) {
        0..=3 => area.by_hand(|area| area[block * BLOCK + at] ^= by),
        4..=8 => area.by_hand(|area| {
            let block = &mut area[block * BLOCK..][..BLOCK];
            for &(at, byte) in &field {
                block[at] = byte;
            }
            if sealed {
                seal(block);
            }
        }),
        _ => area.by_hand(|area| area.copy_within(from * BLOCK..(from + 1) * BLOCK, to * BLOCK)),
    }
}

/// The two bytes of a used length, with where they stand.
trait Used {
    fn to_le_bytes_of_two(self) -> [(usize, u8); 2];
}

impl Used for usize {
    fn to_le_bytes_of_two(self) -> [(usize, u8); 2] {
        [(USED, (self % 256) as u8), (USED + 1, (self / 256) as u8)]
    }
}

/// A random sequence of calls on an area of so many blocks that held junk before it was made empty. As long as it is undamaged, a plain map answers the same.
fn sequence(random: &mut Random, candidates: &[Candidate], count: usize, damages: bool) {
    let mut area = Beside::of(junk(random, count));
    let some = random.between(1, (count + 2).min(NUMBERS.len()));
    let numbers: Vec<u32> = (0..some).map(|_| if random.chance(80) { NUMBERS[random.below(12)] } else { random.below(1 << 32) as u32 }).collect();
    area.every_call(&numbers[..1]);
    area.empty().unwrap();
    let mut map = Some(Map::of(count));
    for _ in 0..random.between(10, 40) {
        if damages && random.chance(12) {
            damage(random, &mut area);
            map = None;
        }
        let number = numbers[random.below(numbers.len())];
        match random.below(100) {
            0..=54 => {
                let candidate = &candidates[random.below(candidates.len())];
                let placement = candidate.placement(random);
                let answer = area.add(number, &placement, &candidate.line);
                if let (Some(map), true) = (&mut map, placement.len() >= 8) {
                    assert_eq!(answer, map.add(number, &placement, &candidate.line), "{}", shown(&candidate.line));
                }
            }
            55..=74 => {
                let room = if random.chance(70) { 4096 } else { random.below(600) };
                let answer = area.fetch(number, room);
                if let Some(map) = &map {
                    assert_eq!(answer, map.fetch(number, room).cloned());
                }
            }
            75..=92 => {
                let answer = area.remove(number);
                if let Some(map) = &mut map {
                    assert_eq!(answer, map.remove(number));
                }
            }
            93..=95 => {
                let _ = area.entry(random.below(count + 2));
            },
            96..=97 => {
                let _ = area.survey();
            }
            _ => {
                area.empty().unwrap();
                map = Some(Map::of(count));
            }
        }
    }
    for &number in &numbers {
        let answer = area.fetch(number, 4096);
        if let Some(map) = &map {
            assert_eq!(answer, map.fetch(number, 4096).cloned());
        }
    }
    let survey = area.survey().unwrap();
    let mut listed = area.numbers();
    assert_eq!(survey.first, listed.len());
    if let Some(map) = &map {
        let (taken, entries) = (map.taken(), map.entries.len());
        assert_eq!(survey, Survey { free: count - taken, first: entries, further: taken - entries, other: 0, unsound: 0 });
        listed.sort();
        assert!(listed.iter().eq(map.entries.keys()));
        // room is had back to the byte
        for &number in &numbers {
            let _ = area.remove(number);
        }
        assert!(area.plain.chunks_exact(BLOCK).all(|block| block == free_block()));
    }
}

const SIZES: [usize; 7] = [1, 2, 3, 8, 16, 40, 128];

/// So many sequences, more of them on small areas, whose calls take less time.
fn sequences(seed: u64, so_many: usize, damages: bool) {
    let candidates = candidates(seed);
    let mut random = Random::new(seeded(seed + 1));
    for at in 0..many(so_many) {
        let count = if at % 2 == 0 { SIZES[at / 2 % SIZES.len()] } else { SIZES[at / 2 % 5] };
        sequence(&mut random, &candidates, count, damages);
    }
}

/// "Add, fetch and remove by entry number answer as a plain map would, over any sequence of calls on an undamaged area."
#[test]
fn sequences_answer_as_a_plain_map() {
    sequences(501, 2_000, false);
}

/// Damage between the calls, which then go on.
#[test]
fn sequences_with_damage() {
    sequences(502, 2_000, true);
}

/// Worked by hand from the words of document 02.
#[test]
fn to_the_byte() {
    let mut area = Beside::empty_of(5);
    let free = |block: &[u8]| block[..8] == [1, 0, 0, 255, 0, 0, 0, 0] && block[8..508].iter().all(|&byte| byte == 0) && block[508..] == [253, 3, 0, 0];
    assert!(area.proved.chunks_exact(BLOCK).all(free));
    // 66051 is 0x010203; what is kept is the canonical line
    area.add(66_051, &[1, 2, 0, 0, 0, 0, 0, 0], b"[+01]^2?ac").unwrap();
    let block = &area.proved[..BLOCK];
    assert_eq!(block[..8], [2, 17, 0, 255, 3, 2, 1, 0]);
    assert_eq!(block[8..26], *b"\x01\x02\0\0\0\0\0\0[+1]^2?AC\0");
    let sum: u32 = (0..508).map(|i| (i + 1) * u32::from(block[i as usize])).sum();
    assert_eq!(block[508..], sum.to_le_bytes());
    assert!(block[26..508].iter().all(|&byte| byte == 0) && area.proved[BLOCK..].chunks_exact(BLOCK).all(free));
    // blocks 1, 3 and 4 are free: an entry of three is 1, 3, 4
    area.add(1, &ZEROS, b"A").unwrap();
    area.add(2, &ZEROS, b"C").unwrap();
    area.remove(1).unwrap();
    let line = of_length(1_000);
    assert_eq!(area.add(3, &ZEROS, &of_length(1_493)), refusal(24));
    area.add(3, &ZEROS, &line).unwrap();
    let heads: Vec<&[u8]> = area.proved.chunks_exact(BLOCK).map(|block| &block[..8]).collect();
    assert_eq!(heads[1], [2, 244, 1, 3, 3, 0, 0, 0]);
    assert_eq!(heads[3], [3, 244, 1, 4, 3, 0, 0, 0]);
    assert_eq!(heads[4], [3, 8, 0, 255, 3, 0, 0, 0]);
    let content: Vec<u8> = [1, 3, 4].iter().flat_map(|at| area.proved[at * BLOCK + 8..][..500].to_vec()).collect();
    assert!(content[..8] == [0; 8] && content[8..1_008] == line && content[1_008..].iter().all(|&byte| byte == 0));
    assert_eq!(area.numbers(), [66_051, 3, 2]);
    assert_eq!(area.survey(), Ok(Survey { free: 0, first: 3, further: 2, other: 0, unsound: 0 }));
}

/// Lines of lengths where one block more is needed: with so many blocks there is room, with one fewer 24.
#[test]
fn lengths_of_lines() {
    for (length, needed) in [(1, 1), (491, 1), (492, 1), (493, 2), (992, 2), (993, 3), (3_992, 8), (3_993, 9), (4_095, 9), (4_096, 9)] {
        let line = of_length(length);
        for (at, number) in [0, 255, 256, 65_536, u32::MAX].into_iter().enumerate() {
            for spare in [0, 1, 7] {
                let mut area = Beside::empty_of(needed + spare);
                area.add(number, &ZEROS, &line).unwrap();
                assert_eq!(area.fetch(number, length), Ok(Entry { placement: ZEROS, line: line.clone() }));
                assert_eq!(area.fetch(number, length + 3).unwrap().line, line);
                assert_eq!(area.fetch(number, length - 1), Err(Refusal::new(15, length)));
                assert_eq!(area.fetch(number ^ 1 << (at * 7), 0), refusal(22));
                assert_eq!(area.add(number, &ZEROS, b"A"), refusal(23));
                assert_eq!(area.survey().unwrap().free, spare);
                area.remove(number).unwrap();
                assert_eq!(area.remove(number), refusal(22));
                assert_eq!(area.survey().unwrap().free, needed + spare);
            }
            if needed > 1 {
                assert_eq!(Beside::empty_of(needed - 1).add(number, &ZEROS, &line), refusal(24));
            }
        }
    }
    assert_eq!(Beside::empty_of(128).add(1, &ZEROS, &vec![b'A'; 4_097]), Err(Refusal::new(2, 4_096)));
}

/// "26 the area isn't 1 to 128 whole blocks", whatever it holds; "Adding tries the line's own refusals and 18 first", and 13 before these.
#[test]
fn lengths_of_areas() {
    for length in [0, 1, 511, 513, 1_023, 65_535, 65_537, 129 * 512, 512 * 512] {
        for byte in [0, 1, 2, 255, JUNK_BYTE] {
            let mut area = Beside::of(vec![byte; length]);
            for number in [0, 1, u32::MAX] {
                assert_eq!(area.fetch(number, 0), refusal(26));
                assert_eq!(area.remove(number), refusal(26));
                assert_eq!(area.add(number, &ZEROS, b"A"), refusal(26));
                assert_eq!(area.add(number, &ZEROS, b"A[U:35]"), Err(Refusal::new(9, 2)));
                assert_eq!(area.add(number, &ZEROS, b"[+1]?AC"), refusal(18));
                assert_eq!(area.add(number, &ZEROS[1..], b""), refusal(13));
            }
            assert_eq!(area.empty(), refusal(26));
            assert_eq!((area.entry(0), area.survey()), (refusal(26), refusal(26)));
        }
    }
    for count in [1, 2, 127, MOST_BLOCKS] {
        let area = Beside::empty_of(count);
        assert_eq!(area.survey(), Ok(Survey { free: count, ..Survey::default() }));
        assert_eq!((area.entry(0), area.entry(usize::MAX), area.fetch(0, 0)), (refusal(17), refusal(17), refusal(22)));
    }
}

/// A slice for a placement that is too short is refused first of all, of an output and of an area that hold anything.
#[test]
fn short_placements() {
    let mut area = Beside::empty_of(2);
    area.add(1, &ZEROS, b"A").unwrap();
    for lent in 0..8 {
        for number in [1, 2] {
            let (mut placement, mut out) = (vec![JUNK_POSITION; lent], [JUNK_BYTE; 5]);
            assert_eq!(proved::blocks_fetch(&area.proved, number, &mut placement, &mut out), refusal(13));
            assert_eq!(proved::blocks_fetch(&area.proved[1..], number, &mut placement, &mut []), refusal(13));
            assert!(placement.iter().all(|&one| one == JUNK_POSITION) && out == [JUNK_BYTE; 5]);
            for line in [&b"A"[..], b"", b"A[U:35]", b"[+1]?A"] {
                assert_eq!(area.add(number, &ZEROS[..lent], line), refusal(13));
            }
        }
    }
}

/// The refusals of adding, each before the next one.
#[test]
fn order_of_refusals() {
    let mut area = Beside::empty_of(1);
    area.add(1, &ZEROS, b"A").unwrap();
    let wrong: [&[Position]; 5] = [&[1; 8], &[0, 0, 0, 0, 0, 0, 0, 1], &[256, 0, 0, 0, 0, 0, 0, 0], &[Position::MAX; 9], &[2, 1, 0, 0, 0, 0, 0, 0]];
    for line in [&b""[..], b"A[", b"A[U:35]", b"A\n", &[b'A'; 5_000]] {
        let own = read(line).unwrap_err();
        for number in [1, 2] {
            assert_eq!(area.add(number, &ZEROS, line), Err(own));
            assert_eq!(area.add(number, wrong[0], line), Err(own));
        }
    }
    for placement in wrong {
        for line in [&b"A"[..], b"[+1]^2?AC", b"[+1]^2?A"] {
            for number in [1, 2] {
                assert_eq!(area.add(number, placement, line), refusal(18));
            }
        }
    }
    // a line without an allowed placement cannot be kept
    assert_eq!(area.add(2, &[1, 1, 0, 0, 0, 0, 0, 0], b"[+1]^2?A"), refusal(18));
    assert_eq!(area.add(1, &ZEROS, b"C"), refusal(23));
    assert_eq!(area.add(2, &ZEROS, b"C"), refusal(24));
    area.by_hand(|area| area[20] ^= 1);
    assert_eq!(area.add(1, &ZEROS, b"C"), refusal(25));
    assert_eq!(area.add(2, &ZEROS, b"C"), refusal(25));
    assert_eq!((area.fetch(1, 0), area.fetch(2, 0), area.remove(1), area.remove(2)), (refusal(25), refusal(25), refusal(25), refusal(25)));
}

/// "After one byte changes, the entries with no block touched are fetched as before and the touched one is refused": each byte of an area of six blocks, to three other values.
#[test]
fn one_byte() {
    let mut area = Beside::empty_of(6);
    area.add(7, &[1, 3, 0, 0, 0, 0, 0, 0], b"[+1]^2?ACDE").unwrap();
    area.add(300, &ZEROS, &of_length(1_100)).unwrap();
    area.add(u32::MAX, &ZEROS, &of_length(492)).unwrap();
    let numbers = [7, 300, u32::MAX];
    let entries = numbers.map(|number| area.fetch(number, 4096).unwrap());
    let blocks = numbers.map(|number| match look(&area.plain, number) {
        Looked::Present { blocks, .. } => blocks,
        _ => panic!("it is there"),
    });
    assert_eq!(blocks, [vec![0], vec![1, 2, 3], vec![4]]);
    for at in (0..area.plain.len()).step_by(step()) {
        let was = area.plain[at];
        for byte in [was ^ 1, was.wrapping_add(0x80), !was] {
            area.by_hand(|area| area[at] = byte);
            for (index, &number) in numbers.iter().enumerate() {
                let expected = if blocks[index].contains(&(at / BLOCK)) { refusal(25) } else { Ok(entries[index].clone()) };
                assert_eq!(area.fetch(number, 4096), expected, "byte {at} from {was} to {byte}");
            }
            assert_eq!(area.fetch(8, 4096), refusal(25), "byte {at} from {was} to {byte}");
            assert_eq!(area.add(8, &ZEROS, b"A"), refusal(25), "byte {at} from {was} to {byte}");
            assert_eq!(area.survey().unwrap().unsound, 1, "byte {at} from {was} to {byte}");
        }
        area.by_hand(|area| area[at] = was);
    }
    numbers.iter().zip(entries).for_each(|(&number, entry)| assert_eq!(area.fetch(number, 4096), Ok(entry)));
}

/// Nothing is promised of two bytes: two more at byte 29 and one less at byte 59 leave the sum, and what then stands there is fetched where it is stated so.
#[test]
fn two_bytes() {
    let mut area = Beside::empty_of(1);
    area.add(1, &ZEROS, &[b'C'; 60]).unwrap();
    area.by_hand(|area| {
        area[29] += 2;
        area[59] -= 1;
    });
    assert!(is_sound(&area.plain, 0));
    let line = area.fetch(1, 4096).unwrap().line;
    assert_eq!((line[13], line[43]), (b'E', b'B'));
}

/// An area of twelve blocks with four entries, of one, three, two and one blocks, and five free ones.
fn twelve() -> Beside {
    let mut area = Beside::empty_of(12);
    area.add(5, &[1, 2, 0, 0, 0, 0, 0, 0], b"[+1]^2?ACD").unwrap();
    area.add(6, &ZEROS, &of_length(1_300)).unwrap();
    area.add(9, &ZEROS, b"A").unwrap();
    area.add(7, &ZEROS, &of_length(992)).unwrap();
    area.remove(9).unwrap();
    area.add(0, &ZEROS, &of_length(400)).unwrap();
    area
}

const TWELVE: [u32; 6] = [5, 6, 7, 0, 8, 6 << 8];

/// Headers with one field changed, with their sums made right again and without: each field of each block, blocks over each other, numbers exchanged.
#[test]
fn crooked_headers() {
    let area = twelve();
    let count = area.blocks();
    let mut fields: Vec<Vec<(usize, u8)>> = Vec::new();
    fields.extend([0, 1, 2, 3, 4, 5, 255].map(|kind| vec![(KIND, kind)]));
    fields.extend([0, 1, 7, 8, 9, 256, 499, 500, 501, 508, 65_535].map(|used: usize| used.to_le_bytes_of_two().to_vec()));
    fields.extend((0..=count as u8 + 1).chain([127, 128, 254, 255]).map(|next| vec![(NEXT, next)]));
    fields.extend(TWELVE.map(|number| (NUMBER..).zip(number.to_le_bytes()).collect()));
    for block in 0..count {
        for field in fields.iter().skip(block % step()).step_by(step()) {
            for sealed in [true, false] {
                let mut crooked = area.clone();
                crooked.by_hand(|area| {
                    let block = &mut area[block * BLOCK..][..BLOCK];
                    field.iter().for_each(|&(at, byte)| block[at] = byte);
                    if sealed {
                        seal(block);
                    }
                });
                crooked.every_call(&TWELVE);
            }
        }
        for other in (block % step()..count).step_by(step()) {
            let mut copied = area.clone();
            copied.by_hand(|area| area.copy_within(block * BLOCK..(block + 1) * BLOCK, other * BLOCK));
            copied.every_call(&TWELVE);
            let mut exchanged = area.clone();
            exchanged.by_hand(|area| {
                for at in NUMBER..CONTENT {
                    area.swap(block * BLOCK + at, other * BLOCK + at);
                }
                seal(&mut area[block * BLOCK..][..BLOCK]);
                seal(&mut area[other * BLOCK..][..BLOCK]);
            });
            exchanged.every_call(&TWELVE);
        }
    }
}

/// Many changes at once, most of them with sums made right again.
#[test]
fn crooked_all_over() {
    let area = twelve();
    let mut random = Random::new(seeded(503));
    for _ in 0..many(2_000) {
        let mut crooked = area.clone();
        for _ in 0..random.between(1, 5) {
            damage(&mut random, &mut crooked);
        }
        crooked.every_call(&TWELVE[random.below(3)..][..3]);
    }
}

/// Areas of zeros, of one byte, of junk, and of junk in blocks whose sums are right.
#[test]
fn junk_areas() {
    let mut random = Random::new(seeded(504));
    for count in SIZES {
        for byte in [0, 1, 2, 3, 254, 255] {
            Beside::of(vec![byte; count * BLOCK]).every_call(&[0, 1, 0x0202_0202, u32::MAX]);
        }
        for _ in 0..share(60) {
            Beside::of(junk(&mut random, count)).every_call(&[0, 1, 3]);
        }
    }
    // the only sound blocks of zeros are of kind 0: nothing is there, and nothing is free
    let mut zeros = Beside::of(vec![0; 3 * BLOCK]);
    assert_eq!(zeros.survey(), Ok(Survey { other: 3, ..Survey::default() }));
    assert_eq!((zeros.fetch(0, 0), zeros.remove(0), zeros.add(0, &ZEROS, b"A")), (refusal(22), refusal(22), refusal(24)));
    let mut ones = Beside::of(vec![255; 3 * BLOCK]);
    assert_eq!(ones.survey(), Ok(Survey { unsound: 3, ..Survey::default() }));
    assert_eq!((ones.fetch(0, 0), ones.remove(0), ones.add(0, &ZEROS, b"A")), (refusal(25), refusal(25), refusal(25)));
}

/// A block by hand, with a right sum: index, kind, next, number, content; the used length is that of the content.
type Made<'a> = (usize, u8, u8, u32, &'a [u8]);

fn put(area: &mut [u8], (index, kind, next, number, content): Made) {
    let block = &mut area[index * BLOCK..][..BLOCK];
    block.fill(0);
    (block[KIND], block[NEXT]) = (kind, next);
    block[USED..NEXT].copy_from_slice(&(content.len() as u16).to_le_bytes());
    block[NUMBER..CONTENT].copy_from_slice(&number.to_le_bytes());
    block[CONTENT..][..content.len()].copy_from_slice(content);
    seal(block);
}

/// An area of twelve blocks, free but for those made by hand.
fn made(blocks: &[Made]) -> Beside {
    let mut area = Beside::empty_of(12);
    area.by_hand(|area| blocks.iter().for_each(|&block| put(area, block)));
    area
}

/// The content of an entry.
fn content(placement: [u8; 8], line: &[u8]) -> Vec<u8> {
    [&placement[..], line].concat()
}

/// The blocks of a chain by hand: the content in pieces of 500 bytes over these blocks, in this order; blocks past the content are empty.
fn chained<'a>(number: u32, indices: &[usize], content: &'a [u8]) -> Vec<Made<'a>> {
    assert!(content.len() <= indices.len() * ROOM);
    let nexts = indices[1..].iter().map(|&next| next as u8).chain([NONE]);
    let pieces = content.chunks(ROOM).chain(std::iter::repeat(&b""[..]));
    let kinds = std::iter::once(FIRST).chain(std::iter::repeat(FURTHER));
    indices.iter().zip(kinds).zip(nexts).zip(pieces).map(|(((&index, kind), next), piece)| (index, kind, next, number, piece)).collect()
}

/// What `fetch` answers, and with it every other call: they go by the same cases.
fn answers(area: &Beside, number: u32, expected: Result<&[u8], u8>, what: &str) {
    let answer = area.fetch(number, 4096).map(|entry| entry.line);
    assert_eq!(answer, expected.map(<[u8]>::to_vec).or_else(refusal), "{what}");
    let present = match expected {
        Ok(_) => (Ok(()), refusal(23)),
        Err(22) => (refusal(22), area.clone().add(number, &ZEROS, b"A")),
        Err(no) => (refusal(no), refusal(no)),
    };
    assert_eq!((area.clone().remove(number), area.clone().add(number, &ZEROS, b"A")), present, "{what}");
    area.every_call(&[number]);
}

/// "Content other than stated", with right sums.
#[test]
fn crooked_contents() {
    let damaged = Err(25);
    let one = |content: &[u8], expected: Result<&[u8], u8>| {
        answers(&made(&[(3, FIRST, NONE, 7, content)]), 7, expected, &format!("{:?}", shown(content)));
    };
    one(&content([0; 8], b"A"), Ok(b"A"));
    for length in 0..=8 {
        one(&[0; 8][..length], damaged);
    }
    one(b"A", damaged);
    // another than the canonical line; a refused one
    for line in ["a", "A[+01]", "A[-0]", "A[u:x]", "A[unimod:35]", "N[glycan:Hex]", "N[Glycan:Hex1]", "<[+1]@k>AK", "A[", "", "A/2", "A\n", "A\0", "\0", "A[+1]\0", " A", "M[x#a(+0.5)]"] {
        one(&content([0; 8], line.as_bytes()), damaged);
    }
    for (placement, good) in [
        ([1, 2, 0, 0, 0, 0, 0, 0], true),
        ([2, 1, 0, 0, 0, 0, 0, 0], false),
        ([1, 1, 0, 0, 0, 0, 0, 0], false),
        ([0, 1, 0, 0, 0, 0, 0, 0], false),
        ([1, 3, 0, 0, 0, 0, 0, 0], false),
        ([1, 2, 1, 0, 0, 0, 0, 0], false),
        ([1, 2, 0, 0, 0, 0, 0, 1], false),
        ([0; 8], false),
        ([255; 8], false),
    ] {
        one(&content(placement, b"[+1]^2?AC"), if good { Ok(b"[+1]^2?AC") } else { damaged });
        one(&content(placement, b"[+1]^1[+1]?AC"), damaged);
    }
    one(&content([1, 0, 0, 0, 0, 0, 0, 0], b"[+1]?[+2]?AC"), damaged);
    one(&content([0; 8], b"[+1]^2?A"), damaged);
    // the last positions of the longest lines
    let longest = format!("{}A[+1#a]-[#a]", "A".repeat(253));
    for (position, good) in [(253, false), (254, true), (255, true)] {
        one(&content([position, 0, 0, 0, 0, 0, 0, 0], longest.as_bytes()), if good { Ok(longest.as_bytes()) } else { damaged });
    }
    // not zero past the used length: each byte behind it
    let good = made(&[(3, FIRST, NONE, 7, &content([0; 8], b"AC"))]);
    for at in CONTENT + 10..SUM {
        let mut area = good.clone();
        area.by_hand(|area| {
            area[3 * BLOCK + at] = b'A';
            seal(&mut area[3 * BLOCK..][..BLOCK]);
        });
        assert_eq!(area.fetch(7, 4096), refusal(25), "byte {at}");
    }
    // a used length that says less or more than there is
    for used in [0, 8, 9, 10, 11, 499, 500, 501, 502, 508, 511, 512, 10 + 256, 65_535] {
        let mut area = good.clone();
        area.by_hand(|area| {
            used.to_le_bytes_of_two().iter().for_each(|&(at, byte)| area[3 * BLOCK + at] = byte);
            seal(&mut area[3 * BLOCK..][..BLOCK]);
        });
        answers(&area, 7, if used == 10 { Ok(b"AC") } else { damaged }, &format!("used {used}"));
    }
}

/// A used length of 501 takes the first byte of the sum for content: damaged, also where that byte is a letter with which the line goes on.
#[test]
fn the_sum_is_no_content() {
    let mut area = made(&[(3, FIRST, NONE, 7, &content([0; 8], &of_length(492)))]);
    let mut tried = 0;
    for letters in (0..26 * 26_u16).map(|at| [at % 26, at / 26].map(|letter| b'A' + letter as u8)) {
        area.by_hand(|area| {
            let block = &mut area[3 * BLOCK..][..BLOCK];
            block[USED] = (501 % 256) as u8;
            block[CONTENT + 8..CONTENT + 10].copy_from_slice(&letters);
            seal(block);
        });
        let (line, _) = area.plain[3 * BLOCK + CONTENT + 8..].split_at(493);
        if line[492].is_ascii_uppercase() && read(line).is_ok() {
            answers(&area, 7, Err(25), &shown(line));
            tried += 1;
        }
    }
    assert!(tried > 10, "{tried} lines that go on in the sum");
}

/// Chains by hand, with right sums: what is followed, and what is damaged.
#[test]
fn crooked_chains() {
    let damaged = Err(25);
    let (line, longer) = (of_length(1_300), of_length(4_096));
    let three = content([0; 8], &line);
    let good = |indices: &[usize]| chained(7, indices, &three);
    // in any order of blocks, and with an empty last block behind full ones
    for indices in [[0, 1, 2], [2, 1, 0], [5, 11, 3], [11, 0, 1]] {
        answers(&made(&good(&indices)), 7, Ok(&line), &format!("{indices:?}"));
    }
    let full = content([0; 8], &of_length(992));
    answers(&made(&chained(7, &[4, 2, 9], &full)), 7, Ok(&full[8..]), "an empty last block");
    answers(&made(&chained(7, &[4, 2, 9, 1], &full)), 7, damaged, "two empty blocks: the one before the last is not full");
    // nine blocks, and what is longer than a line
    let nine = content([0; 8], &longer);
    answers(&made(&chained(7, &[9, 8, 7, 6, 5, 4, 3, 2, 1], &nine)), 7, Ok(&longer), "nine blocks");
    answers(&made(&chained(7, &[1, 2, 3, 4, 5, 6, 7, 8, 9], &[&nine[..], b"A"].concat())), 7, damaged, "a line of 4,097 bytes");
    let eight = content([0; 8], &of_length(3_992));
    answers(&made(&chained(7, &[1, 2, 3, 4, 5, 6, 7, 8, 9], &eight)), 7, Ok(&eight[8..]), "eight full blocks and an empty one");
    answers(&made(&chained(7, &[0, 1, 2, 3, 4, 5, 6, 7, 8, 9], &[b'A'; 4_500])), 7, damaged, "nine full blocks and an empty one");
    answers(&made(&chained(7, &[0, 1, 2, 3, 4, 5, 6, 7, 8, 9, 10, 11], &[b'A'; 6_000])), 7, damaged, "twelve full blocks");
    // one of the blocks is another
    let chain = good(&[2, 5, 8]);
    let with = |at: usize, change: &dyn Fn(&mut Made)| {
        let mut chain = chain.clone();
        change(&mut chain[at]);
        made(&chain)
    };
    for kind in [0, 1, 2, 4, 5, 255] {
        for at in [1, 2] {
            answers(&with(at, &|block| block.1 = kind), 7, damaged, &format!("block {at} of kind {kind}"));
        }
    }
    for kind in [0, 1, 3, 4, 255] {
        answers(&with(0, &|block| block.1 = kind), 7, Err(22), &format!("a first block of kind {kind}"));
    }
    for number in [6, 8, 0, 7 << 8, 7 << 24, u32::MAX] {
        for at in [1, 2] {
            answers(&with(at, &|block| block.3 = number), 7, damaged, &format!("block {at} of number {number}"));
        }
        answers(&with(0, &|block| block.3 = number), 7, Err(22), &format!("a first block of number {number}"));
    }
    // loops: to itself, back to the first block, back to the second; over all of the area
    for (at, next) in [(0, 2), (1, 5), (1, 2), (2, 8), (2, 5), (2, 2)] {
        let full = vec![b'A'; ROOM];
        let mut chain: Vec<Made> = chain.iter().map(|&(index, kind, next, number, _)| (index, kind, next, number, &full[..])).collect();
        chain[at].2 = next;
        answers(&made(&chain), 7, damaged, &format!("block {at} leads to {next}"));
        answers(&with(at, &|block| block.2 = next), 7, damaged, &format!("block {at} leads to {next}"));
    }
    let around: Vec<usize> = (0..12).collect();
    let full = vec![b'A'; 12 * ROOM];
    for next in 0..12 {
        let mut chain = chained(7, &around, &full);
        chain[11].2 = next;
        answers(&made(&chain), 7, damaged, &format!("all blocks, and back to {next}"));
    }
    // a next that is not in the area makes its block unsound
    for next in [12, 13, 128, 254] {
        answers(&with(1, &|block| block.2 = next), 7, damaged, &format!("next {next}"));
        answers(&with(0, &|block| block.2 = next), 7, damaged, &format!("next {next} of the first"));
    }
    // an inner block that is not full
    let pieces = [&three[..499], &three[499..999], &three[999..]];
    answers(&made(&[(0, FIRST, 1, 7, pieces[0]), (1, FURTHER, 2, 7, pieces[1]), (2, FURTHER, NONE, 7, pieces[2])]), 7, damaged, "499 bytes in the first");
    let pieces = [&three[..500], &three[500..999], &three[999..]];
    answers(&made(&[(0, FIRST, 1, 7, pieces[0]), (1, FURTHER, 2, 7, pieces[1]), (2, FURTHER, NONE, 7, pieces[2])]), 7, damaged, "499 bytes in the second");
}

/// First blocks of one number: two sound ones, a sound and an unsound one; blocks that two chains share; blocks of other kinds; free blocks that hold something.
#[test]
fn crooked_firsts_and_frees() {
    let (a, c) = (content([0; 8], b"A"), content([0; 8], b"C"));
    let mut two = made(&[(2, FIRST, NONE, 7, &a), (9, FIRST, NONE, 7, &c), (4, FIRST, NONE, 8, &c)]);
    answers(&two, 7, Err(25), "two sound first blocks");
    answers(&two, 8, Ok(b"C"), "another entry beside them");
    assert_eq!(two.numbers(), [7, 8, 7]);
    answers(&two, 9, Err(22), "no such entry, and all blocks are sound");
    two.by_hand(|area| area[9 * BLOCK + 20] ^= 4);
    answers(&two, 7, Ok(b"A"), "a sound and an unsound first block");
    answers(&two, 9, Err(25), "no such entry, and a block is unsound");
    two.by_hand(|area| area[2 * BLOCK + 20] ^= 4);
    answers(&two, 7, Err(25), "two unsound first blocks");
    assert_eq!(two.numbers(), [8]);
    // a block that two chains share has the number of one of them
    let shared = content([0; 8], &of_length(900));
    let mut blocks = chained(7, &[0, 2], &shared);
    blocks.push((1, FIRST, 2, 8, &shared[..ROOM]));
    answers(&made(&blocks), 7, Ok(&shared[8..]), "a shared block of its number");
    answers(&made(&blocks), 8, Err(25), "a shared block of another number");
    // other kinds are never taken; a block is free whatever it holds, and is overwritten whole
    let mut area = made(&[(0, 0, 0, 0, b""), (1, 4, NONE, 7, &a), (2, 255, NONE, 7, &a), (3, FREE, 5, u32::MAX, &[b'x'; 500]), (4, FURTHER, NONE, 7, &a)]);
    assert_eq!(area.survey(), Ok(Survey { free: 8, first: 0, further: 1, other: 3, unsound: 0 }));
    answers(&area, 7, Err(22), "a number of further blocks and others");
    area.add(7, &ZEROS, b"A").unwrap();
    assert_eq!(area.entry(0), Ok((3, 7)));
    assert_eq!(area.plain[3 * BLOCK..][..BLOCK], made(&[(3, FIRST, NONE, 7, &a)]).plain[3 * BLOCK..][..BLOCK]);
    area.remove(7).unwrap();
    assert_eq!(area.plain[3 * BLOCK..][..BLOCK], free_block());
    assert_eq!(area.add(7, &ZEROS, &of_length(4_096)), refusal(24));
}

/// A copy cut short by whole blocks: what leads out of it is unsound, and what does not is fetched as before.
#[test]
fn copies_cut_short() {
    let area = twelve();
    let whole = TWELVE.map(|number| area.fetch(number, 4096));
    for count in 1..12 {
        let cut = Beside::of(area.plain[..count * BLOCK].to_vec());
        cut.every_call(&TWELVE);
        for (&number, whole) in TWELVE.iter().zip(&whole) {
            let left = match look(&area.plain, number) {
                Looked::Present { blocks, .. } => blocks.iter().all(|&block| block < count),
                _ => false,
            };
            let answer = cut.fetch(number, 4096);
            assert!(if left { answer == *whole } else { answer == refusal(25) || answer == refusal(22) }, "{number} of {count} blocks: {answer:?}");
        }
    }
}

/// The stored area of vectors/blocks.area, with what vectors/blocks.txt says of each call: neither comes from this code (vectors/blocks.py).
#[test]
fn stored_area() {
    let damaged = include_bytes!("../vectors/blocks.area").to_vec();
    let mut rows = include_str!("../vectors/blocks.txt").lines().map(|row| row.split('\t').collect::<Vec<_>>());
    let first = rows.next().unwrap();
    let [at, was] = [first[1], first[2]].map(|number| number.parse::<usize>().unwrap());
    let mut whole = damaged.clone();
    whole[at] = was as u8;
    let positions = |text: &str| -> Vec<Position> { text.split(',').map(|one| one.parse().unwrap()).collect() };
    let mut met = 0;
    for row in rows {
        let stored = if row[0] == "whole" { &whole } else { &damaged };
        let mut area = Beside::of(stored.clone());
        let (number, answer) = (row[2].parse::<u64>().unwrap_or(0), row[5].parse::<u8>().unwrap());
        let no = |answered: Option<Refusal>| assert_eq!(answered.map_or(0, |refusal| refusal.number), answer, "{row:?}");
        match row[1] {
            "fetch" => {
                let fetched = area.fetch(number as u32, 4096);
                no(fetched.as_ref().err().copied());
                if let Ok(Entry { placement, line }) = fetched {
                    let (at, text) = row[6].split_once(' ').unwrap();
                    assert_eq!((placement.to_vec(), shown(&line)), (positions(at), text.to_owned()), "{row:?}");
                }
            }
            "entry" => {
                let found = area.entry(number as usize);
                no(found.err());
                if let Ok((block, number)) = found {
                    assert_eq!(format!("{block} {number}"), row[6], "{row:?}");
                }
            }
            "survey" => {
                let Survey { free, first, further, other, unsound } = area.survey().unwrap();
                assert_eq!(format!("{free} {first} {further} {other} {unsound}"), row[6], "{row:?}");
            }
            call => {
                no(match call {
                    "add" => area.add(number as u32, &positions(row[3]), row[4].as_bytes()).err(),
                    "remove" => area.remove(number as u32).err(),
                    _ => panic!("{row:?}"),
                });
                let mut after = stored.clone();
                for changed in row[6].split_whitespace() {
                    let [index, front, sum] = changed.split(':').collect::<Vec<_>>()[..] else { panic!("{row:?}") };
                    let block = &mut after[index.parse::<usize>().unwrap() * BLOCK..][..BLOCK];
                    block.fill(0);
                    block[..front.len() / 2].copy_from_slice(&bytes(front));
                    block[SUM..].copy_from_slice(&bytes(sum));
                }
                assert!(area.proved == after, "{row:?}");
            }
        }
        met += 1;
    }
    assert_eq!(met, 89);
}

fn bytes(hex: &str) -> Vec<u8> {
    (0..hex.len() / 2).map(|at| u8::from_str_radix(&hex[2 * at..][..2], 16).unwrap()).collect()
}
