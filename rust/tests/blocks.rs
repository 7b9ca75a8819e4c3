//! The register kept in blocks (02, L5): the calls over lent slices, `Blocks` over areas that it owns or borrows, and the stored area of compare/vectors.
#![forbid(unsafe_code)]

use hwemiduk::lent::{self, outs, BLOCK, BLOCKS, COPIES, LINE};
use hwemiduk::{Blocks, Entry, Peptidoform, Position, Refusal, Survey};

fn of(line: &str) -> Peptidoform {
    line.parse().unwrap_or_else(|refusal| panic!("{line}: {refusal}"))
}

/// The number of a refusal, which has the place 0.
fn refused<T>(answer: Result<T, Refusal>) -> u8 {
    answer.err().map_or(0, |refusal| {
        assert_eq!((refusal.place(), refusal.column()), (0, None));
        refusal.number()
    })
}

fn three() -> Blocks {
    let mut blocks = Blocks::new(8).unwrap();
    blocks.add(17, &of("[+1]^2?AC"), &[1, 2]).unwrap();
    blocks.add(0, &of(&format!("A{}", format!("[{}]", "x".repeat(128)).repeat(5))), &[]).unwrap();
    blocks.add(u32::MAX, &of("M[+16#a]C[#a]"), &[2]).unwrap();
    blocks
}

#[test]
fn a_plain_map() {
    let mut blocks = three();
    assert_eq!(blocks.numbers().collect::<Vec<_>>(), [17, 0, u32::MAX]);
    assert_eq!(blocks.survey(), Survey { free: 4, first: 3, further: 1, other: 0, unsound: 0 });
    let Entry { peptidoform, placement } = blocks.fetch(17).unwrap();
    assert_eq!((peptidoform, placement.to_vec()), (of("[+1]^2?AC"), vec![1, 2]));
    assert_eq!(blocks.fetch(u32::MAX).unwrap().placement.to_vec(), [2]);
    assert_eq!(blocks.fetch(0).unwrap().placement.to_vec(), [0; 0]);
    assert_eq!((refused(blocks.fetch(1)), refused(blocks.remove(1)), refused(blocks.add(17, &of("A"), &[]))), (22, 22, 23));
    let long = of(&format!("A{}", format!("[{}]", "x".repeat(128)).repeat(20)));
    assert_eq!(refused(blocks.add(1, &long, &[])), 24);
    blocks.remove(0).unwrap();
    blocks.add(1, &long, &[]).unwrap();
    assert_eq!(blocks.numbers().collect::<Vec<_>>(), [17, 1, u32::MAX]);
    assert_eq!(blocks.fetch(1).unwrap().peptidoform, long);
    assert_eq!(blocks.damaged(), [0; 0]);
    blocks.empty().unwrap();
    assert_eq!(blocks, Blocks::new(8).unwrap());
}

/// A placement is refused with 18 where it is not an allowed one, also where it has another length than there are floaters and zeros would fill it to one that is.
#[test]
fn placements() {
    let mut blocks = Blocks::new(1).unwrap();
    let ended = of("[+1#b][+2#a]?[#a]-A[#b]");
    assert!(ended.allowed(&[1, 0]));
    for placement in [&[][..], &[1], &[1, 0, 0], &[0, 1], &[1, 0, 0, 0, 0, 0, 0, 0], &[1, 0, 0, 0, 0, 0, 0, 0, 0]] {
        assert_eq!(refused(blocks.add(1, &ended, placement)), 18, "{placement:?}");
    }
    assert_eq!(refused(blocks.add(1, &of("[+1]^2?AC"), &[2, 1])), 18);
    assert_eq!(refused(blocks.add(1, &of("A"), &[0])), 18);
    assert_eq!(blocks, Blocks::new(1).unwrap());
    let p = of("[+1][+1]?AC");
    for placement in p.placements() {
        blocks.add(1, &p, &placement).unwrap();
        assert_eq!(blocks.fetch(1).unwrap().placement, placement);
        blocks.remove(1).unwrap();
    }
    blocks.add(1, &ended, &[1, 0]).unwrap();
}

#[test]
fn owned_and_borrowed() {
    for (blocks, number) in [(0, 26), (1, 0), (BLOCKS, 0), (BLOCKS + 1, 26), (usize::MAX, 26)] {
        assert_eq!(refused(Blocks::new(blocks)), number, "{blocks}");
    }
    for (length, number) in [(0, 26), (1, 26), (511, 26), (512, 0), (513, 26), (BLOCKS * BLOCK, 0), ((BLOCKS + 1) * BLOCK, 26)] {
        assert_eq!(refused(Blocks::over(vec![0; length])), number, "{length}");
    }
    let mut area = three().into_area();
    Blocks::over(&mut area[..]).unwrap().remove(17).unwrap();
    assert_eq!(Blocks::over(&area).unwrap().numbers().collect::<Vec<_>>(), [0, u32::MAX]);
    let array = Blocks::over([0; 2 * BLOCK]).unwrap();
    assert_eq!((array.survey().other, refused(array.fetch(0))), (2, 22));
    assert_eq!(format!("{array:?}"), "Blocks { survey: Survey { free: 0, first: 0, further: 0, other: 2, unsound: 0 }, numbers: [] }");
}

/// "After one byte changes, the entries with no block touched are fetched as before and the touched one is refused."
#[test]
fn survivors_and_damaged() {
    let good = three();
    let entries: Vec<(u32, Entry)> = good.survivors().collect();
    assert_eq!(entries.len(), 3);
    // the blocks of each of them
    for (block, lost) in [(0, Some(17)), (1, Some(0)), (2, Some(0)), (3, Some(u32::MAX)), (4, None)] {
        for at in [3, 8, 100, 507, 508, 511] {
            let mut area = good.area().to_vec();
            area[block * BLOCK + at] ^= 0x10;
            let mut copy = Blocks::over(area).unwrap();
            let left: Vec<(u32, Entry)> = entries.iter().filter(|(number, _)| Some(*number) != lost).cloned().collect();
            assert_eq!(copy.survivors().collect::<Vec<_>>(), left, "block {block}, byte {at}");
            assert_eq!(copy.damaged(), Vec::from_iter(lost), "block {block}, byte {at}");
            assert_eq!((refused(copy.fetch(99)), refused(copy.remove(99)), refused(copy.add(99, &of("A"), &[])), copy.survey().unsound), (25, 25, 25, 1));
            // what is left goes into an empty area
            let mut rescued = Blocks::new(8).unwrap();
            assert_eq!(copy.copy_survivors(&mut rescued).unwrap(), left.iter().map(|(number, _)| *number).collect::<Vec<_>>());
            assert_eq!(rescued.survivors().collect::<Vec<_>>(), left);
            rescued.add(99, &of("A"), &[]).unwrap();
        }
    }
    // a first block whose kind is lost: the number is still seen in the further one
    let mut area = good.area().to_vec();
    area[BLOCK] = 9;
    assert_eq!(Blocks::over(area).unwrap().damaged(), [0]);
}

#[test]
fn copying_survivors_changes_nothing_where_one_is_refused() {
    let mut small = Blocks::new(3).unwrap();
    small.add(5, &of("C"), &[]).unwrap();
    let before = small.clone();
    assert_eq!(refused(three().copy_survivors(&mut small)), 24);
    let mut taken = Blocks::new(8).unwrap();
    taken.add(u32::MAX, &of("C"), &[]).unwrap();
    assert_eq!(refused(three().copy_survivors(&mut taken)), 23);
    assert_eq!((small, taken.numbers().collect::<Vec<_>>()), (before, vec![u32::MAX]));
}

#[test]
fn over_lent_slices() {
    let mut area = [0xa5; 3 * BLOCK];
    lent::blocks_empty(&mut area).unwrap();
    assert_eq!(outs::blocks_add(&mut area, 7, &[1, 2, 0, 0, 0, 0, 0, 0, 99], b"[+01]^2?ac"), (0, usize::MAX));
    let (mut placement, mut out) = ([99; COPIES + 2], [0xa5; 12]);
    assert_eq!(outs::blocks_fetch(&area, 7, &mut placement, &mut out), (0, 9));
    assert_eq!((placement, &out), ([1, 2, 0, 0, 0, 0, 0, 0, 99, 99], b"[+1]^2?AC\xa5\xa5\xa5"));
    // what a refusal leaves
    let (before, mut placement, mut out) = (area, [99; COPIES], [0xa5; LINE]);
    for (number, line, lent, answer) in [
        (7, &b"A[U:35]"[..], COPIES, (9, 2)),
        (7, b"A", COPIES - 1, (13, 0)),
        (7, b"[+1]?A", COPIES, (18, 0)),
        (7, b"A", COPIES, (23, 0)),
    ] {
        assert_eq!(outs::blocks_add(&mut area, number, &[0; COPIES][..lent], line), answer);
    }
    let long = [b"A".to_vec(), [b"[".to_vec(), vec![b'x'; 128], b"]".to_vec()].concat().repeat(31)].concat();
    assert_eq!(outs::blocks_add(&mut area, 8, &[0; COPIES], &long), (24, 0));
    assert_eq!(outs::blocks_fetch(&area, 8, &mut placement, &mut out), (22, usize::MAX));
    assert_eq!(outs::blocks_fetch(&area, 7, &mut placement[1..], &mut out), (13, usize::MAX));
    assert_eq!(outs::blocks_fetch(&area, 7, &mut placement, &mut out[..8]), (15, 9));
    let refusal = lent::blocks_fetch(&area, 7, &mut placement, &mut []).unwrap_err();
    assert_eq!((refusal.number(), refusal.place()), (15, 9));
    assert_eq!(outs::blocks_fetch(&area[1..], 7, &mut placement, &mut out), (26, usize::MAX));
    assert_eq!((outs::blocks_remove(&mut area, 8), outs::blocks_remove(&mut area[1..], 8), outs::blocks_empty(&mut area[1..])), (22, 26, 26));
    assert_eq!((lent::blocks_entry(&area, 0), refused(lent::blocks_entry(&area, 1)), refused(lent::blocks_entry(&area[1..], 0))), (Ok((0, 7)), 17, 26));
    assert_eq!(outs::blocks_entry(&area, usize::MAX), (17, usize::MAX, outs::UNTOLD));
    assert_eq!(lent::blocks_survey(&area), Ok(Survey { free: 2, first: 1, further: 0, other: 0, unsound: 0 }));
    let untold = Survey { free: usize::MAX, first: usize::MAX, further: usize::MAX, other: usize::MAX, unsound: usize::MAX };
    assert_eq!(outs::blocks_survey(&area[1..]), (26, untold));
    assert!(area == before && placement == [99; COPIES] && out == [0xa5; LINE]);
    area[100] = 1;
    assert_eq!(outs::blocks_fetch(&area, 7, &mut placement, &mut out), (25, usize::MAX));
    assert_eq!((outs::blocks_remove(&mut area, 7), outs::blocks_add(&mut area, 7, &[0; COPIES], b"A")), (25, (25, 0)));
    lent::blocks_empty(&mut area).unwrap();
    assert_eq!(lent::blocks_survey(&area).unwrap().free, 3);
}

/// The area of compare/vectors/blocks.area, which no code of this project has made, and what blocks.txt says of `fetch`.
#[test]
fn stored_area() {
    let damaged = Blocks::over(&include_bytes!("../../compare/vectors/blocks.area")[..]).unwrap();
    let mut met = 0;
    for row in include_str!("../../compare/vectors/blocks.txt").lines().filter(|row| row.starts_with("damaged\tfetch\t")) {
        let row: Vec<&str> = row.split('\t').collect();
        let fetched = damaged.fetch(row[2].parse().unwrap());
        if row[5] != "0" {
            assert_eq!(refused(fetched).to_string(), row[5], "{row:?}");
        } else {
            let entry = fetched.unwrap();
            let (placement, line) = row[6].split_once(' ').unwrap();
            let placement: Vec<Position> = placement.split(',').map(|one| one.parse().unwrap()).collect();
            assert_eq!((entry.peptidoform.as_str(), &*entry.placement), (line, &placement[..entry.placement.len()]), "{row:?}");
        }
        met += 1;
    }
    assert_eq!((met, damaged.damaged()), (8, vec![1000]));
    assert_eq!(damaged.survivors().map(|(number, _)| number).collect::<Vec<_>>(), [17, 0, 66051, u32::MAX]);
}
