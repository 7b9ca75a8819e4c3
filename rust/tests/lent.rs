//! The calls over lent slices: answers, refusals, and what they leave as it was.
#![forbid(unsafe_code)]

use hwemiduk::lent::{
    self, Limits, Listing, Mass, Shown, Site, BLOCK, BLOCKS, BRACKETS, BYTES, COPIES, DECLARATIONS, LINE, NUMBERS, PARTS, PIECES, PLACES, POSITIONS,
    RESIDUES, ROWS,
};
use hwemiduk::Refusal;

fn tables(line: &str) -> ([u8; BYTES], [i64; NUMBERS]) {
    let (mut bytes, mut numbers) = ([0xa5; BYTES], [-7; NUMBERS]);
    lent::read(line.as_bytes(), &mut bytes, &mut numbers).unwrap();
    (bytes, numbers)
}

fn refused<T>(answer: Result<T, Refusal>) -> (u8, usize) {
    answer.err().map_or((0, 0), |refusal| (refusal.number(), refusal.place()))
}

#[test]
fn constants_are_the_library_s() {
    let expected = Limits {
        line: LINE,
        residues: RESIDUES,
        brackets: BRACKETS,
        parts: PARTS,
        declarations: DECLARATIONS,
        places: PLACES,
        copies: COPIES,
        rows: ROWS,
        positions: POSITIONS,
        bytes: BYTES,
        numbers: NUMBERS,
        block: BLOCK,
        blocks: BLOCKS,
        ..lent::limits()
    };
    assert_eq!(lent::limits(), expected);
}

#[test]
fn read_and_write() {
    assert_eq!(lent::verdict(b"a[+01.50]"), Ok(()));
    assert_eq!(refused(lent::verdict(b"A[U:35]")), (9, 2));
    let (bytes, numbers) = tables("a[+01.50]");
    let mut out = [0xa5; 12];
    assert_eq!(lent::write(&bytes, &numbers, &mut out), Ok(8));
    assert_eq!(&out, b"A[+1.50]\xa5\xa5\xa5\xa5");
    assert_eq!(refused(lent::write(&bytes, &numbers, &mut [])), (15, 8));
    assert_eq!(refused(lent::write(&bytes, &numbers, &mut out[..7])), (15, 8));
}

#[test]
fn a_refusal_leaves_what_is_lent() {
    let (mut bytes, mut numbers) = ([0xa5; BYTES], [-7; NUMBERS]);
    assert_eq!(refused(lent::read(b"A[", &mut bytes, &mut numbers)), (4, 2));
    assert_eq!(refused(lent::read(b"A", &mut bytes[1..], &mut numbers)), (13, 0));
    assert_eq!(refused(lent::read(b"A", &mut bytes, &mut numbers[1..])), (13, 0));
    assert_eq!(refused(lent::read(b"A", &mut [], &mut [])), (13, 0));
    assert!(bytes == [0xa5; BYTES] && numbers == [-7; NUMBERS]);
}

#[test]
fn counts_and_masses() {
    let (bytes, numbers) = tables("[+1]^2?AC[-0.5]");
    assert_eq!(lent::residues(&bytes, &numbers), Ok(2));
    assert_eq!(lent::brackets(&bytes, &numbers), Ok(2));
    assert_eq!(lent::floaters(&bytes, &numbers), Ok(2));
    assert_eq!(lent::total(&bytes, &numbers), Ok(1_500_000));
    assert_eq!(lent::shown(&bytes, &numbers), Ok(Shown::Daltons(1.5)));
    let (bytes, numbers) = tables("[x]^3?AC");
    assert_eq!(refused(lent::total(&bytes, &numbers)), (16, 3));
    assert_eq!(lent::shown(&bytes, &numbers), Ok(Shown::Missing(3)));
    let mut entries = [-7; POSITIONS];
    assert_eq!(refused(lent::ledger(&bytes, &numbers, &[0; COPIES], &mut entries)), (16, 3));
    assert!(entries == [-7; POSITIONS]);
    let (bytes, numbers) = tables("[Obs:+1]^3?ACD[+1]");
    assert_eq!(refused(lent::total(&bytes, &numbers)), (16, 3));
    assert_eq!(lent::shown(&bytes, &numbers), Ok(Shown::Missing(3)));
    assert_eq!(refused(lent::ledger(&bytes, &numbers, &[0; COPIES], &mut entries)), (16, 3));
    assert!(entries == [-7; POSITIONS]);
}

/// Document 02, L6: "A bracket's mass now answers stated, only measured, or none."
#[test]
fn masses_of_brackets() {
    let (bytes, numbers) = tables("[Obs:-2.5]^3?A[Obs:+2|+1]C[x]D[+0]E[INFO:y]");
    for (bracket, outs, mass) in [
        (0, (0, -2_500_000, 2), Mass::Measured(-2_500_000)),
        (1, (0, 1_000_000, 1), Mass::Stated(1_000_000)),
        (2, (0, 0, 0), Mass::None),
        (3, (0, 0, 1), Mass::Stated(0)),
        (4, (0, 0, 0), Mass::None),
    ] {
        assert_eq!(lent::outs::bracket_mass(&bytes, &numbers, bracket), outs);
        assert_eq!(lent::bracket_mass(&bytes, &numbers, bracket), Ok(mass));
    }
    for beyond in [5, BRACKETS, usize::MAX] {
        assert_eq!(refused(lent::bracket_mass(&bytes, &numbers, beyond)), (17, 0));
        assert_eq!(lent::outs::bracket_mass(&bytes, &numbers, beyond), (17, i64::MIN, u8::MAX));
    }
    assert_eq!(lent::outs::bracket_mass(&bytes[1..], &numbers, 0), (13, i64::MIN, u8::MAX));
    assert_eq!(lent::outs::bracket_mass(&bytes, &numbers[1..], 9), (13, i64::MIN, u8::MAX));
}

#[test]
fn placements() {
    let (bytes, numbers) = tables("[+1]^2?AC");
    let mut descending = Listing::holding([2, 1, 0, 0, 0, 0, 0, 0]);
    let before = descending;
    assert_eq!(refused(lent::next(&bytes, &numbers, &mut descending)), (18, 0));
    assert_eq!(descending, before);
    assert_eq!(refused(lent::allowed(&bytes, &numbers, &descending.at)), (18, 0));
    let mut entries = [-7; POSITIONS];
    assert_eq!(refused(lent::ledger(&bytes, &numbers, &descending.at, &mut entries)), (18, 0));
    assert_eq!(entries, [-7; POSITIONS]);
    let (bytes, numbers) = tables("[+1][+1]?AC");
    let mut listing = Listing::FRESH;
    for first_two in [[1, 2], [2, 1]] {
        assert_eq!(lent::next(&bytes, &numbers, &mut listing), Ok(()));
        assert_eq!((&listing.at[..2], &listing.at[2..]), (&first_two[..], &[0; COPIES - 2][..]));
        assert_eq!(lent::allowed(&bytes, &numbers, &listing.at), Ok(()));
    }
    assert_eq!(refused(lent::next(&bytes, &numbers, &mut listing)), (17, 0));
    let mut entries = [-7; POSITIONS];
    assert_eq!(lent::ledger(&bytes, &numbers, &listing.at, &mut entries), Ok(()));
    assert_eq!(entries[..5], [0, 1_000_000, 1_000_000, 0, 0]);
    listing.at[1] = 2;
    assert_eq!(refused(lent::next(&bytes, &numbers, &mut listing)), (18, 0));
    assert_eq!(refused(lent::allowed(&bytes, &numbers, &listing.at)), (18, 0));
    assert_eq!(refused(lent::allowed(&bytes, &numbers, &listing.at[1..])), (13, 0));
}

/// Document 02, L7: "a set of floaters whose permitted positions, taken together, are fewer than the set", "the smallest; among equals the first by floater order".
#[test]
fn why_there_is_no_placement() {
    for (line, set) in [
        ("A", &[][..]),
        ("[+1]?AC", &[]),
        ("[+1]^3?A", &[1, 2]),
        ("[+1][+2]?A[+3]", &[1]),
        ("[+1#a][+2#b][+3#c][+4#d]?A[#a][#d]C[#b][#c]", &[1, 4]),
        ("<[+9]@I>[+1]^8?ACDEFGHI", &[1, 2, 3, 4, 5, 6, 7, 8]),
    ] {
        let (bytes, numbers) = tables(line);
        let mut floaters = [0xa5; COPIES + 3];
        assert_eq!(lent::why_none(&bytes, &numbers, &mut floaters), Ok(set.len()), "{line}");
        assert_eq!(&floaters[..set.len()], set, "{line}");
        assert!(floaters[set.len()..].iter().all(|&entry| entry == 0xa5), "{line}");
        assert_eq!(lent::why_none(&bytes, &numbers, &mut floaters[..COPIES]), Ok(set.len()), "{line}");
        assert_eq!(lent::next(&bytes, &numbers, &mut Listing::FRESH.clone()).is_ok(), set.is_empty(), "{line}");
    }
    let (bytes, numbers) = tables("[+1]^3?A");
    let mut floaters = [0xa5; COPIES];
    for fewer in [0, 2, COPIES - 1] {
        assert_eq!(refused(lent::why_none(&bytes, &numbers, &mut floaters[..fewer])), (13, 0));
        assert_eq!(lent::outs::why_none(&bytes, &numbers, &mut floaters[..fewer]), (13, usize::MAX));
    }
    assert_eq!(lent::outs::why_none(&bytes[1..], &numbers, &mut floaters), (13, usize::MAX));
    assert_eq!(lent::outs::why_none(&bytes, &numbers[1..], &mut floaters), (13, usize::MAX));
    let (junk_bytes, junk_numbers) = ([0xa5; BYTES], [-7; NUMBERS]);
    assert_eq!(lent::outs::why_none(&junk_bytes, &numbers, &mut floaters), (14, usize::MAX));
    assert_eq!(lent::outs::why_none(&bytes, &junk_numbers, &mut floaters), (14, usize::MAX));
    assert_eq!(lent::outs::why_none(&junk_bytes, &junk_numbers, &mut floaters[1..]), (13, usize::MAX));
    assert_eq!(floaters, [0xa5; COPIES]);
}

#[test]
fn rows() {
    let (bytes, numbers) = tables("[+1]?AC[+2]D");
    let junk = Site { floater: 9, position: 9 };
    let mut rows = [junk; ROWS];
    assert_eq!(lent::rows(&bytes, &numbers, &mut rows), Ok(2));
    assert_eq!(rows[..3], [Site { floater: 1, position: 1 }, Site { floater: 1, position: 3 }, junk]);
    assert_eq!(lent::first_row(&rows, 2, 1), Ok((0, 1)));
    assert_eq!(lent::first_row(&rows, 3, 9), Ok((2, 9)));
    assert_eq!(refused(lent::first_row(&rows, 2, 9)), (17, 0));
    assert_eq!(refused(lent::first_row(&rows[1..], 2, 1)), (13, 0));
    assert_eq!(refused(lent::rows(&bytes, &numbers, &mut rows[1..])), (13, 0));
}

#[test]
fn compositions() {
    let mut pieces = [0xa5; 6];
    assert_eq!(lent::composition(b"hexnac1HEX2", &mut pieces), Ok(4));
    assert_eq!(pieces, [1, 1, 0, 2, 0xa5, 0xa5]);
    let mut pieces = [0xa5; 4];
    assert_eq!(refused(lent::composition(b"hexnac1HEX2", &mut pieces[..3])), (15, 4));
    assert_eq!(refused(lent::composition(b"hexnac1HEX2", &mut [])), (15, 4));
    assert_eq!(refused(lent::composition(b"hexnac1HEX2x", &mut pieces)), (19, 0));
    assert_eq!(refused(lent::composition(b"x", &mut [])), (19, 0));
    assert_eq!(pieces, [0xa5; 4]);
    assert_eq!(lent::outs::composition(b"x", &mut pieces), (19, usize::MAX));
    assert_eq!(lent::outs::composition(b"Hex", &mut pieces[..1]), (15, 2));
    assert_eq!(lent::composition(b"", &mut []), Ok(0));
    assert_eq!(lent::composition("Hex".repeat(PIECES).as_bytes(), &mut [0; 2 * PIECES]), Ok(2 * PIECES));
}

/// Document 02, L2: "Each matching position receives the modification", "once per declaration".
#[test]
fn positions_reached() {
    let (bytes, numbers) = tables("<[+1]@K,k,N-term><[x]@W>[+2]?AKK");
    let mut positions = [7; POSITIONS + 3];
    assert_eq!(lent::reached(&bytes, &numbers, 0, &mut positions), Ok(3));
    assert_eq!((&positions[..3], &positions[3..]), (&[0, 2, 3][..], &[7; POSITIONS][..]));
    let mut positions = [7; POSITIONS];
    for none in [1, 2] {
        assert_eq!(lent::reached(&bytes, &numbers, none, &mut positions), Ok(0));
    }
    for beyond in [3, BRACKETS, usize::MAX] {
        assert_eq!(refused(lent::reached(&bytes, &numbers, beyond, &mut positions)), (17, 0));
        assert_eq!(lent::outs::reached(&bytes, &numbers, beyond, &mut positions), (17, usize::MAX));
    }
    assert_eq!(lent::outs::reached(&bytes, &numbers, 0, &mut positions[1..]), (13, usize::MAX));
    assert_eq!(lent::outs::reached(&bytes[1..], &numbers, 0, &mut positions), (13, usize::MAX));
    assert_eq!(lent::outs::reached(&bytes, &numbers[1..], 9, &mut positions), (13, usize::MAX));
    assert_eq!(positions, [7; POSITIONS]);
    let (bytes, numbers) = tables(&format!("<[+1]@A,N-term,C-term>{}", "A".repeat(RESIDUES)));
    assert_eq!(lent::reached(&bytes, &numbers, 0, &mut positions), Ok(POSITIONS));
    assert!(positions.iter().copied().eq(0..POSITIONS as u16));
}

/// Every call that takes tables answers 14 where a byte of junk stands in unused room.
#[test]
fn tables_of_no_line() {
    let (mut bytes, numbers) = tables("[+1]^2?AC");
    bytes[BYTES - 1] = 1;
    let fourteen = (14, 0);
    assert_eq!(refused(lent::write(&bytes, &numbers, &mut [0; LINE])), fourteen);
    for count in [lent::residues, lent::brackets, lent::floaters] {
        assert_eq!(refused(count(&bytes, &numbers)), fourteen);
    }
    assert_eq!(refused(lent::total(&bytes, &numbers)), fourteen);
    assert_eq!(refused(lent::shown(&bytes, &numbers)), fourteen);
    assert_eq!(lent::outs::bracket_mass(&bytes, &numbers, 0), (14, i64::MIN, u8::MAX));
    assert_eq!(refused(lent::bracket_mass(&bytes, &numbers, BRACKETS)), fourteen);
    assert_eq!(refused(lent::allowed(&bytes, &numbers, &[0; COPIES])), fourteen);
    assert_eq!(refused(lent::ledger(&bytes, &numbers, &[0; COPIES], &mut [0; POSITIONS])), fourteen);
    assert_eq!(refused(lent::next(&bytes, &numbers, &mut Listing::FRESH.clone())), fourteen);
    assert_eq!(refused(lent::why_none(&bytes, &numbers, &mut [0; COPIES])), fourteen);
    assert_eq!(refused(lent::rows(&bytes, &numbers, &mut [Site { floater: 0, position: 0 }; ROWS])), fourteen);
    assert_eq!(refused(lent::reached(&bytes, &numbers, 0, &mut [0; POSITIONS])), fourteen);
    assert_eq!(refused(lent::reached(&bytes, &numbers, BRACKETS, &mut [0; POSITIONS])), fourteen);
}
