//! The examples of document 01, of the readings of it and of document 02
//! (L1, L2, L4, L6), and of document 001 where they lie within these.

use compare::canonical::canonical;
use compare::glycans::SUGARS;
use compare::line::Kind;
use compare::masses::{bracket_mass, display, ledger, missing, total, Display, Mass};
use compare::positions::{
    all_placements, first_placement, floaters, is_allowed, rows, Listing, Placement, Position, Row,
};
use compare::reader::{read, Refusal};

fn line(text: &str) -> compare::line::Line<'_> {
    read(text.as_bytes()).unwrap_or_else(|refusal| panic!("{text}: {refusal:?}"))
}

fn check_accepted(lines: &[&str]) {
    for text in lines {
        line(text);
    }
}

fn check_refused(lines: &[(&str, u8, usize)]) {
    for &(text, number, place) in lines {
        let refusal = read(text.as_bytes()).err();
        assert_eq!(refusal, Some(Refusal { number, place }), "{text}");
    }
}

fn check_written(lines: &[(&str, &str)]) {
    for &(text, written) in lines {
        assert_eq!(canonical(&line(text)), written.as_bytes(), "{text}");
    }
}

/// The used entries of all placements.
fn placements(text: &str) -> Vec<Vec<Position>> {
    let floaters = floaters(&line(text));
    let (all, complete) = all_placements(&floaters, 1000);
    assert!(complete);
    let used = |placement: &Placement| placement[..floaters.len()].to_vec();
    all.iter().map(used).collect()
}

fn pairs(rows: &[Row]) -> Vec<(u8, Position)> {
    rows.iter().map(|row| (row.floater, row.position)).collect()
}

// Document 01, "Lines with known outcomes"

#[test]
fn known_totals() {
    for (text, millionths) in [
        ("AM[+15.995]C[-18.01]", -2_015_000),
        ("[+1]^2?AC", 2_000_000),
        ("[+1]^2?A", 2_000_000),
        ("[+1]?A[+2]", 3_000_000),
        ("M[+16#a]C[#a]", 16_000_000),
        ("A[Obs:+2|+1]", 1_000_000),
    ] {
        assert_eq!(total(&line(text)), Ok(millionths), "{text}");
        let daltons = Display::Daltons(millionths as f64 / 1e6);
        assert_eq!(display(&line(text)), daltons, "{text}");
    }
}

#[test]
fn known_placements() {
    assert_eq!(placements("[+1]^2?AC"), [[1, 2]]);
    assert!(placements("[+1]^2?A").is_empty());
    assert!(placements("[+1]?A[+2]").is_empty());
    assert_eq!(placements("[+1]?A[INFO:x]"), [[1]]);
    assert_eq!(placements("[+1#a]?AC[#a(0.5)]"), [[2]]);
    assert_eq!(placements("M[+16#a]C[#a]"), [[1], [2]]);
}

#[test]
fn known_ledger() {
    let ledger = ledger(&line("AM[+15.995]C[-18.01]"), &[0; 8]).unwrap();
    assert_eq!(ledger[..5], [0, 0, 15_995_000, -18_010_000, 0]);
    assert!(ledger[5..].iter().all(|&entry| entry == 0));
}

#[test]
fn known_canonical_lines() {
    check_written(&[
        ("a[+01.50]", "A[+1.50]"),
        ("A[-0]", "A[+0]"),
        ("[+1]?[+2]^1?A", "[+1][+2]?A"),
    ]);
}

#[test]
fn known_refusals() {
    check_refused(&[
        ("A[U:35]", 9, 2),
        ("A[x]y]", 4, 5),
        ("A[", 4, 2),
        ("[A]^2-B", 4, 5),
        ("A[+1.]", 4, 5),
        ("(AC)", 4, 4),
        ("A/2", 4, 1),
        ("A[#a]", 11, 1),
        ("A[+1000000]", 7, 2),
        (&"A".repeat(255), 6, 254),
    ]);
}

#[test]
fn known_accepted() {
    check_accepted(&["A[Cation:Mg[II]]", "A[+999999.999999]", &"A".repeat(254)]);
}

#[test]
fn errors_a_careful_reader_still_makes() {
    // "Counting a label at each site."
    assert_eq!(total(&line("A[+1#a]C[#a]D[#a]")), Ok(1_000_000));
    // "Letting an INFO bracket block a residue."
    assert_eq!(placements("[+1]?A[INFO:x]C[+2]"), [[1]]);
    // "Treating `+1.5` and `+1.50` as equal tables."
    assert_ne!(line("A[+1.5]"), line("A[+1.50]"));
    // "Splitting at a `|` inside a pair."
    assert_eq!(line("A[x[y|z]]").parts.len(), 1);
    // "Taking the first floater's lowest position and giving up when the last
    // has none."
    assert_eq!(placements("[+1#a][+2#b]?A[#a][#b]C[#a]"), [[2, 1]]);
}

// The readings

#[test]
fn the_order_of_a_line() {
    check_accepted(&["{x}{y}A", "(A[#a]C)[+1#a]", "A[[]]", "A[Obs:+1#a]"]);
    check_refused(&[
        ("-A", 4, 0),
        ("A-", 4, 2),
        ("?A", 4, 0),
        ("[+1]??A", 4, 5),
        ("A()[x]", 4, 2),
        ("A(?)", 4, 3),
        ("[x]A", 4, 3),
        ("[x]{y}A", 4, 3),
        ("{x}[y]?A", 4, 6),
        ("[x]^2[y]-A", 4, 8),
        ("[#a]?A", 4, 4),
        ("[x][#a]^2?A", 4, 7),
        ("[x]^2[#a]?A", 4, 6),
        ("(AC)[#a]", 4, 5),
        ("{#a}A", 4, 1),
        ("A[+1#a]C[#a|INFO:x]", 4, 11),
        ("A[x|#a]", 4, 4),
        ("(?AC)[+1]", 4, 5),
        ("(A(?C))[x]", 4, 2),
        ("A[x}y]", 4, 3),
        ("A[a{b]c}]", 4, 5),
    ]);
}

#[test]
fn the_order_of_a_part() {
    check_accepted(&[
        "{x|INFO:a#b}A",
        "A[U:INFO:x]",
        "A[U:U:35]",
        "A[35]",
        "A[1.5]",
        "A[INFO:#a]",
        "A[U :35]",
        "A[MODx:1]",
        "A[RESID:AA0581]",
    ]);
    check_refused(&[
        ("A[U:]", 4, 4),
        ("A[INFO:]", 4, 7),
        ("A[U:#a]", 4, 4),
        ("{x#a}A", 4, 2),
        ("A[-x]", 4, 3),
        ("A[+5 x]", 4, 4),
        ("A[U:+x]", 4, 5),
        ("A[UNIMOD:x]", 4, 9),
        ("A[UNIMOD:1x]", 4, 10),
        ("A[Obs:2]", 4, 6),
        ("A[Obs:x]", 4, 6),
        ("A[Formula:x", 4, 11),
        ("A[x#a(+.5)]", 4, 7),
        ("A[x#a(]", 4, 6),
        ("A[x#a(1)b]", 4, 8),
        ("A[x#]", 4, 4),
        ("A[]", 4, 2),
        ("A[x||y]", 4, 4),
        ("A[INFO:x#a|]", 4, 11),
    ]);
}

#[test]
fn limits_and_places() {
    let bytes = |count: usize| "0".repeat(count);
    let zeros = |length: usize| format!("A[+{}]", bytes(length - 4));
    check_accepted(&[
        "A[+00000000001]",
        "[x]^08?A",
        &format!("A[{}]", "x".repeat(128)),
        &format!("A[UNIMOD:{}]", bytes(128)),
        &format!("A[x#{}]", "a".repeat(16)),
        "A[x[[[[[[[[]]]]]]]]]",
        "A[x{[{[{[{[]}]}]}]}]",
        &zeros(4096),
    ]);
    check_refused(&[
        ("", 1, 0),
        (&zeros(4097), 2, 4096),
        (&"\n".repeat(5000), 2, 4096),
        ("A[\u{7f}", 3, 2),
        ("A\r", 3, 1),
        ("A\nC", 3, 1),
        ("]]\0", 3, 2),
        ("A[x[[[[[[[[[]]]]]]]]]]", 5, 11),
        ("A[INFO:{[{[{[{[{}]}]}]}]}]", 5, 15),
        (&format!("A[INFO:{}]", "x".repeat(129)), 6, 2),
        (&format!("A[u:{}]", "x".repeat(129)), 6, 2),
        (&format!("A[UNIMOD:{}]", bytes(129)), 6, 2),
        (&format!("A[x#{}]", "a".repeat(17)), 6, 4),
        (&format!("A[#{}]", "a".repeat(17)), 6, 3),
        ("A[a|b|c|d|e]", 6, 10),
        (&format!("A{}", "[x]".repeat(65)), 6, 193),
        ("A[+1.0000000]", 7, 2),
        ("A[U:+1000000]", 7, 4),
        ("A[x#a(-1000000)]", 7, 6),
        ("[x]^100?A", 7, 4),
        ("[x]^0?A", 7, 4),
        ("[x]^00?A", 7, 4),
    ]);
}

#[test]
fn numbers_eight_to_twelve() {
    check_accepted(&[
        "A[U:CoMKP]",
        "A[x#BRANCH1]",
        "A[x#X]",
        "A[R:35]",
        "A[U:35a]",
        "A[INFO:x]",
        "A[x#a]",
        "A[#a]C[x#a]",
        "A[x#a]C[y#A]",
        "[x]^8?A",
    ]);
    check_refused(&[
        ("A[formula:x]", 8, 2),
        ("A[Position:#]", 8, 2),
        ("A[limit:2]", 8, 2),
        ("A[comkp]", 8, 2),
        ("A[CoMUP#a]", 8, 2),
        ("A[ColocaliseModificationsOfKnownPosition]", 8, 2),
        ("A[colocalisemodificationsofunknownposition]", 8, 2),
        ("A[+1#xl]", 8, 2),
        ("A[x|+1#XL1]", 8, 4),
        ("A[#Branch]", 8, 2),
        ("A[m:35#a]", 9, 2),
        ("[INFO:x|info:y]?A", 10, 0),
        ("{x}{INFO:x}A", 10, 3),
        ("A[x#a|y#a]", 11, 1),
        ("A[x#a|y#b]", 11, 1),
        ("A[#b]C[x#a|y#b]", 11, 6),
        ("[+1#a]?A[+2#a]", 11, 0),
        ("A[x#a]C[y#a]", 11, 7),
        ("[x#a]^1?A[#a]", 11, 0),
        ("[x][y#a]?A", 11, 3),
        ("[x]^9?A", 12, 0),
        ("[x]^8?A[y#a]", 12, 7),
        ("[x]^8?(A)[INFO:y][z]", 12, 17),
    ]);
}

#[test]
fn floaters_positions_and_masses() {
    let rows_of = |text: &str| pairs(&rows(&floaters(&line(text))));
    assert_eq!(rows_of("[+1]?A[+2]C"), [(1, 2)]);
    assert_eq!(rows_of("[+1]?(AC)[+2](?D)-[x]").len(), 3 + 2);
    assert_eq!(rows_of("A[#a][#a]C[x#a]-[#a]"), [(1, 1), (1, 2), (1, 3)]);
    assert_eq!(rows_of("[#a]-A(CD)[x#a]"), [(1, 0), (1, 2), (1, 3)]);
    assert!(placements("A[x#a][y]").is_empty());
    assert_eq!(placements("A"), [[0; 0]]);
    assert_eq!(total(&line("A[Obs:+1|U:+2]")), Ok(2_000_000));
    assert_eq!(total(&line("A[x#a|+2]C[#a]")), Ok(2_000_000));
    assert_eq!(missing(&line("[x]^3?{y}A")), 4);
    assert_eq!(missing(&line("A[INFO:x]")), 0);
}

// Document 02, L1

/// The list of 001, 10.2, as its text has it: a name, a colon, words perhaps,
/// and the mass before ` Da`.
#[test]
fn the_list_of_names_and_masses() {
    const LIST: &str = "Hex: Hexose, 162.0528 Da
HexNAc: N-Acetyl Hexose, 203.0793 Da
HexS: Hexose Sulfate, 242.0096 Da
HexP: Hexose Phosphate, 242.0191 Da
HexNAcS: N-Acetyl Hexose Sulfate, 283.0361 Da
HexN: 161.0688 Da
HexNS: 241.0256 Da
dHex: Deoxy-Hexose, 146.0579 Da
aHex: 176.0321 Da
en,aHex: 158.0215 Da
Neu: Neuraminic acid, 249.0849 Da
NeuAc: N-acetyl Neuraminic Acid / Sialic Acid, 291.0954 Da
NeuGc: N-glycolyl Neuraminic Acid, 307.0903 Da
Sug: 42.0106 Da
Tri: 72.0211 Da
Tet: Tetrose, 102.0317 Da
Pen: Pentose, 132.0422 Da
Hep: Heptose, 192.0634 Da
Oct: Octose, 222.0740 Da
Non: Nonose, 252.0845 Da
Dec: Decose, 282.0951 Da
Fuc: Fucose, 146.0579 Da
Sulfate: 79.9568 Da
Phosphate: 79.9663 Da";
    let rows: Vec<(&str, &str)> = LIST
        .lines()
        .map(|row| {
            let (name, rest) = row.split_once(": ").unwrap();
            (
                name,
                rest.strip_suffix(" Da")
                    .unwrap()
                    .rsplit(' ')
                    .next()
                    .unwrap(),
            )
        })
        .collect();
    let ours: Vec<(&str, &str)> = SUGARS
        .iter()
        .map(|sugar| (sugar.name, sugar.daltons))
        .collect();
    assert_eq!(ours, rows);
    for (name, daltons) in rows {
        let text = format!("A[Glycan:{name}]");
        let millionths = format!("{daltons}00").replace('.', "").parse().unwrap();
        assert_eq!(total(&line(&text)), Ok(millionths), "{text}");
    }
}

#[test]
fn compositions() {
    check_written(&[
        ("A[gLYCAN:hexnac1HEX2]", "A[Glycan:HexNAcHex2]"),
        ("A[U:Glycan:Hex]", "A[U:Glycan:Hex]"),
        ("A[G:Hex]", "A[G:Hex]"),
        ("A[Glycan:Hex#a]C[#a(0.5)]", "A[Glycan:Hex#a]C[#a(0.5)]"),
        ("A[Glycan:en,AHEX]", "A[Glycan:en,aHex]"),
        ("A[Glycan:hex1HEX2Hex]", "A[Glycan:HexHex2Hex]"),
        ("A[Glycan:hex10]", "A[Glycan:Hex10]"),
        ("A[glycan:HEXNACS1]", "A[Glycan:HexNAcS]"),
    ]);
    check_accepted(&[
        "A[Glycan:HexSug]",
        "A[Glycan:HexPen]",
        "A[Glycan:HexNeuAc]",
        "A[Glycan:HexNon]",
        "A[Glycan:HexS]",
    ]);
    check_refused(&[
        ("A[Glycan:Hex 2]", 19, 2),
        ("A[Glycan:+5]", 19, 2),
        ("A[Glycan:{C8H13N1O5}1Hex2]", 19, 2),
        ("A[Glycan:[[[[[[[[[x]]]]]]]]]]", 5, 17),
        ("A[Glycan:]", 4, 9),
        ("A[Glycan:Hex#]", 4, 13),
        ("A[Glycan:#a]", 4, 9),
        ("{Glycan:Hex#a}A", 4, 11),
        ("A[Glycan:S]", 19, 2),
        ("A[Glycan:Hex0]", 19, 2),
        ("A[Glycan:Hex01]", 19, 2),
        ("A[Glycan:Hex100]", 19, 2),
        ("A[Glycan:5Hex]", 19, 2),
        ("A[Glycan:HexN1Ac]", 19, 2),
        ("A[x|GLYCAN:x]", 19, 4),
        (&format!("A[Glycan:{}Hex]", "Hex1".repeat(32)), 6, 2),
        ("A[Glycan:foo][U:35]", 9, 14),
        ("A[Glycan:foo]C[#a]", 11, 14),
        ("[x]^9?A[Glycan:foo]", 12, 0),
        ("A[Glycan:foo#XL1]", 8, 2),
        ("A[Glycan:foo]C[Glycan:bar]", 19, 2),
        ("A[Glycan:Hex]C[Glycan:bar]", 19, 15),
    ]);
}

#[test]
fn compositions_in_tables() {
    assert_eq!(line("A[Glycan:Hex1]"), line("A[glycan:hex]"));
    assert_ne!(line("A[Glycan:HexHex]"), line("A[Glycan:Hex2]"));
    assert_ne!(line("A[Glycan:HexFuc]"), line("A[Glycan:FucHex]"));
    assert_eq!(placements("A[Glycan:Hex#a]C[#a(0.5)]"), [[1], [2]]);
    assert_eq!(placements("[Glycan:Hex]^2?NN"), [[1, 2]]);
}

#[test]
fn masses_of_compositions() {
    for (text, millionths) in [
        ("A[Glycan:HexPenaHex]", 470_127_100),
        ("A[Glycan:HexSug]", 204_063_400),
        ("A[Glycan:hex1HEX2Hex]", 648_211_200),
        ("A[Glycan:Hex|+1]", 162_052_800),
        ("A[+1|Glycan:Hex]", 1_000_000),
        ("A[Obs:+1|Glycan:Hex]", 162_052_800),
        ("[Glycan:Hex]^2?NN", 324_105_600),
        ("{Glycan:Hex}{Glycan:NeuAc}EMEVNESPEK", 453_148_200),
        (
            &format!("A[Glycan:{}]", "Dec99".repeat(25)),
            698_185_372_500,
        ),
    ] {
        assert_eq!(total(&line(text)), Ok(millionths), "{text}");
    }
    let ledger = ledger(&line("{Glycan:Hex}{Glycan:NeuAc}EMEVNESPEK"), &[0; 8]).unwrap();
    assert!(ledger.iter().all(|&entry| entry == 0));
}

// Document 02, L2

/// The entries up to the C-terminus, in whole daltons, under the first
/// placement.
fn booked(text: &str) -> Vec<i64> {
    let held = line(text);
    let first = first_placement(&floaters(&held)).expect("a placement");
    let entries = ledger(&held, &first).unwrap();
    assert!(entries[held.residues.len() + 2..].iter().all(|&entry| entry == 0));
    entries[..held.residues.len() + 2].iter().map(|entry| entry / 1_000_000).collect()
}

#[test]
fn declarations() {
    check_written(&[
        ("<[+1]@k,n-TERM>Ak", "<[+1]@K,N-term>AK"),
        ("<[+1]@K,k,K>AK", "<[+1]@K,K,K>AK"),
        ("<[+1]@C-tERM,c>c", "<[+1]@C-term,C>C"),
        ("<[glycan:hex1]@n>n", "<[Glycan:Hex]@N>N"),
        ("<[+1]@K>[+2]?[+3]?K", "<[+1]@K>[+2][+3]?K"),
        ("<[x]@W>a", "<[x]@W>A"),
    ]);
    check_accepted(&[
        "<[a|b]@K>K",
        "<[INFO:#a|x]@K>K",
        "<[+1]@N>N",
        "<[INFO:x|+1]@K>K",
        "<[Gln->pyro-Glu]@N-term>QA",
        &format!("{}A", "<[x]@A>".repeat(8)),
        &format!("<[x]@A{}>A", ",A".repeat(15)),
        &format!("<[x]@A>A{}", "[y]".repeat(63)),
    ]);
    check_refused(&[
        ("[+1]?<[+2]@A>AC", 4, 5),
        ("{x}<[+2]@A>A", 4, 3),
        ("[x]-<[+2]@A>A", 4, 4),
        ("A<[+2]@A>", 4, 1),
        ("<[+1]@K", 4, 7),
        ("<{x}@K>K", 4, 1),
        ("<[a][b]@K>K", 4, 4),
        ("<[+1]^2@K>K", 4, 5),
        ("<[+1#a]@K>K", 4, 4),
        ("<[#a]@K>K[+1#a]", 4, 2),
        ("<[+1]@>K", 4, 6),
        ("<[+1]@K,>K", 4, 8),
        ("<[+1]@K, R>K", 4, 8),
        ("<[+1]@KR>K", 4, 7),
        ("<[+1]@N-term:Q>Q", 4, 12),
        ("<[+1]@N-te>N", 4, 10),
        ("<[+1]@Nterm>N", 4, 7),
        ("<13C>A", 4, 1),
        (&format!("{}A", "<[x]@A>".repeat(9)), 6, 56),
        (&format!("<[x]@A{}>A", ",A".repeat(16)), 6, 37),
        (&format!("<[x]@A>A{}", "[y]".repeat(64)), 6, 197),
        ("<[U:35]@W>A", 9, 2),
        ("<[CoMKP]@W>A", 8, 2),
        ("<[Glycan:foo]@W>A", 19, 2),
        ("<[+1000000]@K>K", 7, 2),
        ("<[INFO:x]@K>A", 21, 1),
        ("<[INFO:x]@K>A[#a]", 21, 1),
        ("<[INFO:x]@K>{INFO:y}A", 10, 12),
    ]);
}

#[test]
fn declarations_in_tables() {
    assert_eq!(line("<[+1]@k,n-TERM>Ak"), line("<[+1]@K,N-term>AK"));
    // Places are kept as they are written, and in their order.
    assert_ne!(line("<[+1]@K,K>AK"), line("<[+1]@K>AK"));
    assert_ne!(line("<[+1]@A,K>AK"), line("<[+1]@K,A>AK"));
    // "A declaration that reaches nothing is kept."
    assert_ne!(line("<[x]@W>A"), line("A"));
    let held = line("<[x]@A>A[y]");
    assert_eq!(held.brackets.len(), 2);
    let first = held.brackets[0];
    assert_eq!((first.kind, first.first, first.last, first.count), (Kind::Declared, 0, 0, 1));
}

#[test]
fn where_declarations_are_placed() {
    assert_eq!(booked("<[+1]@k,n-TERM>Ak"), [1, 0, 1, 0]);
    assert_eq!(booked("<[+1]@A>(?AC)(AD)[+2]"), [0, 1, 0, 1, 2, 0]);
    assert_eq!(booked("<[+1]@K>K[+2]"), [0, 3, 0]);
    assert_eq!(booked("<[+1]@K><[+1]@K>K"), [0, 2, 0]);
    assert_eq!(booked("<[+1]@K,k,K>AK"), [0, 0, 1, 0]);
    assert_eq!(booked("<[+1]@D>B"), [0, 0, 0]);
    assert_eq!(booked("<[+1]@X,B,Z,J>XBZJN"), [0, 1, 1, 1, 1, 0, 0]);
    assert_eq!(booked("<[+1]@K,N-term,C-term>[+2]-K[+3]"), [3, 4, 1]);
    assert_eq!(booked("<[+1]@N-term,C-term>{+9}A"), [1, 0, 1]);
    assert_eq!(placements("<[+1]@K>[+2]?KA"), [[2]]);
    assert!(placements("<[+1]@K>[+2]?K").is_empty());
    assert_eq!(placements("<[+1]@K>K[+2#a]A[#a]"), [[2]]);
    assert_eq!(placements("<[+1]@N-term>[+2#a]-A[#a]"), [[1]]);
    assert_eq!(placements("<[+1]@C-term>A[#a]-[+2#a]"), [[1]]);
    assert_eq!(placements("<[+1]@K>(KAK)[+2]"), [[2]]);
    assert_eq!(placements("<[x]@W>[+2]?KA"), [[1], [2]]);
    let held = line("<[+1]@K>[+2]^2?KAC");
    assert_eq!(pairs(&rows(&floaters(&held))), [(1, 2), (1, 3), (2, 2), (2, 3)]);
}

#[test]
fn masses_of_declarations() {
    for (text, millionths) in [
        ("<[+1]@K,k,K>AK", 1_000_000),
        ("<[+1]@K><[+1]@K>K", 2_000_000),
        ("<[+1]@D>B", 0),
        ("<[x]@W>A", 0),
        ("<[Obs:+2|-1.5]@A>AA", -3_000_000),
        ("<[+1]@K>[+2]^2?KAC", 5_000_000),
    ] {
        assert_eq!(total(&line(text)), Ok(millionths), "{text}");
    }
    for (text, lacking) in [("<[x]@A>AA", 2), ("<[x]@A,C-term,A>AAA[y]", 5), ("<[x]@W>A[y]", 1), ("<[x]@A><[x]@A>A", 2)] {
        assert_eq!(missing(&line(text)), lacking, "{text}");
        assert_eq!(total(&line(text)), Err(Refusal::new(16, lacking)), "{text}");
        assert_eq!(display(&line(text)), Display::Missing(lacking), "{text}");
    }
    // Eight declarations at 256 positions, eight copies and 55 others.
    let mass = "999999.999999";
    let declared = format!("<[+{mass}]@A,N-term,C-term>").repeat(8);
    let labile = format!("{{+{mass}}}").repeat(55);
    let text = format!("{declared}[+{mass}]^8?{labile}{}", "A".repeat(254));
    let largest = 2_111 * 999_999_999_999;
    assert_eq!(total(&line(&text)), Ok(largest));
    assert!(largest < 1 << 53);
    assert!(placements(&text).is_empty());
}

#[test]
fn what_a_ledger_refuses() {
    let refused = |text: &str, placement: Placement| ledger(&line(text), &placement).err();
    let nowhere = [0; 8];
    let at = |position: Position| [position, 0, 0, 0, 0, 0, 0, 0];
    assert_eq!(refused("{x}A", nowhere), Some(Refusal::new(16, 1)));
    assert_eq!(refused("[y]?{x}A", at(9)), Some(Refusal::new(16, 2)));
    assert_eq!(refused("[+1]?A", nowhere), Some(Refusal::new(18, 0)));
    assert_eq!(refused("A", at(1)), Some(Refusal::new(18, 0)));
    assert_eq!(refused("[+1]?A", at(1)), None);
    assert_eq!(refused("[+1]?A", at(257)), Some(Refusal::new(18, 0)));
}

// Document 02, L4

/// "positions of one bracket's copies ascend": those of one bracket, and no
/// others. Rows, floaters and totals know nothing of it.
#[test]
fn copies_of_one_bracket_ascend() {
    assert_eq!(placements("[+1]^2?AC"), [[1, 2]]);
    assert_eq!(placements("[+1][+1]?AC"), [[1, 2], [2, 1]]);
    assert_eq!(placements("[+1]?[+1]?AC"), [[1, 2], [2, 1]]);
    assert_eq!(placements("[+1]^1[+1]?AC"), [[1, 2], [2, 1]]);
    assert_eq!(placements("[+1]^2[x]?ACD"), [[1, 2, 3], [1, 3, 2], [2, 3, 1]]);
    assert_eq!(placements("[x][+1]^2?ACD"), [[1, 2, 3], [2, 1, 3], [3, 1, 2]]);
    assert_eq!(
        placements("[+1]^2[+1]^2?ACDE"),
        [[1, 2, 3, 4], [1, 3, 2, 4], [1, 4, 2, 3], [2, 3, 1, 4], [2, 4, 1, 3], [3, 4, 1, 2]]
    );
    assert_eq!(placements("[+1]^3?ACDE"), [[1, 2, 3], [1, 2, 4], [1, 3, 4], [2, 3, 4]]);
    assert_eq!(placements("[+1]^2?(AC)[+1]"), [[0; 3]; 0]);
    assert_eq!(placements("[+1]^2?(AC)[+1]D"), [[1, 3, 2], [2, 3, 1]]);
    assert_eq!(placements("[+1]^2?A[+9]CD[#a]E[+2#a]"), [[2, 3, 4], [2, 4, 3]]);
    assert_eq!(placements("<[+1]@K,W>[+2]^2?KACWD"), [[2, 3], [2, 5], [3, 5]]);
    // two brackets on one range are two, however alike
    assert_eq!(placements("(AC)[+1][+1]"), [[1, 2], [2, 1]]);
    let held = line("[+1]^2?AC");
    assert_eq!(pairs(&rows(&floaters(&held))), [(1, 1), (1, 2), (2, 1), (2, 2)]);
    assert_eq!((held.floaters(), total(&held)), (2, Ok(2_000_000)));
    check_refused(&[("[+1]^9?AC", 12, 0), ("[+1]^8[+1]?AC", 12, 6)]);
}

/// "descending copies get 18": of an allowed placement, a ledger and a listing
/// record; and where nothing descends, 17 at the end, as before.
#[test]
fn descending_copies() {
    let at = |used: &[Position]| {
        let mut placement: Placement = [0; 8];
        placement[..used.len()].copy_from_slice(used);
        placement
    };
    let eighteen = Refusal::new(18, 0);
    for (text, used) in [
        ("[+1]^2?AC", &[2, 1][..]),
        ("[+1]^2[+2]?ACD", &[2, 1, 3]),
        ("[+1]^2[+2]?ACD", &[3, 2, 1]),
        ("[+2][+1]^2?ACD", &[1, 3, 2]),
        ("[+1]^3?ACD", &[1, 3, 2]),
        ("[+1]^3?ACD", &[2, 1, 3]),
        ("[+1]^2[+1]^2?ACDE", &[1, 2, 4, 3]),
        ("[+1]^8?ACDEFGHIK", &[1, 2, 3, 4, 5, 6, 9, 8]),
    ] {
        let held = line(text);
        let floaters = floaters(&held);
        let placement = at(used);
        assert!(!is_allowed(&floaters, &placement), "{text} {used:?}");
        assert_eq!(ledger(&held, &placement), Err(eighteen), "{text} {used:?}");
        let mut listing = Listing { fresh: false, placement };
        assert_eq!(listing.request(&floaters), Err(eighteen), "{text} {used:?}");
        assert_eq!(listing, Listing { fresh: false, placement }, "a refusal changes no record");
    }
    // with a mass missing, 16 is tried before 18
    assert_eq!(ledger(&line("[+1]^2[x]?ACD"), &at(&[2, 1, 3])), Err(Refusal::new(16, 1)));
    for (text, used) in [("[+1]^2?AC", &[1, 2][..]), ("[+1][+1]?AC", &[2, 1]), ("[+1]^2[+1]?ACD", &[2, 3, 1])] {
        let held = line(text);
        let placement = at(used);
        assert!(is_allowed(&floaters(&held), &placement), "{text} {used:?}");
        assert!(ledger(&held, &placement).is_ok(), "{text} {used:?}");
        let mut listing = Listing { fresh: false, placement };
        assert_eq!(listing.request(&floaters(&held)), Err(Refusal::new(17, 0)), "{text} {used:?}");
    }
}

// Document 02, L6

/// "A bracket's mass now answers stated, only measured, or none": of each
/// bracket, in whole daltons.
#[test]
fn masses_of_brackets() {
    let (stated, measured, none) = (
        |daltons: i64| Mass::Stated(daltons * 1_000_000),
        |daltons: i64| Mass::Measured(daltons * 1_000_000),
        Mass::None,
    );
    for (text, expected) in [
        ("A[Obs:+1]", &[measured(1)][..]),
        ("A[Obs:+2|+1]", &[stated(1)]),
        ("A[+1|Obs:+2]", &[stated(1)]),
        ("A[Obs:+1|U:+2|+3]", &[stated(2)]),
        ("A[Obs:+1|Obs:-2]", &[measured(1)]),
        ("A[x|obs:-2|UNIMOD:4|INFO:y]", &[measured(-2)]),
        ("A[Obs:+0][Obs:+1|+0][x]", &[measured(0), stated(0), none]),
        ("A[INFO:Obs:+1][U:Obs:+1][Obs]", &[none, none, none]),
        ("A[Obs:+16#a|+2]C[#a]", &[stated(2), none]),
        ("<[Obs:+1]@W>[Obs:+2]^3?{Obs:-3}(AC)[Obs:+4]", &[measured(1), measured(2), measured(-3), measured(4)]),
    ] {
        let held = line(text);
        let masses: Vec<Mass> = held.brackets.iter().map(|one| bracket_mass(held.parts_of(one))).collect();
        assert_eq!(masses, expected, "{text}");
    }
    let held = line("A[Obs:+9|Glycan:Hex]");
    assert_eq!(bracket_mass(held.parts_of(&held.brackets[0])), Mass::Stated(162_052_800));
}

/// "Only stated ones enter total, ledger, display .. ; the others count as
/// lacking": each copy, and each position that a declaration reaches. Of a
/// ledger, 16 whatever the placement.
#[test]
fn measured_masses_lack() {
    for (text, lacking) in [
        ("A[Obs:+1]", 1),
        ("[Obs:+1]^3?ACD[+1]", 3),
        ("A[Obs:+0]", 1),
        ("A[Obs:+1|Obs:-2]", 1),
        ("A[U:Oxidation|Obs:+15.995]", 1),
        ("A[Obs:+15.995|INFO:x]", 1),
        ("A[Obs:+1][x]C[UNIMOD:4]D[+2]", 3),
        ("A[Obs:+1#a]C[#a]", 1),
        ("(AC)[Obs:+1]", 1),
        ("[Obs:+1]-A-[Obs:+2]", 2),
        ("{Obs:-2}A", 1),
        ("[Obs:+1]?A", 1),
        ("[Obs:+1]^2[x]^2[+1]?ACDEF", 4),
        ("<[Obs:+1]@A>AAC", 2),
        ("<[Obs:+1]@A,C-term,A>AAC[Obs:+1]", 4),
        ("EM[U:+15.995]EVEES[Obs:+79.978]PEK", 1),
        ("ELVIS[U:Phospho|Obs:+79.978]K", 1),
        ("ELVIS[Obs:+79.966|Phospho|Sulfo]K", 1),
    ] {
        let held = line(text);
        let sixteen = Refusal::new(16, lacking);
        assert_eq!(missing(&held), lacking, "{text}");
        assert_eq!(total(&held), Err(sixteen), "{text}");
        assert_eq!(display(&held), Display::Missing(lacking), "{text}");
        for placement in first_placement(&floaters(&held)).iter().chain(&[[0; 8], [9; 8]]) {
            assert_eq!(ledger(&held, placement), Err(sixteen), "{text} {placement:?}");
        }
    }
}

#[test]
fn measured_masses_beside_stated_ones() {
    for (text, millionths) in [
        ("A[Obs:+2|+1]", 1_000_000),
        ("A[+1|Obs:+2]", 1_000_000),
        ("A[Obs:+2|+0]", 0),
        ("A[Obs:+1|Obs:-2|+3|+4]", 3_000_000),
        ("A[Glycan:Hex|Obs:+162.1]", 162_052_800),
        ("A[Obs:+16#a|+2]C[#a]", 2_000_000),
        ("[Obs:+2|+1]^3?ACD", 3_000_000),
        ("<[Obs:+1|+2]@A>AAC", 4_000_000),
        ("A[INFO:Obs:+1]", 0),
        // what reaches nothing lacks nothing
        ("<[Obs:+1]@W>AAC", 0),
        ("<[Obs:+1]@W>AAC[+2]", 2_000_000),
    ] {
        assert_eq!(total(&line(text)), Ok(millionths), "{text}");
        assert_eq!(display(&line(text)), Display::Daltons(millionths as f64 / 1e6), "{text}");
    }
    assert_eq!(booked("A[Obs:+2|+1]"), [0, 1, 0]);
    assert_eq!(booked("[Obs:+2|+1]^2?AC[+3|Obs:+4]D"), [0, 1, 3, 1, 0]);
    assert_eq!(booked("<[Obs:+1|+2]@A,N-term>{Obs:+3|+4}AAC"), [2, 2, 2, 0, 0]);
    assert_eq!(booked("<[Obs:+1]@W>A[+2]"), [0, 2, 0]);
}

// Document 001

#[test]
fn sequences_of_document_001_within_document_01() {
    check_accepted(&[
        "AHAFCKUTO",
        "PEM[Oxidation]AT",
        "PEM[monohydroxylated residue]AT",
        "PEM[MOD:425]AT",
        "[Carbamyl]-QPEPTIDE",
        "PEPTIDE-[Methyl]",
        "PEX[+147.035]AT",
        "EM[Oxidation]EVEES[Phospho]PEK",
        "EM[L-methionine sulfoxide]EVEES[O-phospho-L-serine]PEK",
        "EM[R:L-methionine sulfone]EVEES[O-phospho-L-serine]PEK",
        "NEEYN[GNO:G59626AS]K",
        "NEEYN[G:G59626AS]K",
        "EM[U:Oxidation]EVEES[U:Phospho]PEK",
        "EM[M:L-methionine sulfoxide]EVEES[M:O-phospho-L-serine]PEK",
        "EM[Oxidation]EVE[Cation:Mg[II]]ES[Phospho]PEK",
        "PEL[(2S,4R)-5-hydroxyleucine]TIDE",
        "E[Glu->pyro-Glu]KDTYL",
        "EM[MOD:00719]EVEES[MOD:00046]PEK",
        "EM[UNIMOD:35]EVEES[UNIMOD:56]PEK",
        "EM[+15.9949]EVEES[+79.9663]PEK",
        "EM[+15.995]EVEES[-18.01]PEK",
        "[iTRAQ4plex]-EM[Oxidation]EVNES[Phospho]PEK[iTRAQ4plex]-[Methyl]",
        "PEPTIDEG-[Methyl][Amidated]",
        "[Acetyl][Carbamyl]-QPEPTIDE",
        "MPGLVDSNW[Oxidation][Carboxymethyl]PAPPESQE",
        "MPGLVDSNPAPPESQEKPLK(PCCACPETKKARDACIIEKGEEHCGHLIEAHKECMRALGFKI)\
         [Oxidation][Oxidation][half cystine][half cystine]",
        "ELV[INFO:AnyString]IS",
        "ELV[info:AnyString]IS",
        "ELVIS[Phospho|INFO:newly discovered|INFO:really awesome]K",
        "ELVIS[Phospho|INFO:newly discovered|INFO:Created by software Tool1]K",
        "EDTAVYYC(SRWGGDGFAMDY)[Info:CDR3]WGQGTL",
        "EM[U:+15.9949]EVEES[U:+79.9663]PEK",
        "EM[U:+15.995]EVEES[Obs:+79.978]PEK",
        "RTAAX[+367.0537]WT",
        "ELVIS[U:Phospho|+79.966331]K",
        "ELVIS[U:Phospho|Obs:+79.978]K",
        "ELVIS[UNIMOD:21|MOD:00046]K",
        "ELVIS[Obs:+79.966|Phospho|Sulfo]K",
        "[Phospho]?EM[Oxidation]EVTSESPEK",
        "[Phospho][Phospho]?[Acetyl]-EM[Oxidation]EVTSESPEK",
        "[Phospho]^2?[Acetyl]-EM[Oxidation]EVTSESPEK",
        "EM[Oxidation]EVT[#g1]S[#g1]ES[Phospho#g1]PEK",
        "PRT(ESFRMS)[+19.0523]ISK",
        "PRT(EC[Carbamidomethyl]FRMS)[+19.0523]ISK",
        "EM[Oxidation]EVT[#g1(0.01)]S[#g1(0.09)]ES[Phospho#g1(0.90)]PEK",
        "[Phospho#s1]?EM[Oxidation]EVT[#s1(0.01)]S[#s1(0.09)]ES[#s1(0.90)]PEK",
        "PRT(ESFRMS)[+19.0523#g1(0.01)]ISK[#g1(0.99)]",
        "PR[#g1(0.91)]T(EC[Carbamidomethyl]FRMS)[+19.05233#g1(0.09)]ISK",
        "(?DQ)NGTWEM[Oxidation]ESNENFEGYM[Oxidation]K",
        "(?N)NGTWEM[Oxidation]ESNENFEGYM[Oxidation]K",
        "EM[RESID:AA0581]EVEES[RESID:AA0037]PEK",
        "EMEVTK[XLMOD:02001]SESPEK",
        "EVTSEKC[half cystine]LEMSC[half cystine]EFD",
        "EVTSEKC[UNIMOD:374]LEMSC[UNIMOD:374]EFD",
        "YPVLN[GNO:G62765YT]VTMPN[GNO:G02815KT]NSNGKFDK",
        "[Oxidation]^4?PEPTIDE",
        "PETIEM[Dioxidation#1][Oxidation#2]REM[#1][#2]REM[#2]RM[#1]PEPTIDE",
        "[Oxidation#1][Oxidation#2]?PTIM[#1][#2]ERM[#1][#2]ERM[#1][#2]ERM[#1][#2]DE",
        "PEPTID-[b-type-ion]",
        "{Glycan:Hex}EM[U:Oxidation]EV",
        "NEEYN[Glycan:Hex5HexNAc4NeuAc1]K",
        "{Glycan:Hex}{Glycan:NeuAc}EMEVNESPEK",
        "SEQUEN[Glycan:HexNAc1Hex2]CE",
        "<[Oxidation]@M>ATPEMILTCMGCLK",
        "<[TMT6plex]@K,N-term>ATPEILTCNSIGCLK",
        "<[S-carboxamidomethyl-L-cysteine]@C>ATPEILTCNSIGCLK",
        "<[MOD:01090]@C>ATPEILTCNSIGCLK",
        "<[Oxidation]@C,M>MTPEILTCNSIGCLK",
        "<[Amidated]@C-term>QATPEILTCNSIGCLKG",
        "<[Oxidation]@C,M>EPELVESGGGLAQP",
        // Its `Glycan` without a colon is a name.
        "YPVLN[#g1]VTMPN[Glycan#g1]NSNGKFDK",
    ]);
}

#[test]
fn sequences_of_document_001_beyond_document_01() {
    check_refused(&[
        ("EM[M:00719]EVEES[M:00046]PEK", 9, 3),
        ("EM[U:35]EVEES[U:56]PEK", 9, 3),
        ("SEQUEN[Glycan:{C8H13N1O5}1Hex2]CE", 19, 7),
        (
            "{Glycan:Hex 10 HexNAc 4}YPVLN[MOD:00006]VTMPN[MOD:00006]NSNGKFDK",
            19,
            1,
        ),
        (
            "{Glycan:Hex 10 HexNAc 4.G1}YPVLN[Glycan:#G1]VTMPN[Glycan:#G1]NSNGKFDK",
            4,
            40,
        ),
        ("SEQUEN[Formula:[13C2][12C-2]H2N]CE", 8, 7),
        ("EMEVTK[X:DSS#XL1]SESPEK", 8, 7),
        ("G-[#BRANCH]", 8, 3),
        ("[Oxidation|Limit:2]^4?PEPTIDE", 8, 11),
        ("[Oxidation|CoMKP]?PEPT[Phospho]IDE", 8, 11),
        ("PTI(MERMERME)[+32|Position:E]PTIDE", 8, 18),
        ("ELVIS[Phospho|INFO:newly]discovered]K", 4, 35),
        ("ELVIS[Phospho|INFO:newly[discovered]K", 4, 37),
        ("[Acetyl]-[Phospho]^2?EM[Oxidation]EVTSESPEK", 4, 9),
        ("PEPTIDEC(ACC)[Oxidation]^2[half cystine]", 4, 24),
        ("P(RT(ESFRMS)[+19.0523]IS)[+19.0523]K", 4, 4),
        ("EM[x]EVT[#g1]S[Phospho#g1]ES[Phospho#g1]PEK", 11, 28),
        ("(>Heavy chain)EVQLVESG", 4, 1),
        ("<13C>CARBON", 4, 1),
        ("<[Oxidation]@W,C-term:G>QATPEILTCNSIGCLKG", 4, 21),
        (
            "<[Gln->pyro-Glu]@N-term:Q><[Oxidation]@W,C-term:G>QATPEILTCNSIGCLKG",
            4,
            23,
        ),
        ("NEEYN+SEQUEN", 4, 5),
        ("SEQUEN/2", 4, 6),
        ("EK//SEFD", 4, 2),
        ("PROT([#g1]EOC)[+19.0523#g1]ISK", 4, 5),
    ]);
}
