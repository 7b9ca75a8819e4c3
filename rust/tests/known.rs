//! Document 01's lines with known outcomes, and what the types promise their users.
#![forbid(unsafe_code)]

use std::collections::HashSet;
use std::error::Error;
use std::iter::FusedIterator;

use hwemiduk::{
    composition, entry, lent, Bracket, Content, Declaration, Key, Kind, Label, Mass, Missing, Number, Part, Peptidoform, Place, Placement,
    Placements, Refusal, Section, SUGARS, WORDS,
};

fn of(line: &str) -> Peptidoform {
    line.parse().unwrap_or_else(|refusal| panic!("{line}: {refusal}"))
}

fn placed(line: &str) -> Vec<Vec<hwemiduk::Position>> {
    of(line).placements().map(|placement| placement.to_vec()).collect()
}

#[test]
fn known_totals() {
    for (line, total) in [
        ("AM[+15.995]C[-18.01]", -2_015_000),
        ("[+1]^2?AC", 2_000_000),
        ("[+1]^2?A", 2_000_000),
        ("[+1]?A[+2]", 3_000_000),
        ("M[+16#a]C[#a]", 16_000_000),
        ("A[Obs:+2|+1]", 1_000_000),
        ("A[+999999.999999]", 999_999_999_999),
        ("PEPTIDE", 0),
    ] {
        assert_eq!(of(line).total(), Ok(total), "{line}");
        assert_eq!(of(line).shift(), Some(total as f64 / 1e6), "{line}");
        assert_eq!(of(line).missing(), 0, "{line}");
    }
    let unknown = of("[x]^3?{y}A");
    assert_eq!((unknown.total(), unknown.shift(), unknown.missing()), (Err(Missing { count: 4 }), None, 4));
}

#[test]
fn known_placements() {
    assert_eq!(placed("[+1]^2?AC"), [[1, 2]]);
    assert_eq!(placed("[+1]^2?A"), Vec::<Vec<_>>::new());
    assert_eq!(placed("[+1]?A[+2]"), Vec::<Vec<_>>::new());
    assert_eq!(placed("[+1]?A[INFO:x]"), [[1]]);
    assert_eq!(placed("[+1#a]?AC[#a(0.5)]"), [[2]]);
    assert_eq!(placed("M[+16#a]C[#a]"), [[1], [2]]);
    assert_eq!(placed("A"), [[0; 0]]);
}

#[test]
fn known_ledgers() {
    assert_eq!(of("AM[+15.995]C[-18.01]").ledger(&[]).unwrap(), [0, 0, 15_995_000, -18_010_000, 0]);
    assert_eq!(of("[+1]^2?AC").ledger(&[1, 2]).unwrap(), [0, 1_000_000, 1_000_000, 0]);
    let refused = of("[Acetyl]-A").ledger(&[]).unwrap_err();
    assert_eq!((refused.number(), refused.place()), (16, 1));
}

#[test]
fn known_lines() {
    for (line, canonical) in [
        ("a[+01.50]", "A[+1.50]"),
        ("A[-0]", "A[+0]"),
        ("[+1]?[+2]^1?A", "[+1][+2]?A"),
        ("[+1]^2?ac", "[+1]^2?AC"),
        ("A[Cation:Mg[II]]", "A[Cation:Mg[II]]"),
    ] {
        assert_eq!(of(line).as_str(), canonical);
        assert_eq!(of(line).to_string(), canonical);
    }
}

#[test]
fn known_refusals() {
    for (line, number, place) in [
        ("", 1, 0),
        ("A[U:35]", 9, 2),
        ("A[x]y]", 4, 5),
        ("A[", 4, 2),
        ("[A]^2-B", 4, 5),
        ("A[+1.]", 4, 5),
        ("(AC)", 4, 4),
        ("A/2", 4, 1),
        ("A[#a]", 11, 1),
        ("A[+1000000]", 7, 2),
        ("A\u{e9}", 3, 1),
    ] {
        let refusal = line.parse::<Peptidoform>().unwrap_err();
        assert_eq!((refusal.number(), refusal.place(), refusal.column()), (number, place, Some(place + 1)), "{line}");
        assert_eq!(Peptidoform::try_from(line.as_bytes()), Err(refusal));
        assert_eq!(Peptidoform::try_from(line), Err(refusal));
    }
    assert_eq!(Peptidoform::read(&[0xff; 5000]).unwrap_err().number(), 2);
}

/// A placement of another length than there are floaters is not allowed, also where what is left out would be position 0, and where 255 is a position.
#[test]
fn placements_of_another_length() {
    let p = of("[+1#b][+2#a]?[#a]-A[#b]");
    assert_eq!(placed(p.as_str()), [[1, 0]]);
    assert!(p.allowed(&[1, 0]));
    let end = of(&format!("{}A[+1#a]-[#a]", "A".repeat(253)));
    assert!(end.allowed(&[255]) && end.allowed(&[254]) && !end.allowed(&[253]));
    for (p, placement) in [(&p, &[1][..]), (&p, &[1, 0, 0]), (&p, &[]), (&p, &[0; 9]), (&end, &[255, 0]), (&end, &[255; 8]), (&of("A"), &[0])] {
        assert!(!p.allowed(placement), "{p} {placement:?}");
        assert_eq!(p.ledger(placement).unwrap_err().number(), 18, "{p} {placement:?}");
    }
    assert_eq!(of("[x]?A").ledger(&[]).unwrap_err().number(), 16);
}

/// Document 02, L7, on the lines of compare/vectors/reasons.txt, written by hand: each has its numbers behind a tab, none where there is a placement.
#[test]
fn why_there_is_no_placement() {
    let mut met = 0;
    for row in include_str!("../../compare/vectors/reasons.txt").lines() {
        let (line, numbers) = row.split_once('\t').unwrap();
        let expected: Vec<u8> = numbers.split_whitespace().map(|number| number.parse().unwrap()).collect();
        let p = of(line);
        assert_eq!(p.why_none(), expected, "{line}");
        assert_eq!(p.placements().next().is_none(), !expected.is_empty(), "{line}");
        let mut together: Vec<_> = p.rows().into_iter().filter(|row| expected.contains(&row.floater)).map(|row| row.position).collect();
        together.sort();
        together.dedup();
        assert!(expected.is_empty() || together.len() < expected.len(), "{line}");
        met += 1;
    }
    assert_eq!(met, 40);
    assert_eq!(of("[+1]^2?A").why_none(), [1, 2]);
    assert_eq!(of("[+1]?A[+2]").why_none(), [1]);
    assert_eq!(of("[+1]^2?AC").why_none(), []);
}

/// Copies of one bracket stand in ascending order; equal brackets are told apart, and between copies of different brackets nothing is asked.
#[test]
fn copies_of_one_bracket_ascend() {
    assert_eq!(placed("[+1][+1]?AC"), [[1, 2], [2, 1]]);
    assert_eq!(placed("[+1]^2[x]?ACD"), [[1, 2, 3], [1, 3, 2], [2, 3, 1]]);
    assert_eq!(placed("[+1]^3?ACDE"), [[1, 2, 3], [1, 2, 4], [1, 3, 4], [2, 3, 4]]);
    for (line, placement) in [("[+1]^2?AC", &[2, 1][..]), ("[+1]^2[+1]?ACD", &[3, 2, 1]), ("[+1][+1]^2?ACD", &[1, 3, 2])] {
        assert!(!of(line).allowed(placement), "{line} {placement:?}");
        let refused = of(line).ledger(placement).unwrap_err();
        assert_eq!((refused.number(), refused.place()), (18, 0), "{line} {placement:?}");
    }
    for (line, placement) in [("[+1]^2?AC", &[1, 2][..]), ("[+1][+1]?AC", &[2, 1]), ("[+1]^2[+1]?ACD", &[2, 3, 1])] {
        assert!(of(line).allowed(placement), "{line} {placement:?}");
        assert_eq!(of(line).ledger(placement).unwrap().iter().sum::<i64>(), 1_000_000 * placement.len() as i64, "{line} {placement:?}");
    }
}

#[test]
fn a_listing_ends_for_good() {
    let mut placements = of("[+1]?A").placements();
    assert_eq!(placements.next().map(|placement| placement.to_vec()), Some(vec![1]));
    let copy = placements.clone();
    for _ in 0..3 {
        assert!(placements.next().is_none());
    }
    assert_eq!(copy.count(), 0);
    assert_eq!(of("[+1][+1][+1][+1]?ACDEFG").placements().count(), 6 * 5 * 4 * 3);
    assert_eq!(of("[+1]^4?ACDEFG").placements().count(), 6 * 5 * 4 * 3 / (4 * 3 * 2));
    let few: Vec<Placement> = of(&format!("[+1]^8?{}", "A".repeat(254))).placements().take(3).collect();
    assert!(few[0] < few[1] && few[1] < few[2]);
    assert_eq!(few[2].len(), 8);
    assert_eq!(format!("{:?}", few[0]), "Placement([1, 2, 3, 4, 5, 6, 7, 8])");
}

#[test]
fn what_the_tables_hold() {
    let p = of("[u:+01.50]^3?{Obs:-2}[unimod:4]-a(CD[R:x])[y|+0.5#g1(-0.25)](?ef[#g1])-[info:z[#|]]");
    assert_eq!(p.residues(), "ACDEF");
    assert_eq!(p.sections(), [Section::Plain, Section::RangeFirst, Section::RangeNext, Section::UnsureFirst, Section::UnsureNext]);
    let mass = |key, millionths, decimals| Part { key, content: Content::Mass(Number { millionths, decimals }), label: None };
    let text = |key, text: &str| Part { key, content: Content::Text(text.into()), label: None };
    let one = |kind, positions, parts, mass| Bracket { kind, positions, count: 1, parts, mass };
    let label = |score| Some(Label { name: "g1".into(), score });
    let score = Some(Number { millionths: -250_000, decimals: 2 });
    let expected = [
        Bracket { count: 3, ..one(Kind::Unknown, None, vec![mass(Key::U, 1_500_000, 2)], Mass::Stated(1_500_000)) },
        one(Kind::Labile, None, vec![mass(Key::Obs, -2_000_000, 0)], Mass::Measured(-2_000_000)),
        one(Kind::NTerm, Some(0..=0), vec![text(Key::Unimod, "4")], Mass::None),
        one(Kind::Residue, Some(3..=3), vec![text(Key::R, "x")], Mass::None),
        one(Kind::Range, Some(2..=3), vec![text(Key::None, "y"), Part { label: label(score), ..mass(Key::None, 500_000, 1) }], Mass::Stated(500_000)),
        one(Kind::Residue, Some(5..=5), vec![Part { key: Key::None, content: Content::Reference, label: label(None) }], Mass::None),
        one(Kind::CTerm, Some(6..=6), vec![text(Key::Info, "z[#|]")], Mass::None),
    ];
    assert_eq!(p.brackets(), expected);
    let spelled: Vec<String> = expected.iter().map(ToString::to_string).collect();
    assert_eq!(spelled, ["[U:+1.50]", "{Obs:-2}", "[UNIMOD:4]", "[R:x]", "[y|+0.5#g1(-0.25)]", "[#g1]", "[INFO:z[#|]]"]);
    let floaters: Vec<_> = p.floaters().into_iter().map(|floater| (floater.index, floater.copy, floater.positions)).collect();
    let free = vec![1, 2, 4, 5];
    assert_eq!(floaters, [(0, 1, free.clone()), (0, 2, free.clone()), (0, 3, free), (4, 1, vec![2, 5])]);
}

/// Document 02, L1: "The list's spelling is written, a count of 1 dropped."; "a mass without `Obs`"; "a label may end the part".
#[test]
fn compositions() {
    let p = of("N[+1|gLYCAN:hexnac1HEX2#a]");
    assert_eq!(p.as_str(), "N[+1|Glycan:HexNAcHex2#a]");
    let part = &p.brackets()[0].parts[1];
    let label = Some(Label { name: "a".into(), score: None });
    let mass = Number { millionths: 527_184_900, decimals: 4 };
    assert_eq!(part, &Part { key: Key::Glycan, content: Content::Composition { text: "HexNAcHex2".into(), mass }, label });
    assert_eq!(part.to_string(), "Glycan:HexNAcHex2#a");
    assert_eq!(part.composition(), Some(vec![("HexNAc", 1), ("Hex", 2)]));
    assert_eq!(p.brackets()[0].parts[0].composition(), None);
    for (line, total) in [
        ("A[Glycan:Hex|+1]", 162_052_800),
        ("A[+1|Glycan:Hex]", 1_000_000),
        ("A[Obs:+1|Glycan:Hex]", 162_052_800),
        ("[Glycan:Hex]^2?NN", 324_105_600),
        ("{Glycan:Hex}{Glycan:NeuAc}EMEVNESPEK", 453_148_200),
    ] {
        assert_eq!(of(line).total(), Ok(total), "{line}");
    }
    assert_eq!(of("N[Glycan:Hex1]"), of("N[glycan:hex]"));
    assert_ne!(of("N[Glycan:HexHex]"), of("N[Glycan:Hex2]"));
    for (line, number, place) in [("A[Glycan:S]", 19, 2), ("A[Glycan:]", 4, 9), ("A[Glycan:foo#XL1]", 8, 2), ("[x]^9?A[Glycan:foo]", 12, 0)] {
        let refusal = line.parse::<Peptidoform>().unwrap_err();
        assert_eq!((refusal.number(), refusal.place(), refusal.column()), (number, place, Some(place + 1)), "{line}");
    }
    let refusal = Peptidoform::read(b"A[Glycan:foo]").unwrap_err();
    assert_eq!(refusal.to_string(), "19 at 2: a composition that cannot be cut into listed names and counts");
}

/// Document 02, L2, on the lines of docs/DECISIONS.md: what a declaration holds and where it stands.
#[test]
fn declarations() {
    let p = of("<[+01.5|x]@k,n-TERM><[Acetyl]@w>[+2]?aKk");
    assert_eq!(p.as_str(), "<[+1.5|x]@K,N-term><[Acetyl]@W>[+2]?AKK");
    let mass = Part { key: Key::None, content: Content::Mass(Number { millionths: 1_500_000, decimals: 1 }), label: None };
    let text = |text: &str| Part { key: Key::None, content: Content::Text(text.into()), label: None };
    let bracket = |parts, mass| Bracket { kind: Kind::Declared, positions: None, count: 1, parts, mass };
    let expected = [
        Declaration {
            bracket: bracket(vec![mass, text("x")], Mass::Stated(1_500_000)),
            places: vec![Place::Letter('K'), Place::NTerm],
            positions: vec![0, 2, 3],
        },
        Declaration { bracket: bracket(vec![text("Acetyl")], Mass::None), places: vec![Place::Letter('W')], positions: vec![] },
    ];
    assert_eq!(p.declared(), expected);
    assert_eq!(p.brackets()[..2], expected.map(|one| one.bracket));
    assert_eq!(p.declared().iter().map(ToString::to_string).collect::<Vec<_>>(), ["<[+1.5|x]@K,N-term>", "<[Acetyl]@W>"]);
    assert_eq!((p.total(), p.floaters().len()), (Ok(6_500_000), 1));
    assert_eq!(of("A[+1]").declared(), []);
    for (line, placements) in
        [("<[+1]@K>[+2]?KA", &[[2]][..]), ("<[+1]@K>[+2]?K", &[]), ("<[+1]@K>K[+2#a]A[#a]", &[[2]]), ("<[+1]@N-term>[+2#a]-A[#a]", &[[1]])]
    {
        assert_eq!(placed(line), placements, "{line}");
    }
    for (line, ledger) in [
        ("<[+1]@k,n-TERM>Ak", &[1, 0, 1, 0][..]),
        ("<[+1]@K>K[+2]", &[0, 3, 0]),
        ("<[+1]@K,k,K>AK", &[0, 0, 1, 0]),
        ("<[+1]@K><[+1]@K>K", &[0, 2, 0]),
        ("<[+1]@D>B", &[0, 0, 0]),
    ] {
        let expected: Vec<i64> = ledger.iter().map(|daltons| daltons * 1_000_000).collect();
        assert_eq!(of(line).ledger(&[]), Ok(expected), "{line}");
    }
    assert_eq!((of("<[x]@A>AA").missing(), of("<[x]@W>A").missing(), of("<[x]@W>A").total()), (2, 0, Ok(0)));
    for (line, number, place) in [
        ("<[INFO:x]@K>A", 21, 1),
        ("<[+1#a]@K>K", 4, 4),
        ("A<[+2]@A>", 4, 1),
        (&("<[x]@A>".repeat(lent::DECLARATIONS + 1) + "A"), 6, 56),
        (&format!("<[x]@A{}>A", ",A".repeat(lent::PLACES)), 6, 37),
    ] {
        let refusal = line.parse::<Peptidoform>().unwrap_err();
        assert_eq!((refusal.number(), refusal.place(), refusal.column()), (number, place, Some(place + 1)), "{line}");
    }
    assert_eq!(Peptidoform::read(b"<[INFO:x]@K>A").unwrap_err().to_string(), "21 at 1: only INFO in a declaration");
}

/// The names are those of the header, in its order.
#[test]
fn sugars_are_those_of_the_header() {
    let (_, rest) = include_str!("../../include/hwemiduk.h").split_once("names[HWEMIDUK_SUGARS] = {").unwrap();
    let (list, _) = rest.split_once("};").unwrap();
    let names: Vec<&str> = list.split('"').skip(1).step_by(2).collect();
    assert_eq!(names, SUGARS);
}

#[test]
fn pieces_of_texts() {
    for (number, name) in SUGARS.iter().enumerate() {
        let text = format!("{}12{}", name.to_uppercase(), name.to_lowercase());
        assert_eq!(composition(text.as_bytes()), Ok(vec![(*name, 12), (*name, 1)]), "{number}");
        assert_eq!(of(&format!("A[Glycan:{}]", name.to_lowercase())).as_str(), format!("A[Glycan:{name}]"));
    }
    assert_eq!(composition(b""), Ok(vec![]));
    assert_eq!(composition("Hex".repeat(1000).as_bytes()).unwrap().len(), 1000);
    for text in [&b"S"[..], b"Hex 2", b"Hex0", b"Hex01", b"Hex100", b"5Hex", b"HexN1Ac", b"\xff", b"Hex\0"] {
        assert_eq!(composition(text).unwrap_err().number(), 19, "{text:?}");
    }
}

/// Document 01: "its first mass without `Obs`, else its first `Obs` mass, else none"; document 02, L6: "stated, only measured, or none"; of one copy.
#[test]
fn a_bracket_s_mass() {
    for (line, mass) in [
        ("A[Obs:+2|+1]", Mass::Stated(1_000_000)),
        ("A[+1|Obs:+2]", Mass::Stated(1_000_000)),
        ("A[Obs:+1|U:+2|+3]", Mass::Stated(2_000_000)),
        ("A[Obs:+1]", Mass::Measured(1_000_000)),
        ("A[x|Obs:-2|Obs:+3]", Mass::Measured(-2_000_000)),
        ("A[Obs:-0]", Mass::Measured(0)),
        ("[Obs:+0.5]^7?A", Mass::Measured(500_000)),
        ("<[Obs:+0.5]@A>AA", Mass::Measured(500_000)),
        ("[+0.5]^7?A", Mass::Stated(500_000)),
        ("A[-0]", Mass::Stated(0)),
        ("A[INFO:+1]", Mass::None),
        ("A[15.99]", Mass::None),
        ("A[x|Obs:-2|Glycan:Sug2]", Mass::Stated(84_021_200)),
    ] {
        assert_eq!(of(line).brackets()[0].mass, mass, "{line}");
    }
    let told = |mass: Mass| (mass.stated(), mass.measured());
    assert_eq!([Mass::Stated(7), Mass::Measured(7), Mass::None].map(told), [(Some(7), None), (None, Some(7)), (None, None)]);
}

/// Document 02, L6: "Only stated ones enter total, ledger, display and the program's sixth field; the others count as lacking."
#[test]
fn measured_masses_stay_out_of_sums() {
    for (line, count) in [
        ("A[Obs:+1]", 1),
        ("A[Obs:-0]", 1),
        ("A[x|Obs:-2|Obs:+3]", 1),
        ("A[INFO:x|Obs:+1]", 1),
        ("{Obs:+1}A", 1),
        ("[Obs:+1]-A-[Obs:+1]", 2),
        ("M[Obs:+16#a]C[#a]", 1),
        ("A[Obs:+1]C[x]D[+5]", 2),
        ("[Obs:+1]^3?ACD[+1]", 3),
        ("<[Obs:+1]@A>AA", 2),
    ] {
        let p = of(line);
        assert_eq!((p.total(), p.shift(), p.missing()), (Err(Missing { count }), None, count), "{line}");
        assert_eq!(entry(1, line.as_bytes()).split(' ').nth(5), Some(format!("?{count}").as_str()), "{line}");
        let refused = p.ledger(&vec![0; p.floaters().len()]).unwrap_err();
        assert_eq!((refused.number(), refused.place()), (16, count), "{line}");
    }
    for (line, total) in [("A[Obs:+2|+1]", 1_000_000), ("A[+1|Obs:+2]C[-0.5]", 500_000), ("<[Obs:+1]@W>A", 0)] {
        let p = of(line);
        assert_eq!((p.total(), p.missing(), p.ledger(&[]).unwrap().iter().sum()), (Ok(total), 0, total), "{line}");
    }
    assert_eq!((placed("[+1]?A[Obs:+2]C"), placed("[Obs:+1]?AC")), (vec![vec![2]], vec![vec![1], vec![2]]));
}

/// Document 01's three lines, and the longest entry.
#[test]
fn entries() {
    for (number, line, printed) in
        [(1, "[+1]^2?ac", "1 ok 2 1 2 +2000000 [+1]^2?AC"), (2, "A[U:35]", "2 no 9 2"), (3, "[Acetyl]-A", "3 ok 1 1 0 ?1 [Acetyl]-A")]
    {
        assert_eq!(entry(number, line.as_bytes()), printed);
    }
    assert_eq!(entry(u64::MAX, b""), "18446744073709551615 no 1 0");
    let mut line = "A".to_owned() + &format!("[{}]", "x".repeat(128)).repeat(31);
    line += &format!("[{}]", "y".repeat(4096 - line.len() - 2));
    assert_eq!(entry(u64::MAX, line.as_bytes()), format!("18446744073709551615 ok 1 32 0 ?32 {line}"));
}

#[test]
fn equality_order_and_hash() {
    assert_eq!(of("a[+01.5]"), of("A[+1.5]"));
    assert_ne!(of("A[+1.5]"), of("A[+1.50]"));
    assert_eq!(["A", "a", "C", "[+1]?[+2]^1?A", "[+1][+2]?a"].map(of).into_iter().collect::<HashSet<_>>().len(), 3);
    let mut lines = ["C", "A", "[+1]-A", "AC"].map(of);
    lines.sort();
    assert_eq!(lines.map(|p| p.to_string()), ["A", "AC", "C", "[+1]-A"]);
    assert_eq!(format!("{:?}", of("a")), "Peptidoform(\"A\")");
    assert_eq!(format!("{:>4}|", of("a")), "   A|");
}

#[test]
fn what_the_types_are() {
    fn shared<T: Send + Sync + Clone + std::fmt::Debug + 'static>() {}
    fn ended<T: FusedIterator>() {}
    fn told<T: Error + Send + Sync + Copy + 'static>() {}
    shared::<Peptidoform>();
    shared::<Placements>();
    shared::<hwemiduk::Blocks>();
    ended::<Placements>();
    told::<Refusal>();
    told::<Missing>();
    fn total(line: &str) -> Result<i64, Box<dyn Error>> {
        Ok(line.parse::<Peptidoform>()?.total()?)
    }
    assert_eq!(total("A[+1]").unwrap(), 1_000_000);
    assert_eq!(total("A[").unwrap_err().to_string(), "4 at 2: not of the order of a line");
    assert_eq!(total("A[x]").unwrap_err().to_string(), "1 modification has no stated mass");
}

#[test]
fn refusals_in_words() {
    let refusal = Peptidoform::read(b"A\xff[x").unwrap_err();
    assert_eq!(refusal.words(), "a byte outside 32 to 126");
    assert_eq!(refusal.show(b"A\xff[x").to_string(), "3 at 1: a byte outside 32 to 126\nA?[x\n ^");
    let refusal = Peptidoform::read(b"A[x").unwrap_err();
    assert_eq!(refusal.show(b"A[x").to_string(), "4 at 3: not of the order of a line\nA[x\n   ^");
    let (bytes, numbers) = ([0; lent::BYTES], [0; lent::NUMBERS]);
    let refusal = lent::total(&bytes, &numbers).unwrap_err();
    assert_eq!((refusal.number(), refusal.column()), (14, None));
    assert_eq!(refusal.show(b"A").to_string(), "14: tables that no accepted line reads to");
    assert_eq!(of("[x]^2?A").ledger(&[1, 1]).unwrap_err().to_string(), "16: 2 modifications have no stated mass");
}

/// The words of each number, in its order, are those of refusals.tsv.
#[test]
fn words_are_those_of_the_list() {
    let mut rows = include_str!("../../refusals.tsv").lines().map(|row| row.split('\t').collect::<Vec<_>>());
    assert_eq!(rows.next().unwrap()[..2], ["number", "words"]);
    let listed: Vec<(usize, &str)> = rows.map(|row| (row[0].parse().unwrap(), row[1])).collect();
    assert_eq!(listed, (1..).zip(WORDS).filter(|(number, _)| *number != 20).collect::<Vec<_>>());
    assert_eq!(WORDS[19], "");
}

#[test]
fn version_is_that_of_the_repository() {
    let version = include_str!("../../VERSION").trim();
    assert_eq!(version, env!("CARGO_PKG_VERSION"));
    assert_eq!(version.split('.').fold(0, |number, part| 100 * number + part.parse::<u32>().unwrap()), lent::version());
}
