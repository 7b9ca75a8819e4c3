"""The package against document 01's lines with known outcomes, and against the outside vectors of compare/vectors."""

import ctypes
import dataclasses
import doctest
import json
import os
import random
import sys
import unittest
from itertools import combinations, islice, permutations, product
from pathlib import Path

ROOT = Path(__file__).resolve().parent.parent.parent
sys.path.insert(0, str(ROOT / "python" / "src"))

import hwemiduk  # noqa: E402
from hwemiduk import LIMITS, Bracket, Declaration, Key, Kind, Label, Number, Part, Refusal, Section, read  # noqa: E402
from hwemiduk._library import FREE, Listing, Site, take  # noqa: E402

SHARE = int(os.environ.get("HWEMIDUK_SHARE", 1))


def refusal(call, *arguments):
    """The number and the place of a call's refusal, or None."""
    try:
        call(*arguments)
    except Refusal as error:
        return error.number, error.place
    return None


def load_tests(loader, tests, pattern):
    """Adds the examples of the package, those of methods too, and of the README."""
    examples = doctest.DocTestFinder().find(hwemiduk, "hwemiduk", module=False, globs=vars(hwemiduk))
    tests.addTests(doctest.DocTestCase(one) for one in examples if one.examples)
    tests.addTests(doctest.DocFileSuite(str(ROOT / "README.md"), module_relative=False))
    return tests


class KnownLines(unittest.TestCase):
    """Document 01, "Lines with known outcomes"."""

    def test_ledger(self):
        p = read("AM[+15.995]C[-18.01]")
        self.assertEqual(p.total(), -2_015_000)
        self.assertEqual(list(p.placements()), [()])
        self.assertEqual(p.ledger(), [0, 0, 15_995_000, -18_010_000, 0])
        self.assertEqual(p.ledger(()), p.ledger())
        self.assertEqual((p.shift(), p.missing), (-2.015, 0))

    def test_totals(self):
        for line, total in {
            "[+1]^2?AC": 2_000_000,
            "[+1]^2?A": 2_000_000,
            "[+1]?A[+2]": 3_000_000,
            "M[+16#a]C[#a]": 16_000_000,
            "A[Obs:+2|+1]": 1_000_000,
        }.items():
            with self.subTest(line):
                self.assertEqual(read(line).total(), total)

    def test_placements(self):
        for line, placements in {
            "[+1]^2?AC": [(1, 2)],
            "[+1]^2?A": [],
            "[+1]?A[+2]": [],
            "[+1]?A[INFO:x]": [(1,)],
            "[+1#a]?AC[#a(0.5)]": [(2,)],
            "M[+16#a]C[#a]": [(1,), (2,)],
            "A": [()],
        }.items():
            with self.subTest(line):
                self.assertEqual(list(read(line).placements()), placements)

    def test_canonical(self):
        for line, canonical in {
            "a[+01.50]": "A[+1.50]",
            "A[-0]": "A[+0]",
            "[+1]?[+2]^1?A": "[+1][+2]?A",
            "[+1]^2?ac": "[+1]^2?AC",
            "[Acetyl]-A": "[Acetyl]-A",
            "A[Cation:Mg[II]]": "A[Cation:Mg[II]]",
        }.items():
            with self.subTest(line):
                self.assertEqual(str(read(line)), canonical)

    def test_refusals(self):
        for line, number, place in [
            ("", 1, 0),
            ("A[U:35]", 9, 2),
            ("A[x]y]", 4, 5),
            ("A[", 4, 2),
            ("[A]^2-B", 4, 5),
            ("A[+1.]", 4, 5),
            ("(AC)", 4, 4),
            ("A/2", 4, 1),
            ("A[#a]", 11, 1),
            ("A[+1000000]", 7, 2),
            ("A" * 255, 6, 254),
        ]:
            with self.subTest(line):
                self.assertEqual(refusal(read, line), (number, place))

    def test_at_the_limit(self):
        self.assertEqual(read("A[+999999.999999]").total(), 999_999_999_999)
        self.assertEqual(read("A" * 254).residues, "A" * 254)

    def test_display(self):
        p = read("[Acetyl]-A")
        self.assertEqual((p.shift(), p.missing), (None, 1))
        self.assertEqual(refusal(p.total), (16, 1))
        self.assertEqual(refusal(p.ledger), (16, 1))
        self.assertIsInstance(read("A").shift(), float)

    def test_residues_have_no_mass_here(self):
        p = read("PEPTIDE")
        self.assertEqual((p.total(), p.shift(), p.missing, p.ledger()), (0, 0.0, 0, [0] * 9))


class Entries(unittest.TestCase):
    """What the register prints of a line."""

    def test_known_entries(self):
        """Document 01, "Lines with known outcomes"."""
        self.assertEqual(hwemiduk.entry("[+1]^2?ac"), "1 ok 2 1 2 +2000000 [+1]^2?AC")
        self.assertEqual(hwemiduk.entry(b"A[U:35]", 2), "2 no 9 2")
        self.assertEqual(hwemiduk.entry("[Acetyl]-A", 3), "3 ok 1 1 0 ?1 [Acetyl]-A")
        self.assertEqual(hwemiduk.entry("A[Obs:+1]", 4), "4 ok 1 1 0 ?1 A[Obs:+1]")

    def test_any_line_and_number(self):
        self.assertEqual(hwemiduk.entry(b"", 0), "0 no 1 0")
        self.assertEqual(hwemiduk.entry(b"A\0", 2**64 - 1), "18446744073709551615 no 3 1")
        self.assertEqual(hwemiduk.entry(memoryview(b"A" * 5000)), "1 no 2 4096")
        for number in [-1, 2**64]:
            with self.assertRaises(ValueError):
                hwemiduk.entry("A", number)
        with self.assertRaises(TypeError):
            hwemiduk.entry(None)

    def test_longest_entry(self):
        line = "A" + ("[" + "x" * 128 + "]") * 31
        line += "[" + "y" * (4096 - len(line) - 2) + "]"
        self.assertEqual(hwemiduk.entry(line, 2**64 - 1), f"{2**64 - 1} ok 1 32 0 ?32 {line}")


class Vectors(unittest.TestCase):
    """The outside vectors: each line with all that follows from it. Where HWEMIDUK_SHARE is a number n, one of every n of them."""

    @classmethod
    def setUpClass(cls):
        vectors = ROOT / "compare" / "vectors"
        lines = (vectors / "lines.in").read_bytes().split(b"\n")[:-1]
        outcomes = [json.loads(outcome) for outcome in (vectors / "lines.json").read_text().splitlines()]
        assert len(lines) == len(outcomes) == 2400
        cls.vectors = list(zip(lines, outcomes))[::SHARE]
        cls.accepted = [(read(line), outcome) for line, outcome in cls.vectors if outcome["ok"]]

    def test_outcomes(self):
        for line, outcome in self.vectors:
            expected = None if outcome["ok"] else (outcome["no"], outcome["at"])
            self.assertEqual(refusal(read, line), expected, line)

    def test_entries(self):
        printed = (ROOT / "compare" / "vectors" / "lines.out").read_text().splitlines()[::SHARE]
        for (line, _), expected in zip(self.vectors, printed):
            self.assertEqual(hwemiduk.entry(line, int(expected.split(" ")[0])), expected)

    def test_counts_and_canonical_lines(self):
        for p, outcome in self.accepted:
            self.assertEqual(str(p), outcome["canon"])
            self.assertEqual((len(p.residues), len(p.brackets), len(p.floaters)), (outcome["res"], outcome["br"], outcome["fl"]), p)

    def test_masses(self):
        for p, outcome in self.accepted:
            self.assertEqual(p.missing, outcome["missing"], p)
            if outcome["missing"]:
                self.assertEqual(refusal(p.total), (16, outcome["missing"]), p)
                self.assertIsNone(p.shift(), p)
            else:
                self.assertEqual(p.total(), outcome["total"], p)
                self.assertEqual(p.shift(), outcome["total"] / 1e6, p)

    def test_rows(self):
        for p, outcome in self.accepted:
            rows = [tuple(row) for row in outcome["rows"]]
            self.assertEqual(p.rows(), rows, p)
            self.assertEqual([(number, position) for number, floater in enumerate(p.floaters, 1) for position in floater.positions], rows, p)

    def test_placements(self):
        for p, outcome in self.accepted:
            first = [tuple(placement[: outcome["fl"]]) for placement in outcome["placements"]]
            whole = outcome["nplace"] == len(first)
            self.assertEqual(list(islice(p.placements(), len(first) + 1 if whole else len(first))), first, p)
            self.assertTrue(all(p.allowed(placement) for placement in first[:3]), p)

    def test_why_none(self):
        """Floaters are named exactly where there is no placement; they have one position fewer than they are."""
        met = 0
        for p, outcome in self.accepted:
            short = p.why_none()
            self.assertEqual(short == (), outcome["placements"] != [], p)
            if short:
                self.assertEqual(list(short), sorted(set(short)), p)
                self.assertEqual(len({position for floater, position in outcome["rows"] if floater in short}), len(short) - 1, p)
                met += 1
        self.assertGreater(met, 50 // SHARE)

    def test_ledgers(self):
        for p, outcome in self.accepted:
            if outcome["ledger"] is not None:
                self.assertEqual(p.ledger(outcome["placements"][0][: outcome["fl"]]), outcome["ledger"], p)

    def test_floaters_weigh_what_their_brackets_do(self):
        """What stands in the ledger at a floater's position is the mass of its bracket: nothing placed stands there too."""
        met = 0
        for p, outcome in self.accepted:
            if outcome["ledger"] is not None:
                for floater, position in zip(p.floaters, outcome["placements"][0]):
                    self.assertEqual(floater.bracket.millionths, outcome["ledger"][position], p)
                    met += 1
        self.assertGreater(met, 100 // SHARE)

    def test_brackets_weigh_what_their_parts_say(self):
        """The first mass that is not behind Obs is stated; only where there is none, the first one behind it is measured."""
        met = 0
        for p, _ in self.accepted:
            for bracket in p.brackets:
                masses = [(part.key is Key.OBS, part.mass.millionths) for part in bracket.parts if part.mass is not None]
                stated = next((mass for measured, mass in masses if not measured), None)
                measured = next((mass for _, mass in masses), None) if stated is None else None
                self.assertEqual((bracket.millionths, bracket.measured), (stated, measured), p)
                met += measured is not None
        self.assertGreater(met, 100 // SHARE)

    def test_modifications_make_the_total(self):
        """The stated masses of the modifications, each copy counted, are the total, and those without one are missing."""
        for p, outcome in self.accepted:
            held = [bracket for bracket in p.brackets if bracket.is_modification]
            self.assertEqual(sum(bracket.count for bracket in held if bracket.millionths is None), outcome["missing"], p)
            if not outcome["missing"]:
                self.assertEqual(sum(bracket.count * bracket.millionths for bracket in held), outcome["total"], p)

    def test_brackets_spell_the_canonical_line(self):
        """What the brackets hold, written out here by document 01's rules, stands in the canonical line in order, and is what they say."""
        for p, outcome in self.accepted:
            rest = outcome["canon"]
            for bracket in p.brackets:
                inside = "|".join(spelled(part) for part in bracket.parts)
                text = "{" + inside + "}" if bracket.kind is Kind.LABILE else "[" + inside + "]"
                self.assertEqual(str(bracket), text, p)
                self.assertIn(text, rest, p)
                rest = rest[rest.index(text) + len(text) :]


def spelled(part):
    """A part as document 01 has it written."""
    text = part.key.value + ":" if part.key.value else ""
    if part.mass is not None:
        text += "-" * (part.mass.millionths < 0) + "+" * (part.mass.millionths >= 0) + digits(part.mass)
    elif part.text is not None:
        text += part.text
    if part.label is not None:
        text += "#" + part.label.name
        if part.label.score is not None:
            text += "(" + "-" * (part.label.score.millionths < 0) + digits(part.label.score) + ")"
    return text


def digits(number):
    whole, rest = divmod(abs(number.millionths), 1_000_000)
    return str(whole) + ("." + f"{rest:06}"[: number.decimals] if number.decimals else "")


class Tables(unittest.TestCase):
    """What a read line holds: document 01, "The tables"."""

    def test_brackets(self):
        p = read("[u:+01.50]^3?{Obs:-2}[unimod:4]-a(CD[R:x])[y|+0.5#g1(-0.25)](?ef[#g1])-[info:z[#|]]")
        self.assertEqual(p.residues, "ACDEF")
        self.assertEqual(
            p.sections, (Section.PLAIN, Section.RANGE_FIRST, Section.RANGE_NEXT, Section.UNSURE_FIRST, Section.UNSURE_NEXT)
        )
        label = Label("g1", Number(-250_000, 2))
        self.assertEqual(
            p.brackets,
            (
                Bracket(Kind.UNKNOWN, range(0), 3, (Part(Key.U, Number(1_500_000, 2), None, None),), 1_500_000, None),
                Bracket(Kind.LABILE, range(0), 1, (Part(Key.OBS, Number(-2_000_000, 0), None, None),), None, -2_000_000),
                Bracket(Kind.N_TERM, range(0, 1), 1, (Part(Key.UNIMOD, None, "4", None),), None, None),
                Bracket(Kind.RESIDUE, range(3, 4), 1, (Part(Key.R, None, "x", None),), None, None),
                Bracket(Kind.RANGE, range(2, 4), 1, (Part(Key.NONE, None, "y", None), Part(Key.NONE, Number(500_000, 1), None, label)), 500_000, None),
                Bracket(Kind.RESIDUE, range(5, 6), 1, (Part(Key.NONE, None, None, Label("g1", None)),), None, None),
                Bracket(Kind.C_TERM, range(6, 7), 1, (Part(Key.INFO, None, "z[#|]", None),), None, None),
            ),
        )
        self.assertEqual([bracket.label for bracket in p.brackets], [None] * 4 + [label, Label("g1", None), None])
        self.assertEqual([bracket.is_modification for bracket in p.brackets], [True] * 5 + [False] * 2)

    def test_a_bracket_s_mass(self):
        """Document 01: "its first mass without `Obs`, else its first `Obs` mass, else none"; document 02, L6: "stated, only measured, or none"; of one copy."""
        for line, stated, measured in [
            ("A[Obs:+2|+1]", 1_000_000, None),
            ("A[+1|Obs:+2]", 1_000_000, None),
            ("A[Obs:+1|U:+2|+3]", 2_000_000, None),
            ("A[Obs:+1]", None, 1_000_000),
            ("A[x|Obs:-2|Obs:+3]", None, -2_000_000),
            ("A[Obs:-0]", None, 0),
            ("[Obs:+0.5]^7?A", None, 500_000),
            ("<[Obs:+0.5]@A>AA", None, 500_000),
            ("[+0.5]^7?A", 500_000, None),
            ("A[-0]", 0, None),
            ("A[INFO:+1]", None, None),
            ("A[15.99]", None, None),
            ("A[x|Obs:-2|Glycan:Sug2]", 84_021_200, None),
        ]:
            bracket = read(line).brackets[0]
            self.assertEqual((bracket.millionths, bracket.measured), (stated, measured), line)

    def test_measured_masses_stay_out_of_sums(self):
        """Document 02, L6: "Only stated ones enter total, ledger, display and the program's sixth field; the others count as lacking"."""
        for line, count in {
            "A[Obs:+1]": 1,
            "A[Obs:-0]": 1,
            "A[x|Obs:-2|Obs:+3]": 1,
            "A[INFO:x|Obs:+1]": 1,
            "{Obs:+1}A": 1,
            "[Obs:+1]-A-[Obs:+1]": 2,
            "M[Obs:+16#a]C[#a]": 1,
            "A[Obs:+1]C[x]D[+5]": 2,
            "[Obs:+1]^3?ACD[+1]": 3,
            "<[Obs:+1]@A>AA": 2,
        }.items():
            p = read(line)
            self.assertEqual((refusal(p.total), p.shift(), p.missing), ((16, count), None, count), line)
            self.assertEqual(refusal(p.ledger, [0] * len(p.floaters)), (16, count), line)
            self.assertEqual(hwemiduk.entry(line).split(" ")[5], f"?{count}", line)
        for line, total in {"A[Obs:+2|+1]": 1_000_000, "A[+1|Obs:+2]C[-0.5]": 500_000, "<[Obs:+1]@W>A": 0}.items():
            p = read(line)
            self.assertEqual((p.total(), p.missing, sum(p.ledger())), (total, 0, total), line)
        self.assertEqual([list(read(line).placements()) for line in ("[+1]?A[Obs:+2]C", "[Obs:+1]?AC")], [[(2,)], [(1,), (2,)]])

    def test_compositions(self):
        """Document 02, L1: "The list's spelling is written, a count of 1 dropped."; "a mass without `Obs`"; "a label may end the part"."""
        p = read("N[+1|gLYCAN:hexnac1HEX2#a]")
        self.assertEqual(str(p), "N[+1|Glycan:HexNAcHex2#a]")
        other, part = p.brackets[0].parts
        self.assertEqual(part, Part(Key.GLYCAN, Number(527_184_900, 4), "HexNAcHex2", Label("a", None)))
        self.assertEqual((str(part), part.composition, other.composition), ("Glycan:HexNAcHex2#a", [("HexNAc", 1), ("Hex", 2)], None))
        self.assertTrue(p.brackets[0].is_modification)
        for line, total in {
            "A[Glycan:Hex|+1]": 162_052_800,
            "A[+1|Glycan:Hex]": 1_000_000,
            "A[Obs:+1|Glycan:Hex]": 162_052_800,
            "[Glycan:Hex]^2?NN": 324_105_600,
            "{Glycan:Hex}{Glycan:NeuAc}EMEVNESPEK": 453_148_200,
        }.items():
            self.assertEqual(read(line).total(), total, line)
        self.assertEqual(read("N[Glycan:Hex1]"), read("N[glycan:hex]"))
        self.assertNotEqual(read("N[Glycan:HexHex]"), read("N[Glycan:Hex2]"))
        self.assertEqual(list(read("A[Glycan:Hex#a]C[#a(0.5)]").placements()), [(1,), (2,)])

    def test_lines_with_measured_masses(self):
        """compare/vectors/measured.txt, written from document 02: the entries; and of each accepted line that its brackets make the total, or lack their stated masses."""
        rows = [row.split("\t") for row in (ROOT / "compare" / "vectors" / "measured.txt").read_text().splitlines()]
        self.assertGreater(len(rows), 50)
        for line, printed in rows:
            self.assertEqual(hwemiduk.entry(line, 7), "7 " + printed)
            if printed.startswith("ok"):
                p = read(line)
                times = [len(one.positions) for one in p.declared] + [bracket.count for bracket in p.brackets[len(p.declared) :]]
                counted = [(n, bracket) for n, bracket in zip(times, p.brackets) if bracket.is_modification]
                missing = sum(n for n, bracket in counted if bracket.millionths is None)
                total = sum(n * (bracket.millionths or 0) for n, bracket in counted)
                self.assertEqual(printed.split(" ")[4], f"?{missing}" if missing else f"{total:+}")
                self.assertTrue(all(bracket.measured is None or bracket.millionths is None for bracket in p.brackets))

    def test_lines_with_compositions(self):
        """compare/vectors/compositions.txt, written from document 02 and the list of names and masses."""
        rows = [row.split("\t") for row in (ROOT / "compare" / "vectors" / "compositions.txt").read_text().splitlines()]
        self.assertGreater(len(rows), 60)
        for line, printed in rows:
            self.assertEqual(hwemiduk.entry(line, 7), "7 " + printed)
        accepted = [(read(line), printed.split(" ")[5]) for line, printed in rows if printed.startswith("ok")]
        for p, canonical in accepted:
            self.assertEqual(str(p), canonical)
            for part in (part for bracket in p.brackets for part in bracket.parts if part.key is Key.GLYCAN):
                spelled = "".join(name + (str(count) if count > 1 else "") for name, count in part.composition)
                self.assertEqual(spelled, part.text)

    def test_pieces(self):
        """The pieces of any text: each listed name in either case with a count and without one, and what no composition is."""
        for name in hwemiduk.SUGARS:
            self.assertEqual(hwemiduk.composition(name.upper() + "12" + name.lower()), [(name, 12), (name, 1)])
            self.assertEqual(str(read(f"A[Glycan:{name.lower()}]")), f"A[Glycan:{name}]")
        self.assertEqual((len(hwemiduk.SUGARS), hwemiduk.composition(b"")), (24, []))
        self.assertEqual(hwemiduk.composition(bytearray(b"Hex") * 1000), [("Hex", 1)] * 1000)
        for text in ["S", "Hex 2", "Hex0", "Hex01", "Hex100", "5Hex", "HexN1Ac", "Hex\u00e9", b"\xff", b"Hex\0", "Hex#a"]:
            self.assertEqual(refusal(hwemiduk.composition, text), (19, 0), text)
        self.assertRaises(TypeError, hwemiduk.composition, 5)

    def test_declarations(self):
        """Document 02, L2, on the lines of docs/DECISIONS.md: what a declaration holds, and where it stands."""
        p = read("<[+01.5|x]@k,n-TERM><[Acetyl]@w>[+2]?aKk")
        self.assertEqual(str(p), "<[+1.5|x]@K,N-term><[Acetyl]@W>[+2]?AKK")
        parts = (Part(Key.NONE, Number(1_500_000, 1), None, None), Part(Key.NONE, None, "x", None))
        first = Bracket(Kind.DECLARED, range(0), 1, parts, 1_500_000, None)
        second = Bracket(Kind.DECLARED, range(0), 1, (Part(Key.NONE, None, "Acetyl", None),), None, None)
        self.assertEqual(p.declared, (Declaration(first, ("K", "N-term"), (0, 2, 3)), Declaration(second, ("W",), ())))
        self.assertEqual(p.brackets[:2], (first, second))
        self.assertEqual([str(one) for one in p.declared], ["<[+1.5|x]@K,N-term>", "<[Acetyl]@W>"])
        self.assertEqual((p.total(), len(p.floaters), read("A[+1]").declared), (6_500_000, 1, ()))
        for line, placements in {
            "<[+1]@K>[+2]?KA": [(2,)],
            "<[+1]@K>[+2]?K": [],
            "<[+1]@K>K[+2#a]A[#a]": [(2,)],
            "<[+1]@N-term>[+2#a]-A[#a]": [(1,)],
        }.items():
            self.assertEqual(list(read(line).placements()), placements, line)
        for line, ledger in {
            "<[+1]@k,n-TERM>Ak": [1, 0, 1, 0],
            "<[+1]@K>K[+2]": [0, 3, 0],
            "<[+1]@K,k,K>AK": [0, 0, 1, 0],
            "<[+1]@K><[+1]@K>K": [0, 2, 0],
            "<[+1]@D>B": [0, 0, 0],
        }.items():
            self.assertEqual(read(line).ledger(), [entry * 1_000_000 for entry in ledger], line)
        self.assertEqual((read("<[x]@A>AA").missing, refusal(read("<[x]@A>AA").total), read("<[x]@W>A").total()), (2, (16, 2), 0))
        for line, number, place in [("<[INFO:x]@K>A", 21, 1), ("<[INFO:x]@K>{INFO:y}A", 10, 12), ("<[INFO:x]@K>A[#a]", 21, 1), ("<[+1#a]@K>K", 4, 4)]:
            self.assertEqual(refusal(read, line), (number, place), line)

    def test_every_position_is_reached(self):
        line = "<[+1]@A,N-term,C-term>" * LIMITS.declarations + "A" * LIMITS.residues
        self.assertEqual([one.positions for one in read(line).declared], [tuple(range(LIMITS.positions))] * LIMITS.declarations)

    def test_lines_with_declarations(self):
        """compare/vectors/declarations.txt: the entries; and of each accepted line that its declarations stand at its front as they say, reach what their places name, and
        make the total with what else there is."""
        rows = [row.split("\t") for row in (ROOT / "compare" / "vectors" / "declarations.txt").read_text().splitlines()]
        self.assertGreater(len(rows), 150)
        for line, printed in rows:
            self.assertEqual(hwemiduk.entry(line, 7), "7 " + printed)
            if printed.startswith("no"):
                continue
            p = read(line)
            declared, residues, rest = p.declared, p.residues, p.brackets[len(p.declared) :]
            front = "".join(map(str, declared))
            self.assertTrue(str(p).startswith(front) and str(p)[len(front)] != "<", line)
            sites = ["N-term", *residues, "C-term"]
            for one in declared:
                self.assertEqual(one.positions, tuple(at for at, site in enumerate(sites) if site in one.places), line)
            times = [(one.bracket, len(one.positions)) for one in declared] + [(bracket, bracket.count) for bracket in rest if bracket.is_modification]
            missing = sum(often for bracket, often in times if bracket.millionths is None)
            total = sum(often * (bracket.millionths or 0) for bracket, often in times)
            self.assertEqual(printed.split(" ")[4], f"?{missing}" if missing else f"{total:+}", line)

    def test_floaters(self):
        """Each copy of the unknown one, then the label of the range, which may stand on its residue without a modification or on the reference's."""
        p = read("[u:+01.50]^3?{Obs:-2}[unimod:4]-a(CD[R:x])[y|+0.5#g1(-0.25)](?ef[#g1])-[info:z[#|]]")
        self.assertEqual(
            [(floater.index, floater.copy, floater.positions) for floater in p.floaters],
            [(0, 1, (1, 2, 4, 5)), (0, 2, (1, 2, 4, 5)), (0, 3, (1, 2, 4, 5)), (4, 1, (2, 5))],
        )
        self.assertEqual([floater.bracket for floater in p.floaters], [p.brackets[0]] * 3 + [p.brackets[4]])

    def test_which_brackets_float(self):
        for line, expected in {
            "A": [],
            "A[+1]": [],
            "{+1}A": [],
            "A[INFO:x]": [],
            "(AC)[INFO:x]": [],
            "(AC)[+1]": [(0, 1)],
            "(AC)[+1][+2]": [(0, 1), (1, 1)],
            "[+1#a]-A[#a]": [(0, 1)],
            "A[#a]C[+1#a]": [(1, 1)],
            "[+9]^2[+1#a]?{+2}[+3]-A[#a](C)[+4]-[+5#b]": [(0, 1), (0, 2), (1, 1), (5, 1), (6, 1)],
        }.items():
            with self.subTest(line):
                self.assertEqual([(floater.index, floater.copy) for floater in read(line).floaters], expected)

    def test_picture(self):
        picture = read("[+1]^2?[+3#g]-AM[+15.995]C[Oxidation#h]K[#h]-[#g]").picture()
        self.assertEqual(
            picture.split("\n"),
            [
                "  nAMCKc",
                "1 .o.oo.   [+1]",
                "2 .o.oo.   [+1]",
                "3 o....o   [+3#g]",
                "4 ...oo.   [Oxidation#h]",
            ],
        )
        self.assertEqual(read("AC").picture(), "  nACc")
        self.assertEqual(
            read("<[+1]@K><[x]@W><[y]@c-term,n-term>[+2]?KA[#a]-[+3#a]").picture().split("\n"),
            [
                "  nKAc",
                "  .x..   <[+1]@K>",
                "  ....   <[x]@W>",
                "  x..x   <[y]@C-term,N-term>",
                "1 ..o.   [+2]",
                "2 ..o.   [+3#a]",
            ],
        )

    def test_numbers(self):
        number = read("A[-1.50]").brackets[0].parts[0].mass
        self.assertEqual((float(number), str(number.decimal)), (-1.5, "-1.50"))
        self.assertEqual(str(read("A[-0.00]").brackets[0].parts[0].mass.decimal), "0.00")
        self.assertEqual(str(read("A[+999999.999999]").brackets[0].parts[0].mass.decimal), "999999.999999")

    def test_one_entry_for_one_molecule(self):
        self.assertEqual(read("a[+01.50]"), read("A[+1.50]"))
        self.assertEqual(len({read("[+1]?[+2]^1?A"), read("[+1][+2]?a")}), 1)
        self.assertNotEqual(read("A[+1.5]"), read("A[+1.50]"))

    def test_round_trip(self):
        for line in ["AM[+15.995]C[-18.01]", "[+1]^2?ac", "a[+01.50]", "A[Cation:Mg[II]]", "M[+16#a]C[#a]", "{x}[y]-(AC)[z]-[INFO:w]"]:
            p = read(line)
            again = read(str(p))
            self.assertEqual(str(again), str(p))
            self.assertEqual((again.residues, again.sections, again.brackets), (p.residues, p.sections, p.brackets))


class Placements(unittest.TestCase):
    def test_not_allowed(self):
        p = read("[+1]^2?AC")
        for placement in [(0, 0), (1, 1), (1, 3), (3, 1), (255, 255), (2, 1)]:
            self.assertFalse(p.allowed(placement))
            self.assertEqual(refusal(p.ledger, placement), (18, 0))
        self.assertTrue(p.allowed([1, 2]))
        self.assertEqual(p.ledger([1, 2]), [0, 1_000_000, 1_000_000, 0])

    def test_copies_of_one_bracket_ascend(self):
        """Document 02, L4: those that a count makes, and no others."""
        for line, placements in {
            "[+1][+1]?AC": [(1, 2), (2, 1)],
            "[+1]^2[x]?ACD": [(1, 2, 3), (1, 3, 2), (2, 3, 1)],
            "[x][+1]^2?ACD": [(1, 2, 3), (2, 1, 3), (3, 1, 2)],
            "[+1]^3?ACDE": [(1, 2, 3), (1, 2, 4), (1, 3, 4), (2, 3, 4)],
            "[+1]^2?(AC)[+1]D": [(1, 3, 2), (2, 3, 1)],
        }.items():
            with self.subTest(line):
                p = read(line)
                self.assertEqual(list(p.placements()), placements)
                self.assertEqual([placement for placement in product(range(6), repeat=len(p.floaters)) if p.allowed(placement)], placements)
        p = read("[+1]^2[+5]?ACD")
        self.assertEqual(p.ledger((2, 3, 1)), [0, 5_000_000, 1_000_000, 1_000_000, 0])
        self.assertEqual(refusal(p.ledger, (3, 2, 1)), (18, 0))
        self.assertEqual(p.rows(), [(floater, position) for floater in (1, 2, 3) for position in (1, 2, 3)])

    def test_why_none(self):
        """Document 02, L7: "a set of floaters whose permitted positions, taken together, are fewer than the set", "the smallest; among equals the first by floater order"."""
        for line, numbers in {
            "A": (),
            "[+1]?AC": (),
            "[+1]^2?A": (1, 2),
            "[+1]^3?A": (1, 2),
            "[+1][+2]?A[+3]": (1,),
            "[+1]?A[+2]": (1,),
            "[+1#a][+2#b][+3#c][+4#d]?A[#a][#d]C[#b][#c]": (1, 4),
            "[+1]^3?(A)[+2][+3]C": (4, 5),
            "<[+9]@I>[+1]^8?ACDEFGHI": (1, 2, 3, 4, 5, 6, 7, 8),
        }.items():
            with self.subTest(line):
                self.assertEqual(read(line).why_none(), numbers)

    def test_lines_without_a_placement(self):
        """compare/vectors/reasons.txt, written from document 02: each line with its numbers, none where there is a placement; by the rows, those that it names and no fewer of them
        have too few positions, nor have as many that stand before them in order."""
        rows = [row.split("\t") for row in (ROOT / "compare" / "vectors" / "reasons.txt").read_text().splitlines()]
        self.assertEqual(len(rows), 40)
        for line, numbers in rows:
            p = read(line)
            short = p.why_none()
            self.assertEqual(short, tuple(map(int, numbers.split())), line)
            self.assertEqual(next(p.placements(), None) is None, short != (), line)
            floaters = p.floaters
            sets = (one for size in range(1, len(floaters) + 1) for one in combinations(range(1, len(floaters) + 1), size))
            lacking = (one for one in sets if len({at for number in one for at in floaters[number - 1].positions}) < len(one))
            self.assertEqual(next(lacking, ()), short, line)

    def test_a_terminus_is_no_entry_left_out(self):
        """A label may stand at position 0: a placement that is too short must not be taken as one that ends in 0."""
        p = read("[+1#b][+2#a]?[#a]-A[#b]")
        self.assertEqual(list(p.placements()), [(1, 0)])
        self.assertEqual(p.ledger((1, 0)), [2_000_000, 1_000_000, 0])
        for call in [p.allowed, p.ledger]:
            with self.assertRaises(ValueError) as caught:
                call((1,))
            self.assertNotIsInstance(caught.exception, Refusal)

    def test_no_placement_at_all(self):
        for line, placement in [("A", (1,)), ("A", (0,) * 8), ("[+1]^2?AC", ()), ("[+1]^2?AC", (1, 2, 0)), ("[+1]?A", (256,)), ("[+1]?A", (-1,))]:
            for call in [read(line).ledger, read(line).allowed]:
                with self.assertRaises(ValueError) as caught:
                    call(placement)
                self.assertNotIsInstance(caught.exception, Refusal, (line, placement))

    def test_each_listing_is_its_own(self):
        p = read("[+1][+1]?AC")
        one, other = p.placements(), p.placements()
        self.assertEqual(next(one), next(other))
        read("[+1]^3?ACDEFG").total()
        self.assertEqual((next(one), next(one, None), next(other)), ((2, 1), None, (2, 1)))

    def test_many(self):
        """Four floaters on six residues: 6 * 5 * 4 * 3 placements, ascending; of copies of one bracket, those that ascend."""
        placements = list(read("[+1][+1][+1][+1]?ACDEFG").placements())
        self.assertEqual(placements, list(permutations(range(1, 7), 4)))
        self.assertEqual(list(read("[+1]^4?ACDEFG").placements()), list(combinations(range(1, 7), 4)))


class Junk(unittest.TestCase):
    def test_not_a_line(self):
        for junk in [None, 5, ["A"], 1.5]:
            with self.assertRaises(TypeError):
                read(junk)

    def test_bytes_outside(self):
        for line, place in [(b"\0", 0), (b"A\0C", 1), (b"A\x7f", 1), (b"AC\n", 2), ("Aé", 1), ("A\ud800", 1), ("A[α]", 2)]:
            self.assertEqual(refusal(read, line), (3, place), line)

    def test_kinds_of_bytes(self):
        for line in ["AC", b"AC", bytearray(b"AC"), memoryview(b"xACx")[1:3]]:
            self.assertEqual(read(line).residues, "AC")

    def test_any_bytes(self):
        source = random.Random(20261115)
        likely = b"ACacMm[]{}()?^-+#|:.0123456789xyINFOUobs<>@,"
        accepted = 0
        for _ in range(20_000 // SHARE):
            pool = likely if source.random() < 0.9 else bytes(range(256))
            line = bytes(source.choice(pool) for _ in range(source.randrange(12)))
            try:
                p = read(line)
            except Refusal as error:
                self.assertTrue(error.number in (*range(1, 13), 19, 21) and 0 <= error.place <= len(line), line)
            else:
                self.assertEqual(read(str(p)), p, line)
                accepted += 1
        self.assertGreater(accepted, 500 // SHARE)

    def test_tables_of_no_line(self):
        """The library refuses tables that one byte of junk stands in: what it answers over areas is what is handed on."""
        areas = take()
        try:
            line = b"[+1]^2?AC"
            library = hwemiduk._library.library
            self.assertEqual(library.hwemiduk_read(line, len(line), *areas.tables, areas.size_at), 0)
            areas.data[-1] = 1
            self.assertEqual(library.hwemiduk_write(*areas.tables, areas.out_at, LIMITS.line, areas.size_at), 14)
            held = hwemiduk._tables
            for call in [hwemiduk._peptidoform._rows, hwemiduk._peptidoform._count, lambda areas: held._reached(areas, 0), lambda areas: held._mass(areas, 0)]:
                self.assertEqual(refusal(call, areas), (14, 0))
            floaters = (ctypes.c_uint8 * LIMITS.copies)(*[9] * LIMITS.copies)
            for room, number in [(LIMITS.copies, 14), (LIMITS.copies - 1, 13)]:
                areas.size.value = 99
                self.assertEqual(library.hwemiduk_why_none(*areas.tables, floaters, room, areas.size_at), number)
                self.assertEqual((areas.size.value, floaters[:]), (99, [9] * LIMITS.copies))
        finally:
            FREE.append(areas)


class LimitsOfLines(unittest.TestCase):
    def test_limits(self):
        """Document 01, "The tables", and docs/DECISIONS.md, "The areas"."""
        self.assertEqual(
            dataclasses.asdict(LIMITS),
            {
                "line": 4096,
                "residues": 254,
                "brackets": 64,
                "parts": 4,
                "text": 128,
                "label": 16,
                "depth": 8,
                "count": 99,
                "declarations": 8,
                "places": 16,
                "copies": 8,
                "rows": 2048,
                "positions": 256,
                "size": 1_000_000,
                "decimals": 6,
                "bytes": 7999,
                "numbers": 320,
                "block": 512,
                "blocks": 128,
            },
        )

    def test_forms(self):
        """What rows and listings take: the sizes that include/hwemiduk.h says."""
        self.assertEqual((ctypes.sizeof(Site), Site.position.offset), (4, 2))
        self.assertEqual((ctypes.sizeof(Listing), Listing.mark.offset), (18, 16))

    def test_just_inside_and_just_outside(self):
        for good, bad, number, place in [
            ("A" * 254, "A" * 255, 6, 254),
            ("A" + "[x]" * 64, "A" + "[x]" * 65, 6, 193),
            ("A[x|x|x|x]", "A[x|x|x|x|x]", 6, 10),
            ("A[" + "x" * 128 + "]", "A[" + "x" * 129 + "]", 6, 2),
            ("A[x#" + "a" * 16 + "]", "A[x#" + "a" * 17 + "]", 6, 4),
            ("A[" + "[" * 8 + "]" * 8 + "]", "A[" + "[" * 9 + "]" * 9 + "]", 5, 10),
            ("A[+1.123456]", "A[+1.1234567]", 7, 2),
            ("[x]^8?A", "[x]^9?A", 12, 0),
            ("[x]^8?A", "[x]^100?A", 7, 4),
            ("<[x]@A>" * 8 + "A", "<[x]@A>" * 9 + "A", 6, 56),
            ("<[x]@A" + ",A" * 15 + ">A", "<[x]@A" + ",A" * 16 + ">A", 6, 37),
        ]:
            self.assertIsNone(refusal(read, good), good)
            self.assertEqual(refusal(read, bad), (number, place), bad)

    def test_longest_line(self):
        """The longest line is read and written whole; one byte more is 2 at 4096."""
        line = "A" + ("[" + "x" * 128 + "]") * 31
        line += "[" + "y" * (4096 - len(line) - 2) + "]"
        self.assertEqual(len(line), 4096)
        self.assertEqual(str(read(line)), line)
        self.assertEqual(refusal(read, line + "A"), (2, 4096))
        self.assertEqual(refusal(read, b"\xff" * 100_000), (2, 4096))

    def test_deepest_nesting(self):
        """A line of nothing but openings: 4 at its end, not a stack overflow."""
        self.assertEqual(refusal(read, "A" + "[" * 4095), (4, 4096))
        self.assertEqual(refusal(read, "A[" + "[" * 2047 + "]" * 2047), (4, 4096))
        self.assertEqual(refusal(read, "A[" + "{" * 2046 + "}" * 2046 + "]"), (5, 10))


if __name__ == "__main__":
    unittest.main()
