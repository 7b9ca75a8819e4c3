"""What the package is to its users: objects that do not change and pickle, refusals with words, lines of files, the commands, the library and the wheel."""

import base64
import contextlib
import copy
import csv
import hashlib
import importlib.util
import io
import os
import pickle
import re
import sys
import tempfile
import threading
import timeit
import unittest
import zipfile
from pathlib import Path
from unittest import mock

ROOT = Path(__file__).resolve().parent.parent.parent
sys.path.insert(0, str(ROOT / "python" / "src"))

import hwemiduk  # noqa: E402
from hwemiduk import Key, Kind, Line, Peptidoform, Refusal, Section, read, read_lines  # noqa: E402
from hwemiduk import __main__ as commands  # noqa: E402
from hwemiduk import _library  # noqa: E402


def refused(line):
    try:
        read(line)
    except Refusal as error:
        return error
    raise AssertionError(f"accepted: {line}")


class Objects(unittest.TestCase):
    def test_says_its_line(self):
        p = Peptidoform("[+1]^2?ac")
        self.assertEqual((str(p), bytes(p), repr(p)), ("[+1]^2?AC", b"[+1]^2?AC", "hwemiduk.Peptidoform('[+1]^2?AC')"))
        self.assertEqual(eval(repr(p)), p)
        self.assertEqual(f"{p}", "[+1]^2?AC")

    def test_does_not_change(self):
        p = read("AC")
        for name in ["_line", "residues", "brackets", "declared", "missing", "other"]:
            with self.assertRaises(AttributeError):
                setattr(p, name, "HELLO")
            with self.assertRaises(AttributeError):
                delattr(p, name)
        self.assertEqual((str(p), p.residues), ("AC", "AC"))
        self.assertFalse(hasattr(p, "__dict__"))

    def test_equality_and_hash(self):
        self.assertEqual(read("a[+01.5]"), read("A[+1.5]"))
        self.assertEqual(hash(read("a")), hash(read("A")))
        self.assertNotEqual(read("A"), read("C"))
        self.assertNotEqual(read("A"), "A")
        self.assertFalse(read("A") == b"A")
        self.assertEqual(len({read(line) for line in ["A", "a", "C", "c", "AC"]}), 3)

    def test_order(self):
        lines = ["C", "A", "[+1]-A", "AC", "A[x]", "{x}A"]
        self.assertEqual([str(p) for p in sorted(map(read, lines))], sorted(lines))
        self.assertTrue(read("A") < read("C") and read("A") <= read("a") and read("C") > read("A") and read("a") >= read("A"))
        self.assertFalse(read("A") < read("a") or read("A") > read("a") or read("C") <= read("A") or read("A") >= read("C"))
        with self.assertRaises(TypeError):
            read("A") < "C"

    def test_pickles(self):
        p = read("[+1]^2?ac")
        for protocol in range(pickle.HIGHEST_PROTOCOL + 1):
            again = pickle.loads(pickle.dumps(p, protocol))
            self.assertIs(type(again), Peptidoform)
            self.assertEqual(again, p)
        self.assertEqual((copy.copy(p), copy.deepcopy([p])), (p, [p]))

    def test_a_bad_pickle_is_refused(self):
        good = pickle.dumps(read("AMMAM"), 2)
        self.assertIn(b"AMMAM", good)
        with self.assertRaises(Refusal):
            pickle.loads(good.replace(b"AMMAM", b"AM[AM"))

    def test_what_it_holds_pickles(self):
        p = read("<[+9]@A,N-term>[+1]^2?AM[+15.995]C[Oxidation#g(0.5)]K[#g]")
        for held in [p.brackets, p.declared, p.floaters, p.sections]:
            self.assertEqual(pickle.loads(pickle.dumps(held)), held)
            hash(held)
        with self.assertRaises(AttributeError):
            p.brackets[0].count = 5

    def test_names(self):
        """Everything public is documented, and is called by the name that it is imported by."""
        for name in hwemiduk.__all__:
            thing = getattr(hwemiduk, name)
            if callable(thing):
                self.assertEqual((thing.__module__, thing.__name__), ("hwemiduk", name))
                self.assertTrue(thing.__doc__, name)
        for name in ["total", "shift", "ledger"]:
            self.assertIn("The residues' own masses are not in it", getattr(Peptidoform, name).__doc__)
        self.assertFalse(hasattr(Peptidoform, "mass"))

    def test_version(self):
        self.assertEqual((ROOT / "VERSION").read_text().strip(), hwemiduk.__version__)
        self.assertEqual(hwemiduk.library_version(), hwemiduk.__version__)


class Refusals(unittest.TestCase):
    def test_what_it_says(self):
        error = refused("A[U:35]")
        self.assertIsInstance(error, ValueError)
        self.assertEqual((error.number, error.place, error.column, error.line), (9, 2, 3, b"A[U:35]"))
        self.assertEqual(str(error), f"9 at 2: {error.words}")
        self.assertEqual(error.words, hwemiduk.WORDS[9])

    def test_no_mass(self):
        for line, words in {
            "[Acetyl]-A": "16: 1 modification has no stated mass",
            "A[Obs:+1]": "16: 1 modification has no stated mass",
            "[x]^3?A": "16: 3 modifications have no stated mass",
        }.items():
            with self.assertRaises(Refusal) as caught:
                read(line).total()
            self.assertEqual(str(caught.exception), words)
            self.assertEqual((caught.exception.column, caught.exception.line, caught.exception.show()), (None, None, ""))

    def test_pickles(self):
        error = refused("A[U:35]")
        again = pickle.loads(pickle.dumps(error))
        self.assertEqual((again.number, again.place, again.line, str(again)), (error.number, error.place, error.line, str(error)))

    def test_a_mark_under_the_place(self):
        self.assertEqual(refused("A[x").show(), "A[x\n   ^")
        self.assertEqual(refused("").show(), "\n^")
        self.assertEqual(refused(b"A\xff[x").show(), "A?[x\n ^")
        shown, mark = refused("A" * 200 + "!" + "C" * 100).show(60).split("\n")
        self.assertEqual((len(shown), shown[len(mark) - 1]), (60, "!"))
        self.assertEqual(mark.strip(" "), "^")

    def test_hints(self):
        """tests/hints.tsv has lines that are refused with 4 or, behind Glycan:, with 19, and their hints; bin/register is held to it too (tests/outside)."""
        rows = [row.split("\t") for row in (ROOT / "tests" / "hints.tsv").read_text().splitlines()]
        self.assertGreater(len(rows), 20)
        for line, hint in rows:
            self.assertEqual((refused(line).number, refused(line).hint), (19 if "lycan:" in line else 4, hint), line)
        for line, hint in {
            b"A\r": "CR: a file with Windows line ends? try --crlf",
            b"A\rC": "CR: is a line end missing?",
            b"A\tC": "a tab: is this a table?",
            b"\xef\xbb\xbfA": "a byte order mark: save the file without one",
            b"A\xe9": "not ASCII",
            b"A\x01": "",
        }.items():
            self.assertEqual((refused(line).number, refused(line).hint), (3, hint), line)
        self.assertEqual([refused(line).hint for line in ["", "A[U:35]", "A[UNIMOD:x]"]], ["", "", ""])
        self.assertEqual(Refusal(4, 1).hint, "")

    def test_words_are_those_of_the_list(self):
        """The words of each number, in its order, are those of refusals.tsv."""
        head, *rows = [row.split("\t") for row in (ROOT / "refusals.tsv").read_text().splitlines()]
        self.assertEqual(head[:2], ["number", "words"])
        self.assertEqual([(int(row[0]), row[1]) for row in rows], list(hwemiduk.WORDS.items()))

    def test_codes_are_those_of_the_header(self):
        header = (ROOT / "include" / "hwemiduk.h").read_text()
        keys = hwemiduk._tables._keys
        self.assertEqual(list(keys.values()), list(Key))
        for enum, numbered in [("section", dict(enumerate(Section))), ("kind", dict(enumerate(Kind, 1))), ("key", keys)]:
            start = header.index(f"enum hwemiduk_{enum} {{")
            codes = re.findall(r"HWEMIDUK_(\w+) = (\d+)", header[start : header.index("};", start)])
            plain = {int(code): re.sub("^(ON|NO)_|_|^KEY$", "", re.sub("^NO_KEY$", "NONE", name)) for name, code in codes}
            self.assertEqual(plain, {code: member.name.replace("_", "") for code, member in numbered.items()})

    def test_termini_are_those_of_the_header(self):
        header = (ROOT / "include" / "hwemiduk.h").read_text()
        start = header.index("enum hwemiduk_terminus {")
        codes = re.findall(r"HWEMIDUK_\w+ = (\d+),? */\* (\S+) \*/", header[start : header.index("};", start)])
        self.assertEqual({int(code): name for code, name in codes}, hwemiduk._tables._termini)

    def test_sorts_of_masses_are_those_of_the_header(self):
        header = (ROOT / "include" / "hwemiduk.h").read_text()
        start = header.index("enum hwemiduk_mass_sort {")
        codes = re.findall(r"HWEMIDUK_MASS_(\w+) = (\d+)", header[start : header.index("};", start)])
        tables = hwemiduk._tables
        self.assertEqual({name: int(code) for name, code in codes}, {"NONE": 0, "STATED": tables._STATED, "MEASURED": tables._MEASURED})

    def test_sugars_are_those_of_the_header(self):
        header = (ROOT / "include" / "hwemiduk.h").read_text()
        start = header.index("names[HWEMIDUK_SUGARS] = {")
        self.assertEqual(tuple(re.findall('"([^"]*)"', header[start : header.index("};", start)])), hwemiduk.SUGARS)


class Lines(unittest.TestCase):
    def test_a_file(self):
        lines = list(read_lines(io.BytesIO(b"[+1]^2?ac\nA[U:35]\n\nC")))
        self.assertEqual([(line.number, line.raw, line.peptidoform) for line in lines], [(1, b"[+1]^2?ac", read("[+1]^2?AC")), (2, b"A[U:35]", None), (3, b"", None), (4, b"C", read("C"))])
        self.assertIsNone(lines[0].refusal)
        self.assertEqual([(line.refusal.number, line.refusal.place) for line in lines[1:3]], [(9, 2), (1, 0)])
        self.assertIsInstance(lines[0], Line)

    def test_where_lines_end(self):
        """Byte 10 ends a line; nothing after the last one is no line."""
        for data, count in {b"": 0, b"\n": 1, b"A": 1, b"A\n": 1, b"A\n\n": 2, b"A\x0bC\x0cD\x85E\n": 1, b"A\rC": 1}.items():
            self.assertEqual(len(list(read_lines(io.BytesIO(data)))), count, data)

    def test_windows_line_ends(self):
        data = b"AC\r\nA\r\r\nC"
        plain = [line.refusal and (line.refusal.number, line.refusal.place) for line in read_lines(io.BytesIO(data))]
        self.assertEqual(plain, [(3, 2), (3, 1), None])
        lines = list(read_lines(io.BytesIO(data), crlf=True))
        self.assertEqual([line.raw for line in lines], [b"AC", b"A\r", b"C"])
        self.assertEqual([line.refusal and (line.refusal.number, line.refusal.place) for line in lines], [None, (3, 1), None])

    def test_any_lines(self):
        self.assertEqual([str(line.peptidoform) for line in read_lines(["a\n", "c", b"d\n", bytearray(b"e")])], ["A", "C", "D", "E"])
        self.assertEqual([line.refusal.number for line in read_lines(["\ud800", "é", b"\xff\xfe", "A" * 5000])], [3, 3, 3, 2])

    def test_what_is_raised_elsewhere_is_not_taken(self):
        """A refusal that the caller raises while a line is in its hands is the caller's."""
        lines = read_lines(io.BytesIO(b"A\nC\n"))
        next(lines)
        with self.assertRaises(Refusal):
            lines.throw(Refusal(16, 1))


class Threads(unittest.TestCase):
    def test_each_has_areas_of_its_own(self):
        lines = [f"[+{k}]^2?A{'C' * k}[+{k}.5]" for k in range(1, 9)]
        wrong = []

        def work(line, k):
            for _ in range(60):
                p = read(line)
                if str(p) != line or p.total() != 3_000_000 * k + 500_000 or len(p.residues) != k + 1:
                    wrong.append(line)

        before = sys.getswitchinterval()
        sys.setswitchinterval(1e-5)
        try:
            threads = [threading.Thread(target=work, args=(line, k)) for k, line in enumerate(lines, 1)]
            for thread in threads:
                thread.start()
            for thread in threads:
                thread.join()
        finally:
            sys.setswitchinterval(before)
        self.assertEqual(wrong, [])

    def test_areas_are_given_back(self):
        for _ in range(50):
            p = read("[+1]^2?AC")
            for call in [p.total, p.shift, p.picture, p.rows, p.why_none, p.ledger, lambda: p.ledger((9, 9)), lambda: next(p.placements()), lambda: read("A[")]:
                with contextlib.suppress(ValueError):
                    call()
        self.assertTrue(1 <= len(_library.FREE) <= 16)
        self.assertEqual(len(set(map(id, _library.FREE))), len(_library.FREE))


@unittest.skipUnless(os.environ.get("HWEMIDUK_SHARE", "1") == "1", "the times of an emulator say nothing")
class Times(unittest.TestCase):
    def test_reading(self):
        """A line is read, with its canonical form, within 20 microseconds: the quickest of many rounds, since other programs run too."""
        for line in [b"PEPTIDE", b"[Acetyl]-PEPM[Oxidation]TIDEK", b"EM[+15.9949]EVEES[+79.9663]PEK", b"[+79.966331]?EMEVEESC[Carbamidomethyl]PEKT[U:Phospho|+79.966331]-[Amidated]"]:
            seconds = min(timeit.repeat(lambda: read(line), number=100, repeat=100)) / 100
            self.assertLess(seconds * 1e6, 20, line)


class Commands(unittest.TestCase):
    def setUp(self):
        self.folder = tempfile.TemporaryDirectory()
        self.addCleanup(self.folder.cleanup)
        self.file = os.path.join(self.folder.name, "lines.txt")
        self.write(b"[+1]^2?ac\nA[U:35]\n[Acetyl]-A\n")

    def write(self, data):
        Path(self.file).write_bytes(data)

    def run_it(self, *arguments, out=None):
        """The status, and what was said on standard output and standard error."""
        out, error = out or io.StringIO(), io.StringIO()
        with contextlib.redirect_stdout(out), contextlib.redirect_stderr(error):
            try:
                status = commands.main(list(arguments))
            except SystemExit as end:
                status = end.code
        return status, out.getvalue() if isinstance(out, io.StringIO) else None, error.getvalue()

    def test_check(self):
        status, out, error = self.run_it("check", self.file)
        self.assertEqual(out, f"{self.file}:2:3: 9: {hwemiduk.WORDS[9]}\n    A[U:35]\n      ^\n")
        self.assertEqual(error, f"hwemiduk: {self.file}: 3 lines, 2 accepted, 1 refused\n")
        self.assertEqual(status, 1)
        self.write(b"A\r\n")
        status, out, _ = self.run_it("check", self.file)
        self.assertEqual(out, f"{self.file}:1:2: 3: {hwemiduk.WORDS[3]} (CR: a file with Windows line ends? try --crlf)\n    A?\n     ^\n")
        self.assertEqual(status, 1)
        self.assertEqual(self.run_it("check", "--crlf", self.file), (0, "", f"hwemiduk: {self.file}: 1 line, 1 accepted, 0 refused\n"))

    def test_one_bad_file_among_good_ones(self):
        good = os.path.join(self.folder.name, "good.txt")
        Path(good).write_bytes(b"A\n")
        self.assertEqual([self.run_it("check", *files)[0] for files in [(good, self.file), (self.file, good), (good, good)]], [1, 1, 0])

    def test_standard_input(self):
        with mock.patch.object(sys, "stdin", mock.Mock(buffer=io.BytesIO(b"A\nA[\n"))):
            status, out, error = self.run_it("check")
        self.assertEqual((status, out.split(": ")[0], error), (1, "-:2:3", "hwemiduk: -: 2 lines, 1 accepted, 1 refused\n"))

    def test_table(self):
        status, out, error = self.run_it("table", self.file)
        rows = list(csv.reader(io.StringIO(out)))
        self.assertEqual(tuple(rows[0]), commands.COLUMNS)
        self.assertEqual(
            [row[1:] for row in rows[1:]],
            [
                ["1", "[+1]^2?ac", "[+1]^2?AC", "2", "1", "2", "2000000", "0", "", "", ""],
                ["2", "A[U:35]", "", "", "", "", "", "", "9", "3", hwemiduk.WORDS[9]],
                ["3", "[Acetyl]-A", "[Acetyl]-A", "1", "1", "0", "", "1", "", "", ""],
            ],
        )
        self.assertEqual((status, error), (1, ""))
        self.write(b"A[Obs:+2|+1]\nA[Obs:+1]\n")
        rows = list(csv.DictReader(io.StringIO(self.run_it("table", self.file)[1])))
        self.assertEqual([(row["total"], row["missing"]) for row in rows], [("1000000", "0"), ("", "1")])

    def test_table_of_any_bytes(self):
        self.write(b'A\xff,"\xc3\xa9\n')
        status, out, _ = self.run_it("table", self.file)
        self.assertEqual(list(csv.reader(io.StringIO(out)))[1][2], 'A\\xff,"\\xc3\\xa9')
        self.assertTrue(out.isascii())
        self.assertEqual(status, 1)

    def test_show(self):
        status, out, _ = self.run_it("show", "[+1]^2?aM[+15.995]c[+2#g]k[#g]")
        self.assertEqual(
            out.split("\n"),
            [
                "canonical line: [+1]^2?AM[+15.995]C[+2#g]K[#g]",
                "residues: 4",
                "brackets: 4",
                "    [+1]^2  anywhere",
                "    [+15.995]  on residue 2",
                "    [+2#g]  on residue 3",
                "    [#g]  on residue 4",
                "sum of the modifications, without the residues: +19.995000 Da",
                "floating copies: 3",
                "      nAMCKc",
                "    1 .o.oo.   [+1]",
                "    2 .o.oo.   [+1]",
                "    3 ...oo.   [+2#g]",
                "a placement: 1 3 4",
                "",
            ],
        )
        self.assertEqual(status, 0)
        self.assertEqual(
            self.run_it("show", "<[+1]@k,n-term><[x]@w>AK")[1].split("\n"),
            [
                "canonical line: <[+1]@K,N-term><[x]@W>AK",
                "residues: 2",
                "brackets: 2",
                "    [+1]  declared for K, N-term: at 0 2",
                "    [x]  declared for W: nowhere here",
                "sum of the modifications, without the residues: +2.000000 Da",
                "floating copies: 0",
                "      nAKc",
                "      x.x.   <[+1]@K,N-term>",
                "      ....   <[x]@W>",
                "",
            ],
        )
        self.assertIn("a placement: there is none\n", self.run_it("show", "[+1]^2?A")[1])
        self.assertIn("not known: 1 without a stated mass\n", self.run_it("show", "A[x]")[1])
        self.assertEqual(
            self.run_it("show", "<[Obs:+1]@c,w><[Obs:+2]@w>[Obs:+3]^2?{Obs:-1}AC[Obs:+2|+1]D[Obs:+4]")[1].split("\n"),
            [
                "canonical line: <[Obs:+1]@C,W><[Obs:+2]@W>[Obs:+3]^2?{Obs:-1}AC[Obs:+2|+1]D[Obs:+4]",
                "residues: 3",
                "brackets: 6",
                "    [Obs:+1]  declared for C, W: at 2, only measured: not in the sum",
                "    [Obs:+2]  declared for W: nowhere here, only measured: not in the sum",
                "    [Obs:+3]^2  anywhere, only measured: not in the sum",
                "    {Obs:-1}  labile, only measured: not in the sum",
                "    [Obs:+2|+1]  on residue 2",
                "    [Obs:+4]  on residue 3, only measured: not in the sum",
                "sum of the modifications, without the residues: not known: 5 without a stated mass",
                "floating copies: 2",
                "      nACDc",
                "      ..x..   <[Obs:+1]@C,W>",
                "      .....   <[Obs:+2]@W>",
                "    1 .o...   [Obs:+3]",
                "    2 .o...   [Obs:+3]",
                "a placement: there is none",
                "",
            ],
        )
        self.assertEqual(self.run_it("show", "A[x")[:2], (1, f"refused: 4 at 3: {hwemiduk.WORDS[4]} (the line ends here and should go on)\n    A[x\n       ^\n"))

    def test_trouble(self):
        for arguments, words in [
            (("check", self.file + "x"), f"hwemiduk: {self.file}x: No such file or directory\n"),
            (("table", self.file, self.file + "x"), f"hwemiduk: {self.file}x: No such file or directory\n"),
            (("check", self.folder.name), f"hwemiduk: {self.folder.name}: Is a directory\n"),
        ]:
            status, _, error = self.run_it(*arguments)
            self.assertEqual((status, error), (2, words))
        for arguments in [(), ("nosuch",), ("check", "--nosuch"), ("show",)]:
            self.assertEqual(self.run_it(*arguments)[0], 2)
        self.assertEqual(self.run_it("--version")[:2], (0, f"hwemiduk {hwemiduk.__version__}\n"))
        self.assertEqual(self.run_it("--help")[0], 0)

    @unittest.skipUnless(os.path.exists("/dev/full"), "there is no /dev/full")
    def test_output_that_cannot_be_written(self):
        for arguments in [("check", self.file), ("table", self.file), ("show", "A")]:
            with open("/dev/full", "w") as full:
                status, _, error = self.run_it(*arguments, out=full)
            self.assertEqual((status, error), (2, "hwemiduk: the output could not be written: No space left on device\n"))

    def test_input_that_cannot_be_read(self):
        class Broken(io.BytesIO):
            def __next__(self):
                raise OSError(5, "Input/output error")

        with mock.patch.object(sys, "stdin", mock.Mock(buffer=Broken())):
            self.assertEqual(self.run_it("check", "-"), (2, "", "hwemiduk: -: it cannot be read to its end: Input/output error\n"))


class Library(unittest.TestCase):
    def load(self, named):
        with mock.patch.dict(os.environ, {"HWEMIDUK_LIBRARY": named}):
            return _library._load()

    def test_where_there_is_none(self):
        with self.assertRaises(ImportError) as caught:
            self.load("/nowhere/libhwemiduk.so")
        self.assertEqual(
            str(caught.exception),
            "hwemiduk: the library is not at /nowhere/libhwemiduk.so. bin/build-shared builds it; or set HWEMIDUK_LIBRARY to where it is",
        )
        self.assertIsNone(caught.exception.__context__)

    def test_where_it_is_looked_for(self):
        """In the repository: beside the package, then in target/lib."""
        folders = [ROOT / "python" / "src" / "hwemiduk", ROOT / "target" / "lib"]
        self.assertEqual(_library.places(), [folder / "libhwemiduk.so" for folder in folders])
        with mock.patch.object(_library, "places", return_value=[Path("/a/libhwemiduk.so"), Path("/b/libhwemiduk.so")]), self.assertRaises(ImportError) as caught:
            self.load("")
        self.assertIn("is not at /a/libhwemiduk.so, nor at /b/libhwemiduk.so. bin/build-shared", str(caught.exception))

    def test_no_library(self):
        with tempfile.NamedTemporaryFile(suffix=".so") as file:
            with self.assertRaises(ImportError) as caught:
                self.load(file.name)
        self.assertIn(f"hwemiduk: the library at {file.name} cannot be loaded: ", str(caught.exception))
        self.assertIsNone(caught.exception.__context__)


class Wheel(unittest.TestCase):
    @classmethod
    def setUpClass(cls):
        spec = importlib.util.spec_from_file_location("wheels", ROOT / "python" / "backend" / "wheels.py")
        cls.wheels = importlib.util.module_from_spec(spec)
        spec.loader.exec_module(cls.wheels)

    def setUp(self):
        self.folder = tempfile.TemporaryDirectory()
        self.addCleanup(self.folder.cleanup)
        self.named = mock.patch.dict(os.environ, {"HWEMIDUK_LIBRARY": _library.library._name})
        self.named.start()
        self.addCleanup(self.named.stop)

    def test_what_is_in_it(self):
        """The whole package and the library, each with its sum; the same again, byte for byte."""
        name = self.wheels.build_wheel(self.folder.name)
        self.assertEqual(name, f"hwemiduk-{hwemiduk.__version__}-py3-none-linux_x86_64.whl")
        with zipfile.ZipFile(os.path.join(self.folder.name, name)) as archive:
            held = {path: archive.read(path) for path in archive.namelist()}
        source = ROOT / "python" / "src" / "hwemiduk"
        expected = {f"hwemiduk/{path.name}": path.read_bytes() for path in source.iterdir() if path.suffix != ".so" and path.is_file()}
        self.assertIn("hwemiduk/py.typed", expected)
        expected["hwemiduk/libhwemiduk.so"] = Path(_library.library._name).read_bytes()
        about = f"hwemiduk-{hwemiduk.__version__}.dist-info"
        self.assertEqual({path: data for path, data in held.items() if not path.startswith(about)}, expected)
        rows = [row.split(",") for row in held[f"{about}/RECORD"].decode().splitlines()]
        self.assertEqual(sorted(row[0] for row in rows), sorted(held))
        for path, digest, length in rows:
            if path != f"{about}/RECORD":
                kept = base64.urlsafe_b64encode(hashlib.sha256(held[path]).digest()).decode().rstrip("=")
                self.assertEqual((digest, length), (f"sha256={kept}", str(len(held[path]))), path)
        self.assertIn(f"\nVersion: {hwemiduk.__version__}\n", held[f"{about}/METADATA"].decode())
        first = Path(self.folder.name, name).read_bytes()
        self.wheels.build_wheel(self.folder.name)
        self.assertEqual(Path(self.folder.name, name).read_bytes(), first)

    def test_without_a_library(self):
        with mock.patch.dict(os.environ, {"HWEMIDUK_LIBRARY": "/nowhere/libhwemiduk.so"}), self.assertRaises(SystemExit) as caught:
            self.wheels.build_wheel(self.folder.name)
        self.assertIn("it is not at /nowhere/libhwemiduk.so. bin/build-shared builds it", str(caught.exception))
        self.assertEqual(os.listdir(self.folder.name), [])

    def test_no_library(self):
        with mock.patch.dict(os.environ, {"HWEMIDUK_LIBRARY": __file__}), self.assertRaises(SystemExit):
            self.wheels.build_wheel(self.folder.name)


if __name__ == "__main__":
    unittest.main()
