"""The register kept in blocks: stores, their files, and the command `store`."""

import contextlib
import io
import os
import pickle
import resource
import signal
import stat
import sys
import tempfile
import time
import unittest
from pathlib import Path
from unittest import mock

ROOT = Path(__file__).resolve().parent.parent.parent
sys.path.insert(0, str(ROOT / "python" / "src"))

from hwemiduk import WORDS, Block, Entry, Peptidoform, Refusal, Store, Survey, read  # noqa: E402
from hwemiduk import __main__ as commands  # noqa: E402
from hwemiduk import _store  # noqa: E402

#: A line of 1,041 bytes: with its placement it takes three blocks.
LONG = "A" + ("[" + "x" * 128 + "]") * 8


def refusal(call, *arguments):
    """The number and the place of a call's refusal, or None."""
    try:
        call(*arguments)
    except Refusal as error:
        return error.number, error.place
    return None


def in_a_child(run):
    """How a forked child ends that runs this: its status, or minus the signal that killed it; and what it said, where the run gives words too."""
    ready, told = os.pipe()
    child = os.fork()
    if child == 0:
        try:
            status, words = run()
            os.write(told, words.encode())
            os._exit(status)
        finally:
            os._exit(99)
    os.close(told)
    with open(ready) as said:
        words = said.read()
    _, status = os.waitpid(child, 0)
    return (-os.WTERMSIG(status) if os.WIFSIGNALED(status) else os.WEXITSTATUS(status)), words


def three():
    """A store of eight blocks with three entries, in blocks 0, 1 to 3, and 4."""
    store = Store(8)
    store.add(17, "[+1]^2?ac")
    store.add(0, LONG)
    store.add(2**32 - 1, "M[+16#a]C[#a]", (2,))
    return store


class Stores(unittest.TestCase):
    def test_a_plain_map(self):
        store = three()
        self.assertEqual(store[17], Entry((1, 2), "[+1]^2?AC"))
        self.assertEqual(store[0], Entry((), LONG))
        self.assertEqual(store[2**32 - 1], Entry(placement=(2,), line="M[+16#a]C[#a]"))
        self.assertEqual((len(store), list(store), store.blocks), (3, [17, 0, 2**32 - 1], 8))
        self.assertEqual((17 in store, 1 in store, "17" in store), (True, False, False))
        self.assertEqual(store.survey(), Survey(free=3, first=3, further=2, other=0, unsound=0))
        self.assertEqual((store.survivors(), store.damaged(), store.strays()), ([0, 17, 2**32 - 1], [], []))
        self.assertEqual([store.blocks_of(number) for number in (17, 0, 2**32 - 1)], [[0], [1, 2, 3], [4]])
        del store[0]
        self.assertEqual((list(store), store.survey().free), ([17, 2**32 - 1], 6))
        store.add(5, "A")
        self.assertEqual(store.blocks_of(5), [1])
        store.clear()
        self.assertEqual((store, len(store), list(store)), (Store(8), 0, []))

    def test_refusals(self):
        store = three()
        before = bytes(store)
        for number in [1, 18, 2**31]:
            for call in [store.__getitem__, store.__delitem__, store.blocks_of]:
                with self.assertRaises(KeyError) as caught:
                    call(number)
                self.assertEqual(caught.exception.args, (number,))
        self.assertEqual(refusal(store.add, 17, "A"), (23, 0))
        self.assertEqual(refusal(store.add, 1, "A" + ("[" + "x" * 128 + "]") * 15), (24, 0))
        self.assertEqual(refusal(store.add, 17, "A[U:35]"), (9, 2))
        for line, placement in [("[+1]^2?A", None), ("[+1]^2?AC", (2, 1)), ("[+1]^2?AC", (1, 3)), ("[+1]^2?AC", [1, 1] + [0] * 6)]:
            self.assertEqual(refusal(store.add, 1, line, placement), (18, 0))
        for placement in [(), (1,), (1, 2, 0), (1, 2, 0, 0, 0, 0, 0, 1), (1, -2), (1, 256), (1, 2**16 + 2)]:
            with self.assertRaises(ValueError) as caught:
                store.add(1, "[+1]^2?AC", placement)
            self.assertNotIsInstance(caught.exception, Refusal)
        for number in [-1, 2**32, 2**64]:
            for call in [store.__getitem__, store.__delitem__, lambda number: store.add(number, "A")]:
                with self.assertRaisesRegex(ValueError, r"0 to 2\^32 - 1"):
                    call(number)
        for number in ["17", 17.0, None]:
            with self.assertRaises(TypeError):
                store[number]
        self.assertEqual(bytes(store), before)

    def test_what_is_added(self):
        store = Store()
        self.assertEqual(store.blocks, 128)
        for number, line in enumerate(["a", b"a", bytearray(b"a"), memoryview(b"a"), read("a")]):
            store.add(number, line)
            self.assertEqual(store[number].line, "A")
        p = Peptidoform("[+1][+1]?AC")
        for number, placement in enumerate(p.placements(), 10):
            store.add(number, p, placement)
            store.add(number + 10, p, (*placement, 0, 0, 0, 0, 0, 0))
            self.assertEqual((store[number].placement, store[number + 10].placement), (placement, placement))
        with self.assertRaises(TypeError):
            store.add(99, None)

    def test_areas(self):
        for blocks in [0, -1, 129, 10**12]:
            with self.assertRaisesRegex(ValueError, "1 to 128 blocks"):
                Store(blocks)
        for size in [0, 1, 511, 513, 65537, 129 * 512]:
            self.assertEqual(refusal(Store.from_bytes, bytes(size)), (26, 0))
        zeros = Store.from_bytes(bytes(1024))
        self.assertEqual((zeros.survey(), list(zeros), refusal(zeros.add, 0, "A")), (Survey(0, 0, 0, 2, 0), [], (24, 0)))
        with self.assertRaises(KeyError):
            zeros[0]
        store = three()
        area = bytearray(bytes(store))
        copy = Store.from_bytes(area)
        area[:] = bytes(len(area))
        self.assertEqual((copy, bytes(copy)), (store, bytes(store)))
        self.assertEqual(pickle.loads(pickle.dumps(store)), store)
        self.assertNotEqual(store, Store(8))
        self.assertNotEqual(store, bytes(store))
        with self.assertRaises(TypeError):
            hash(store)
        self.assertEqual(repr(store), "<hwemiduk.Store of 8 blocks, 3 of them free>")

    def test_to_the_byte(self):
        """Document 02, L5, by hand."""
        store = Store(2)
        store.add(66051, "[+01]^2?ac")
        front = bytes([2, 17, 0, 255, 3, 2, 1, 0, 1, 2, 0, 0, 0, 0, 0, 0]) + b"[+1]^2?AC"
        total = sum((i + 1) * byte for i, byte in enumerate(front))
        self.assertEqual(bytes(store)[:512], front + bytes(508 - len(front)) + total.to_bytes(4, "little"))
        self.assertEqual(bytes(store)[512:], bytes([1, 0, 0, 255]) + bytes(504) + bytes([253, 3, 0, 0]))

    def test_one_byte(self):
        """"After one byte changes, the entries with no block touched are fetched as before and the touched one is refused." """
        store = three()
        entries = {number: store[number] for number in store}
        lost = {0: 17, 1: 0, 2: 0, 3: 0, 4: 2**32 - 1}
        for at in range(0, 8 * 512, 37):
            area = bytearray(bytes(store))
            area[at] ^= 0x40
            copy = Store.from_bytes(area)
            left = sorted(set(entries) - {lost.get(at // 512)})
            self.assertEqual(copy.survivors(), left, at)
            self.assertEqual({number: copy[number] for number in left}, {number: entries[number] for number in left})
            self.assertEqual(copy.survey().unsound, 1)
            for number in [lost.get(at // 512, 99), 99]:
                for call in [copy.__getitem__, copy.__delitem__, lambda number: copy.add(number, "A")]:
                    self.assertEqual(refusal(call, number), (25, 0), at)
            # what is left goes into an empty store
            rescued = Store(8)
            self.assertEqual(copy.copy_survivors(rescued), left)
            self.assertEqual({number: rescued[number] for number in rescued}, {number: entries[number] for number in left})

    def test_what_is_damaged(self):
        store = three()

        def changed(*bytes_at):
            area = bytearray(bytes(store))
            for at, byte in bytes_at:
                area[at] = byte
            return Store.from_bytes(area)

        # in the content of a first block; in a further one; the kind of a first block, whose number is still seen in a further one; in a free block
        for at, byte, damaged, stray in [(20, 1, [17], [0]), (2 * 512 + 20, 1, [0], [1, 2, 3]), (512, 9, [0], [1, 2, 3]), (6 * 512 + 20, 1, [], [6])]:
            copy = changed((at, byte))
            self.assertEqual((copy.damaged(), [block.index for block in copy.strays()]), (damaged, stray))
            self.assertEqual([block.sound for block in copy.each_block()], [index != at // 512 for index in range(8)])
        blocks = list(changed((512, 9)).each_block())
        self.assertEqual(blocks[:3], [Block(0, True, 2, 17, None), Block(1, False, 9, 0, 2), Block(2, True, 3, 0, 3)])
        # two first blocks of one number
        area = bytes(store)
        twice = Store.from_bytes(area[: 5 * 512] + area[:512] + area[6 * 512 :])
        self.assertEqual((list(twice), twice.survivors(), twice.damaged()), ([17, 0, 2**32 - 1, 17], [0, 2**32 - 1], [17]))
        self.assertEqual([block.index for block in twice.strays()], [0, 5])

    def test_copying_survivors_is_all_or_nothing(self):
        for into, taken, number in [(Store(3), 5, 24), (Store(8), 17, 23)]:
            into.add(taken, "A")
            before = bytes(into)
            self.assertEqual(refusal(three().copy_survivors, into)[0], number)
            self.assertEqual(bytes(into), before)
        into = Store(8)
        into.add(5, "A")
        self.assertEqual((three().copy_survivors(into), into.survivors()), ([0, 17, 2**32 - 1], [0, 5, 17, 2**32 - 1]))

    def test_the_stored_area(self):
        """compare/vectors/blocks.area and what blocks.txt says of calls over it: no code of this project has made them."""
        damaged = (ROOT / "compare" / "vectors" / "blocks.area").read_bytes()
        head, *rows = [row.split("\t") for row in (ROOT / "compare" / "vectors" / "blocks.txt").read_text().splitlines()]
        at, was = int(head[1]), int(head[2])
        areas = {"damaged": damaged, "whole": damaged[:at] + bytes([was]) + damaged[at + 1 :]}
        met = 0
        for area, call, number, placement, line, answer, what in rows:
            store = Store.from_bytes(areas[area])
            try:
                if call == "fetch":
                    entry = store[int(number)]
                    positions, text = what.split(" ", 1)
                    self.assertEqual((entry.line, list(entry.placement)), (text, list(map(int, positions.split(",")))[: len(entry.placement)]))
                elif call == "add":
                    store.add(int(number), line, tuple(map(int, placement.split(","))) if answer == "0" else None)
                elif call == "remove":
                    del store[int(number)]
                elif call == "survey":
                    self.assertEqual(" ".join(map(str, store.survey())), what)
                got = "0"
            except KeyError:
                got = "22"
            except Refusal as error:
                got = str(error.number)
            if call == "entry" or answer == "18":
                continue
            self.assertEqual(got, answer, (area, call, number))
            after = areas[area]
            for block in what.split() if call in ("add", "remove") else []:
                index, front, total = block.split(":")
                made = bytes.fromhex(front).ljust(508, b"\0") + bytes.fromhex(total)
                after = after[: int(index) * 512] + made + after[int(index) * 512 + 512 :]
            self.assertEqual(bytes(store), after, (area, call, number))
            met += 1
        self.assertGreater(met, 40)
        whole = Store.from_bytes(areas["whole"])
        self.assertEqual((list(whole), whole.blocks_of(66051), whole.strays()), ([17, 1000, 0, 66051, 2**32 - 1], [6, 2], []))


class Files(unittest.TestCase):
    def setUp(self):
        folder = tempfile.TemporaryDirectory()
        self.addCleanup(folder.cleanup)
        self.folder = folder.name
        self.path = os.path.join(folder.name, "store")

    def left(self):
        """What lies in the folder."""
        return sorted(os.listdir(self.folder))

    def test_load_and_save(self):
        store = three()
        store.save(self.path)
        self.assertEqual((Path(self.path).read_bytes(), Store.load(Path(self.path))), (bytes(store), store))
        del store[17]
        store.save(Path(self.path))
        self.assertEqual((Store.load(self.path), self.left()), (store, ["store"]))
        with self.assertRaises(FileExistsError):
            Store(8).save(self.path, new=True)
        self.assertEqual((Store.load(self.path), self.left()), (store, ["store"]))
        for size in [0, 511, 513, 65537, 10**6]:
            Path(self.path).write_bytes(bytes(size))
            self.assertEqual(refusal(Store.load, self.path), (26, 0))
        with self.assertRaises(FileNotFoundError):
            Store.load(self.path + "x")
        with self.assertRaises(FileNotFoundError):
            store.save(os.path.join(self.folder, "nowhere", "store"))

    def test_a_new_file_where_there_are_no_links(self):
        with mock.patch.object(os, "link", side_effect=PermissionError(1, "Operation not permitted")):
            three().save(self.path, new=True)
            self.assertEqual((Store.load(self.path), self.left()), (three(), ["store"]))
            with self.assertRaises(PermissionError):
                three().save(self.path, new=True)
        self.assertEqual(self.left(), ["store"])

    def test_permissions_and_links(self):
        before = os.umask(0o027)
        try:
            three().save(self.path)
        finally:
            os.umask(before)
        self.assertEqual(stat.S_IMODE(os.stat(self.path).st_mode), 0o640)
        os.chmod(self.path, 0o604)
        link = os.path.join(self.folder, "link")
        os.symlink("store", link)
        Store(8).save(link)
        self.assertTrue(os.path.islink(link))
        self.assertEqual((stat.S_IMODE(os.stat(self.path).st_mode), Store.load(self.path), self.left()), (0o604, Store(8), ["link", "store"]))
        with self.assertRaises(OSError):
            Store(8).save(self.folder)
        os.mkfifo(os.path.join(self.folder, "fifo"))
        with self.assertRaisesRegex(OSError, "Not a regular file"):
            Store(8).save(os.path.join(self.folder, "fifo"))
        self.assertEqual(self.left(), ["fifo", "link", "store"])

    def test_edit(self):
        three().save(self.path)
        inode = os.stat(self.path).st_ino
        with Store.edit(self.path) as store:
            self.assertEqual(store, three())
        self.assertEqual(os.stat(self.path).st_ino, inode, "what has not changed is not written")
        with self.assertRaises(ZeroDivisionError), Store.edit(self.path) as store:
            del store[17]
            1 / 0
        self.assertEqual(Store.load(self.path), three())
        with Store.edit(self.path) as store:
            del store[17]
        self.assertEqual((Store.load(self.path), self.left()), (store, ["store"]))
        Path(self.path).write_bytes(b"junk")
        with self.assertRaises(Refusal), Store.edit(self.path):
            self.fail("it is not edited")
        self.assertEqual(Path(self.path).read_bytes(), b"junk")

    def test_killed_at_each_step(self):
        """A process that is killed while it saves leaves all of the old area or all of the new one."""
        after = three()
        del after[17]
        for name, which, saved in [("open", 1, False), ("fchmod", 1, False), ("fsync", 1, False), ("replace", 1, False), ("replace", -1, True), ("fsync", 2, True), ("close", 1, True)]:
            with self.subTest(f"{name}, {which}"):
                three().save(self.path)

                def run():
                    real, calls = getattr(os, name), []

                    def killed(*arguments, **named):
                        calls.append(arguments)
                        if len(calls) == which:
                            os.kill(os.getpid(), signal.SIGKILL)
                        answer = real(*arguments, **named)
                        if which < 0:
                            os.kill(os.getpid(), signal.SIGKILL)
                        return answer

                    with mock.patch.object(_store.os, name, killed), Store.edit(self.path) as store:
                        del store[17]
                    return 0, ""

                self.assertEqual(in_a_child(run), (-signal.SIGKILL, ""))
                self.assertEqual(Store.load(self.path), after if saved else three())
                for left in self.left():
                    self.assertRegex(left, r"^store$|^\.hwemiduk-[0-9a-f]*\.new$")
                # the lock went with the process
                with Store.edit(self.path) as store:
                    store.add(5, "A")
                self.assertIn(5, Store.load(self.path))

    def test_no_room_on_the_disk(self):
        """A file that cannot be written to its end leaves the old one, and nothing beside it."""
        three().save(self.path)

        def run():
            resource.setrlimit(resource.RLIMIT_FSIZE, (1024, 1024))
            try:
                with Store.edit(self.path) as store:
                    del store[17]
            except OSError as error:
                return 1, error.strerror
            return 0, ""

        self.assertEqual(in_a_child(run), (1, "File too large"))
        self.assertEqual((Store.load(self.path), self.left()), (three(), ["store"]))
        for name in ["fsync", "replace", "fchmod"]:
            with mock.patch.object(_store.os, name, side_effect=OSError(5, "Input/output error")), self.assertRaises(OSError):
                Store(8).save(self.path)
            self.assertEqual((Store.load(self.path), self.left()), (three(), ["store"]))

    def test_several_processes(self):
        """Each waits for the others: no change is lost."""
        Store().save(self.path)

        def run(first):
            for number in range(first, first + 8):
                with Store.edit(self.path) as store:
                    store.add(number, "A")

        children = []
        for first in [0, 100, 200]:
            child = os.fork()
            if child == 0:
                try:
                    run(first)
                    os._exit(0)
                finally:
                    os._exit(99)
            children.append(child)
        self.assertEqual([os.waitpid(child, 0)[1] for child in children], [0] * 3)
        self.assertEqual(Store.load(self.path).survivors(), [*range(8), *range(100, 108), *range(200, 208)])
        self.assertEqual(self.left(), ["store"])

    def test_one_waits(self):
        Store(8).save(self.path)
        ready, told = os.pipe()
        child = os.fork()
        if child == 0:
            try:
                with Store.edit(self.path) as store:
                    os.write(told, b"x")
                    time.sleep(0.3)
                    store.add(1, "A")
                os._exit(0)
            finally:
                os._exit(99)
        os.read(ready, 1)
        os.close(ready), os.close(told)
        with Store.edit(self.path) as store:
            self.assertEqual(list(store), [1])
            store.add(2, "C")
        self.assertEqual(os.waitpid(child, 0)[1], 0)
        self.assertEqual(Store.load(self.path).survivors(), [1, 2])


class Command(unittest.TestCase):
    def setUp(self):
        folder = tempfile.TemporaryDirectory()
        self.addCleanup(folder.cleanup)
        self.folder = folder.name
        self.file, self.lines, self.new = (os.path.join(folder.name, name) for name in ("register", "lines", "new"))

    def run_it(self, *arguments, lines=None, out=None):
        """The status, and what was said on standard output and standard error."""
        out, error = out or io.StringIO(), io.StringIO()
        given = mock.Mock(buffer=io.BytesIO(lines)) if lines is not None else sys.stdin
        with contextlib.redirect_stdout(out), contextlib.redirect_stderr(error), mock.patch.object(sys, "stdin", given):
            try:
                status = commands.main(["store", *arguments])
            except SystemExit as end:
                status = end.code
        return status, out.getvalue() if isinstance(out, io.StringIO) else None, error.getvalue()

    def made(self):
        three().save(self.file)

    def change(self, at, byte):
        area = bytearray(Path(self.file).read_bytes())
        area[at] = byte
        Path(self.file).write_bytes(area)

    def test_a_session(self):
        self.assertEqual(self.run_it("make", self.file, "--blocks", "8"), (0, "", ""))
        self.assertEqual(Path(self.file).read_bytes(), bytes(Store(8)))
        Path(self.lines).write_bytes(b"17\t[+1]^2?ac\n18\tM[+16#a]C[#a]\t2\n4294967295\tpeptide\t-")
        self.assertEqual(self.run_it("add", self.file, self.lines), (0, "", f"hwemiduk: {self.file}: 3 added, 0 refused; 5 of 8 blocks are free\n"))
        listed = "17\t[+1]^2?AC\t1,2\n18\tM[+16#a]C[#a]\t2\n4294967295\tPEPTIDE\t-\n"
        self.assertEqual(self.run_it("list", self.file), (0, listed, ""))
        self.assertEqual(self.run_it("fetch", self.file, "0" * 9999 + "18"), (0, "18\tM[+16#a]C[#a]\t2\n", ""))
        self.assertEqual(self.run_it("remove", self.file, "18"), (0, "", ""))
        self.assertEqual(self.run_it("list", self.file)[1], "17\t[+1]^2?AC\t1,2\n4294967295\tPEPTIDE\t-\n")
        # what is listed is added again as it was
        self.assertEqual(self.run_it("make", self.new)[0], 0)
        self.assertEqual(self.run_it("add", self.new, lines=listed.encode())[0], 0)
        self.assertEqual(self.run_it("list", self.new)[1], listed)
        self.assertEqual(sorted(os.listdir(self.folder)), ["lines", "new", "register"])

    def test_numbered_lines(self):
        self.run_it("make", self.file)
        status, out, error = self.run_it("add", self.file, "--from", "7", "--crlf", lines=b"A\r\nA[\r\n[+1]?AC\t2\r\n")
        self.assertEqual((status, out), (1, ""))
        self.assertEqual(error, f"-:2:3: 4: {WORDS[4]} (the line ends here and should go on)\n    A[\n      ^\nhwemiduk: {self.file}: 2 added, 1 refused; 126 of 128 blocks are free\n")
        self.assertEqual(self.run_it("list", self.file)[1], "7\tA\t-\n9\t[+1]?AC\t2\n")

    def test_lines_that_are_refused(self):
        self.made()
        for line, words in {
            b"18\tA[U:35]": f"-:1:6: 9: {WORDS[9]}\n    A[U:35]\n      ^\n",
            b"18\t": f"-:1:4: 1: {WORDS[1]}\n    \n    ^\n",
            b"18\t[+1]^2?A": f"-:1: entry 18: 18: {WORDS[18]} (the line allows none: it cannot be kept)\n",
            b"18\t[+1]?AC\t3": f"-:1: entry 18: 18: {WORDS[18]}\n",
            b"18\t[+1]?AC\t1,2": "-:1: entry 18: a placement of this line has a position for each of 1 floaters, not 2\n",
            b"17\tA": f"-:1: entry 17: 23: {WORDS[23]} (remove it first, or take another number)\n",
            b"18\t" + b"A" * 200 + LONG.encode() + b"[y]" * 40 + ("[" + "z" * 128 + "]").encode() * 2: f"-:1: entry 18: 24: {WORDS[24]} (3 of 8 blocks are free)\n",
            b"": "-:1: a number and a tab should stand before the line; --from N numbers the lines\n",
            b"A": "-:1: a number and a tab should stand before the line; --from N numbers the lines\n",
            b"-1\tA": "-:1: a number and a tab should stand before the line; --from N numbers the lines\n",
            b"1x\tA": "-:1: a number and a tab should stand before the line; --from N numbers the lines\n",
            b"4294967296\tA": "-:1: the number of an entry is 0 to 4294967295\n",
            b"9" * 9999 + b"\tA": "-:1: the number of an entry is 0 to 4294967295\n",
            b"18\t[+1]?A\t" + b"9" * 9999: f"-:1: entry 18: a position is 0 to 255: ({1 << 64},)\n",
            b"18\tA\t-\tx": "-:1: behind the line stands nothing but a tab and its placement\n",
            b"18\t[+1]?A\tx": "-:1: a placement is positions with commas between, or - for the first that is allowed\n",
            b"18\t[+1]?A\t1,": "-:1: a placement is positions with commas between, or - for the first that is allowed\n",
        }.items():
            status, out, error = self.run_it("add", self.file, lines=line + b"\n")
            self.assertEqual((status, out, error), (1, "", words + f"hwemiduk: {self.file}: 0 added, 1 refused; 3 of 8 blocks are free\n"), line)
        self.assertEqual(Store.load(self.file), three())

    def test_all_or_none(self):
        self.made()
        lines = b"18\tA\n17\tA\n19\tC\n"
        status, out, error = self.run_it("add", "--all", self.file, lines=lines)
        self.assertEqual((status, out, error.split("\n")[1]), (1, "", f"hwemiduk: {self.file}: 1 refused, so that none were added"))
        self.assertEqual(Store.load(self.file), three())
        self.assertEqual(self.run_it("add", self.file, lines=lines)[0], 1)
        self.assertEqual(Store.load(self.file).survivors(), [0, 17, 18, 19, 2**32 - 1])

    def test_numbers_without_an_entry(self):
        self.made()
        for part in ["fetch", "remove"]:
            status, out, error = self.run_it(part, self.file, "5", "17", "6")
            self.assertEqual((status, out), (1, "17\t[+1]^2?AC\t1,2\n" if part == "fetch" else ""))
            self.assertEqual(error, "".join(f"hwemiduk: {self.file}: entry {number}: 22: {WORDS[22]}\n" for number in (5, 6)))
        self.assertEqual(Store.load(self.file).survivors(), [0, 2**32 - 1])

    def test_damage(self):
        self.made()
        self.assertEqual(
            self.run_it("check", self.file),
            (0, f"{self.file}: 8 blocks: 3 free, 3 first, 2 further, 0 of no kind, 0 unsound\n{self.file}: 3 entries survive: 0 17 4294967295\n{self.file}: 0 entries are damaged\n", ""),
        )
        self.change(2 * 512 + 300, 7)
        damaged = f"25: {WORDS[25]} ('store check' says what is damaged, 'store rescue' copies what survives into a new file)\n"
        self.assertEqual(
            self.run_it("check", self.file),
            (
                1,
                f"{self.file}: 8 blocks: 3 free, 3 first, 1 further, 0 of no kind, 1 unsound\n"
                f"{self.file}: 2 entries survive: 17 4294967295\n"
                f"{self.file}: 1 entry is damaged: 0\n"
                f"{self.file}: block 1: the first of entry 0, which is damaged\n"
                f"{self.file}: block 2: unsound; by its bytes, which may be wrong, it is a further one of entry 0\n"
                f"{self.file}: block 3: a further one of entry 0, which is damaged\n",
                "",
            ),
        )
        self.assertEqual(self.run_it("list", self.file), (1, "17\t[+1]^2?AC\t1,2\n4294967295\tM[+16#a]C[#a]\t2\n", f"hwemiduk: {self.file}: entry 0: {damaged}"))
        self.assertEqual(self.run_it("fetch", self.file, "0", "17"), (1, "17\t[+1]^2?AC\t1,2\n", f"hwemiduk: {self.file}: entry 0: {damaged}"))
        self.assertEqual(self.run_it("remove", self.file, "0"), (1, "", f"hwemiduk: {self.file}: entry 0: {damaged}"))
        self.assertEqual(self.run_it("add", self.file, lines=b"0\tA")[2].split("\n")[0] + "\n", f"-:1: entry 0: {damaged}")
        self.assertEqual(self.run_it("rescue", self.file, self.new), (1, "", f"hwemiduk: {self.new}: 2 entries copied; 1 entry is damaged: 0\n"))
        self.assertEqual(self.run_it("check", self.new)[0], 0)
        self.assertEqual((Store.load(self.new).survivors(), Store.load(self.new).blocks), ([17, 2**32 - 1], 8))
        # a free block that is damaged: every entry survives
        self.made()
        self.change(7 * 512 + 9, 7)
        self.assertEqual(self.run_it("check", self.file)[1].split("\n")[3], f"{self.file}: block 7: unsound; by its bytes, which may be wrong, it is free")
        self.assertEqual((self.run_it("list", self.file)[0], self.run_it("check", self.file)[0]), (1, 1))
        os.unlink(self.new)
        self.assertEqual(self.run_it("rescue", self.file, self.new, "--blocks", "5"), (1, "", f"hwemiduk: {self.new}: 3 entries copied; 0 entries are damaged\n"))

    def test_blocks_out_of_place(self):
        area = bytes(three())
        alone = area[: 6 * 512] + area[3 * 512 : 4 * 512] + area[7 * 512 :]
        Path(self.file).write_bytes(alone)
        self.assertEqual(self.run_it("check", self.file)[1].split("\n")[3], f"{self.file}: block 6: a further one of entry 0, to which it does not belong")
        first = area[:512] + area[5 * 512 : 6 * 512] + area[2 * 512 :]
        Path(self.file).write_bytes(first)
        self.assertEqual(
            self.run_it("check", self.file)[1].split("\n")[2:5],
            [f"{self.file}: 1 entry is damaged: 0"] + [f"{self.file}: block {block}: a further one of entry 0, which no sound block begins" for block in (2, 3)],
        )
        self.assertEqual(self.run_it("list", self.file)[::2], (1, f"hwemiduk: {self.file}: entry 0: 22: {WORDS[22]}\n"))
        Path(self.file).write_bytes(bytes(512) + area[512:])
        self.assertEqual(self.run_it("check", self.file)[1].split("\n")[3], f"{self.file}: block 0: of kind 0, which there is not")

    def test_no_blocks(self):
        Path(self.file).write_bytes(bytes(three())[:700])
        words = f"{self.file}: 26: {WORDS[26]} (a file of blocks has 512 to 65,536 bytes, 512 for each block; 'store rescue' takes the whole blocks at its front)\n"
        for arguments in [("list", self.file), ("fetch", self.file, "17"), ("remove", self.file, "17"), ("add", self.file)]:
            self.assertEqual(self.run_it(*arguments, lines=b"18\tA\n"), (2, "", "hwemiduk: " + words))
        self.assertEqual(self.run_it("check", self.file), (1, words, ""))
        self.assertEqual(
            self.run_it("rescue", self.file, self.new),
            (1, "", f"hwemiduk: {self.file}: 26: {WORDS[26]}; only the whole blocks at its front are taken: 1\nhwemiduk: {self.new}: 1 entry copied; 0 entries are damaged\n"),
        )
        self.assertEqual(Store.load(self.new)[17].line, "[+1]^2?AC")
        Path(self.file).write_bytes(bytes(300))
        os.unlink(self.new)
        self.assertEqual(self.run_it("rescue", self.file, self.new), (2, "", f"hwemiduk: {self.file}: 26: {WORDS[26]} (it has 300 bytes, and no whole block)\n"))
        # more than 128 blocks: the first 128
        Path(self.file).write_bytes(bytes(Store()) + bytes(Store(1)))
        self.assertEqual((self.run_it("check", self.file)[0], self.run_it("rescue", self.file, self.new)[0], Store.load(self.new)), (1, 1, Store()))

    def test_rescue_without_room(self):
        self.made()
        self.assertEqual(self.run_it("rescue", self.file, self.new, "--blocks", "4"), (1, "", f"hwemiduk: {self.new}: 24: {WORDS[24]} (4 of 4 blocks are free); nothing is written\n"))
        self.assertFalse(os.path.exists(self.new))
        self.assertEqual(self.run_it("rescue", self.file, self.new, "--blocks", "5")[0], 0)

    def test_trouble(self):
        self.made()
        nowhere = os.path.join(self.folder, "nowhere")
        for arguments, words in [
            (("make", self.file), f"hwemiduk: {self.file}: File exists\n"),
            (("make", os.path.join(nowhere, "x")), f"hwemiduk: {nowhere}/x: No such file or directory\n"),
            (("list", nowhere), f"hwemiduk: {nowhere}: No such file or directory\n"),
            (("check", nowhere), f"hwemiduk: {nowhere}: No such file or directory\n"),
            (("add", nowhere), f"hwemiduk: {nowhere}: No such file or directory\n"),
            (("add", self.file, nowhere), f"hwemiduk: {nowhere}: No such file or directory\n"),
            (("remove", nowhere, "1"), f"hwemiduk: {nowhere}: No such file or directory\n"),
            (("rescue", nowhere, self.new), f"hwemiduk: {nowhere}: No such file or directory\n"),
            (("rescue", self.file, self.file), f"hwemiduk: {self.file}: File exists\n"),
            (("list", self.folder), f"hwemiduk: {self.folder}: Is a directory\n"),
        ]:
            self.assertEqual(self.run_it(*arguments, lines=b""), (2, "", words))
        for arguments in [
            (),
            ("nosuch",),
            ("list",),
            ("fetch", self.file),
            ("fetch", self.file, "x"),
            ("fetch", self.file, "-1"),
            ("fetch", self.file, "4294967296"),
            ("fetch", self.file, "9" * 9999),
            ("fetch", self.file, "²"),
            ("make", self.new, "--blocks", "0"),
            ("make", self.new, "--blocks", "129"),
            ("add", self.file, "--from", "x"),
        ]:
            self.assertEqual(self.run_it(*arguments)[0], 2, arguments)
        self.assertFalse(os.path.exists(self.new))
        self.assertEqual(Store.load(self.file), three())
        for part in ["make", "add", "list", "fetch", "remove", "check", "rescue"]:
            self.assertEqual(self.run_it(part, "--help")[0], 0)

    @unittest.skipUnless(os.path.exists("/dev/full"), "there is no /dev/full")
    def test_output_that_cannot_be_written(self):
        self.made()
        for arguments in [("list", self.file), ("fetch", self.file, "17"), ("check", self.file)]:
            with open("/dev/full", "w") as full:
                self.assertEqual(self.run_it(*arguments, out=full)[::2], (2, "hwemiduk: the output could not be written: No space left on device\n"))

    def test_a_full_disk(self):
        """The file cannot be written to its end: trouble, the old one is there, and nothing beside it."""
        self.made()

        def run():
            resource.setrlimit(resource.RLIMIT_FSIZE, (2048, 2048))
            return self.run_it("add", self.file, lines=b"18\tA\n")[::2]

        self.assertEqual(in_a_child(run), (2, f"hwemiduk: {self.file}: File too large\n"))
        self.assertEqual((Store.load(self.file), os.listdir(self.folder)), (three(), ["register"]))

    def test_input_that_ends_badly(self):
        """Lines that cannot be read to their end are trouble, and nothing is added."""

        class Broken(io.BytesIO):
            def __next__(self):
                if self.tell():
                    raise OSError(5, "Input/output error")
                self.seek(1)
                return b"18\tA\n"

        self.made()
        with mock.patch.object(sys, "stdin", mock.Mock(buffer=Broken())):
            error = io.StringIO()
            with contextlib.redirect_stderr(error):
                status = commands.main(["store", "add", self.file])
        self.assertEqual((status, error.getvalue()), (2, "hwemiduk: -: it cannot be read to its end: Input/output error\n"))
        self.assertEqual(Store.load(self.file), three())


class Kinds(unittest.TestCase):
    def test_kinds_are_those_of_the_header(self):
        header = (ROOT / "include" / "hwemiduk.h").read_text()
        for name, kind in [("FREE", _store.FREE), ("FIRST", _store.FIRST), ("FURTHER", _store.FURTHER)]:
            self.assertRegex(header, rf"HWEMIDUK_BLOCK_{name} = {kind}\b")


if __name__ == "__main__":
    unittest.main()
