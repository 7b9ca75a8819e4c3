"""python -m hwemiduk store make|add|list|fetch|remove|check|rescue: a register of lines kept in a file of blocks."""

from __future__ import annotations

import argparse
import sys
from contextlib import contextmanager
from typing import Any, Iterator, List, Optional, Sequence, Tuple

from . import Peptidoform, Refusal
from ._console import ACCEPTED, REFUSED, Trouble, hinted, lines, marked, opened
from ._library import LIMITS
from ._store import FIRST, FURTHER, Block, Entry, Store

_NOT_ALLOWED, _NO_ENTRY, _PRESENT, _NO_ROOM, _DAMAGED, _NO_BLOCKS = 18, 22, 23, 24, 25, 26


def _say(words: str) -> None:
    """What is no answer goes to standard error, behind all answers so far."""
    sys.stdout.flush()
    print(words, file=sys.stderr)


@contextmanager
def _with_file(name: str) -> Iterator[None]:
    """What goes wrong with a file of blocks is trouble with that name."""
    try:
        yield
    except OSError as error:
        raise Trouble(f"{name}: {error.strerror or error}") from None
    except Refusal as refusal:
        if refusal.number != _NO_BLOCKS:
            raise
        raise Trouble(f"{name}: {_refused(refusal, None)}") from None


def _loaded(name: str) -> Store:
    with _with_file(name):
        return Store.load(name)


@contextmanager
def _edited(name: str) -> Iterator[Store]:
    """The store in a file, which is saved at the end. Only what the file itself brings is trouble with it."""
    with _with_file(name):
        editing = Store.edit(name)
        store = editing.__enter__()
    try:
        yield store
    except BaseException:
        # what was raised goes on, and nothing is saved
        if not editing.__exit__(*sys.exc_info()):
            raise
    else:
        with _with_file(name):
            editing.__exit__(None, None, None)


def _refused(refusal: Refusal, store: Optional[Store]) -> str:
    """A refusal of a store in words, with what can be done."""
    advice = {
        _PRESENT: "remove it first, or take another number",
        _DAMAGED: "'store check' says what is damaged, 'store rescue' copies what survives into a new file",
        _NO_BLOCKS: f"a file of blocks has {LIMITS.block:,} to {LIMITS.block * LIMITS.blocks:,} bytes, {LIMITS.block} for each block; 'store rescue' takes the whole blocks at its front",
    }.get(refusal.number, "")
    if refusal.number == _NO_ROOM and store is not None:
        advice = f"{store.survey().free} of {store.blocks} blocks are free"
    return str(refusal) + (f" ({advice})" if advice else "")


def _told(number: int, entry: Entry) -> str:
    """An entry as it is listed, and as `add` takes it again."""
    return f"{number}\t{entry.line}\t{','.join(map(str, entry.placement)) or '-'}"


def _counted(count: int, one: str, many: str) -> str:
    return f"{count} {one if count == 1 else many}"


def make(given: argparse.Namespace) -> int:
    """Makes a new file with an empty store."""
    with _with_file(given.file):
        Store(given.blocks).save(given.file, new=True)
    return ACCEPTED


def _natural(digits: str) -> int:
    """The number that digits give; of more than any number here has, one that is too large for each."""
    return int(digits[-20:]) if not digits[:-20].strip("0") else 1 << 64


class _Unread(ValueError):
    """Why a line of input is no entry to add."""


def _fields(raw: bytes, number: Optional[int]) -> Tuple[int, bytes, int, Optional[List[int]]]:
    """The number, the line, the byte where the line begins, and the placement of a line of input: NUMBER, a tab, LINE, and perhaps a tab and PLACEMENT; without NUMBER where they are numbered."""
    fields = raw.split(b"\t")
    begin = 0
    if number is None:
        if len(fields) < 2 or not fields[0].isdigit():
            raise _Unread("a number and a tab should stand before the line; --from N numbers the lines")
        number, begin = _natural(fields[0].decode("ascii")), len(fields[0]) + 1
        del fields[0]
    if number >= 1 << 32:
        raise _Unread(f"the number of an entry is 0 to {(1 << 32) - 1}")
    if len(fields) > 2:
        raise _Unread("behind the line stands nothing but a tab and its placement")
    if len(fields) == 1 or fields[1] in (b"", b"-"):
        return number, fields[0], begin, None
    positions = fields[1].split(b",")
    if not all(position.isdigit() for position in positions):
        raise _Unread("a placement is positions with commas between, or - for the first that is allowed")
    return number, fields[0], begin, [_natural(position.decode("ascii")) for position in positions]


class _Kept(Exception):
    """The file is to be left as it is."""


def add(given: argparse.Namespace) -> int:
    """Adds the lines of a file, or of standard input. Those that are refused are told."""
    added = refused = 0
    try:
        with opened(given.lines) as file, _edited(given.file) as store:
            for at, raw in enumerate(lines(given.lines, file), 1):
                raw = raw[:-1] if raw[-1:] == b"\n" else raw
                raw = raw[:-1] if given.crlf and raw[-1:] == b"\r" else raw
                words = _added(store, raw, None if given.start is None else given.start + at - 1)
                if words is None:
                    added += 1
                else:
                    refused += 1
                    _say(f"{given.lines}:{at}:{words}")
            if refused and given.all:
                raise _Kept
            survey, blocks = store.survey(), store.blocks
    except _Kept:
        _say(f"hwemiduk: {given.file}: {refused} refused, so that none were added")
        return REFUSED
    _say(f"hwemiduk: {given.file}: {added} added, {refused} refused; {survey.free} of {blocks} blocks are free")
    return REFUSED if refused else ACCEPTED


def _added(store: Store, raw: bytes, numbered: Optional[int]) -> Optional[str]:
    """Adds what a line of input says; else why not, with the column where it is one of the line."""
    try:
        number, line, begin, placement = _fields(raw, numbered)
    except _Unread as unread:
        return f" {unread}"
    try:
        p = Peptidoform(line)
    except Refusal as refusal:
        assert refusal.column is not None
        return f"{begin + refusal.column}: {refusal.number}: {refusal.words}{hinted(refusal)}\n{marked(refusal)}"
    try:
        store.add(number, p, placement)
    except Refusal as refusal:
        none = " (the line allows none: it cannot be kept)" if placement is None and refusal.number == _NOT_ALLOWED else ""
        return f" entry {number}: {_refused(refusal, store)}{none}"
    except ValueError as error:
        return f" entry {number}: {error}"
    return None


def list_(given: argparse.Namespace) -> int:
    """Prints the entries that survive, by ascending numbers; those that are damaged are told."""
    store = _loaded(given.file)
    damaged = store.damaged()
    _fetched(given.file, store, store.survivors())
    _fetched(given.file, store, damaged)
    if not damaged and store.strays():
        _say(f"hwemiduk: {given.file}: some blocks are damaged, of which no entry is part: 'store check' says which")
        return REFUSED
    return REFUSED if damaged else ACCEPTED


def fetch(given: argparse.Namespace) -> int:
    """Prints the entries with these numbers."""
    return _fetched(given.file, _loaded(given.file), given.number)


def _fetched(name: str, store: Store, numbers: Sequence[int]) -> int:
    status = ACCEPTED
    for number in numbers:
        try:
            print(_told(number, store[number]))
        except (KeyError, Refusal) as error:
            status = _missed(name, number, error, store)
    return status


def remove(given: argparse.Namespace) -> int:
    """Removes the entries with these numbers."""
    status = ACCEPTED
    with _edited(given.file) as store:
        for number in given.number:
            try:
                del store[number]
            except (KeyError, Refusal) as error:
                status = _missed(given.file, number, error, store)
    return status


def _missed(name: str, number: int, error: Exception, store: Store) -> int:
    refusal = error if isinstance(error, Refusal) else Refusal(_NO_ENTRY)
    _say(f"hwemiduk: {name}: entry {number}: {_refused(refusal, store)}")
    return REFUSED


def check(given: argparse.Namespace) -> int:
    """Prints how the whole area is: its blocks, the entries that survive, those that are damaged, and each block that is out of place."""
    try:
        with _with_file(given.file):
            data = _bytes(given.file)
        store = Store.from_bytes(data)
    except Refusal as refusal:
        print(f"{given.file}: {_refused(refusal, None)}")
        return REFUSED
    survey, survivors, damaged, strays = store.survey(), store.survivors(), store.damaged(), store.strays()
    counts = f"{survey.free} free, {survey.first} first, {survey.further} further, {survey.other} of no kind, {survey.unsound} unsound"
    print(f"{given.file}: {_counted(store.blocks, 'block', 'blocks')}: {counts}")
    print(f"{given.file}: {_counted(len(survivors), 'entry survives', 'entries survive')}{_numbers(survivors)}")
    print(f"{given.file}: {_counted(len(damaged), 'entry is damaged', 'entries are damaged')}{_numbers(damaged)}")
    for block in strays:
        print(f"{given.file}: block {block.index}: {_stray(store, block, survivors)}")
    return REFUSED if damaged or strays else ACCEPTED


def _numbers(numbers: Sequence[int]) -> str:
    return ": " + " ".join(map(str, numbers)) if numbers else ""


def _stray(store: Store, block: Block, survivors: Sequence[int]) -> str:
    """What is wrong with a block that is neither free nor part of an entry that survives."""
    what = {1: "free", FIRST: f"the first of entry {block.number}", FURTHER: f"a further one of entry {block.number}"}.get(block.kind, f"of kind {block.kind}, which there is not")
    if not block.sound:
        return f"unsound; by its bytes, which may be wrong, it is {what}"
    if block.kind not in (FIRST, FURTHER):
        return what
    if block.number in survivors:
        return f"{what}, to which it does not belong"
    return f"{what}, which " + ("is damaged" if block.number in store else "no sound block begins")


def _bytes(name: str) -> bytes:
    """A file's bytes, no more than show that there are too many."""
    with open(name, "rb") as file:
        return file.read(LIMITS.block * LIMITS.blocks + 1)


def rescue(given: argparse.Namespace) -> int:
    """Copies the entries that survive into a new file. Of a file that is not whole blocks, those at its front are taken."""
    with _with_file(given.file):
        data = _bytes(given.file)
    whole = min(len(data) // LIMITS.block, LIMITS.blocks)
    if whole == 0:
        raise Trouble(f"{given.file}: {Refusal(_NO_BLOCKS)} (it has {len(data)} bytes, and no whole block)")
    old = Store.from_bytes(data[: whole * LIMITS.block])
    cut = len(data) != whole * LIMITS.block
    if cut:
        _say(f"hwemiduk: {given.file}: {Refusal(_NO_BLOCKS)}; only the whole blocks at its front are taken: {whole}")
    new = Store(given.blocks or whole)
    try:
        numbers = old.copy_survivors(new)
    except Refusal as refusal:
        _say(f"hwemiduk: {given.newfile}: {_refused(refusal, new)}; nothing is written")
        return REFUSED
    with _with_file(given.newfile):
        new.save(given.newfile, new=True)
    damaged, strays = old.damaged(), old.strays()
    _say(f"hwemiduk: {given.newfile}: {_counted(len(numbers), 'entry', 'entries')} copied; {_counted(len(damaged), 'entry is damaged', 'entries are damaged')}{_numbers(damaged)}")
    return REFUSED if cut or damaged or strays else ACCEPTED


def _number(text: str) -> int:
    if not (text.isascii() and text.isdigit() and _natural(text) < 1 << 32):
        raise argparse.ArgumentTypeError(f"the number of an entry is 0 to {(1 << 32) - 1}, and not {text[:40]!r}")
    return _natural(text)


def _block_count(text: str) -> int:
    if not (text.isascii() and text.isdigit() and 1 <= _natural(text) <= LIMITS.blocks):
        raise argparse.ArgumentTypeError(f"a file has 1 to {LIMITS.blocks} blocks, and not {text[:40]!r}")
    return _natural(text)


_DESCRIPTION = f"""A register of lines, kept in a file of 1 to {LIMITS.blocks} blocks of {LIMITS.block} bytes: entries by their numbers, 0 to {(1 << 32) - 1}. Each
block has a sum, so that a copy shows which entries survived. 'list' and 'fetch' print an entry as NUMBER, a tab, the canonical
LINE, a tab and its PLACEMENT, positions with commas between, or - where nothing floats; 'add' takes the same."""

_EPILOG = """A file that is changed is written anew in its folder, synced, and then put in the place of the old one: whatever happens, it
holds all of the old area or all of the new one. What is left of a run that was killed is a file .hwemiduk-*.new. 'add' and
'remove' wait for each other (an advisory lock, flock); the others need none.
Status: 0 all well; 1 something is refused or damaged; 2 trouble."""


def add_to(commands: Any) -> None:
    """Adds the command `store` to those of `python -m hwemiduk`."""
    shape = {"formatter_class": argparse.RawDescriptionHelpFormatter}
    parser = commands.add_parser("store", help="keep a register of lines in a file of blocks", description=_DESCRIPTION, epilog=_EPILOG, **shape)
    parts = parser.add_subparsers(dest="part", required=True)

    def part(run: Any, name: str, words: str) -> argparse.ArgumentParser:
        one = parts.add_parser(name, help=words, description=words[:1].upper() + words[1:] + ".")
        one.set_defaults(run=run)
        one.add_argument("file", metavar="FILE", help="the file of blocks")
        return one

    one = part(make, "make", "make a new file with an empty register")
    one.add_argument("--blocks", type=_block_count, default=LIMITS.blocks, metavar="N", help="how many blocks, 1 to %(default)s; %(default)s where none is given")
    one = part(add, "add", "add lines, each with its placement or with the first that is allowed")
    one.add_argument("lines", nargs="?", default="-", metavar="LINES", help="a file with NUMBER, a tab, LINE, and perhaps a tab and PLACEMENT in each line; '-', or none, is standard input")
    one.add_argument("--from", dest="start", type=_number, metavar="N", help="the lines have no numbers before them: the first gets N, the next N + 1, and so on")
    one.add_argument("--all", action="store_true", help="add all of them, or, where one is refused, none")
    one.add_argument("--crlf", action="store_true", help="a line may end in CR LF")
    part(list_, "list", "print the entries that survive")
    for run, name, words in ((fetch, "fetch", "print the entries with these numbers"), (remove, "remove", "remove the entries with these numbers")):
        part(run, name, words).add_argument("number", nargs="+", type=_number, metavar="NUMBER")
    part(check, "check", "check the whole file: its blocks, the entries that survive, and what is damaged")
    one = part(rescue, "rescue", "copy the entries that survive into a new file")
    one.add_argument("newfile", metavar="NEWFILE", help="the new file, which must not be there")
    one.add_argument("--blocks", type=_block_count, metavar="N", help="how many blocks it has; as many as FILE where none is given")
