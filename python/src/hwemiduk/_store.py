"""The register kept in blocks, and its files."""

from __future__ import annotations

import errno
import fcntl
import operator
import os
import secrets
import stat
from contextlib import contextmanager, suppress
from ctypes import addressof, byref, c_size_t, c_uint8, c_uint32
from typing import IO, Any, Iterator, List, NamedTuple, Optional, Sequence, Tuple, Union

from ._library import LIMITS, Position, give, library, take
from ._peptidoform import Peptidoform, _count, _lent
from ._refusals import Refusal

_Path = Union[str, "os.PathLike[str]"]
_NO_FURTHER, _NO_ENTRY = 17, 22
#: Of a block, where its kind, its next block and its number stand; the next block where there is none (include/hwemiduk.h).
_KIND, _NEXT, _NUMBER = 0, 3, slice(4, 8)
_NONE = 255
#: The kinds of blocks.
FREE, FIRST, FURTHER = 1, 2, 3


class Entry(NamedTuple):
    """An entry of a store: one allowed placement of a line, and the line."""

    #: a position for each of the line's floaters
    placement: Tuple[int, ...]
    #: the canonical line
    line: str


class Survey(NamedTuple):
    """How many blocks of a store are of which sort: each is counted once."""

    #: sound and free
    free: int
    #: sound, and the first of an entry
    first: int
    #: sound, and a further one of an entry
    further: int
    #: sound, and of no such kind
    other: int
    #: not sound, whatever their kind
    unsound: int


class Block(NamedTuple):
    """What a block of a store says that it is. In an unsound one any of it may be wrong."""

    #: counted from 0
    index: int
    sound: bool
    #: 1 free, 2 the first of an entry, 3 a further one; any other is none of these
    kind: int
    #: the number of its entry
    number: int
    #: the next block of its entry; None where it is the last
    next: Optional[int]


class Store:
    """A register kept in blocks: entries by their numbers, 0 to 2^32 - 1, in an area of 1 to 128 blocks of 512 bytes. Each block has a sum, so that a copy of the area shows which
    entries survived.

    >>> store = Store(blocks=8)
    >>> store.add(17, "[+1]^2?ac")
    >>> store.add(18, "M[+16#a]C[#a]", placement=(2,))
    >>> store[17]
    Entry(placement=(1, 2), line='[+1]^2?AC')
    >>> len(store), list(store), 17 in store
    (2, [17, 18], True)

    A number without an entry is a KeyError; a damaged entry, and whatever else is refused, a Refusal.

    >>> copy = bytearray(bytes(store))
    >>> copy[20] ^= 1
    >>> copy = Store.from_bytes(copy)
    >>> copy.survivors(), copy.damaged()
    ([18], [17])
    >>> copy[17]
    Traceback (most recent call last):
    hwemiduk.Refusal: 25: damaged: the entry's blocks are not as they should be, or none begins it and some block is unsound

    `save` and `load` keep the area in a file, and `edit` changes one. A store is for one thread at a time.
    """

    __slots__ = ("_area", "_lent", "_at")

    def __init__(self, blocks: int = LIMITS.blocks) -> None:
        """An empty store of so many blocks, 1 to 128."""
        if not 1 <= blocks <= LIMITS.blocks:
            raise ValueError(f"a store has 1 to {LIMITS.blocks} blocks, and not {blocks}")
        self._take(bytearray(blocks * LIMITS.block))
        self.clear()

    def _take(self, area: bytearray) -> None:
        self._area = area
        self._lent = (c_uint8 * len(area)).from_buffer(area)
        #: the two arguments that every call over blocks takes
        self._at = addressof(self._lent), len(area)

    @classmethod
    def from_bytes(cls, data: Union[bytes, bytearray, memoryview]) -> Store:
        """A store over a copy of an area, whatever it holds; refused with 26 where it is not 1 to 128 whole blocks."""
        self = object.__new__(cls)
        self._take(bytearray(data))
        self.survey()
        return self

    def __bytes__(self) -> bytes:
        """The area as it is."""
        return bytes(self._area)

    def __eq__(self, other: object) -> Any:
        """Whether two stores hold the same area, byte for byte."""
        return self._area == other._area if isinstance(other, Store) else NotImplemented

    __hash__ = None  # type: ignore[assignment]

    def __repr__(self) -> str:
        return f"<hwemiduk.Store of {self.blocks} blocks, {self.survey().free} of them free>"

    def __reduce__(self) -> Tuple[Any, ...]:
        return Store.from_bytes, (bytes(self),)

    @property
    def blocks(self) -> int:
        """How many blocks the area has."""
        return len(self._area) // LIMITS.block

    # ---- Entries

    def add(self, number: int, line: Union[str, bytes, bytearray, memoryview, Peptidoform], placement: Optional[Sequence[int]] = None) -> None:
        """Adds a line under a number, with a placement that has a position for each of the line's floaters, or eight entries of which the others are 0; None takes the first that is
        allowed. What is kept is the canonical line.

        Raises the line's Refusal; or one with 18 where the placement is not an allowed one, or none is; with 25 where the number's entry is damaged, or may be; with 23 where it is
        there already; with 24 where there are too few free blocks. Nothing has changed then.
        """
        _number(number)
        p = line if isinstance(line, Peptidoform) else Peptidoform(line)
        raw = bytes(p)
        place = c_size_t()
        answer = library.hwemiduk_blocks_add(*self._at, number, _placement(p, placement), LIMITS.copies, raw, len(raw), byref(place))
        if answer:
            raise Refusal(answer, place.value)

    def __getitem__(self, number: int) -> Entry:
        """The entry with this number; a KeyError where there is none, a Refusal with 25 where it is damaged, or may be."""
        _number(number)
        placement = (Position * LIMITS.copies)()
        areas = take()
        try:
            answer = library.hwemiduk_blocks_fetch(*self._at, number, placement, LIMITS.copies, areas.out_at, LIMITS.line, areas.size_at)
            line = "" if answer else areas.out[: areas.size.value].decode("ascii")
        finally:
            give(areas)
        _found(answer, number)
        return Entry(tuple(placement[: Peptidoform(line)._with_tables(_count)]), line)

    def __delitem__(self, number: int) -> None:
        """Removes the entry with this number; a KeyError where there is none, a Refusal with 25 where it is damaged, or may be."""
        _number(number)
        _found(library.hwemiduk_blocks_remove(*self._at, number), number)

    def clear(self) -> None:
        """Makes all blocks free, whatever they held."""
        answer = library.hwemiduk_blocks_empty(*self._at)
        if answer:
            raise Refusal(answer)

    # ---- Listing and checking

    def __iter__(self) -> Iterator[int]:
        """The number of each sound first block, in order of blocks. In a damaged area a number may come twice; `survivors` has those whose entries can be fetched."""
        for _, number in self._firsts():
            yield number

    def _firsts(self) -> Iterator[Tuple[int, int]]:
        """Each sound first block, and the number in it."""
        block, number = c_size_t(), c_uint32()
        start = 0
        while True:
            answer = library.hwemiduk_blocks_entry(*self._at, start, byref(block), byref(number))
            if answer == _NO_FURTHER:
                return
            if answer:
                raise Refusal(answer)
            yield block.value, number.value
            start = block.value + 1

    def __len__(self) -> int:
        """How many sound first blocks there are: in an undamaged area, entries."""
        return self.survey().first

    def __contains__(self, number: object) -> bool:
        """Whether a sound first block has this number: in an undamaged area, whether there is such an entry."""
        return any(number == one for one in self)

    def survey(self) -> Survey:
        """How many blocks are of which sort."""
        counts = [c_size_t() for _ in Survey._fields]
        answer = library.hwemiduk_blocks_survey(*self._at, *map(byref, counts))
        if answer:
            raise Refusal(answer)
        return Survey(*(count.value for count in counts))

    def survivors(self) -> List[int]:
        """The numbers whose entries can be fetched, ascending."""
        return sorted(number for number in set(self) if self._survives(number))

    def damaged(self) -> List[int]:
        """The numbers that stand in a first or further block, sound or not, and whose entries cannot be fetched, ascending. In an unsound block any byte may be wrong, so that a number
        may stand here that no entry had, and one that was lost may not."""
        seen = {block.number for block in self.each_block() if block.kind in (FIRST, FURTHER)}
        return sorted(number for number in seen if not self._survives(number))

    def strays(self) -> List[Block]:
        """The blocks that are neither free nor part of an entry that can be fetched: unsound ones, ones of no kind, and those of damaged entries."""
        kept = {index for number in self.survivors() for index in self.blocks_of(number)}
        return [block for block in self.each_block() if not (block.sound and block.kind == FREE) and block.index not in kept]

    def each_block(self) -> Iterator[Block]:
        """What each block says that it is, in order."""
        # A block is sound or not whatever the other blocks hold: the library surveys it among free ones.
        among = Store(self.blocks)
        free = bytes(among._block(0))
        for index in range(self.blocks):
            at = slice(index * LIMITS.block, (index + 1) * LIMITS.block)
            block = self._block(index)
            among._area[at] = block
            sound = among.survey().unsound == 0
            among._area[at] = free
            yield Block(index, sound, block[_KIND], int.from_bytes(block[_NUMBER], "little"), None if block[_NEXT] == _NONE else block[_NEXT])

    def blocks_of(self, number: int) -> List[int]:
        """The blocks of the entry with this number, in the order of its content; a KeyError or a Refusal as `store[number]` has them."""
        self[number]
        index = next(block for block, one in self._firsts() if one == number)
        indices = []
        while index != _NONE:
            indices.append(index)
            index = self._block(index)[_NEXT]
        return indices

    def copy_survivors(self, into: Store) -> List[int]:
        """Adds every entry that survives to another store, by ascending numbers, and gives these. Where one is refused there (23, 24, 25), nothing is added."""
        numbers, copy = self.survivors(), Store.from_bytes(into._area)
        for number in numbers:
            entry = self[number]
            copy.add(number, entry.line, entry.placement)
        into._area[:] = copy._area
        return numbers

    def _survives(self, number: int) -> bool:
        try:
            self[number]
        except (KeyError, Refusal):
            return False
        return True

    def _block(self, index: int) -> bytearray:
        return self._area[index * LIMITS.block : (index + 1) * LIMITS.block]

    # ---- Files

    @classmethod
    def load(cls, path: _Path) -> Store:
        """The store in a file, which is its area as it is; refused with 26 where that is not 1 to 128 whole blocks."""
        with open(path, "rb") as file:
            return cls._read(file)

    @classmethod
    def _read(cls, file: IO[bytes]) -> Store:
        # one byte more than the longest area has: a longer file is refused all the same
        return cls.from_bytes(file.read(LIMITS.block * LIMITS.blocks + 1))

    def save(self, path: _Path, new: bool = False) -> None:
        """Writes the area to a file. It goes to another file in the same folder, which is synced and then takes the place of the one named: whatever happens, that one holds all of
        the old area or all of the new one. With `new`, a FileExistsError where there is one."""
        _write(path, self._area, new)

    @classmethod
    @contextmanager
    def edit(cls, path: _Path) -> Iterator[Store]:
        """The store in a file, to be changed: it is saved at the end, if it has changed and nothing was raised. Others that edit the file wait until then (an advisory lock, flock).

        >>> import os, tempfile
        >>> path = os.path.join(tempfile.mkdtemp(), "store")
        >>> Store(8).save(path)
        >>> with Store.edit(path) as store:
        ...     store.add(17, "[+1]^2?ac")
        >>> Store.load(path)[17].line
        '[+1]^2?AC'
        """
        with _locked(path) as file:
            store = cls._read(file)
            before = bytes(store)
            yield store
            if store._area != before:
                store.save(path)


def _number(number: int) -> None:
    if not 0 <= operator.index(number) < 1 << 32:
        raise ValueError(f"the number of an entry is 0 to 2^32 - 1, and not {number}")


def _found(answer: int, number: int) -> None:
    if answer == _NO_ENTRY:
        raise KeyError(number)
    if answer:
        raise Refusal(answer)


def _placement(p: Peptidoform, placement: Optional[Sequence[int]]) -> Any:
    """A placement as the library takes it."""
    if placement is None:
        # where none is allowed, zeros are not either
        return (Position * LIMITS.copies)(*next(p.placements(), ()))
    positions, floaters = tuple(placement), p._with_tables(_count)
    if len(positions) == LIMITS.copies and not any(positions[floaters:]):
        positions = positions[:floaters]
    return _lent(positions, floaters)


@contextmanager
def _locked(path: _Path) -> Iterator[IO[bytes]]:
    """A file that no other process has locked, open to be read. Another that had it may have put a new file in its place."""
    while True:
        with open(path, "r+b") as file:
            fcntl.flock(file, fcntl.LOCK_EX)
            if os.path.samestat(os.fstat(file.fileno()), os.stat(path)):
                yield file
                return


def _write(path: _Path, data: bytes, new: bool) -> None:
    # a link stays one: the file that it leads to is written
    path = os.path.realpath(path)
    folder = os.path.dirname(path)
    beside = os.path.join(folder, f".hwemiduk-{secrets.token_hex(8)}.new")
    descriptor = os.open(beside, os.O_WRONLY | os.O_CREAT | os.O_EXCL | os.O_CLOEXEC, 0o666)
    try:
        with open(descriptor, "wb") as file:
            with suppress(FileNotFoundError):
                _as_before(os.stat(path), file)
            file.write(data)
            file.flush()
            os.fsync(file.fileno())
        if not (new and _linked(beside, path)):
            os.replace(beside, path)
    except BaseException:
        with suppress(OSError):
            os.unlink(beside)
        raise
    _sync(folder)


def _linked(beside: str, path: str) -> bool:
    """Puts a file in a place where there is none: unlike a rename, a link never takes the place of another file. False where the file system has no links, and there is none."""
    try:
        os.link(beside, path)
    except FileExistsError:
        raise
    except OSError as error:
        if error.errno not in (errno.EPERM, errno.ENOTSUP, errno.ENOSYS) or os.path.lexists(path):
            raise
        return False
    os.unlink(beside)
    return True


def _as_before(old: os.stat_result, file: IO[bytes]) -> None:
    """The new file gets what the old one has of owner, group and permissions."""
    if not stat.S_ISREG(old.st_mode):
        raise OSError(errno.EINVAL, "Not a regular file")
    with suppress(PermissionError):
        os.fchown(file.fileno(), old.st_uid, old.st_gid)
    os.fchmod(file.fileno(), stat.S_IMODE(old.st_mode))


def _sync(folder: str) -> None:
    """Makes sure of a folder's names, where its file system can."""
    descriptor = os.open(folder, os.O_RDONLY | os.O_DIRECTORY | os.O_CLOEXEC)
    try:
        os.fsync(descriptor)
    except OSError as error:
        if error.errno not in (errno.EINVAL, errno.ENOTSUP):
            raise
    finally:
        os.close(descriptor)
