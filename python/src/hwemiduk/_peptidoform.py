"""Peptidoforms, and lines of a file."""

from __future__ import annotations

from ctypes import byref, c_double, c_int64, c_uint8
from typing import Any, Callable, Iterable, Iterator, List, NamedTuple, Optional, Sequence, Tuple, Type, TypeVar, Union

from . import _tables
from ._library import ENTRY, FRESH, FREE, LIMITS, Areas, Listing, Position, Site, give, library, take
from ._refusals import Refusal
from ._tables import Bracket, Declaration, Floater, Section

_read, _write = library.hwemiduk_read, library.hwemiduk_write
_new = object.__new__
_Answer = TypeVar("_Answer")


class Peptidoform:
    """An accepted line. It is made by reading one, and holds nothing but the canonical line.

    >>> p = Peptidoform("[+1]^2?ac")
    >>> str(p), p.residues, p.total()
    ('[+1]^2?AC', 'AC', 2000000)

    Two peptidoforms are equal where their canonical lines are, which is where the lines read to the same tables. They are ordered by that line, can be hashed, and
    are pickled by it: a pickle is read again, so that a bad one is refused. Nothing in one can be set. Whatever else it tells is asked of the library when it is
    asked for: keep what is needed twice.

    Totals, shifts and ledgers are of the modifications only: the residues' own masses are not in them, and no mass that is only measured.
    """

    __slots__ = ("_line",)
    _line: str

    def __new__(cls, line: Union[str, bytes, bytearray, memoryview]) -> Peptidoform:
        """Reads a line; raises its Refusal. A place counts bytes: those of UTF-8 in a str."""
        if type(line) is str:
            raw = line.encode("utf-8", "surrogatepass")
        else:
            raw = line if type(line) is bytes else _bytes(line)
        try:
            areas = FREE.pop()
        except IndexError:
            areas = Areas()
        at, room, numbers_at, numbers_room = areas.tables
        number = _read(raw, len(raw), at, room, numbers_at, numbers_room, areas.size_at)
        if not number:
            number = _write(at, room, numbers_at, numbers_room, areas.out_at, _OUT, areas.size_at)
            canonical = areas.out[: areas.size.value].decode("ascii")
        place = areas.size.value
        FREE.append(areas)
        if number:
            raise Refusal(number, place, raw)
        self = _new(cls)
        _set_line(self, canonical)
        return self

    def __setattr__(self, name: str, value: object) -> None:
        raise AttributeError(f"a peptidoform does not change: {name} cannot be set")

    def __delattr__(self, name: str) -> None:
        raise AttributeError(f"a peptidoform does not change: {name} cannot be deleted")

    def __str__(self) -> str:
        """The canonical line: one and the same for all lines that read to the same tables."""
        return self._line

    def __bytes__(self) -> bytes:
        return self._line.encode("ascii")

    def __repr__(self) -> str:
        return f"hwemiduk.Peptidoform({self._line!r})"

    def __eq__(self, other: object) -> Any:
        return self._line == other._line if isinstance(other, Peptidoform) else NotImplemented

    def __hash__(self) -> int:
        return hash(self._line)

    def __lt__(self, other: Peptidoform) -> bool:
        return self._line < other._line if isinstance(other, Peptidoform) else NotImplemented

    def __le__(self, other: Peptidoform) -> bool:
        return self._line <= other._line if isinstance(other, Peptidoform) else NotImplemented

    def __gt__(self, other: Peptidoform) -> bool:
        return self._line > other._line if isinstance(other, Peptidoform) else NotImplemented

    def __ge__(self, other: Peptidoform) -> bool:
        return self._line >= other._line if isinstance(other, Peptidoform) else NotImplemented

    def __reduce__(self) -> Tuple[Type[Peptidoform], Tuple[str]]:
        return type(self), (self._line,)

    # ---- What the tables hold

    @property
    def residues(self) -> str:
        """The residues' letters, in upper case."""
        return self._with_tables(_tables.residues)

    @property
    def sections(self) -> Tuple[Section, ...]:
        """For each residue, what it stands in."""
        return self._with_tables(_tables.sections)

    @property
    def brackets(self) -> Tuple[Bracket, ...]:
        """The brackets, in order of appearance."""
        return self._with_tables(_tables.brackets)

    @property
    def declared(self) -> Tuple[Declaration, ...]:
        """The modifications that are declared once for the line, in order, each with its bracket, its places and the positions that it reaches.

        >>> for one in Peptidoform("<[TMT6plex]@k,n-TERM>AKKA").declared:
        ...     print(one.bracket, one.places, one.positions)
        [TMT6plex] ('K', 'N-term') (0, 2, 3)
        """
        return self._with_tables(_tables.declared)

    @property
    def floaters(self) -> Tuple[Floater, ...]:
        """The floating copies, in the order in which a placement gives their positions, each with its bracket and with where it may stand."""
        rows, brackets, floating = self._with_tables(lambda areas: (_rows(areas), _tables.brackets(areas), _floating(areas)))
        return tuple(
            Floater(index, brackets[index], copy, tuple(position for floater, position in rows if floater == number))
            for number, (index, copy) in enumerate(floating, 1)
        )

    def rows(self) -> List[Tuple[int, int]]:
        """The permitted positions as rows of floater and position, ascending, floaters counted from 1."""
        return self._with_tables(_rows)

    def picture(self) -> str:
        """Where each declaration and each floater stands: a row for each declaration, `x` under the positions that it reaches; then a row for each floater, with its
        number, `o` under the positions that are permitted, and its bracket.

        >>> print(Peptidoform("<[+9]@A,N-term>[+1]^2?AM[+15.995]CC[Oxidation#g]K[#g]").picture())
          nAMCCKc
          xx.....   <[+9]@A,N-term>
        1 ...ooo.   [+1]
        2 ...ooo.   [+1]
        3 ....oo.   [Oxidation#g]

        The first column is the N-terminus and the last the C-terminus.
        """
        residues = self.residues

        def marks(positions: Tuple[int, ...], mark: str) -> str:
            return "".join(mark if position in positions else "." for position in range(len(residues) + 2))

        lines = [f"  n{residues}c"]
        lines += [f"  {marks(one.positions, 'x')}   {one}" for one in self.declared]
        lines += [f"{number} {marks(one.positions, 'o')}   {one.bracket}" for number, one in enumerate(self.floaters, 1)]
        return "\n".join(lines)

    # ---- Masses: of the modifications only

    def total(self) -> int:
        """The sum of the stated masses of all modifications, in millionths; refused with 16 if one has no stated mass.

        Counts are multiplied, labile ones are in it, a label is counted once, a declared one once for each position that it reaches. The residues' own masses are not in it.
        A mass behind `Obs` is measured, and left out: a modification that has no other counts as one without.

        >>> Peptidoform("A[Obs:+2|+1]").total()
        1000000
        >>> Peptidoform("A[Obs:+1]").total()
        Traceback (most recent call last):
        hwemiduk.Refusal: 16: 1 modification has no stated mass
        """
        millionths = c_int64()
        self._ask(library.hwemiduk_total, byref(millionths))
        return millionths.value

    def shift(self) -> Optional[float]:
        """What the modifications add to the peptide's mass, in Daltons; None where one has no stated mass (`missing` says how many).

        This is `total()` for display. The residues' own masses are not in it, and no measured one is.
        """
        daltons = c_double()
        missing = self._ask(library.hwemiduk_shown, byref(daltons))
        return None if missing else daltons.value

    @property
    def missing(self) -> int:
        """How many modifications have no stated mass, those with only a measured one (behind `Obs`) among them, each copy counted, and each position that a declaration
        reaches. Which brackets have only a measured one, `Bracket.measured` tells.

        >>> p = Peptidoform("[Obs:+1]^3?ACD[x]E[Obs:+2|+1]")
        >>> p.missing, [str(bracket) for bracket in p.brackets if bracket.measured is not None]
        (4, ['[Obs:+1]'])
        """
        return self._ask(library.hwemiduk_shown, byref(c_double()))

    # ---- Placements

    def placements(self) -> Iterator[Tuple[int, ...]]:
        """Every allowed placement once, in ascending order: for each of `floaters` its position. With no floater there is one, `()`.

        Copies of one bracket are alike, and stand in ascending order; brackets side by side are told apart, however equal.

        >>> list(Peptidoform("[+1]^2?AC").placements())
        [(1, 2)]
        >>> list(Peptidoform("[+1][+1]?AC").placements())
        [(1, 2), (2, 1)]

        Each is handed out when it is asked for. There may be very many (eight brackets on 254 residues: about 10^19; eight copies of one: about 4 * 10^14), so take as many
        as are wanted by `itertools.islice`.
        """
        listing = Listing(mark=FRESH)
        areas = self._filled()
        try:
            floaters = _count(areas)
            while True:
                number = library.hwemiduk_next(*areas.tables, byref(listing))
                if number == _NO_FURTHER:
                    return
                if number:
                    raise Refusal(number)
                yield tuple(listing.at[:floaters])
        finally:
            give(areas)

    def why_none(self) -> Tuple[int, ...]:
        """Why there is no placement: the numbers of the floaters, counted from 1 and ascending as in `rows`, of the smallest set of floaters whose permitted positions, taken together,
        are fewer than the set; among sets of one size of the first in order of their numbers. `()` exactly where there is a placement.

        >>> Peptidoform("[+1]^3?A").why_none(), Peptidoform("[+1]?A[+2]").why_none(), Peptidoform("[+1]?AC").why_none()
        ((1, 2), (1,), ())

        Without any one of them the others of the set can be placed.
        """
        floaters = (c_uint8 * LIMITS.copies)()
        return tuple(floaters[: self._ask(library.hwemiduk_why_none, floaters, LIMITS.copies)])

    def allowed(self, placement: Sequence[int]) -> bool:
        """Whether a placement, a position for each of `floaters`, is an allowed one: each where it may stand, no two at one position, copies of one bracket in ascending order.

        >>> p = Peptidoform("[+1]^2?AC")
        >>> p.allowed((1, 2)), p.allowed((2, 1))
        (True, False)
        """
        areas = self._filled()
        try:
            number = library.hwemiduk_allowed(*areas.tables, _lent(placement, _count(areas)), LIMITS.copies)
        finally:
            give(areas)
        if number not in (0, _NOT_ALLOWED):
            raise Refusal(number)
        return number == 0

    def ledger(self, placement: Sequence[int] = ()) -> List[int]:
        """The stated mass of the modifications at each position under a placement, in millionths: the N-terminus, each residue, the C-terminus.

        A placement has a position for each of `floaters`; where nothing floats it may be left out. Refused with 16 if a modification has no stated mass, with 18 if the
        placement is not an allowed one. The residues' own masses are not in it.
        """
        entries = (c_int64 * LIMITS.positions)()
        areas = self._filled()
        try:
            lent = _lent(placement, _count(areas))
            number = library.hwemiduk_ledger(*areas.tables, lent, LIMITS.copies, entries, LIMITS.positions, areas.size_at)
            place, length = areas.size.value, len(_tables.residues(areas)) + 2
        finally:
            give(areas)
        if number:
            raise Refusal(number, place)
        return entries[:length]

    # ---- Asking the library

    def _filled(self) -> Areas:
        """Areas with this line's tables, for the caller alone."""
        areas = take()
        raw = self._line.encode("ascii")
        number = _read(raw, len(raw), *areas.tables, areas.size_at)
        if number:
            give(areas)
            raise Refusal(number, areas.size.value, raw)
        return areas

    def _with_tables(self, tell: Callable[[Areas], _Answer]) -> _Answer:
        areas = self._filled()
        try:
            return tell(areas)
        finally:
            give(areas)

    def _ask(self, call: Any, *arguments: Any) -> int:
        """Makes one call over this line's tables, whose last argument is where it answers a size, and gives that."""
        areas = self._filled()
        try:
            number = call(*areas.tables, *arguments, areas.size_at)
            size = areas.size.value
        finally:
            give(areas)
        if number:
            raise Refusal(number, size)
        return size


_set_line = Peptidoform._line.__set__  # type: ignore[attr-defined]
_OUT = LIMITS.line
_NO_FURTHER, _NOT_ALLOWED = 17, 18


def _bytes(line: Union[str, bytes, bytearray, memoryview]) -> bytes:
    if isinstance(line, str):
        return line.encode("utf-8", "surrogatepass")
    if isinstance(line, (bytes, bytearray, memoryview)):
        return bytes(line)
    raise TypeError(f"a line is bytes or str, not {type(line).__name__}")


def _count(areas: Areas) -> int:
    """How many floating copies."""
    number = library.hwemiduk_floaters(*areas.tables, areas.size_at)
    if number:
        raise Refusal(number)
    return areas.size.value


def _rows(areas: Areas) -> List[Tuple[int, int]]:
    rows = (Site * LIMITS.rows)()
    number = library.hwemiduk_rows(*areas.tables, rows, LIMITS.rows, areas.size_at)
    if number:
        raise Refusal(number)
    return [(row.floater, row.position) for row in rows[: areas.size.value]]


def _floating(areas: Areas) -> List[Tuple[int, int]]:
    """For each floater, in their order, the place of its bracket (from 0) and which copy of it it is (from 1)."""
    brackets, copies = (c_uint8 * LIMITS.copies)(), (c_uint8 * LIMITS.copies)()
    number = library.hwemiduk_floater_brackets(*areas.tables, brackets, LIMITS.copies, copies, LIMITS.copies, areas.size_at)
    if number:
        raise Refusal(number)
    return list(zip(brackets, copies))[: areas.size.value]


def _lent(placement: Sequence[int], floaters: int) -> Any:
    """A placement as the library takes it: unused entries are 0."""
    positions = tuple(placement)
    if len(positions) != floaters:
        raise ValueError(f"a placement of this line has a position for each of {floaters} floaters, not {len(positions)}")
    if not all(0 <= position < LIMITS.positions for position in positions):
        raise ValueError(f"a position is 0 to {LIMITS.positions - 1}: {positions}")
    return (Position * LIMITS.copies)(*positions)


def entry(line: Union[str, bytes, bytearray, memoryview], number: int = 1) -> str:
    """What the register prints of a line with this number, without its end of line. Nothing is raised: a refused line has an entry too.

    >>> entry("[+1]^2?ac"), entry("A[U:35]", 2)
    ('1 ok 2 1 2 +2000000 [+1]^2?AC', '2 no 9 2')

    An accepted line: its number, `ok`, residues, brackets, floating copies, the total in millionths (or `?` and how many modifications have no stated
    mass), and the canonical line. A refused one: its number, `no`, the refusal and its place, counted from 0.
    """
    raw = _bytes(line)
    if not 0 <= number < 1 << 64:
        raise ValueError(f"the number of a line is 0 to 2^64 - 1, and not {number}")
    areas = take()
    try:
        answer = library.hwemiduk_entry(number, raw, len(raw), areas.out_at, ENTRY, areas.size_at)
        length = areas.size.value
        if answer:
            raise Refusal(answer, length)
        return areas.out[: length - 1].decode("ascii")
    finally:
        give(areas)


def read(line: Union[str, bytes, bytearray, memoryview]) -> Peptidoform:
    """Reads a line; raises its Refusal. The same as Peptidoform(line)."""
    return Peptidoform(line)


class Line(NamedTuple):
    """A line of a file: a peptidoform or a refusal, and the other one is None."""

    #: counted from 1
    number: int
    #: the line's bytes, without what ends it
    raw: bytes
    peptidoform: Optional[Peptidoform]
    refusal: Optional[Refusal]


def read_lines(file: Iterable[Union[bytes, str]], crlf: bool = False) -> Iterator[Line]:
    """Reads every line of a file that is open for bytes, or of anything that gives lines. A line that is refused raises nothing: it has a `refusal`.

    >>> import io
    >>> for line in read_lines(io.BytesIO(b"[+1]^2?ac\\nA[U:35]\\n")):
    ...     print(line.number, line.peptidoform or line.refusal)
    1 [+1]^2?AC
    2 9 at 2: prefix U or M with a name of digits only

    Byte 10 ends a line and is no part of it; nothing after the last one is no line. Nothing else is taken off, so that a file with Windows line ends is refused
    line by line (3, byte 13), unless `crlf` is true: then one byte 13 before the end is no part of the line either.
    """
    for number, raw in enumerate(map(_whole, file), 1):
        if raw[-1:] == b"\n":
            raw = raw[:-1]
        if crlf and raw[-1:] == b"\r":
            raw = raw[:-1]
        try:
            line = Line(number, raw, Peptidoform(raw), None)
        except Refusal as refusal:
            line = Line(number, raw, None, refusal)
        yield line


def _whole(line: Union[bytes, str]) -> bytes:
    return line if type(line) is bytes else _bytes(line)
