"""What the tables of an accepted line hold."""

from __future__ import annotations

import enum
import struct
from ctypes import byref, c_int64, c_size_t, c_uint8
from dataclasses import dataclass
from decimal import Decimal
from typing import List, Optional, Tuple, Union

from ._library import LIMITS, Areas, Position, library
from ._refusals import Refusal


class Kind(enum.Enum):
    """Where a bracket stands, in the order of their numbers in the tables, from 1."""

    UNKNOWN = "unknown"
    LABILE = "labile"
    N_TERM = "n-term"
    RESIDUE = "residue"
    RANGE = "range"
    C_TERM = "c-term"
    DECLARED = "declared"


class Section(enum.Enum):
    """What a residue stands in, in the order of their numbers in the tables, from 0. `UNSURE` is a group `(?..)`."""

    PLAIN = "plain"
    RANGE_FIRST = "range first"
    RANGE_NEXT = "range next"
    UNSURE_FIRST = "unsure first"
    UNSURE_NEXT = "unsure next"


class Key(enum.Enum):
    """A part's key word or prefix, in the order of their numbers in the tables, from 0, but for the last, which is 15; its value is the canonical spelling."""

    NONE = ""
    U = "U"
    M = "M"
    R = "R"
    X = "X"
    G = "G"
    C = "C"
    OBS = "Obs"
    UNIMOD = "UNIMOD"
    MOD = "MOD"
    XLMOD = "XLMOD"
    RESID = "RESID"
    GNO = "GNO"
    INFO = "INFO"
    GLYCAN = "Glycan"


@dataclass(frozen=True)
class Number:
    """A mass or a score: its value in millionths, and how many decimals were written."""

    millionths: int
    decimals: int

    def __float__(self) -> float:
        return self.millionths / 1_000_000

    @property
    def decimal(self) -> Decimal:
        """The number exactly, with the decimals that were written."""
        return Decimal(self.millionths).scaleb(-6).quantize(Decimal(1).scaleb(-self.decimals))


@dataclass(frozen=True)
class Label:
    """A label, with its score if it has one."""

    name: str
    score: Optional[Number]

    def __str__(self) -> str:
        return "#" + self.name + (f"({self.score.decimal:f})" if self.score is not None else "")


#: The names that a composition is made of, in the order and in the spelling of the list of ProForma 2.1, section 10.2.
SUGARS = (
    "Hex", "HexNAc", "HexS", "HexP", "HexNAcS", "HexN", "HexNS", "dHex", "aHex", "en,aHex", "Neu", "NeuAc", "NeuGc",
    "Sug", "Tri", "Tet", "Pen", "Hep", "Oct", "Non", "Dec", "Fuc", "Sulfate", "Phosphate",
)


def composition(text: Union[str, bytes, bytearray, memoryview]) -> List[Tuple[str, int]]:
    """Cuts a text, as it stands behind `Glycan:`, into names and counts, in the order of the text; a count is 1 where none is written.

    >>> composition("Hex5HexNAc4NeuAc")
    [('Hex', 5), ('HexNAc', 4), ('NeuAc', 1)]

    The names are those of SUGARS, found in either case. There is never more than one way to cut a text. One that cannot be cut raises its Refusal.

    >>> composition("Man5")
    Traceback (most recent call last):
    hwemiduk.Refusal: 19 at 0: a composition that cannot be cut into listed names and counts
    """
    if not isinstance(text, (str, bytes, bytearray, memoryview)):
        raise TypeError(f"a composition is bytes or str, not {type(text).__name__}")
    raw = text.encode("utf-8", "surrogatepass") if isinstance(text, str) else bytes(text)
    # a name has three bytes or more, and a piece takes two
    room = 2 * (len(raw) // 3)
    pieces, length = (c_uint8 * max(room, 1))(), c_size_t()
    number = library.hwemiduk_composition(raw, len(raw), pieces, room, byref(length))
    if number:
        raise Refusal(number)
    return [(SUGARS[pieces[at]], pieces[at + 1]) for at in range(0, length.value, 2)]


@dataclass(frozen=True)
class Part:
    """A part of a bracket: a mass, or a text, or a composition, which has both, or (a lone reference) only a label."""

    key: Key
    mass: Optional[Number]
    text: Optional[str]
    label: Optional[Label]

    def __str__(self) -> str:
        value = self.text if self.text is not None else f"{self.mass.decimal:+f}" if self.mass is not None else ""
        return (self.key.value + ":" if self.key is not Key.NONE else "") + value + (str(self.label) if self.label else "")

    @property
    def composition(self) -> Optional[List[Tuple[str, int]]]:
        """The names and counts of a glycan composition, in the order of its text, as the library cuts it; None where the part is no composition."""
        return composition(self.text) if self.key is Key.GLYCAN and self.text is not None else None


@dataclass(frozen=True)
class Bracket:
    """A bracket: what it says, where it stands, and how often (`count`). `str()` is the bracket as it is written, without its count and, in a declaration, without
    its places."""

    kind: Kind
    #: the positions it stands on: 0 is the N-terminus, 1 to n are the residues, n + 1 is the C-terminus; none where it is unknown or labile, or declared: where that
    #: one stands is in `Peptidoform.declared`
    positions: range
    #: how many copies; 1 of a declaration, however many positions it reaches
    count: int
    parts: Tuple[Part, ...]
    #: the stated mass of one copy in millionths, as the library tells it: its first mass or composition that is not behind Obs; None where it has none
    millionths: Optional[int]
    #: the measured mass of one copy in millionths where it has only that, its first mass behind Obs: no sum has it; None where a mass is stated, or none is there
    measured: Optional[int]

    def __str__(self) -> str:
        inside = "|".join(map(str, self.parts))
        return "{" + inside + "}" if self.kind is Kind.LABILE else "[" + inside + "]"

    @property
    def label(self) -> Optional[Label]:
        """The bracket's label: it has at most one."""
        return next((part.label for part in self.parts if part.label), None)

    @property
    def is_modification(self) -> bool:
        """Whether it is a modification: neither a lone reference nor only INFO."""
        return any(part.key is not Key.INFO and (part.mass is not None or part.text is not None) for part in self.parts)


@dataclass(frozen=True)
class Declaration:
    """A modification that is declared once for the line: it is placed on each position that one of its places names. `str()` is the declaration as it is written."""

    #: its bracket: that of the first declaration is the first of `Peptidoform.brackets`, that of the second the second
    bracket: Bracket
    #: its places, as they are written: letters, `N-term` and `C-term`
    places: Tuple[str, ...]
    #: the positions that it reaches, ascending and each once, as the library tells them
    positions: Tuple[int, ...]

    def __str__(self) -> str:
        return f"<{self.bracket}@{','.join(self.places)}>"


@dataclass(frozen=True)
class Floater:
    """A floating copy: its bracket, which copy of it, and where it may stand."""

    #: its bracket's place in `Peptidoform.brackets`, from 0
    index: int
    bracket: Bracket
    #: which copy of the bracket it is, from 1
    copy: int
    #: the permitted positions, ascending: those with a placed modification are struck out
    positions: Tuple[int, ...]


# Where the tables lie in the area of bytes, and the numbers in a bracket's row, a part's row and before the letters: of one byte, or of two with the low one first
# (include/hwemiduk.h).
_HEAD, _PART = struct.Struct("<BHHBBB"), struct.Struct("<BBBBBH")
_PLACES = _HEAD.size + LIMITS.parts * _PART.size
_SITES = _PLACES + 1
_ROW = _SITES + LIMITS.places
_COUNTS = struct.Struct("<HB")
_LETTERS = _COUNTS.size
_SECTIONS = _LETTERS + LIMITS.residues
_BRACKETS = _SECTIONS + LIMITS.residues
_TEXTS = _BRACKETS + LIMITS.brackets * _ROW
_NUMBERS = LIMITS.parts + 1
if (_TEXTS + LIMITS.line, LIMITS.brackets * _NUMBERS) != (LIMITS.bytes, LIMITS.numbers):
    raise ImportError("hwemiduk: the library's tables lie otherwise than this package reads them")

# By their numbers in the tables. No accepted line has a bracket of kind 0.
_kinds = (Kind.UNKNOWN, *Kind)
_sections = tuple(Section)
_keys = dict(zip((*range(14), 15), Key))
_MASS, _TEXT, _COMPOSITION = 1, 2, 4
_termini = {1: "N-term", 2: "C-term"}
# The sorts of a bracket's mass; a third one, 0, is none.
_STATED, _MEASURED = 1, 2


def residues(areas: Areas) -> str:
    count, _ = _COUNTS.unpack_from(areas.data)
    return areas.data[_LETTERS : _LETTERS + count].decode("ascii")


def sections(areas: Areas) -> Tuple[Section, ...]:
    count, _ = _COUNTS.unpack_from(areas.data)
    return tuple(_sections[code] for code in areas.data[_SECTIONS : _SECTIONS + count])


def brackets(areas: Areas) -> Tuple[Bracket, ...]:
    _, count = _COUNTS.unpack_from(areas.data)
    return tuple(_bracket(areas, index) for index in range(count))


def declared(areas: Areas) -> Tuple[Declaration, ...]:
    """The declarations: their brackets are the first ones."""
    held = (bracket for bracket in brackets(areas) if bracket.kind is Kind.DECLARED)
    return tuple(Declaration(bracket, _places(areas.data, index), _reached(areas, index)) for index, bracket in enumerate(held))


def _places(data: bytearray, index: int) -> Tuple[str, ...]:
    row = _BRACKETS + index * _ROW
    sites = data[row + _SITES : row + _SITES + data[row + _PLACES]]
    return tuple(_termini.get(site) or chr(site) for site in sites)


def _reached(areas: Areas, index: int) -> Tuple[int, ...]:
    positions = (Position * LIMITS.positions)()
    number = library.hwemiduk_reached(*areas.tables, index, positions, LIMITS.positions, areas.size_at)
    if number:
        raise Refusal(number)
    return tuple(positions[: areas.size.value])


def _bracket(areas: Areas, index: int) -> Bracket:
    row = _BRACKETS + index * _ROW
    kind, first, last, count, parts, score = _HEAD.unpack_from(areas.data, row)
    numbers = areas.numbers[index * _NUMBERS : (index + 1) * _NUMBERS]
    scored = Number(numbers[LIMITS.parts], score - 1) if score else None
    stands = range(0) if _kinds[kind] in (Kind.UNKNOWN, Kind.LABILE, Kind.DECLARED) else range(first, last + 1)
    held = tuple(_part(areas.data, row + _HEAD.size + k * _PART.size, numbers[k], scored) for k in range(parts))
    return Bracket(_kinds[kind], stands, count, held, *_mass(areas, index))


def _mass(areas: Areas, index: int) -> Tuple[Optional[int], Optional[int]]:
    """The stated mass of a bracket, and the measured one where it has only that."""
    millionths, sort = c_int64(), c_uint8()
    number = library.hwemiduk_bracket_mass(*areas.tables, index, byref(millionths), byref(sort))
    if number:
        raise Refusal(number)
    return millionths.value if sort.value == _STATED else None, millionths.value if sort.value == _MEASURED else None


def _part(data: bytearray, at: int, mass: int, score: Optional[Number]) -> Part:
    value, key, decimals, text_length, label_length, offset = _PART.unpack_from(data, at)
    text_at = _TEXTS + offset
    label_at = text_at + text_length
    text = data[text_at:label_at].decode("ascii") if value in (_TEXT, _COMPOSITION) else None
    label = Label(data[label_at : label_at + label_length].decode("ascii"), score) if label_length else None
    return Part(_keys[key], Number(mass, decimals) if value in (_MASS, _COMPOSITION) else None, text, label)
