"""The shared library: where it is looked for, what its calls take, and the areas they are lent."""

from __future__ import annotations

import ctypes
import os
from ctypes import POINTER, byref, c_char_p, c_double, c_int64, c_size_t, c_uint8, c_uint16, c_uint32, c_uint64, c_void_p
from dataclasses import dataclass, fields
from pathlib import Path
from typing import List

#: The type of a position in a placement, a row and a listing (include/hwemiduk.h).
Position = c_uint16
#: The type of a listing's mark, and what it is in a fresh one.
Mark, FRESH = c_uint8, 1

_NAME = "libhwemiduk.so"


def places() -> List[Path]:
    """Where the library is looked for where HWEMIDUK_LIBRARY names none: beside the package, then in the repository that the package stands in."""
    here = Path(__file__).resolve().parent
    root = here.parent.parent.parent
    inside = (root / "include" / "hwemiduk.h").is_file()
    return [here / _NAME] + ([root / "target" / "lib" / _NAME] if inside else [])


def _load() -> ctypes.CDLL:
    named = os.environ.get("HWEMIDUK_LIBRARY")
    looked = [Path(named)] if named else places()
    path = next((path for path in looked if path.is_file()), None)
    if path is None:
        raise ImportError(
            "hwemiduk: the library is not at "
            + ", nor at ".join(map(str, looked))
            + ". bin/build-shared builds it; or set HWEMIDUK_LIBRARY to where it is"
        )
    try:
        return ctypes.CDLL(str(path.resolve()))
    except OSError as error:
        reason = str(error)
    raise ImportError(f"hwemiduk: the library at {path} cannot be loaded: {reason}")


library = _load()


@dataclass(frozen=True)
class Limits:
    """All limits and sizes, as the library gives them: the numbers are those of include/hwemiduk.h."""

    #: bytes of a line
    line: int
    residues: int
    #: square and curly together
    brackets: int
    #: parts of a bracket
    parts: int
    #: bytes of a part's text, after key or prefix
    text: int
    #: bytes of a label
    label: int
    #: pairs within a text
    depth: int
    #: the count behind ^
    count: int
    #: declarations of a line
    declarations: int
    #: places of a declaration
    places: int
    #: floating copies
    copies: int
    #: rows of floater and position
    rows: int
    #: entries of a ledger, and of positions reached
    positions: int
    #: masses and scores are below this in size
    size: int
    #: decimals of a mass or a score
    decimals: int
    #: the lent area of bytes
    bytes: int
    #: the lent area of numbers
    numbers: int
    #: bytes of a block
    block: int
    #: blocks of an area at most
    blocks: int


class _Limits(ctypes.Structure):
    _fields_ = [(field.name, {"size": c_uint64, "decimals": c_uint8}.get(field.name, c_size_t)) for field in fields(Limits)]


def _limits() -> Limits:
    limits = _Limits()
    library.hwemiduk_limits.argtypes, library.hwemiduk_limits.restype = (POINTER(_Limits),), None
    library.hwemiduk_limits(byref(limits))
    return Limits(*(getattr(limits, field.name) for field in fields(Limits)))


#: All limits and sizes.
LIMITS = _limits()


class Site(ctypes.Structure):
    """A row of floater and position."""

    _fields_ = [("floater", c_uint8), ("position", Position)]


class Listing(ctypes.Structure):
    """The listing in hand."""

    _fields_ = [("at", Position * LIMITS.copies), ("mark", Mark)]


# A line passes as bytes; all else that is lent as an address, which costs least to pass on.
_tables = (c_void_p, c_size_t, c_void_p, c_size_t)
_area = (c_void_p, c_size_t)
for _name, _arguments in {
    "read": (c_char_p, c_size_t, *_tables, c_void_p),
    "write": (*_tables, c_void_p, c_size_t, c_void_p),
    "entry": (c_uint64, c_char_p, c_size_t, c_void_p, c_size_t, c_void_p),
    "floaters": (*_tables, c_void_p),
    "floater_brackets": (*_tables, POINTER(c_uint8), c_size_t, POINTER(c_uint8), c_size_t, c_void_p),
    "total": (*_tables, POINTER(c_int64), c_void_p),
    "bracket_mass": (*_tables, c_size_t, POINTER(c_int64), POINTER(c_uint8)),
    "shown": (*_tables, POINTER(c_double), c_void_p),
    "allowed": (*_tables, POINTER(Position), c_size_t),
    "next": (*_tables, POINTER(Listing)),
    "why_none": (*_tables, POINTER(c_uint8), c_size_t, c_void_p),
    "ledger": (*_tables, POINTER(Position), c_size_t, POINTER(c_int64), c_size_t, c_void_p),
    "rows": (*_tables, POINTER(Site), c_size_t, c_void_p),
    "composition": (c_char_p, c_size_t, POINTER(c_uint8), c_size_t, POINTER(c_size_t)),
    "reached": (*_tables, c_size_t, POINTER(Position), c_size_t, c_void_p),
    "blocks_empty": _area,
    "blocks_add": (*_area, c_uint32, POINTER(Position), c_size_t, c_char_p, c_size_t, POINTER(c_size_t)),
    "blocks_fetch": (*_area, c_uint32, POINTER(Position), c_size_t, c_void_p, c_size_t, c_void_p),
    "blocks_remove": (*_area, c_uint32),
    "blocks_entry": (*_area, c_size_t, POINTER(c_size_t), POINTER(c_uint32)),
    "blocks_survey": (*_area, *[POINTER(c_size_t)] * 5),
}.items():
    _function = getattr(library, "hwemiduk_" + _name)
    _function.argtypes, _function.restype = _arguments, c_uint8
library.hwemiduk_version.argtypes, library.hwemiduk_version.restype = (), c_uint32


def library_version() -> str:
    """The version of the library that is loaded; `__version__` is that of the package."""
    number = library.hwemiduk_version()
    return f"{number // 10000}.{number // 100 % 100}.{number % 100}"


#: Bytes of an entry of the register, its end of line among them: none has more (HWEMIDUK_ENTRY).
ENTRY = LIMITS.line + 110


class Areas:
    """What one line is read into: the two areas, an output for its canonical line or its entry, and a place to answer a size in."""

    __slots__ = ("data", "numbers", "out", "size", "tables", "out_at", "size_at", "_kept")

    def __init__(self) -> None:
        self.data = bytearray(LIMITS.bytes)
        self.out = bytearray(ENTRY)
        numbers = (c_int64 * LIMITS.numbers)()
        self.numbers = memoryview(numbers).cast("B").cast("q")
        self.size = c_size_t()
        data, out = (c_uint8 * LIMITS.bytes).from_buffer(self.data), (c_uint8 * ENTRY).from_buffer(self.out)
        #: the four arguments that every call over tables takes
        self.tables = ctypes.addressof(data), LIMITS.bytes, ctypes.addressof(numbers), LIMITS.numbers
        self.out_at = ctypes.addressof(out)
        self.size_at = ctypes.addressof(self.size)
        self._kept = data, out, numbers


#: Areas that nobody uses now. Taking from it and giving back to it are one step each, so that threads, signal handlers and listings that are not at their end
#: never have the same areas.
FREE: List[Areas] = []
_KEPT = 16


def take() -> Areas:
    """Areas for the caller alone, until it gives them back."""
    try:
        return FREE.pop()
    except IndexError:
        return Areas()


def give(areas: Areas) -> None:
    """Gives areas back, for the next who takes some."""
    if len(FREE) < _KEPT:
        FREE.append(areas)
