"""The refusals, and their words."""

from __future__ import annotations

import re
from typing import Any, Optional, Tuple

#: Each refusal in words, by its number.
WORDS = {
    1: "the line is empty",
    2: "the line is longer than 4,096 bytes",
    3: "a byte outside 32 to 126",
    4: "not of the order of a line",
    5: "pairs nested more than eight deep",
    6: "too many residues (254), brackets (64), parts (4), declarations (8) or places (16), a text over 128 bytes or a label over 16",
    7: "a mass or score of a million or more or with more than 6 decimals, a count outside 1 to 99",
    8: "something that is not taken here: Formula, Position, Limit, CoMKP, CoMUP, labels XL.. and BRANCH",
    9: "prefix U or M with a name of digits only",
    10: "only INFO in a bracket of unknown position or a labile one",
    11: "labels that do not fit: a second one, one defined again, a reference without definition, a count on a labelled bracket, "
    "one in an unknown run that nothing refers to",
    12: "more than eight floating copies",
    13: "a lent area is too short",
    14: "tables that no accepted line reads to",
    15: "the output is shorter than what is to be written",
    16: "a modification has no stated mass",
    17: "no placement, no further one, no such row or bracket",
    18: "a placement that is not allowed",
    19: "a composition that cannot be cut into listed names and counts",
    21: "only INFO in a declaration",
    22: "no such entry",
    23: "the entry is present already",
    24: "fewer free sound blocks than are needed",
    25: "damaged: the entry's blocks are not as they should be, or none begins it and some block is unsound",
    26: "the area is not 1 to 128 whole blocks",
}

#: These refusals are of a line, and their place is one in the line.
_OF_A_LINE = (*range(1, 13), 19, 21)


# Behind which a mass may begin, and behind which something must stand.
_BEFORE_A_MASS = (b"[", b"|", b":")
_GOES_ON = (*_BEFORE_A_MASS, b"(", b"{", b"?", b".", b"#", b"+", b"-")
# What stands before a place in a declaration, and what before its places.
_IN_PLACES = re.compile(rb"^<.*\]@[^>]*\Z")
_BEFORE_PLACES = re.compile(rb"(?:^|>)<\[[^@]*\]\Z")


def _hint(number: int, place: int, line: bytes) -> str:
    """The hint of bin/register, by the same tests in the same order."""
    byte, before, head = line[place : place + 1], line[:place][-1:], line[:place]
    if number == 3:
        if byte == b"\r":
            return "CR: a file with Windows line ends? try --crlf" if place + 1 == len(line) else "CR: is a line end missing?"
        if byte == b"\t":
            return "a tab: is this a table?"
        if line[place : place + 3] == b"\xef\xbb\xbf":
            return "a byte order mark: save the file without one"
        return "not ASCII" if byte >= b"\x80" else ""
    if number == 19:
        return _hint_of_a_composition(re.split(rb"[]}|#]", line[place + 7 :])[0])
    if number != 4:
        return ""
    letter, then = byte.isalpha(), line[place + 1 : place + 2]
    for meant, words in (
        (place >= len(line), "the line ends here and should go on"),
        (_IN_PLACES.search(head) and byte == b":", "a terminus of one residue is not taken here"),
        (_IN_PLACES.search(head), "places are letters, N-term and C-term, with commas between: <[Oxidation]@M,C>"),
        (before == b"<" and byte.isalnum(), "isotopes are not taken here"),
        (before == b"<", "behind < stands a bracket: <[Oxidation]@M>"),
        (_BEFORE_PLACES.search(head), "behind the bracket of a declaration stand its places: <[Oxidation]@M>"),
        (byte == b" ", "a blank: nothing is trimmed"),
        (byte == b"/" and then == b"/", "a second chain is not taken here"),
        (byte == b"/", "a charge is not taken here"),
        (byte == b"<", "a declaration stands at the front of a line: <[Oxidation]@M>AM"),
        ((byte == b">" and before in (b"", b"(")) or (byte == b"(" and then == b">"), "a line name is not taken here"),
        (byte == b"+" and before not in _BEFORE_A_MASS, "a second peptidoform behind + is not taken here"),
        (byte == b".", "a point: the peptide alone, without its neighbours"),
        (byte in (b",", b";", b'"'), "is this a table?"),
        (byte in (b"]", b")", b"}", b">"), "something is missing before it" if before in _GOES_ON else "nothing is open that it closes"),
        (before == b"-" and letter, "behind - stands a bracket: A-[Amidated]"),
        (before in (b"+", b"-"), "a sign starts a mass, and digits follow"),
        (byte == b"-", "a - joins brackets at a terminus: [Acetyl]-A, A-[Amidated]"),
        (byte == b"^", "a count stands in a run of unknown position: [+1]^2?A"),
        (byte == b"#", "no label or reference stands here"),
        (letter and before in (b"]", b"}") and line[:1] in (b"[", b"{", b"<"), "a bracket at the front goes on with -, ? or ^"),
        (before == b")", "no bracket stands behind (?..)" if byte == b"[" else "a range (..) is followed by a bracket"),
        (byte == b"(", "ranges do not stand in each other"),
        (byte.isdigit() and before.isalpha(), "a number stands in brackets"),
    ):
        if meant:
            return words
    return ""


def _hint_of_a_composition(text: bytes) -> str:
    for meant, words in (
        (b"{" in text or b"[" in text, "a formula in a composition is not taken here"),
        (b" " in text, "a blank: a composition has none: Hex5HexNAc4"),
        (b"(" in text, "a count stands behind its name as it is: Hex5HexNAc4"),
        (text[:1].isdigit(), "a count stands behind its name: Hex5"),
        (re.search(rb"[A-Za-z]0|[0-9][0-9][0-9]", text), "a count is 1 to 99, without leading zeros"),
    ):
        if meant:
            return words
    return "the names are Hex, HexNAc, dHex, Fuc, NeuAc and 19 more: --explain 19"


class Refusal(ValueError):
    """What the library refuses: `number` says why (WORDS), and `place` where.

    The place of refusals 1 to 12, 19 and 21 is a byte of the line, counted from 0; where the line should go on and ends, it is the line's length. For 16, `place` is how
    many modifications have no stated mass, those with only a measured one (behind Obs) among them, each copy counted, and each position that a declaration reaches.
    `line` is the line that was refused (bytes), None where no line was read.
    """

    def __init__(self, number: int, place: int = 0, line: Optional[bytes] = None) -> None:
        super().__init__(number, place, line)
        self.number = number
        self.place = place
        self.line = line

    @property
    def words(self) -> str:
        """What the number says."""
        return WORDS[self.number]

    @property
    def column(self) -> Optional[int]:
        """The place counted from 1, as editors count; None where the refusal is not of a line."""
        return self.place + 1 if self.number in _OF_A_LINE else None

    @property
    def hint(self) -> str:
        """What may be meant, by the byte at the place: a guess for the reader, as `bin/register --why` has it; empty where there is none."""
        return _hint(self.number, self.place, self.line) if self.line is not None else ""

    def __str__(self) -> str:
        if self.number == 16:
            return f"16: {self.place} modification{' has' if self.place == 1 else 's have'} no stated mass"
        at = f" at {self.place}" if self.column is not None else ""
        return f"{self.number}{at}: {self.words}"

    def show(self, width: int = 100) -> str:
        """The line, with a mark under the place: two lines, or none where the refusal is not of a line.

        Every byte that cannot be printed is shown as `?`. Of a long line, `width` bytes around the place are shown.
        """
        if self.line is None or self.column is None:
            return ""
        begin = max(0, min(self.place - width // 2, len(self.line) - width))
        text = "".join(chr(byte) if 32 <= byte <= 126 else "?" for byte in self.line[begin : begin + width])
        return f"{text}\n{' ' * (self.place - begin)}^"

    def __reduce__(self) -> Tuple[Any, ...]:
        return Refusal, (self.number, self.place, self.line)
