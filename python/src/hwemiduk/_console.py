"""What the commands have in common: their statuses, their trouble, and the files that they read."""

from __future__ import annotations

import sys
from contextlib import contextmanager
from typing import BinaryIO, Iterator

from ._refusals import Refusal

ACCEPTED, REFUSED, TROUBLE = 0, 1, 2


class Trouble(Exception):
    """What is said before the program ends with status 2."""


@contextmanager
def opened(name: str) -> Iterator[BinaryIO]:
    """A file that is open for bytes; `-` is standard input. What goes wrong with it, and with nothing else, is trouble with that name."""
    if name == "-":
        yield sys.stdin.buffer
        return
    try:
        file = open(name, "rb")
    except OSError as error:
        raise Trouble(f"{name}: {error.strerror}") from None
    with file:
        yield file


def lines(name: str, file: BinaryIO) -> Iterator[bytes]:
    """The lines of a file. One that cannot be read to its end is trouble."""
    try:
        yield from file
    except OSError as error:
        raise Trouble(f"{name}: it cannot be read to its end: {error.strerror}") from None


def hinted(refusal: Refusal) -> str:
    return f" ({refusal.hint})" if refusal.hint else ""


def marked(refusal: Refusal) -> str:
    """The line that is refused, with a mark under the place."""
    return "\n".join("    " + shown for shown in refusal.show().split("\n"))
