"""python -m hwemiduk check|show|table|store: lines checked, one line shown, a table of lines for a spreadsheet, a register of lines kept in a file.

Status: 0 every line accepted; 1 some refused; 2 trouble.
"""

from __future__ import annotations

import argparse
import csv
import os
import sys
from typing import List, Optional

from . import Bracket, Kind, Peptidoform, Refusal, __version__, _store_command, read_lines
from ._console import ACCEPTED, REFUSED, TROUBLE, Trouble, hinted, lines, marked, opened


def check(names: List[str], crlf: bool) -> int:
    """Says of each line that is refused where and why, with a hint where there is one, and shows it; on standard error how many there are."""
    status = ACCEPTED
    for name in names:
        accepted = refused = 0
        with opened(name) as file:
            for line in read_lines(lines(name, file), crlf):
                if line.refusal is None:
                    accepted += 1
                    continue
                refused += 1
                print(f"{name}:{line.number}:{line.refusal.column}: {line.refusal.number}: {line.refusal.words}{hinted(line.refusal)}")
                print(marked(line.refusal))
        sys.stdout.flush()
        total = accepted + refused
        print(f"hwemiduk: {name}: {total} line{'s' * (total != 1)}, {accepted} accepted, {refused} refused", file=sys.stderr)
        status = REFUSED if refused else status
    return status


def show(line: str) -> int:
    """Prints what a line holds, and where its declarations stand and its floating copies may stand."""
    try:
        p = Peptidoform(os.fsencode(line))
    except Refusal as refusal:
        print(f"refused: {refusal}{hinted(refusal)}")
        print(marked(refusal))
        return REFUSED
    print(f"canonical line: {p}")
    print(f"residues: {len(p.residues)}")
    brackets, declared = p.brackets, p.declared
    print(f"brackets: {len(brackets)}")
    for one in declared:
        stands = "at " + " ".join(map(str, one.positions)) if one.positions else "nowhere here"
        print(f"    {one.bracket}  declared for {', '.join(one.places)}: {stands}{_measured(one.bracket)}")
    for bracket in brackets[len(declared) :]:
        print(f"    {bracket}{'^' + str(bracket.count) if bracket.count != 1 else ''}  {_stands(bracket)}{_measured(bracket)}")
    missing = p.missing
    shift = f"not known: {missing} without a stated mass" if missing else f"{p.total() / 1e6:+.6f} Da"
    print(f"sum of the modifications, without the residues: {shift}")
    floaters = p.floaters
    print(f"floating copies: {len(floaters)}")
    if declared or floaters:
        print("\n".join("    " + row for row in p.picture().split("\n")))
    if floaters:
        print("a placement: " + (" ".join(map(str, next(p.placements(), ()))) or "there is none"))
    return ACCEPTED


def _stands(bracket: Bracket) -> str:
    at = bracket.positions
    if bracket.kind is Kind.RESIDUE:
        return f"on residue {at[0]}"
    if bracket.kind is Kind.RANGE:
        return f"on residues {at[0]} to {at[-1]}"
    return {Kind.UNKNOWN: "anywhere", Kind.LABILE: "labile", Kind.N_TERM: "at the N-terminus", Kind.C_TERM: "at the C-terminus"}[bracket.kind]


def _measured(bracket: Bracket) -> str:
    return "" if bracket.measured is None else ", only measured: not in the sum"


#: The columns of a table. `total` is of the modifications only, in millionths, and empty where `missing` of them have no stated mass.
COLUMNS = ("file", "number", "line", "canonical", "residues", "brackets", "floaters", "total", "missing", "refusal", "column", "words")


def table(names: List[str], crlf: bool) -> int:
    """Prints a row for each line, as CSV."""
    status = ACCEPTED
    rows = csv.writer(sys.stdout, lineterminator="\n")
    rows.writerow(COLUMNS)
    for name in names:
        with opened(name) as file:
            for line in read_lines(lines(name, file), crlf):
                begin = (name, line.number, line.raw.decode("ascii", "backslashreplace"))
                p = line.peptidoform
                if p is None:
                    assert line.refusal is not None
                    rows.writerow((*begin, *[""] * 6, line.refusal.number, line.refusal.column, line.refusal.words))
                    status = REFUSED
                    continue
                missing = p.missing
                total = "" if missing else p.total()
                rows.writerow((*begin, p, len(p.residues), len(p.brackets), len(p.floaters), total, missing, "", "", ""))
    return status


def main(arguments: Optional[List[str]] = None) -> int:
    parser = argparse.ArgumentParser(prog="python -m hwemiduk", description="Lines of peptidoforms in ProForma 2.1 notation.", epilog=(__doc__ or "").split("\n")[2])
    parser.add_argument("-V", "--version", action="version", version=f"hwemiduk {__version__}")
    commands = parser.add_subparsers(dest="command", required=True)
    for name, words in (("check", "say of each refused line where and why"), ("table", "print a table of the lines, as CSV")):
        command = commands.add_parser(name, help=words)
        command.add_argument("file", nargs="*", default=["-"], help="a file of lines; '-', or none, is standard input")
        command.add_argument("--crlf", action="store_true", help="a line may end in CR LF")
    one = commands.add_parser("show", help="print what a line holds, and where its modifications stand or may stand")
    one.add_argument("line")
    _store_command.add_to(commands)
    given = parser.parse_args(arguments)
    try:
        if given.command == "show":
            status = show(given.line)
        elif given.command == "store":
            status = given.run(given)
        else:
            status = {"check": check, "table": table}[given.command](given.file, given.crlf)
        sys.stdout.flush()
        return status
    except Trouble as trouble:
        words = str(trouble)
    except OSError as error:
        words = f"the output could not be written: {error.strerror}"
        # What is left of it is not tried again when the program ends.
        os.dup2(os.open(os.devnull, os.O_WRONLY), sys.stdout.fileno())
    print(f"hwemiduk: {words}", file=sys.stderr)
    return TROUBLE


if __name__ == "__main__":
    sys.exit(main())
