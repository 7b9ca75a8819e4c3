"""What tests/brackets.c and `bin/register --no-placement` print, by the Python package: tests/brackets.py brackets|placements NAME < LINES. Which floaters are shown is found by
trying every set of them: the smallest one that has fewer positions than members, and of equals the first."""
import itertools, sys

import hwemiduk


def short(floaters):
    numbered = list(enumerate(floaters, 1))
    sets = (some for size in range(1, len(numbered) + 1) for some in itertools.combinations(numbered, size))
    return next((some for some in sets if len({at for _, one in some for at in one.positions}) < len(some)), ())


def named(residues, position):
    return "N-term" if position == 0 else "C-term" if position > len(residues) else residues[position - 1] + str(position)


what, name = sys.argv[1:]
for line in hwemiduk.read_lines(sys.stdin.buffer):
    peptidoform = line.peptidoform
    if peptidoform is None:
        continue
    if what == "brackets":
        print(*peptidoform.brackets, "", sep="\n")
        continue
    some = short(peptidoform.floaters)
    if not some:
        continue
    text, count = str(peptidoform), len({at for _, one in some for at in one.positions})
    competing = f"{len(some)} modifications compete for {count} position{'s' if count > 1 else ''}"
    print(f"{name}:{line.number}: no placement: {competing if count else 'a modification has no position'}")
    print("    " + text[:100] + (".." if len(text) > 100 else ""))
    for number, one in some:
        copy = f", copy {one.copy}" if one.bracket.count > 1 else ""
        print(f"    {number} {one.bracket}{copy}: {', '.join(named(peptidoform.residues, at) for at in one.positions) or 'no position'}")
