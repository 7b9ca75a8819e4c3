"""Writes blocks.area and blocks.txt: a stored area of eight blocks and what calls over it must answer. Written from the words of document 02, L5, alone: it uses neither the
library nor the independent code, its lines are canonical and its placements allowed by hand. `python3 compare/vectors/blocks.py` writes the same files again.

blocks.area holds five entries, of which one is damaged: one byte of its only block is another than it was. The first row of blocks.txt, `changed AT WAS`, says which, so that the
area is also had as it was before. Each other row is a call over the area as it is stored (`damaged`) or as it was (`whole`), never over what a row before it has left:

    AREA  CALL  NUMBER  PLACEMENT  LINE  ANSWER  WHAT

with tabs between. ANSWER is 0 or a refusal's number. WHAT is, of fetch, the placement, a blank and the line; of add and remove, for each block that changes, its index, how it
begins and its last four bytes (in hex; what lies between is zero); of entry, where NUMBER is the block that is asked from, the block and the number in it; of survey, how many
blocks are free, first, further, of another kind, and unsound.
"""

from pathlib import Path

HERE = Path(__file__).resolve().parent
NONE = 255


def block(kind, used, following, number, content):
    """One block of 512 bytes."""
    assert len(content) == used <= 500
    front = bytes([kind]) + used.to_bytes(2, "little") + bytes([following]) + number.to_bytes(4, "little") + content
    front += bytes(508 - len(front))
    return front + sum((i + 1) * front[i] for i in range(508)).to_bytes(4, "little")


def entry(number, placement, line, blocks):
    """The blocks of an entry by their indices: its content goes into these, in this order."""
    content = bytes(placement) + line.encode("ascii")
    pieces = [content[at : at + 500] for at in range(0, len(content), 500)]
    assert len(placement) == 8 and len(pieces) == len(blocks)
    following = blocks[1:] + [NONE]
    return {at: block(2 if at == blocks[0] else 3, len(piece), then, number, piece) for at, then, piece in zip(blocks, following, pieces)}


def shown(placement):
    return ",".join(map(str, placement))


FREE = block(1, 0, NONE, 0, b"")
NOTHING = [0] * 8
# With its placement a line of 492 bytes fills one block; the other one takes two.
FULL = "A" * 102 + "".join("[" + letter * 128 + "]" for letter in "xyz")
FLOATING, REST = "[+1]^2[Phospho]?", "PEPTIDEK" * 25 + "M" + "".join("[" + letter * 128 + "]" for letter in "abcd") + "[INFO:..]"
LONG = FLOATING + REST
ENTRIES = {
    17: ([1, 2] + [0] * 6, "[+1]^2?AC", [0]),
    66051: ([1, 3, 2] + [0] * 5, LONG, [6, 2]),
    0: ([2] + [0] * 7, "M[+16#a]C[#a]", [4]),
    1000: (NOTHING, FULL, [3]),
    4294967295: (NOTHING, "A", [7]),
}


def main():
    assert len(FULL) == 492 and 492 < len(LONG) <= 992
    blocks = [FREE] * 8
    for number, (placement, line, at) in ENTRIES.items():
        for index, made in entry(number, placement, line, at).items():
            assert blocks[index] == FREE
            blocks[index] = made
    whole = b"".join(blocks)
    # byte 300 of block 3, a byte of the line of entry 1000
    at = 3 * 512 + 300
    damaged = whole[:at] + bytes([whole[at] ^ 1]) + whole[at + 1 :]

    def changes(after):
        """What changes of the blocks: each with how it begins, up to the zeros before its sum, and its sum."""
        told = []
        for index, made in sorted(after.items()):
            front = made[:508].rstrip(b"\0")
            told.append(f"{index}:{front.hex()}:{made[508:].hex()}")
        return " ".join(told)

    rows = [f"changed\t{at}\t{whole[at]}"]

    def row(area, call, number="", placement="", line="", answer=0, what=""):
        rows.append("\t".join([area, call, str(number), placement, line, str(answer), what]))

    for area in ["whole", "damaged"]:
        for number, (placement, line, _) in ENTRIES.items():
            if area == "damaged" and number == 1000:
                row(area, "fetch", number, answer=25)
            else:
                row(area, "fetch", number, what=f"{shown(placement)} {line}")
        # numbers that no entry has: low and high bytes of 66051 exchanged, its low byte, and one more than 17
        for number in [50462976, 3, 18]:
            row(area, "fetch", number, answer=22 if area == "whole" else 25)
            row(area, "remove", number, answer=22 if area == "whole" else 25)
        for number, (_, _, taken) in ENTRIES.items():
            if area == "damaged" and number == 1000:
                row(area, "remove", number, answer=25)
            else:
                row(area, "remove", number, what=changes({index: FREE for index in taken}))
        # first the line's own refusals and 18, then 25, 23 and 24
        for number in [5, 17, 1000]:
            row(area, "add", number, shown(NOTHING), "A[U:35]", 9)
            row(area, "add", number, shown(NOTHING), "[+1]^2?AC", 18)
            row(area, "add", number, shown([2, 1] + [0] * 6), "[+1]^2?AC", 18)
            row(area, "add", number, shown([1] * 8), "A", 18)
        row(area, "add", 17, shown(NOTHING), "A", 23)
        row(area, "add", 1000, shown(NOTHING), "A", 23 if area == "whole" else 25)
        row(area, "add", 5, shown(NOTHING), "A" * 254 + ("[" + "x" * 128 + "]") * 6, 24 if area == "whole" else 25)
    row("damaged", "add", 5, shown(NOTHING), "a", 25)
    # the lowest free block is 1, the next one 5; what is kept is the canonical line
    row("whole", "add", 5, shown(NOTHING), "a[-0]", what=changes(entry(5, NOTHING, "A[+0]", [1])))
    placement = [1, 2, 3] + [0] * 5
    row("whole", "add", 4294967294, shown(placement), "[+01]^2[Phospho]^1?" + REST.lower(), what=changes(entry(4294967294, placement, LONG, [1, 5])))
    firsts = {0: 17, 3: 1000, 4: 0, 6: 66051, 7: 4294967295}
    for area in ["whole", "damaged"]:
        listed = {at: number for at, number in firsts.items() if area == "whole" or number != 1000}
        for start in range(8):
            found = min(at for at in listed if at >= start)
            row(area, "entry", start, what=f"{found} {listed[found]}")
        for start in [8, 255, 2**63]:
            row(area, "entry", start, answer=17)
        row(area, "survey", what="2 5 1 0 0" if area == "whole" else "2 4 1 0 1")
    (HERE / "blocks.area").write_bytes(damaged)
    (HERE / "blocks.txt").write_text("\n".join(rows) + "\n")


if __name__ == "__main__":
    main()
