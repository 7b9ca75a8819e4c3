#!/usr/bin/env python3
"""Respells the repository's own names as today's Rattle spells them: words in snake case.

usage: python3 tools/respell.py [--pages]      at the top of the repository, once, right after /opt/rattle/port/port.py

respelled.tsv has a line for each definition and lemma: the old name, the new one, and 'field' where it is a field of a record. Two names that would
fall together are told apart there: the lemma has '_lem' at its end, the field '_is'. Names of functions of src/, of generated goals, of strings and of
exported symbols are not in the table. respelled-words.tsv has the names that port.py itself respelled; these are followed in comments and pages.
It rewrites the .antt files, and of the .rt files what the table names outside strings. With --pages it follows names between backticks in docs/ and README.md instead.
"""
import os
import re
import sys

HERE = os.path.dirname(os.path.realpath(__file__))
W = r"[^\s(){}.;,@\"«»\[\]\\:`]+"
TOKEN = re.compile(W)
names, fields = {}, set()
for line in open(os.path.join(HERE, "respelled.tsv"), encoding="utf-8"):
    cells = line.rstrip("\n").split("\t")
    names[cells[0]] = cells[1]
    if len(cells) > 2:
        fields.add(cells[0])
words = dict(names)
for line in open(os.path.join(HERE, "respelled-words.tsv"), encoding="utf-8"):
    a, b = line.rstrip("\n").split("\t")
    words[a] = b
plain = {n for n in names if re.fullmatch(r"[a-z0-9_]+", n)}
words = {a: b for a, b in words.items() if a not in plain}


def code(text, antt, proof):
    def one(m):
        t = m[0]
        if t not in names:
            return t
        dotted = m.start() > 0 and text[m.start() - 1] == "."
        if t in plain and (not antt or dotted and (t not in fields or proof)):
            return t
        if dotted and proof and t not in fields:
            return t
        return names[t]

    return TOKEN.sub(one, text)


def quoted(text):
    return re.sub(r"`[^`\n]*`", lambda m: TOKEN.sub(lambda t: words.get(t[0], t[0]), m[0]), text)


def turned(text, path):
    antt, proof = path.endswith(".antt"), path.endswith("/Proof.antt")
    mark = "--" if antt else "//"
    out = []
    for line in text.split("\n"):
        parts = re.split(r"(\"(?:[^\"\\]|\\.)*\")", line)
        done, rest = "", None
        for k, part in enumerate(parts):
            if rest is not None:
                rest += part
            elif k % 2:
                done += part
            else:
                at = re.search(r"(?<!\S)" + re.escape(mark) + r"(?!\S)|^" + re.escape(mark), part)
                if at:
                    done += code(part[: at.start()], antt, proof)
                    rest = part[at.start() :]
                else:
                    done += code(part, antt, proof)
        out.append(done + (quoted(rest) if rest is not None else ""))
    return "\n".join(out)


def files(top, ends):
    for folder, dirs, found in os.walk(top):
        dirs[:] = sorted(d for d in dirs if d not in ("out", ".git"))
        for f in sorted(found):
            if f.endswith(ends):
                yield os.path.join(folder, f)


def main():
    n = 0
    if "--pages" in sys.argv[1:]:
        pages = ["README.md", "CONTRIBUTING.md", *files("docs", ".md")]
        turn = lambda text, path: quoted(text)
    else:
        pages = list(files("crates", (".antt", ".rt")))
        turn = turned
    for path in pages:
        with open(path, encoding="utf-8") as f:
            text = f.read()
        new = turn(text, path)
        if new != text:
            n += 1
            with open(path, "w", encoding="utf-8") as f:
                f.write(new)
    print(n, "files")


main()
