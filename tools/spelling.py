#!/usr/bin/env python3
"""Spells the names of this repository's own definitions and lemmas as today's Rattle spells names.

usage: tools/spelling.py [--list] [FOLDER]      (FOLDER: the top of a checkout; the current folder if none is given)

Words are in snake case (`allWithin` becomes `all_within`); a dash stays only between the names of two definitions (`length-map_indexed`)
and becomes `_` before a plain word (`changed-more` becomes `changed_more`). Types, modules, names that stand in the kit's library too and
the transforms' names of the papers (`YCoCg-R`) keep their spelling. Read are the signatures, fields and local names of specs/ and proofs/;
rewritten are whole names in the .antt and .rt files, in the must-fail edits, and between backquotes in README.md and docs/.
--list prints the names and changes nothing. A lemma that would have a definition's name gets `_lem` after it.
"""

import collections
import os
import re
import shutil
import sys

KIT = os.path.dirname(os.path.dirname(os.path.realpath(shutil.which("rt"))))
LISTS = {"length", "take", "drop", "append", "set", "sets", "map", "get", "put", "at", "get_or", "replicate", "reverse"}
KEPT = {"RCT", "YCoCg-R", "RDgDb", "LDgEb"}
NAME = r"[^\s(){}\[\];,.`\"]+"
TOP = re.compile(rf"^(?:(?:abbrev|unfoldable|pub) )*({NAME}) :[ \n](.*)$", re.M)
INNER = re.compile(rf"^ +(?:pub )?((?:{NAME} )+): ", re.M)
TOKEN = re.compile(NAME)


def files(top, ends):
    for folder, dirs, names in os.walk(os.path.join(top, "crates")):
        dirs[:] = sorted(d for d in dirs if d != "out")
        for n in sorted(names):
            if n.endswith(ends):
                yield os.path.join(folder, n)


def read(path):
    with open(path, encoding="utf-8") as f:
        return f.read()


def library_names():
    names = set()
    for folder, dirs, found in os.walk(os.path.join(KIT, "rattle")):
        dirs[:] = [d for d in dirs if d not in ("examples", "out")]
        for n in found:
            if n.endswith(".antt"):
                t = read(os.path.join(folder, n))
                names.update(m.group(1) for m in TOP.finditer(t))
                for m in INNER.finditer(t):
                    names.update(m.group(1).split())
    return names


def snake(piece):
    for whole, small in (("YCoCg", "Ycocg"), ("RDgDb", "Rdgdb"), ("LDgEb", "Ldgeb"), ("RCT", "Rct")):
        piece = piece.replace(whole, small)
    return re.sub(r"(?<=[a-z0-9])([A-Z])", lambda m: "_" + m.group(1).lower(), piece)


def respelled(name, words):
    pieces = name.split("-")
    out = snake(pieces[0])
    for a, b in zip(pieces, pieces[1:]):
        joint = "-" if a in LISTS and b in words else "_"
        out += joint + (b.lower() if b.isupper() and len(b) == 1 else snake(b))
    return out


def main():
    flags = [a for a in sys.argv[1:] if a.startswith("--")]
    top = ([a for a in sys.argv[1:] if not a.startswith("--")] or ["."])[0]
    library = library_names()
    own, tops, words = set(), set(), set()
    for path in files(top, ".antt"):
        text = read(path)
        names = [(m.group(1), m.group(2)) for m in TOP.finditer(text)]
        own.update(n for n, _ in names)
        tops.update(n for n, _ in names)
        if "/specs/" in path:
            words.update(n for n, _ in names)
        for m in INNER.finditer(text):
            own.update(m.group(1).split())
    words |= LISTS
    spelled = {}
    for n in sorted(own):
        plain = re.fullmatch(r"[A-Za-z][\w'₀-₉-]*", n)
        if not plain or n in KEPT or n in library or not ("-" in n.strip("-") or re.search(r"^[a-z].*[a-z0-9][A-Z]", n)):
            continue
        new = respelled(n, words)
        if new != n:
            spelled[n] = new
    into = collections.Counter(spelled.values())
    for n, new in sorted(spelled.items()):
        lemma = n if "-" in n else new
        if into[new] > 1 and "-" in n or new in tops:
            spelled[lemma] = new + "_lem"
            print(f"{lemma}: {new} is another's name, so {new}_lem")
    if "--list" in flags:
        for n, new in sorted(spelled.items()):
            print(n, new)
        return
    turn = lambda text: TOKEN.sub(lambda m: spelled.get(m.group(0), m.group(0)), text)
    changed = 0
    for path in files(top, (".antt", ".rt", ".edit")):
        text = read(path)
        if path.endswith(".rt"):
            new = "".join(l if l.lstrip().startswith("//") and "`" not in l else turn(l) for l in text.splitlines(keepends=True))
        else:
            new = turn(text)
        if new != text:
            changed += 1
            with open(path, "w", encoding="utf-8") as f:
                f.write(new)
    pages = [os.path.join(top, "README.md")] + [os.path.join(f, n) for f, _, ns in os.walk(os.path.join(top, "docs")) for n in ns if n.endswith(".md")]
    for path in pages:
        text = read(path)
        new = re.sub(r"`[^`\n]+`", lambda m: turn(m.group(0)), text)
        if new != text:
            changed += 1
            with open(path, "w", encoding="utf-8") as f:
                f.write(new)
    print(f"{len(spelled)} names, {changed} files")


if __name__ == "__main__":
    main()
