#!/usr/bin/env python3
"""Brings definitions and lemmas of specs/ and proofs/ to today's spelling: words in snake case.

usage: python3 tools/respell.py [--dry]     at the top of the repository, once, right after port.py

It takes each name that a file of specs/ or proofs/ declares in lower camel case, as wordTracks, and writes word_tracks
in every .antt file and in the clauses of every .rt file. Parts between dashes are turned one by one. It names each file
in which a new spelling already stands, since there two names could fall together.
"""
import os
import re
import sys

TOKEN = re.compile(r"[^\s(){}\[\];,.@\"⌜⌝/]+")
DECLARED = re.compile(r"^\s*(?:(?:abbrev|unfoldable|pub|data|record)\s+)*([^\s(){}\[\];,.@\"]+)\s*:(?:\s|$)")
# names of a library that older lemmas carry in their own
LIBRARY = {"getD": "slice_index"}
# where the plain spelling is taken
OTHER = {}


def files(*suffixes):
    for folder, dirs, names in os.walk("crates"):
        dirs[:] = sorted(d for d in dirs if d != "out")
        for n in sorted(names):
            if n.endswith(suffixes):
                yield os.path.join(folder, n)


def snake(part):
    if part in LIBRARY:
        return LIBRARY[part]
    if not re.match(r"[a-z][A-Za-z0-9_']*$", part) or not re.search("[A-Z]", part):
        return part
    return re.sub("[A-Z]", lambda m: "_" + m.group().lower(), part)


def respelled(name):
    return OTHER.get(name) or "-".join(snake(p) for p in name.split("-"))


def main(dry):
    table = {}
    texts = {f: open(f, encoding="utf-8").read() for f in files(".antt", ".rt")}
    for f, text in texts.items():
        if f.endswith(".antt"):
            for line in text.splitlines():
                m = DECLARED.match(line)
                if m and respelled(m.group(1)) != m.group(1):
                    table[m.group(1)] = respelled(m.group(1))
    together = {}
    for old, new in table.items():
        together.setdefault(new, []).append(old)
    for new, olds in together.items():
        if len(olds) > 1:
            print(f"fall together: {' '.join(olds)} as {new}")
    for f, text in sorted(texts.items()):
        here = set(TOKEN.findall(text))
        for old in sorted(here & set(table)):
            if table[old] in here:
                print(f"look: {f}: {old} becomes {table[old]}, which stands there")
        out = TOKEN.sub(lambda m: table.get(m.group(), m.group()), text)
        if out != text and not dry:
            open(f, "w", encoding="utf-8").write(out)
    print(f"{len(table)} names")


if __name__ == "__main__":
    main("--dry" in sys.argv[1:])
