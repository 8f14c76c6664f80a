#!/usr/bin/env python3
"""respell.py: brings the names that this repository's own definitions, fields and lemmas have to the spelling of today's Rattle.

usage: python3 tools/respell.py [--check]     at the top of the repository, once, behind port.py

Words are in snake case: `relayPlaces` becomes `relay_places`, `surveyed-none` becomes `surveyed_none`. A lemma that would have the name of a
definition gets `_lem` behind it. Types and modules keep their capitals. Functions of src/, exported names, strings, inputs and outputs keep
theirs. Names that the prover makes, as the goals of a Proof.antt, are no names of ours. It turns .antt files, the contracts of .rt files, must-fail
edits, and the code spans of pages.
"""

import collections
import os
import re
import sys

WORD = re.compile(r'[^\s(){}.;,@"«»`]+')
SPLIT = re.compile(r'("(?:[^"\\\n]|\\.)*")')
DECL = re.compile(r"^(?:(?:abbrev|unfoldable|pub|private|opaque|unfolding|corecursive) )*(?:(record|data) )?([^\s:(){}]+)((?: [^:\n=]*)?) : ?(.*)", re.M)
FIELD = re.compile(r"^(?:  )+(?:pub )?([^\s:(){}=]+) : ", re.M)
MADE = re.compile(r"tie\.(?:Need|invariant|decreases|measure)|statement")


def texts(top, endings):
    for folder, dirs, files in os.walk(top):
        dirs[:] = sorted(d for d in dirs if d not in ("out", ".git", "target"))
        for f in sorted(files):
            if f.endswith(endings):
                yield os.path.join(folder, f)


def snake(name):
    if name[0].isupper():
        return name.replace("-", "_")
    return re.sub(r"(?<=[a-z0-9])[A-Z]", lambda m: "_" + m[0].lower(), name).replace("-", "_")


def declared():
    """Each name that our texts declare, with the files that do, and whether a definition (in specs/, or with capitals inside) has it."""
    where, word = collections.defaultdict(set), set()
    for path in texts("crates", ".antt"):
        with open(path, encoding="utf-8") as f:
            text = f.read()
        for m in DECL.finditer(text):
            if not MADE.search(m[4]):
                where[m[2]].add(path)
                if "/specs/" in path or "-" not in m[2]:
                    word.add(m[2])
        if "/proofs/" not in path or "/Proof.antt" not in path:
            for m in FIELD.finditer(text):
                where[m[1]].add(path)
                word.add(m[1])
    return where, word


def table():
    where, word = declared()
    rows = {}
    there = set(where)
    taken = {n for n in where if snake(n) == n}
    turning = [n for n in where if snake(n) != n]
    for n in sorted(turning, key=lambda n: (n not in word or "-" in n, n)):
        new = snake(n)
        if new in taken:
            new += "_lem"
        if new in taken:
            sys.exit(f"respell: {n}: both {snake(n)} and {new} are there")
        taken.add(new)
        rows[n] = new
    return rows, there | taken


def library(text):
    """The names that a file has from the library."""
    found = set()
    for m in re.finditer(r"^(?:pub )?use ([^\s{]+)\.\{([^}]*)\}", text, re.M):
        if not m[1].startswith("Rattle.") or m[1].startswith("Rattle.std."):
            found |= {n.strip().split(" as ")[-1] for n in m[2].split(",")}
    return found


def turn(text, rows):
    parts = SPLIT.split(text)
    for i in range(0, len(parts), 2):
        parts[i] = WORD.sub(lambda m: rows.get(m[0], m[0]), parts[i])
    return "".join(parts)


def turn_edit(text, rows):
    return "\n".join(turn(l, rows) if re.match(r"(old|new|#|--)", l) else l for l in text.split("\n"))


def turn_page(text, rows, there):
    """In a page also a name that port.py has turned: one that is not there, where its new spelling is."""

    def one(m):
        w = m[0]
        return rows.get(w) or (snake(w) if w not in there and snake(w) in there else w)

    return re.sub(r"`[^`\n]+`", lambda m: WORD.sub(one, m[0]), text)


def main(check):
    rows, there = table()
    said = 0
    for path in [*texts("crates", (".antt", ".rt", ".edit")), *texts("docs", ".md"), "README.md"]:
        with open(path, encoding="utf-8") as f:
            text = f.read()
        mine = {n: s for n, s in rows.items() if n not in library(text)}
        if path.endswith(".antt"):
            used = set(WORD.findall(text))
            for n in sorted(used & set(mine)):
                if mine[n] in used:
                    print(f"look: {path}: {n} meets {mine[n]}")
                    said += 1
        new = turn_page(text, mine, there) if path.endswith(".md") else turn_edit(text, mine) if path.endswith(".edit") else turn(text, mine)
        if new != text and not check:
            with open(path, "w", encoding="utf-8") as f:
                f.write(new)
    print(f"respell: {len(rows)} names, {said} to look at")


if __name__ == "__main__":
    main("--check" in sys.argv)
