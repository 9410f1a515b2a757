#!/usr/bin/env python3
"""Brings the repository's own definitions and lemmas to snake case, by the table tools/respell.tsv.

    python3 tools/respell.py

A row of the table has an old name, a new one and, where it holds in one part of the tree alone, the beginning of its path. Whole names
turn in specs/ and proofs/, comments too; in src/ in the clauses, in the `ghost use` lines and in comments; in edits where they stand in
such a place. Functions of src/, exported names, strings and inputs keep theirs. It is run once, after the toolchain's own script.
"""

import pathlib
import re

ROOT = pathlib.Path(__file__).resolve().parents[1]
NAME = re.compile(r"[^\s(){}.;,@\"«»\[\]|/:\\`*]+")
GHOST = re.compile(r"ghost use\b[^;]*;|//[^\n]*|\b(?:requires|ensures)\s*\*?\s*(?:\w+\s*)?\{")


def rows():
    everywhere, scoped = {}, []
    for line in (ROOT / "tools" / "respell.tsv").read_text(encoding="utf-8").splitlines():
        old, new, *where = line.split("\t")
        if where:
            scoped.append((where[0], old, new))
        else:
            everywhere[old] = new
    return everywhere, scoped


def names_of(path, everywhere, scoped):
    """The table as it holds for one file."""
    here = dict(everywhere)
    here.update({old: new for where, old, new in scoped if path.startswith(where)})
    return here


def turned(text, names):
    return NAME.sub(lambda found: names.get(found[0], found[0]), text)


def block_end(text, start):
    """Past the brace that closes the one before `start`."""
    depth = 1
    while start < len(text) and depth:
        depth += {"{": 1, "}": -1}.get(text[start], 0)
        start += 1
    return start


def turned_source(text, names):
    """A source: only what is said of the code, and not the code."""
    made, at = [], 0
    for found in iter(lambda: GHOST.search(text, at), None):
        end = block_end(text, found.end()) if found[0].endswith("{") else found.end()
        made += [text[at : found.start()], turned(text[found.start() : end], names)]
        at = end
    return "".join(made) + text[at:]


def turned_edit(text, names):
    """An edit: each text as the file that it stands in."""
    file, made = "", []
    for line in text.split("\n"):
        word = line.split(":")[0]
        if word == "file":
            file = line
        elif line.startswith("#") or file.endswith(".antt"):
            line = turned(line, names)
        else:
            line = turned_source(line, names)
        made.append(line)
    return "\n".join(made)


def main():
    everywhere, scoped = rows()
    kinds = {".antt": turned, ".rt": turned_source, ".edit": turned_edit}
    changed = 0
    for path in sorted((ROOT / "crates").rglob("*")):
        if path.suffix not in kinds or "out" in path.parts:
            continue
        text = path.read_text(encoding="utf-8")
        names = names_of(path.relative_to(ROOT).as_posix(), everywhere, scoped)
        made = kinds[path.suffix](text, names)
        if made != text:
            path.write_text(made, encoding="utf-8")
            changed += 1
    print(f"respell: {changed} files changed")


if __name__ == "__main__":
    main()
