#!/usr/bin/env python3
"""Spells the repository's own definitions and lemmas in snake case, and renames specs/Contracts.antt to specs/Code.antt.

usage: tools/respell.py [--check]      at the top of the repository, once, after the toolchain's port.py

A name that a .antt file declares and that begins with a small letter turns: 'refusalNumber' to 'refusal_number',
'andThen-at' to 'and_then-at'. A dash still joins two names, but in a record's field and a constructor it becomes '_'.
Types, modules and constants keep their capitals. In a .rt file only such names turn as well: Rust has none with a capital
inside, and no string of this repository does. A lemma that would then have its definition's name ends in '_lem'. Must-fail
edits turn too. With --check nothing is written: the table is printed, and beside each name what has the new spelling already.
"""
import os
import re
import sys

WORD = r"[A-Za-z_][\w'\-]*"
DECLARED = re.compile(rf"^(\s*)(?:(?:abbrev|unfoldable|pattern)\s+)*(?:pub\s+)?({WORD})\s*(?:\{{[^}}\n]*\}}\s*)?:(?!=)")
# Lemmas that would have the name of the definition that they speak of.
LEMMAS = {"head_bytes": "head_bytes_lem", "first_chunk": "first_chunk_lem", "numbers_of": "numbers_of_lem", "whole_in": "whole_in_lem"}
RECORD = re.compile(r"^(?:pub )?(?:record|data) ")
TOKEN = re.compile(rf"(?<![\w'\-]){WORD}")


def files(root):
    for folder, dirs, names in os.walk(os.path.join(root, "crates")):
        dirs[:] = sorted(d for d in dirs if d != "out")
        for n in sorted(names):
            if n.endswith((".antt", ".rt", ".edit")):
                yield os.path.join(folder, n)


def read(path):
    with open(path, encoding="utf-8") as f:
        return f.read()


def snake(name):
    s = re.sub(r"([a-z0-9])([A-Z])", r"\1_\2", name)
    s = re.sub(r"([A-Z]+)([A-Z][a-z])", r"\1_\2", s)
    return s.lower()


def declared(root):
    """name -> 'def' or 'field', over all .antt files."""
    found = {}
    for p in files(root):
        if not p.endswith(".antt"):
            continue
        inside = False
        for line in read(p).splitlines():
            if RECORD.match(line):
                inside = True
                continue
            m = DECLARED.match(line)
            if inside and line.strip() and not line.startswith((" ", "\t")):
                inside = False
            if not m:
                continue
            name = m.group(2)
            if inside and m.group(1):
                found[name] = "field"
            elif not m.group(1) and name not in found:
                found[name] = "def"
    return found


def table(root):
    rows = dict(LEMMAS)
    for name, kind in declared(root).items():
        if not re.match(r"[a-z]", name) or name in LEMMAS:
            continue
        parts = name.split("-")
        # A part that is a type's or a constant's name keeps its capitals.
        new = "-".join(p if re.match(r"[A-Z]", p) else snake(p) for p in parts)
        if kind == "field":
            new = new.replace("-", "_")
        if new != name:
            rows[name] = new
    return rows


def main(argv):
    root = "."
    check = argv == ["--check"]
    names = declared(root)
    rows = table(root)
    functions = set()
    words = set()
    for p in files(root):
        t = read(p)
        words |= set(TOKEN.findall(t))
        if p.endswith(".rt"):
            functions |= set(re.findall(r"\bfn (\w+)", t))
    for old, new in sorted(rows.items()):
        note = []
        if new in names:
            note.append("declared already")
        elif new in words:
            note.append("a word already")
        if new in functions:
            note.append("a function's name")
        if check:
            print(f"{old}\t{new}\t{'; '.join(note)}")
    if check:
        return 0

    def turn(m):
        return rows.get(m.group(0), m.group(0))

    for p in files(root):
        t = read(p)
        n = TOKEN.sub(turn, t) if not p.endswith(".rt") else re.sub(r"\b[a-z]\w*(?:-\w+)*", turn, t)
        n = re.sub(r"(Rattle\.\w+\.specs\.)Contracts\b", r"\1Code", n)
        if os.path.basename(p) == "Lib.antt" and os.path.basename(os.path.dirname(p)) == "specs":
            n = re.sub(r"(?m)^(pub mod|mod) Contracts$", r"\1 Code", n)
        if n != t:
            with open(p, "w", encoding="utf-8") as f:
                f.write(n)
        if p.endswith("/specs/Contracts.antt"):
            os.rename(p, os.path.join(os.path.dirname(p), "Code.antt"))
    return 0


if __name__ == "__main__":
    raise SystemExit(main(sys.argv[1:]))
