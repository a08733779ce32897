#!/usr/bin/env python3
"""Respells this repository's own definitions and lemmas: words in snake case, as isBlank -> is_blank. Run once at the top, behind port.py.

A dash that joins two names stays, as in cut-turn; types, modules and constructors keep their capitals; strings and
functions of src/ keep their names. It stops where two names of one file would fall together.
"""
import glob
import re
import sys

# Names that are spelled after a type, or are the library's.
KEEP = {"same_Reads", "row_Line", "getD"}
WORD = re.compile(r"(?<![A-Za-z0-9_'])[a-z][a-z0-9_]*[A-Z][A-Za-z0-9_]*")
# Lemmas that would have the name of the definition that they are about: they get `_lem`.
LEMMAS = {
    "is_same": ["duplicates/proofs/Again.antt", "duplicates/proofs/WordParts.antt"],
    "is_block": ["durations/proofs/is_new/Proof.antt"],
    "body_end": ["fields/proofs/Places.antt", "fields/proofs/trim/Proof.antt"],
    "read_at": ["grammar/proofs/ReadLines.antt", "file/proofs/row_line/Proof.antt", "file/proofs/scan_marked/Proof.antt"],
    "rows_out": ["plays_same/proofs/Arrangement.antt"],
    "plain_step": ["restated_laws/proofs/RowBack.antt", "restated_laws/proofs/ListedBack.antt", "restated_laws/proofs/ShapeBack.antt", "restated_laws/proofs/DefinedBack.antt"],
    "row_is": ["rows/proofs/CutRows.antt"],
    "new_line": ["section_text/proofs/Putting.antt"],
}


def snake(word):
    word = re.sub(r"([A-Z]+)([A-Z][a-z])", r"\1_\2", word)
    word = re.sub(r"([a-z0-9])([A-Z])", r"\1_\2", word)
    return word.lower()


def turned(text):
    def one(m):
        w = m.group(0)
        return w if w in KEEP else snake(w)

    parts = re.split(r'("(?:[^"\\\n]|\\.)*")', text)
    return "".join(p if i % 2 else WORD.sub(one, p) for i, p in enumerate(parts))


def parted(path, text):
    """The lemmas that would fall together with a definition, renamed first."""
    for name, paths in LEMMAS.items():
        if any(path == "crates/" + p for p in paths):
            text = re.sub(rf"(?<![A-Za-z0-9_'.-]){name}(?![A-Za-z0-9_'-])", name + "_lem", text)
    return text


def files():
    for p in sorted(glob.glob("crates/*/specs/**/*.antt", recursive=True) + glob.glob("crates/*/proofs/**/*.antt", recursive=True)):
        yield p
    for p in sorted(glob.glob("crates/*/src/*.rt") + glob.glob("crates/*/must-fail/*.edit") + glob.glob("crates/*/further/*.edit")):
        yield p


def main():
    look = "--look" in sys.argv
    n = 0
    for p in files():
        with open(p, encoding="utf-8") as f:
            old = f.read()
        text = parted(p, old)
        new = turned(text)
        if new == old:
            continue
        body = "\n".join(l for l in text.split("\n") if not l.lstrip().startswith(("--", "//")))
        have = set(re.findall(r"(?<![A-Za-z0-9_'.-])[a-z][a-z0-9_]*(?![A-Za-z0-9_'-])(?!\.)", body))
        olds = {w for w in WORD.findall(body) if w not in KEEP}
        for w in sorted(olds):
            if snake(w) in have:
                print(f"{p}: {w} -> {snake(w)} stands there already")
        by = {}
        for w in olds:
            by.setdefault(snake(w), set()).add(w)
        for k, v in by.items():
            if len(v) > 1:
                print(f"{p}: {sorted(v)} fall together")
        n += 1
        if not look:
            with open(p, "w", encoding="utf-8") as f:
                f.write(new)
    print(f"{n} files")


main()
