#!/usr/bin/env python3
"""Brings the names of definitions, lemmas and labels to snake case, once, after the kit's own port.py.

usage: tools/respell.py            at the top of the repository

A definition or a lemma in lower camel case is respelled word by word (lengthBytes: length_bytes; a dash that joins two names
stays, as in length-lengthBytes: length-length_bytes), in specs/, proofs/, contracts and must-fail edits. A label of a record
loses its dashes. Where the new name of a definition is a lemma's already, that lemma gets the ending _lem; where it is a
parameter of a function whose clause cites it, the definition gets another name (BESIDE). Names that the kit makes, Rust's
functions, types, strings, inputs and outputs stay.
"""

import os
import re

# Labels of records that had dashes.
LABELS = """above-cut above-filled above-plainly appended-fine at-limit authority-0 authority-2 authority-descriptors-cut
authority-name-cut authority-no-length authority-of-1 beside-is count-is default-icon descriptors-cut id-is in-set
items-reserved length-is length-reserved link-fine links-fine links-read longest-plainly loop-end made-fine name-cut
no-descriptors none-refused of-2004 of-2005 of-2007 provider-0 provider-1 provider-cut provider-long providers-fine reserved-1
reserved-5 section-fine section-length type-reserved walked-links without-indicator""".split()

# A lemma whose name a definition takes, with the folders where the name means that lemma.
LEMMAS = {
    "entry_read": ["crates/rct_entries", "crates/rct", "crates/rct_edit", "crates/rct_demands", "crates/rct_links", "crates/rct_indexer"],
    "head_at": ["crates/locator"],
    "head_bytes": ["crates/rnt", "crates/rct"],
    "in_order": ["crates/field"],
    "items_at": ["crates/rct_links/proofs/Images.antt"],
    "no_fields": ["crates/flat_link", "crates/link"],
    "no_index": ["crates/rct_index"],
}

# A definition that a clause cites beside a parameter of the name that it would have.
BESIDE = {"uriEnd": "uri_end_place"}

# Names that are the kit's, or that no rule speaks of.
KEPT = re.compile(r"^(mut_Tells|index_Reads|shr_slice_\w+|uint_\w+|walk_\w+|mut_\w+|b'.*)$")

NAME = re.compile(r"(?<![A-Za-z0-9_'ℕℤ≡≤≢·-])[A-Za-z_ℕℤ][A-Za-z0-9_'ℕℤ≡≤≢·-]*")


def snake(part):
    """One part of a name, between dashes: a word in lower camel case in snake case, any other as it is."""
    if part in BESIDE:
        return BESIDE[part]
    if not re.match(r"[a-z_]", part):
        return part
    return re.sub(r"(?<=[a-z0-9'])([A-Z])", lambda m: "_" + m.group(1).lower(), part)


def name(word):
    if KEPT.match(word):
        return word
    if word in LABELS:
        return word.replace("-", "_")
    return "-".join(snake(part) for part in word.split("-"))


def turned(path, text):
    for lemma, places in LEMMAS.items():
        if path.endswith(".antt") and any(path == p or path.startswith(p + "/") for p in places):
            # In a path that goes on, or as a folder's, it is a function's.
            text = re.sub(r"(?<![\w'.-])%s(?![\w'.-])" % lemma, lemma + "_lem", text)
    return NAME.sub(lambda m: name(m.group(0)), text)


def code_apart(path, text):
    """In a source of Rattle only clauses and the imports for them have such names; strings keep theirs."""
    if not path.endswith(".rt"):
        return turned(path, text)
    lines = []
    for line in text.split("\n"):
        pieces = re.split(r'("(?:[^"\\]|\\.)*")', line)
        lines.append("".join(p if p.startswith('"') else turned(path, p) for p in pieces))
    return "\n".join(lines)


def main():
    changed = 0
    for folder, dirs, files in os.walk("crates"):
        dirs[:] = sorted(d for d in dirs if d != "out")
        for f in sorted(files):
            if not f.endswith((".antt", ".rt", ".edit")):
                continue
            path = os.path.join(folder, f)
            with open(path, encoding="utf-8") as file:
                old = file.read()
            new = code_apart(path, old)
            if new != old:
                changed += 1
                with open(path, "w", encoding="utf-8") as file:
                    file.write(new)
    print(f"respell: {changed} files")


if __name__ == "__main__":
    main()
