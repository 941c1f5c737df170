#!/usr/bin/env python3
"""Gives the repository's own definitions and lemmas the spelling of today's Rattle: words in snake case.

usage: tools/respell.py     at the top, once, after port.py

A name in mixed case, as `stateEnergy`, becomes `state_energy` wherever it stands: in specs/, proofs/, clauses, edits, README.md and docs/. Strings keep
their text. A lemma whose name would fall together with the definition that it is about gets `_lem`, as the library does.
"""
import os
import re

MIXED = re.compile(r"[a-z][a-z0-9]*(?:[A-Z][a-z0-9]*)+")
WORD = re.compile(r"[A-Za-z_ℕ][A-Za-z0-9_'₀-₉ᴰ]*")
STRING = re.compile(r'"(?:\\.|[^"\\])*"')

# of the old library, in the names of lemmas about them, and a definition that would have the library's name of something else
SPECIAL = {"getD": "get_or", "countBy": "outcome_count", "isAT": "is_a_or_t"}

# lemmas that would be named as their definitions: (file's beginning, name, new name)
LEMMAS = [
    ("crates/statements/proofs/Answers.antt", "count_by", "count_by_lem"),
    ("crates/statements/proofs/rows/count_rows/", "count_by", "count_by_lem"),
    ("crates/model/proofs/TwoEnergies.antt", "from_empty", "from_empty_lem"),
    ("crates/sdc_common/proofs/", "is_known", "is_known_lem"),
    ("crates/partition/proofs/", "none_left", "none_left_lem"),
    ("crates/design/proofs/Places.antt", "place_at", "place_at_lem"),
    ("crates/utils/proofs/Divided.antt", "same_int", "same_int_lem"),
    ("crates/short_sequences/proofs/Cases.antt", "spelled_out", "spelled_out_lem"),
]


def texts(root):
    for top in ("crates", "docs"):
        for folder, dirs, files in os.walk(os.path.join(root, top)):
            dirs[:] = sorted(d for d in dirs if d != "out")
            for f in sorted(files):
                if f.endswith((".rt", ".antt", ".edit", ".md")):
                    yield os.path.join(folder, f)
    yield os.path.join(root, "README.md")


def read(path):
    with open(path, encoding="utf-8") as f:
        return f.read()


def outside_strings(text, change):
    out, at = [], 0
    for m in STRING.finditer(text):
        out += [change(text[at : m.start()]), m[0]]
        at = m.end()
    return "".join(out + [change(text[at:])])


def snake(word):
    return SPECIAL.get(word) or re.sub(r"[A-Z]", lambda m: "_" + m[0].lower(), word)


def own_names(paths):
    """The names in mixed case that stand in the sources."""
    names = set()
    for path in paths:
        if path.endswith((".rt", ".antt")):
            text = re.sub(r"(--|//).*", "", read(path))
            if path.endswith(".rt"):
                text = STRING.sub('""', text)
            names |= {w for w in WORD.findall(text) if MIXED.fullmatch(w)}
    return names


def main():
    paths = [os.path.relpath(p) for p in texts(".")]
    names = own_names(paths)
    for path in paths:
        before = after = read(path)
        for begins, old, new in LEMMAS:
            if path.startswith(begins):
                after = re.sub(rf"(?<![\w'-]){old}(?![\w'-])(?!\.)", new, after)
        turn = lambda text: WORD.sub(lambda m: snake(m[0]) if m[0] in names else m[0], text)
        after = outside_strings(after, turn) if path.endswith((".rt", ".edit")) else turn(after)
        if after != before:
            with open(path, "w", encoding="utf-8") as f:
                f.write(after)


if __name__ == "__main__":
    main()
