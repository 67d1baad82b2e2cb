#!/usr/bin/env python3
"""Respells this repository's own definitions, lemmas, fields and local names for today's Rattle: words in snake case, types in upper camel case.

usage: python3 tools/respell.py     at the top of the repository, once, after the kit's port.py

Words of comments and of strings stay, and so do names that Rattle makes or that a library has.
"""

import os
import re

# names whose plain respelling is taken: by a tactic, by a function or a parameter of the code, or by a word of the library
TAKEN = {
    "first_of": "first_fault",
    "first-of": "first_fault",
    "tile-table": "tile_table_of",
    "row-value": "row_value_of",
    "case-text": "case_text_of",
    "file-text": "file_text_of",
    "problem-text": "problem_text_of",
    "kind-text": "kind_text_of",
    "table-lengths": "table_lengths_of",
    "column-first": "column_first_of",
    "of-bits": "doubles_of",
    "to-bits": "bits_of_doubles",
}

DASHED = r"[A-Za-z_][\w']*(?:-[\w']+)+"
TOKEN = re.compile(r"(?<![\w'\-«])(\.?)((?:" + DASHED + r")|first_of\b)")
LIBRARY = re.compile(r"use (?:Rattle\.std|lib|mathlib|Prim|borrow|denote|native)[\w.+]*\.\{([^}]*)\}")


def files():
    for folder, dirs, names in os.walk("crates"):
        dirs[:] = sorted(d for d in dirs if d != "out")
        for name in sorted(names):
            if name.endswith((".antt", ".rt")):
                yield os.path.join(folder, name)


def pieces(line, comment):
    """The line cut into code and what is not code: strings and a comment."""
    cuts, at = [], 0
    for m in re.finditer(r'"(?:[^"\\]|\\.)*"|' + comment, line):
        cuts += [(line[at : m.start()], True), (m.group(0), False)]
        at = m.end()
    return cuts + [(line[at:], True)]


def code_of(path, text):
    comment = r"//.*$" if path.endswith(".rt") else r"(?:^|(?<=\s))--(?:\s.*)?$"
    return [pieces(line, comment) for line in text.split("\n")]


def plain(cut):
    return "\n".join("".join(p if code else " " for p, code in line) for line in cut)


def names_of(texts):
    library, declared, fields = set(), set(), set()
    for path, cut in texts.items():
        text = plain(cut)
        for m in LIBRARY.finditer(text):
            library |= {n.strip().split(" as ")[0].strip() for n in m.group(1).split(",")}
        declared |= set(re.findall(r" as (" + DASHED + r")", text))
        if not path.endswith(".antt"):
            continue
        for m in re.finditer(r"^(\s*)(?:pub |abbrev |unfoldable )*(" + DASHED + r") :(?! goal\.)", text, re.M):
            declared.add(m.group(2))
            if m.group(1):
                fields.add(m.group(2))
        declared |= set(re.findall(r"^\s*(?:pub )?(?:record|data) (" + DASHED + ")", text, re.M))
        declared |= set(re.findall(r"\blet (" + DASHED + ")", text))
        for m in re.finditer(r"[({]([^(){}:]*) : |λ ([^.]*)\.", text):
            declared |= {n for n in (m.group(1) or m.group(2)).split() if re.fullmatch(DASHED, n)}
    return declared - library, fields - library


def respelled(name):
    if name in TAKEN:
        return TAKEN[name]
    if name[0].isupper():
        return "".join(w[:1].upper() + w[1:] for w in name.split("-"))
    return name.replace("-", "_")


def main():
    texts = {}
    for path in files():
        with open(path, encoding="utf-8") as f:
            texts[path] = code_of(path, f.read())
    declared, fields = names_of(texts)
    declared |= {"first_of"}

    def turn(m):
        known = fields if m.group(1) else declared
        return m.group(1) + (respelled(m.group(2)) if m.group(2) in known else m.group(2))

    def respell(piece):
        return re.sub(r"\b(\w+) as \1\b", r"\1", TOKEN.sub(turn, piece))

    for path, cut in texts.items():
        text = "\n".join("".join(respell(p) if code else p for p, code in line) for line in cut)
        with open(path, "w", encoding="utf-8") as f:
            f.write(text)


main()
