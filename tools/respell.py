#!/usr/bin/env python3
"""Brings the names of definitions and lemmas in crates/ to snake case, as 'recordBytes' to 'record_bytes'. Strings stay; in a comment the names that the code has turn too.

usage: python3 tools/respell.py   at the top of the repository, once, after the toolchain's own script of spellings
"""

import os
import re

NAME = re.compile(r"(?<![\w'])[a-z]\w*(?:[-'][\w'≤]+)*")
QUIET = re.compile(r'"(?:[^"\\\n]|\\.)*"|(?<!\S)--[^\n]*|//[^\n]*')

# A lemma that would fall together with the definition that it speaks of: the folder or file, the old name, the new one.
LEMMAS = [
    ("crates/json_theory/proofs/Parts.antt", "number_fits", "number_fits_lem"),
    ("crates/json_theory/proofs/Parts.antt", "start_fits", "start_fits_lem"),
    ("crates/json_tokens/proofs/Tokens.antt", "same_bool", "same_bool_lem"),
    ("crates/inference/proofs/InPlace/Repeats.antt", "same_bytes", "same_bytes_lem"),
    ("crates/gathering/proofs/same_message/Proof.antt", "same_bytes", "same_bytes_lem"),
    ("crates/inference/proofs/InPlace/Items.antt", "too_many", "too_many_lem"),
    ("crates/inference/proofs/placing/locate/Proof.antt", "too_many", "too_many_lem"),
    ("crates/folding/proofs/OnBytes/FieldStart.antt", "as_fields", "as_fields_lem"),
    ("crates/folding/proofs/pass/start_for/Proof.antt", "as_fields", "as_fields_lem"),
]


def snake(name):
    name = name.replace("getD", "get_or")
    return re.sub(r"(?<=[a-z0-9])[A-Z]+", lambda m: "_" + m[0].lower(), name)


def names(text):
    """The names outside strings and comments."""
    return set(NAME.findall(QUIET.sub(" ", text)))


def turned(text, known):
    """The text with each name turned that stands outside strings, in a comment only a known one."""

    def comment(quiet):
        return quiet if quiet[0] == '"' else NAME.sub(lambda m: snake(m[0]) if m[0] in known else m[0], quiet)

    out, at = [], 0
    for quiet in QUIET.finditer(text):
        out += [NAME.sub(lambda m: snake(m[0]), text[at : quiet.start()]), comment(quiet[0])]
        at = quiet.end()
    return "".join(out + [NAME.sub(lambda m: snake(m[0]), text[at:])])


def sources():
    for folder, folders, files in os.walk("crates"):
        folders[:] = sorted(d for d in folders if d != "out")
        yield from (os.path.join(folder, name) for name in sorted(files) if name.endswith((".antt", ".rt")))


def read(path):
    with open(path, encoding="utf-8") as f:
        return f.read()


def write(path, text):
    with open(path, "w", encoding="utf-8") as f:
        f.write(text)


def main():
    for path, old, new in LEMMAS:
        write(path, re.sub(rf"(?<![\w'.-]){old}(?![\w'-])", new, read(path)))
    known = set().union(*(names(read(path)) for path in sources()))
    for path in sources():
        write(path, turned(read(path), known))


main()
