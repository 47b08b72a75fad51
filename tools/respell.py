#!/usr/bin/env python3
"""Brings this repository's own names to today's Rattle, once, on what port.py leaves.

usage: python3 tools/respell.py     at the top of the repository

1. Definitions, constructors, fields and variables of specs/ and proofs/ go from camel case to snake case,
   in ghost lines of src/, in must-fail edits and in the documents too; types and modules keep camel case.
2. A lemma that would then share its name with a definition gets `_lem`.
3. The crate `hex` becomes `intel_hex`, since the kit has a library of the old name.
Functions of src/, exported names, strings, inputs and outputs are left as they are.
"""

import glob
import os
import re
import subprocess

TOKEN = re.compile(r"[A-Za-zℕ_][A-Za-z0-9ℕ_'₀-₉]*(?:-[A-Za-z0-9ℕ_'₀-₉]+)*")
HUMP = re.compile(r"(?<=[a-z0-9])([A-Z])")
# A definition takes these names; the lemma that had one in the dashed form gets `_lem`.
LEMMAS = """not_on is_free first_store comes_back read_taken none_written no_cell cut_off field_put has_end
steps_on after_last read_cell written_back""".split()
OLD, NEW = "hex", "intel_hex"


def read(path):
    with open(path, encoding="utf-8") as f:
        return f.read()


def write(path, text):
    with open(path, "w", encoding="utf-8") as f:
        f.write(text)


def found(*patterns):
    for pattern in patterns:
        for path in sorted(glob.glob(pattern, recursive=True)):
            if os.path.isfile(path) and "/out/" not in path:
                yield path


def humped(part):
    return bool(re.match(r"[a-z]", part)) and HUMP.search(part) is not None


def snake(token):
    return "-".join(HUMP.sub(lambda m: "_" + m.group(1).lower(), p) if humped(p) else p for p in token.split("-"))


def rename_lemmas():
    bare = re.compile(r"(?<![\w.'-])(" + "|".join(LEMMAS) + r")(?![\w'-])")
    for path in found("crates/*/proofs/**/*.antt"):
        text = read(path)
        new = bare.sub(r"\1_lem", text).replace("Workers.comes_back", "Workers.comes_back_lem")
        if new != text:
            write(path, new)


def names():
    """Every camel-case word of specs/ and proofs/, comments aside."""
    words = set()
    for path in found("crates/*/specs/**/*.antt", "crates/*/proofs/**/*.antt"):
        for token in TOKEN.findall(re.sub(r"--.*", "", read(path))):
            words.update(p for p in token.split("-") if humped(p))
    return words


def rename_words(words):
    one = re.compile(r"(?<![A-Za-z0-9_'])(" + "|".join(sorted(words, key=len, reverse=True)) + r")(?![A-Za-z0-9_])")
    pages = [p for p in found("docs/*.md", "README.md")]
    for path in list(found("crates/*/specs/**/*.antt", "crates/*/proofs/**/*.antt", "crates/*/must-fail/*.edit")) + pages:
        text = read(path)
        new = one.sub(lambda m: snake(m.group(1)), text)
        if new != text:
            write(path, new)
    for path in found("crates/*/src/**/*.rt"):
        text = read(path)
        # A string keeps its words.
        parts = re.split(r'("(?:[^"\\\n]|\\.)*")', text)
        new = "".join(p if k % 2 else one.sub(lambda m: snake(m.group(1)), p) for k, p in enumerate(parts))
        if new != text:
            write(path, new)


def rename_crate():
    if not os.path.isdir("crates/" + OLD):
        return
    subprocess.check_call(["git", "mv", "crates/" + OLD, "crates/" + NEW])
    for path in found("crates/**/*.rt", "crates/**/*.antt", "crates/**/*.edit"):
        text = read(path)
        new = re.sub(r"\bRattle\.hex\b", "Rattle." + NEW, text)
        if path.endswith((".rt", ".edit")):
            new = re.sub(r"(?m)^((?:new: |old: )?\s*(?:pub )?use )hex\b", r"\1" + NEW, new)
            new = re.sub(r"(?<![\w:.])hex::", NEW + "::", new)
        if new != text:
            write(path, new)
    write("crates.txt", re.sub(r"(?m)(?<![\w])hex(?![\w])", NEW, read("crates.txt")))


if __name__ == "__main__":
    rename_lemmas()
    rename_words(names())
    rename_crate()
