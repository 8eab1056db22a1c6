#!/usr/bin/env python3
"""Gives the repository's own names the spelling of the toolchain's library, once, after its port.py: words in snake case, types and modules in camel case.

usage: python3 tools/spelling.py        at the top of the repository

A definition `loopAt` becomes `loop_at` in specs/, proofs/, contracts, must-fail edits and documents. Lemmas that port.py has given the new name of a definition get their
dash back.
Must-fail edits are brought to the form of contracts too (a result, old and new values, no corner brackets)."""
import glob
import os
import re

CAMEL = re.compile(r"(?<![\w'·\\])([a-z](?:[a-z0-9_]*[a-z0-9])?(?:[A-Z][a-z0-9_']*)+)(?![\w·])")
# lemmas: `place-at` became `place_at`, which is now the definition `placeAt`
DASHED = "access_of any_sign neg_sum no_access not_negative numbers_of place_at point_at row_room sign_at term_up step_in".split()
# what port.py renames in files, for the edits, which it leaves
EDITED = {"getD": "get_or", "wordBytes": "word_bytes"}


def read(path):
    with open(path, encoding="utf-8") as f:
        return f.read()


def write(path, text):
    if read(path) != text:
        with open(path, "w", encoding="utf-8") as f:
            f.write(text)


def snake(name):
    name = re.sub(r"([A-Z])(?=[A-Z][a-z])", r"\1_", name)
    return re.sub(r"(?<=[a-z0-9'])([A-Z])", r"_\1", name).lower()


def below(*patterns):
    found = [p for pattern in patterns for p in glob.glob(pattern, recursive=True)]
    return sorted(p for p in found if "/out/" not in p and os.path.isfile(p))


def own_names():
    names = set()
    for path in below("crates/*/specs/**/*.antt", "crates/*/proofs/**/*.antt", "crates/*/src/**/*.rt"):
        names |= set(CAMEL.findall(read(path)))
    return names


def respelled(text, names):
    return CAMEL.sub(lambda m: snake(m.group(1)) if m.group(1) in names else m.group(1), text)


def edit_lines(text):
    text = re.sub(r"⌜ ?| ?⌝", "", text)
    text = re.sub(r"(?<![\w'])_(\+\+|\+ℤ|\*ℤ|<ℤ|≤ℤ|[-+*/%^<≤≡×∷⊎]|&&|\|\|)_(?![\w'])", r"◌\1◌", text)
    for old, new in EDITED.items():
        text = re.sub(rf"(?<![\w'-]){old}(?![\w'-])", new, text)
    text = re.sub(r"Rattle·(\w+)·(?:specs|proofs)\.", r"Rattle.\1.", text)
    text = re.sub(r"Rattle·(\w+)", r"Rattle.\1", text)
    # projections are written tight, and what a reference points to is .now, .old or .new
    for _ in range(6):
        text = re.sub(r"([\w')]) \.([a-z0-9])", r"\1.\2", text)
        text = re.sub(r"\bnow \(([\w.']+)\.entry\)", r"\1.now", text)
        text = re.sub(r"\bnow \(([\w.']+)\.exit\)", r"\1.new", text)
        text = re.sub(r"\bnow ([\w']+)", r"\1.now", text)
        text = re.sub(r"(?<=[ (])\(([\w']+(?:\.\w+)+)\)", r"\1", text)
    return text.replace("′", "'")


def main():
    names = own_names()
    for path in below("crates/*/src/**/*.rt"):
        write(path, respelled(read(path), names))
    for path in below("crates/*/specs/**/*.antt", "crates/*/proofs/**/*.antt"):
        text = read(path)
        for name in DASHED:
            text = re.sub(rf"(?<![\w'-]){name}(?![\w'-])", name.replace("_", "-"), text)
        write(path, respelled(text, names))
    for path in below("crates/*/must-fail/**/*.edit"):
        write(path, CAMEL.sub(lambda m: snake(m.group(1)), edit_lines(read(path))))
    for path in below("*.md", "docs/**/*.md", "course/**/*.md"):
        write(path, respelled(read(path), names))


main()
