#!/usr/bin/env python3
"""Brings the definitions of specs/ and proofs/ from oneCase to one_case, as today's Rattle spells words. Lemmas keep their dashes.

Run once, at the top, after the toolchain's own port. It goes by the text: a name is a definition's where a file of specs/ or a file of
lemmas declares it. Names of functions in src/ are in that spelling already and stay.
"""
import glob
import re

NAME = r"[A-Za-z_][A-Za-z0-9_'\-₀-₉ℕℤ]*"
DECLARED = re.compile(rf"\s*(?:(?:abbrev|unfoldable|pub)\s+)*({NAME})\s+:\s")
# Lemmas that share their new spelling with a definition get their dash back. Behind a dot the word is a function of src/ or its module.
DASHED = ["pointer_word", "too_large", "in_tables", "kept_if", "count_at", "count_word", "nothing_read", "map_at", "no_body", "dot_at"]


def files(*patterns):
    return sorted(f for p in patterns for f in glob.glob(p, recursive=True) if "/out/" not in f)


def text_of(file):
    with open(file, encoding="utf-8") as it:
        return it.read()


def snake(name):
    return re.sub(r"([a-z0-9])([A-Z])", lambda m: m[1] + "_" + m[2].lower(), name)


def is_of_a_function(file):
    return re.search(r"/proofs/.*/(Proof|Answers|Invariants)\.antt$", file)


def declared():
    found = set()
    for file in files("crates/*/specs/**/*.antt", "crates/*/proofs/**/*.antt"):
        if not is_of_a_function(file):
            found |= {m[1] for line in text_of(file).splitlines() if (m := DECLARED.match(line)) and not line.startswith(("--", "use", "mod"))}
    return found


def main():
    names = declared()
    turned = {n: snake(n) for n in names if not n[0].isupper() and snake(n) != n}
    dashed = {n: n.replace("_", "-") for n in DASHED if n in names}
    word = re.compile(rf"(?<![\w'])({'|'.join(sorted(map(re.escape, turned), key=len, reverse=True))})(?![\w'-])")
    lemma = re.compile(rf"(?<![\w.'-])({'|'.join(dashed)})(?![\w'-])") if dashed else None
    fell = {}
    for name, new in turned.items():
        fell.setdefault(new, []).append(name)
        if new in names and new not in dashed:
            print(f"{name} falls together with {new}")
    for new, old in fell.items():
        if len(old) > 1:
            print(f"{old} fall together")
    for file in files("crates/**/*.antt", "crates/**/*.rt", "crates/*/must-fail/*.edit", "README.md", "CONTRIBUTING.md", "docs/**/*.md"):
        old = text_of(file)
        new = lemma.sub(lambda m: dashed[m[1]], old) if lemma and file.endswith(".antt") else old
        new = word.sub(lambda m: turned[m[1]], new)
        if new != old:
            with open(file, "w", encoding="utf-8") as it:
                it.write(new)
    print(f"{len(turned)} words")


main()
