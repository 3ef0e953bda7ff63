#!/usr/bin/env python3
"""Spells the words of specs/ and proofs/ in snake case: `isCapital` becomes `is_capital`.

usage: python3 tools/snake_case.py      at the top of the checkout, once, after the kit's port.py

A word's parts between dashes are spelled apart. Types, modules and variants begin with a capital and stay, as do Rust's names,
which are in snake case already. In .antt files every word is turned; in .rt files every word outside string and byte literals; in
must-fail edits the same, and with it names and forms of the older kit that port.py turned in the sources; in pages the words in
code spans.
"""

import os
import re

# letters of labels, in comments
STAY = {"jI66j8mi2", "lQ", "aBc", "aB"}

# what port.py turned in the sources, where edits have it
FORMS = [
    (r"Rattle·(\w+)·(specs|proofs)\.\2\.", r"Rattle.\1.\2."),
    (r"Rattle·", "Rattle."),
    (r"\bthe-variants\b", "TheVariants"),
    (r"(?<![\w'])_([≡+*<≤∷∙]|\+\+|\|\|)_", r"◌\1◌"),
    (r"\bgetD\b", "get_or"),
    ("′", "'"),
]


def part(word):
    if word in STAY or not re.match(r"[a-z]", word) or not re.search(r"[a-z0-9][A-Z]", word):
        return word
    word = re.sub(r"([a-z0-9])([A-Z])", r"\1_\2", word)
    word = re.sub(r"([A-Z])([A-Z][a-z])", r"\1_\2", word)
    return word.lower()


def words(text):
    return re.sub(r"[A-Za-z0-9_']+", lambda m: part(m.group()), text)


def outside_literals(text):
    pieces = re.split(r'(b?"(?:[^"\\\n]|\\.)*")', text)
    return "".join(p if i % 2 else words(p) for i, p in enumerate(pieces))


def edit(text):
    for old, new in FORMS:
        text = re.sub(old, new, text)
    return outside_literals(text)


def page(text):
    return re.sub(r"`[^`\n]+`", lambda m: words(m.group()), text)


TURNS = {".antt": words, ".rt": outside_literals, ".edit": edit, ".md": page}


def turn(path):
    with open(path, encoding="utf-8") as f:
        text = f.read()
    new = TURNS[os.path.splitext(path)[1]](text)
    if new != text:
        with open(path, "w", encoding="utf-8") as f:
            f.write(new)
    return new != text


def paths():
    yield "README.md"
    for top in ("crates", "docs"):
        for folder, dirs, files in os.walk(top):
            dirs[:] = sorted(d for d in dirs if d not in ("out", "data"))
            for f in sorted(files):
                if os.path.splitext(f)[1] in TURNS and not f.startswith("PORT"):
                    yield os.path.join(folder, f)


def main():
    print(f"snake_case: {sum([turn(p) for p in paths()])} files changed")


if __name__ == "__main__":
    main()
