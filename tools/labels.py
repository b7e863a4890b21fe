#!/usr/bin/env python3
"""Turns the labels in a crate's proof files to today's, where a word of the source keeps its underscores.

usage: tools/labels.py CRATE..      at the top of the repository, after spell.py

A label is a word behind a dot, or a name that an answer declares, in proofs/F/Answers.antt and Invariants.antt: as
returns-then-not-is-low, now returns-then-not-is_low, or a way into a join that a `use` of Goals names. Words come from the code of
all crates.
"""

import os
import re
import sys

SNAKE = re.compile(r"\b[a-z][a-z0-9]*(?:_[a-z0-9]+)+\b")
FILES = ("Answers.antt", "Invariants.antt")
# Words of labels that stand in no source.
MADE = ("invariant_of", "in_err", "in_ok", "in_default", "from_residual")


def walk(top, kind):
    for folder, dirs, names in os.walk(top):
        dirs[:] = [d for d in dirs if d != "out"]
        for n in names:
            if n.endswith(kind):
                yield os.path.join(folder, n)


def main(crates):
    words = set(MADE)
    for path in walk("crates", ".rt"):
        with open(path, encoding="utf-8") as f:
            text = re.sub(r"ghost use [^;]*;", "", f.read())
            words |= set(SNAKE.findall(re.sub(r"//[^\n]*", "", text)))
    pairs = sorted(((w.replace("_", "-"), w) for w in words), key=lambda p: -len(p[0]))

    def label(word):
        if "-" not in word:
            return word
        for old, new in pairs:
            word = re.sub(rf"(?<![\w]){re.escape(old)}(?![\w])", new, word)
        return word

    for crate in crates:
        for path in walk(f"crates/{crate}/proofs", FILES):
            with open(path, encoding="utf-8") as f:
                text = f.read()
            out = []
            for line in text.splitlines(keepends=True):
                if line.startswith("use ") and ".Goals.{" in line:
                    head, names = line.split(".Goals.{", 1)
                    line = head + ".Goals.{" + label(names)
                elif not line.startswith("use "):
                    line = re.sub(r"(?<=\.)[a-z][\w'-]*", lambda m: label(m[0]), line)
                    line = re.sub(r"^((?:abbrev )?(?:pub )?)([a-z][\w'-]*)", lambda m: m[1] + label(m[2]), line)
                out.append(line)
            new = "".join(out)
            if new != text:
                with open(path, "w", encoding="utf-8") as f:
                    f.write(new)


main(sys.argv[1:])
