#!/usr/bin/env python3
"""Spells the repository's own definitions and lemmas as today's Rattle does, once, on the tree that port.py left.

usage: tools/spell.py [--check]      at the top of the repository

A function, a lemma, a constructor and a field are in snake case, a type and a module in upper camel case. Names are read
off the declarations of specs/ and proofs/ and the ghost members of src/; words of the code's own text stay. A hyphenated
word turns behind a dot only inside a `use`, since there it is else a label that Rattle makes. Comments and strings stay,
but for camel-case words of comments. --check changes nothing and lists what would meet another name.
"""

import glob
import os
import re
import sys

NAME = r"""[^\s(){}.;,@"«»]+"""
WORD = re.compile(NAME)
QUIET = re.compile(r'"(?:[^"\\\n]|\\.)*"|(?<![^\s(){}.;,@"«»])--[^\n]*')
DECLARED = re.compile(rf"(?m)^( *)((?:abbrev |unfoldable )?(?:pub )?(?:record |data )?)({NAME})((?: \([^()]*(?:\([^()]*\)[^()]*)*\)| \{{[^{{}}]*\}})*) : ([^\n]*)")
GHOST = re.compile(r"\bghost (\w+): \{")
MODULES = re.compile(r"/proofs/(?:.*/)?(?:Answers|Invariants|Choices|Proof)\.antt$")
CLAUSE = re.compile(r"(?:requires|ensures|ghost)\s*\*?\s*(?:\w+\s*)?(?:[:=]\s*)?\{|ghost\s+use\b")
# What the rule alone does not settle: old name, new name. A lemma that would meet its function's name gets `_lem`.
BY_HAND = {
    "code-octets": "code_octets_lem",
    "give-asks": "give_asks_lem",
    "highest-octet": "highest_octet_lem",
    "no-ports": "no_ports_lem",
    "number-field": "number_octets",
    "number-fine": "number_passes",
    "octets-in": "octets_in_lem",
    "refused-by": "refused_by_lem",
    "string-above": "string_above_lem",
    "string-of": "string_of_lem",
    "take-asks": "take_asks_lem",
    "taken-by": "taken_by_lem",
    "getD-seam": "get_or_seam",
    # names that an import gives
    "framedAs": "framed_as",
    "headAt": "head_at",
    "heldOn": "held_on",
    "laidOver": "laid_over",
    "octets-of": "octets_of",
    "readBack": "read_back",
    "sameSide": "same_side",
    "tailOf": "tail_of",
    "the-body": "the_body",
    "the-part": "the_part",
    "the-pdu": "the_pdu",
}
# What would meet a constructor or a definition of wire in writer, and a lemma of addresses that would meet its function.
IN_CRATE = {
    "writer": {"data_of": "data_message", "longOf": "long_message", "header_of": "header_octets"},
    "addresses": {"is_field": "is_field_lem"},
}
# Crates whose name a library of the kit has.
CRATES = {"hex": "hex_text", "logbook": "dialogue_log"}


def snake(name):
    name = re.sub(r"(?<=[a-z0-9])[A-Z]", lambda m: "_" + m[0].lower(), name)
    return name.replace("-", "_")


def camel(name):
    return "".join(it[:1].upper() + it[1:] for it in name.split("-"))


def files(kind):
    found = []
    for folder, dirs, names in os.walk("crates"):
        dirs[:] = sorted(d for d in dirs if d not in ("out", "target"))
        found += [os.path.join(folder, n) for n in sorted(names) if n.endswith(kind)]
    return found


def own_texts():
    """The files of definitions and lemmas; not those that answer a function's goals."""
    return [f for f in files(".antt") if not MODULES.search(f)]


def read(path):
    with open(path, encoding="utf-8") as f:
        return f.read()


def plain(text):
    return QUIET.sub(lambda m: " " * len(m[0]), text)


def gather():
    names = {}
    for path in own_texts() + [f for f in files(".antt") if MODULES.search(f)]:
        answers = MODULES.search(path)
        for m in DECLARED.finditer(plain(read(path))):
            indent, words, name, _, behind = m.groups()
            if name in ("use", "let", "in") or "=" in name.split():
                continue
            if answers and re.match(r" *goal\b", behind):
                continue
            is_type = "record " in words or "data " in words or re.search(r"Type 0 *$", behind) or name[0].isupper()
            new = camel(name) if is_type else snake(name)
            if new != name:
                names[name] = new
    for path in files(".rt"):
        for m in GHOST.finditer(read(path)):
            if snake(m[1]) != m[1]:
                names[m[1]] = snake(m[1])
    names.update(BY_HAND)
    return names


def turned_words(text, names, in_use=False, heads=None):
    """Turns whole words. Behind a dot a hyphenated word is a label that Rattle makes, unless `heads` has what stands before it; None has all."""

    def turn(m):
        word = m[0]
        if word not in names:
            return word
        behind_dot = m.start() > 0 and text[m.start() - 1] == "."
        if in_use and behind_dot and text[m.end() : m.end() + 1] == ".":
            return word  # a module's name
        if behind_dot and "-" in word and not in_use and heads is not None:
            head = re.search(rf"({NAME})\.$", text[: m.start()])
            if not head or head[1] not in heads:
                return word
        return names[word]

    return WORD.sub(turn, text)


def aliases(text):
    """The names by which a file knows modules."""
    return set(re.findall(r" as ([^\s,}]+)", text)) - {"goal"}


def turned_comment(text, names):
    camels = {k: v for k, v in names.items() if re.search(r"[a-z][A-Z]", k)}
    return re.sub(r"\b\w+\b", lambda m: camels.get(m[0], m[0]), text)


def turned_antt(text, names, heads=None):
    out, at = [], 0
    for m in QUIET.finditer(text):
        out.append(by_lines(text[at : m.start()], names, heads))
        out.append(m[0] if m[0].startswith('"') else turned_comment(m[0], names))
        at = m.end()
    out.append(by_lines(text[at:], names, heads))
    return "".join(out)


def by_lines(text, names, heads=None):
    def line(it):
        return turned_words(it, names, bool(re.match(r"\s*(pub )?use ", it)), heads)

    return "".join(line(it) for it in text.splitlines(keepends=True))


def closing(text, at):
    """The end of the brace that opens at `at`."""
    deep = 0
    for i in range(at, len(text)):
        deep += {"{": 1, "}": -1}.get(text[i], 0)
        if deep == 0:
            return i + 1
    return len(text)


def turned_rt(text, names):
    out, at = [], 0
    while True:
        m = CLAUSE.search(text, at)
        if not m:
            out.append(rust(text[at:], names))
            return "".join(out)
        out.append(rust(text[at : m.start()], names))
        if "use" in m[0].split() or m[0].endswith("use"):
            end = text.index(";", m.end()) + 1
            out.append(turned_words(text[m.start() : end], names, True))
        else:
            head = re.sub(r"\bghost (\w+)", lambda g: "ghost " + names.get(g[1], g[1]), m[0])
            end = closing(text, m.end() - 1)
            out.append(head[:-1] + by_lines(text[m.end() - 1 : end], names))
        at = end


def rust(text, names):
    """Rust's own text: only its comments speak of definitions."""
    return re.sub(r"//[^\n]*", lambda m: turned_comment(m[0], names), text)


def turned_edit(path, text, names):
    target = re.search(r"(?m)^file: (\S+)", text)
    antt = target and target[1].endswith(".antt")
    out = []
    for line in text.splitlines(keepends=True):
        m = re.match(r"(old|new): (.*)", line, re.S)
        if not m:
            out.append(line)
        elif antt:
            out.append(f"{m[1]}: " + turned_antt(m[2], names))
        elif CLAUSE.search(m[2]):
            out.append(f"{m[1]}: " + turned_rt(m[2], names))
        else:
            out.append(line)
    return "".join(out)


def meetings(names):
    """Names that would fall together, with one another or with a word that a file has already."""
    said = []
    back = {}
    for old, new in sorted(names.items()):
        if new in back:
            said.append(f"two names: {back[new]} and {old} would both be {new}")
        back[new] = old
    for path in files(".antt") + files(".rt"):
        words = set(WORD.findall(plain(read(path)) if path.endswith(".antt") else re.sub(r"//[^\n]*", "", read(path))))
        for old, new in sorted(names.items()):
            if old in words and new in words:
                said.append(f"{path}: {old} would meet {new}")
    return said


def of_crate(path, names):
    return names | IN_CRATE.get(path.split("/")[1], {})


def write(path, old, new):
    if new != old:
        with open(path, "w", encoding="utf-8") as f:
            f.write(new)


def renamed_crates(text, path):
    for old, new in CRATES.items():
        text = re.sub(rf"\bRattle\.{old}\b", f"Rattle.{new}", text)
        if path.endswith(".rt"):
            text = re.sub(rf"(?m)^(\s*(?:pub )?use ){old}::", rf"\1{new}::", text)
        if path.endswith(".edit"):
            text = re.sub(rf"(?m)^((?:old|new): (?:pub )?use ){old}::", rf"\1{new}::", text)
    return text


def rename_crates():
    for old, new in CRATES.items():
        if os.path.isdir(f"crates/{old}"):
            os.rename(f"crates/{old}", f"crates/{new}")
    lines = read("crates.txt").splitlines(keepends=True)
    turned = [l if l.startswith("#") else re.sub(r"\w+", lambda m: CRATES.get(m[0], m[0]), l) for l in lines]
    write("crates.txt", "", "".join(turned))


def main(argv):
    names = gather()
    if "--check" in argv:
        print("\n".join(f"{a}\t{b}" for a, b in sorted(names.items())))
        print("\n".join(meetings(names)))
        return
    for path in files(".antt"):
        text = read(path)
        heads = aliases(text) if MODULES.search(path) else None
        write(path, text, renamed_crates(turned_antt(text, of_crate(path, names), heads), path))
    for path in files(".rt"):
        text = read(path)
        write(path, text, renamed_crates(turned_rt(text, of_crate(path, names)), path))
    for path in files(".edit"):
        text = read(path)
        write(path, text, renamed_crates(turned_edit(path, text, of_crate(path, names)), path))
    rename_crates()


main(sys.argv[1:])
