#!/usr/bin/env python3
"""Lists the places in src/ where an older form may stand, point by point, for docs/DESIGN-PASS.md.

    python3 tools/places.py [FOLDER] [POINT..]

FOLDER is the top of a checkout (this one by default). Each line is a candidate; the page tells what was made of it."""
import re
import sys
from collections import defaultdict
from pathlib import Path

NUMBER = r"(?:u8|u16|u32|u64|usize)"


def sources(top):
    return sorted(p for p in Path(top).glob("crates/*/src/*.rt"))


def lines(path):
    return list(enumerate(path.read_text().splitlines(), 1))


def grep(top, pattern):
    for path in sources(top):
        for n, text in lines(path):
            if re.search(pattern, text) and not text.lstrip().startswith("//"):
                yield f"{path.relative_to(top)}:{n}: {text.strip()}"


def functions(path):
    """Each function of a file: its name, its line, its signature and clauses, and its body."""
    text = path.read_text()
    for m in re.finditer(r"^ *(?:pub(?:\([a-z]+\))? )?(?:const )?fn (\w+)", text, re.M):
        start, depth, at = m.start(), 0, m.end()
        # the body begins at the first brace that stands alone on a line or ends the signature's line
        body = re.compile(r"^ *\{$| \{$", re.M).search(text, at)
        stop = re.compile(r";$", re.M).search(text, at)
        if body is None or (stop and stop.start() < body.start()):
            end = stop.end() if stop else len(text)
            yield m.group(1), text.count("\n", 0, start) + 1, text[start:end], ""
            continue
        i = body.end() - 1
        for i in range(body.end() - 1, len(text)):
            depth += {"{": 1, "}": -1}.get(text[i], 0)
            if depth == 0:
                break
        yield m.group(1), text.count("\n", 0, start) + 1, text[start:body.start()], text[body.end():i]


def own_shapes(top):
    """1: enums, to be read for the shape of Option and Result; numbers in place of kinds."""
    yield from grep(top, r"^\s*(pub(\(crate\))? )?enum \w+")
    yield from grep(top, r"\b(kind|call|state|in_state|standing|text|first|code|n): (u8|u64)\b")
    yield from grep(top, r"^\s*(0x)?[0-9A-F]+ => ")
    yield from grep(top, r"-> u8 \{|-> u64 \{|Result<u8,")


def twins(top):
    """2: bodies of three lines or more that are the same but for names, types and numbers."""
    seen = defaultdict(list)
    for path in sources(top):
        for name, line, head, body in functions(path):
            shape = re.sub(r"//.*", "", body)
            shape = re.sub(r'b?"[^"]*"', "S", shape)
            shape = re.sub(r"\b(0x[0-9A-Fa-f]+|[0-9]+)\b", "N", shape)
            shape = re.sub(r"\b[A-Za-z_]\w*\b", "w", shape)
            shape = re.sub(r"(w => [^\n]*\n\s*)+", "arms ", shape)
            shape = re.sub(r"\s+", "", shape)
            if body.count("\n") >= 3 or len(shape) > 40:
                seen[shape].append(f"{path.relative_to(top)}:{line}: fn {name}")
    for places in seen.values():
        if len(places) > 1:
            yield " | ".join(places)
    fields = defaultdict(list)
    for path in sources(top):
        for m in re.finditer(r"struct (\w+)[^{;]*\{(.*?)^\s*\}", path.read_text(), re.S | re.M):
            shape = re.sub(r"//.*|ghost[^\n]*", "", m.group(2))
            shape = re.sub(r"\b[0-9]+\b", "N", re.sub(r"pub(\(crate\))? ", "", shape))
            fields[re.sub(r"\s+", "", shape)].append(f"{path.relative_to(top)}: struct {m.group(1)}")
    for places in fields.values():
        if len(places) > 1:
            yield " | ".join(places)


def counted_loops(top):
    """3: loops by an index, by a count or by a walk."""
    yield from grep(top, r"^\s*('\w+: )?(while|loop)\b")
    yield from grep(top, r"\bfor \w+ in [\w.()/ ]+\.\.")
    yield from grep(top, r"\w (\+|-)= ")
    yield from grep(top, r"\bfor \w+ in \w+ \{")


def by_hand(top):
    """4: equality, order, copying, conversion and printing by hand."""
    yield from grep(top, r"\bfn (same|is_as|number|numbered|octet|named|\w+_named|name|word|words|kind_name|pdu_name|\w+_name|kind_of|none|empty|sorted|digit|value|semi_octet|character|push_decimal)\b")
    yield from grep(top, r"\* 256|/ 256|% 256")
    yield from grep(top, r"\bas (u8|u16|u32|u64|usize|char)\b.*[-+*/%]|[-+*/%].*\bas (u8|u16|u32|u64|char)\b")
    yield from grep(top, r"\bsame\(")
    yield from grep(top, r"\.parse::|copy_from_slice")


def together(top):
    """5: clauses whose phrase stands in three or more functions, and groups of parameters that travel together."""
    phrases = defaultdict(set)
    groups = defaultdict(set)
    for path in sources(top):
        for name, line, head, body in functions(path):
            where = f"{path.relative_to(top)}:{line}"
            for clause in re.findall(r"(?:requires|ensures)\w* ?\w* ?\{(.*)\}", head):
                for phrase in re.findall(r"[A-Za-z_][\w.]*(?: [A-Za-z_][\w.]*){3,}", clause):
                    words = phrase.split()
                    for size in (4, 5, 6):
                        for i in range(len(words) - size + 1):
                            phrases[" ".join(words[i:i + size])].add(where)
            params = re.findall(r"(\w+): ([^,()]+(?:\([^)]*\))?)", head.split("requires")[0].split("ensures")[0])
            params = sorted({f"{a}: {b.strip()}" for a, b in params})
            for i in range(len(params)):
                for j in range(i + 1, len(params)):
                    for k in range(j + 1, len(params)):
                        groups[(params[i], params[j], params[k])].add(where)
    for phrase, places in sorted(phrases.items(), key=lambda e: -len(e[1])):
        if len(places) >= 3:
            yield f"{len(places)} functions say: {phrase}"
    for group, places in sorted(groups.items(), key=lambda e: -len(e[1])):
        if len(places) >= 3:
            yield f"{len(places)} functions take: {', '.join(group)}"


def buffers(top):
    """6: arrays with a length beside them, arrays that stand in for lists."""
    yield from grep(top, r"\blen: usize|: \[u8; \w+\]|&mut \[u8; ")


def switches(top):
    """7: switches on a number, functions in tables, pointers."""
    yield from grep(top, r"match \*?(call|state|kind|step|first / 2|field\[0\] / 32|n)\b.*\{$")
    yield from grep(top, r"\bfn\(|dyn |for (call|state) in")


def proofs(top):
    """8: answers and lemmas of each crate."""
    for crate in sorted(Path(top).glob("crates/*")):
        answers = lemmas = 0
        for path in crate.glob("proofs/**/*.antt"):
            text = path.read_text()
            found = len(re.findall(r"^(?:pub |abbrev pub |abbrev )?[\w'◌-]+ : ", text, re.M))
            if path.name in ("Answers.antt", "Invariants.antt", "Proof.antt"):
                answers += found
            else:
                lemmas += found
        yield f"{crate.name}: {answers} answers and invariants, {lemmas} lemmas"


POINTS = [own_shapes, twins, counted_loops, by_hand, together, buffers, switches, proofs]

if __name__ == "__main__":
    top = Path(sys.argv[1] if len(sys.argv) > 1 else ".").resolve()
    chosen = [int(a) for a in sys.argv[2:]] or range(1, 9)
    for i in chosen:
        point = POINTS[i - 1]
        places = list(point(top))
        print(f"{point.__doc__} {len(places)}")
        for place in places:
            print(f"  {place}")
