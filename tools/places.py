#!/usr/bin/env python3
"""The places in src/ that docs/DESIGN-PASS.md counts: `python3 tools/places.py [POINT]`, at the top of the repository.

1 own enums of the shape of Option or Result, and numbers for kinds; 2 twins, names that differ in digits alone;
3 loops that count by hand; 4 conversions and equality by hand; 5 facts and parameters that stand in three functions or more;
8 lines of answers and invariants. Points 6 and 7 were counted by reading."""
import collections
import glob
import re
import sys

FILES = sorted(glob.glob("crates/*/src/*.rt"))
TEXT = {f: open(f).read() for f in FILES}


def code(text):
    return re.sub(r"//[^\n]*", "", text)


def enums():
    for f, t in TEXT.items():
        for m in re.finditer(r"enum (\w+)(?:<[^>]*>)? \{(.*?)\n\}", code(t), re.S):
            body = re.sub(r"\{[^{}]*\}", "{}", m.group(2))
            cases = [c.strip() for c in re.sub(r"\([^)]*\)", "()", body).split(",") if c.strip()]
            if len(cases) == 2 and any("(" in c or "{" in c for c in cases):
                yield f, "enum " + m.group(1)
        for m in re.finditer(r"struct (\w+) \{\s*pub number: u8", code(t)):
            if re.search(r"impl " + m.group(1) + r" \{\s*pub const", code(t)):
                yield f, "a number with constants: struct " + m.group(1)
        for m in re.finditer(r"fn (\w+)[^{]*-> (?:isize|io::Result<bool>)", code(t)):
            yield f, "told by a number or a flag: fn " + m.group(1)


def twins():
    groups = collections.defaultdict(set)
    for f, t in TEXT.items():
        for m in re.finditer(r"\b(?:fn|struct|enum|type) ([A-Za-z_]\w*)", code(t)):
            name = m.group(1)
            base = re.sub(r"\d+", "#", name)
            if base != name:
                groups[(f.split("/")[1], base)].add(name)
            if name.startswith("tell_"):
                groups[("all", "tell_#")].add(name)
    for (crate, base), names in sorted(groups.items()):
        if len(names) > 1:
            yield crate, base + ": " + " ".join(sorted(names))


def loops():
    for f, t in TEXT.items():
        for m in re.finditer(r"\bwhile\b[^\n]*", code(t)):
            yield f, m.group(0)


def by_hand():
    for f, t in TEXT.items():
        for m in re.finditer(r"fn ((?:wide|count)\d+|same_\w+|(?:bit|one|flag|weight|byte|short)\(|unset\w*|tell_\w+)", code(t)):
            yield f, "fn " + m.group(1)
        for m in re.finditer(r"\b(?:wide|count)\d+\(", code(t)):
            yield f, "call " + m.group(0)


def together():
    shared = collections.defaultdict(set)
    for f, t in TEXT.items():
        t = code(t)
        for m in re.finditer(r"fn (\w+)[^{]*?head: &(?:mut )?Head,\s*counts: &(?:mut )?Counts,\s*places: &(?:mut )?Places", t):
            shared["head, counts, places"].add(f + " " + m.group(1))
        for m in re.finditer(r"fn (\w+)(.*?)\n\s*\{\n", t, re.S):
            for c in re.findall(r"requires (?:\w+ )?\{ (.*?) \}", m.group(2)):
                shared["requires " + c].add(f + " " + m.group(1))
    for what, where in sorted(shared.items(), key=lambda x: -len(x[1])):
        if len(where) > 2:
            yield str(len(where)), what


def proofs():
    for kind in ("Answers", "Invariants"):
        files = glob.glob(f"crates/*/proofs/**/{kind}.antt", recursive=True)
        yield kind, f"{len(files)} files, {sum(len(open(f).readlines()) for f in files)} lines"


POINTS = {"1": enums, "2": twins, "3": loops, "4": by_hand, "5": together, "8": proofs}
for point, find in POINTS.items():
    if len(sys.argv) > 1 and sys.argv[1] != point:
        continue
    found = list(find())
    print(f"point {point}: {len(found)}")
    if len(sys.argv) > 1:
        for f, what in found:
            print(f"  {f}  {what}")
