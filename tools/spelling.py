#!/usr/bin/env python3
"""Brings the names of definitions and lemmas to snake case, by the table beside this script.

usage: tools/spelling.py          in the repository, once, after the kit's port.py
       tools/spelling.py --table  prints the table that the definitions of specs/ and proofs/ call for, and on standard error what falls together

A row of spelling.tsv is an old name, a tab and a new one. Each whole word of the antt code turns; one that joins parts by a dash, or that has
underscores alone, turns only where no dot stands before it, since behind a dot such words are names that the check makes of the code.
In src/, in must-fail edits, in comments and in pages only names in camel case turn: no function, constant or text of src/ is spelled so.
A name that begins with a capital is a type or a fact, and stays, as does a dash behind one. A lemma whose new name is a definition's ends in _lem.
"""
import collections
import os
import re
import sys

TOP = os.path.dirname(os.path.dirname(os.path.realpath(__file__)))
WORD = re.compile(r'[^\s(){}.;,@"«»:!]+')
CAMEL = re.compile(r"\b[a-z][a-z0-9]*[A-Z][A-Za-z0-9]*\b")
COMMENT = re.compile(r"--[^\n]*")
LIBRARY = re.compile(r"use ((?:Rattle\.std|native|mathlib|Prim|lib|borrow)\S*?)\.\{([^}]*)\}")
SIGNED = re.compile(r'^\s*(?:abbrev |unfoldable |pub |data |record )*([^\s(){}.;,@"«»:]+)((?: [^\s(){}.;,@"«»:]+)*)\s*:(?=\s)', re.M)


def antt(root):
    for folder, dirs, files in os.walk(os.path.join(root, "crates")):
        dirs[:] = sorted(d for d in dirs if d != "out")
        for f in sorted(files):
            if f.endswith(".antt"):
                yield os.path.join(folder, f)


def snake(name):
    if name[0].isupper():
        return name
    name = name.replace("-", "_")
    return re.sub(r"(?<=[a-z0-9])([A-Z])", lambda m: "_" + m.group(1).lower(), name)


def table_of(root):
    defined, words, library = collections.defaultdict(set), set(), set()
    for path in antt(root):
        with open(path, encoding="utf-8") as f:
            text = COMMENT.sub("", f.read())
        words.update(WORD.findall(text))
        for m in LIBRARY.finditer(text):
            library.update(re.split(r"[,\s]+", m.group(2)))
        if not re.search(r"/proofs/.+/", path):
            for m in SIGNED.finditer(text):
                defined[m.group(1)].add(path)
    table = {}
    for name in sorted(set(defined) | {w for w in words if re.match(r"^[a-z][a-z0-9]*[A-Z]", w)}):
        if name not in library and snake(name) != name:
            table[name] = snake(name)
    made = collections.defaultdict(list)
    for old, new in table.items():
        made[new].append(old)
    for new, olds in made.items():
        dashed = [o for o in olds if "-" in o]
        plain = [o for o in olds if "-" not in o]
        if new in defined and plain and new not in library:
            table[new] = new + "_lem"
        elif new in library and plain:
            print("falls together with the library:", new, file=sys.stderr)
        if len(plain) > 1 or len(dashed) > 1:
            print("fall together:", new, olds, file=sys.stderr)
        if dashed and (plain or new in defined or new in library):
            for o in dashed:
                table[o] = new + "_lem"
    return table


def turned_antt(text, table):
    def code(part):
        def one(m):
            word, before = m.group(0), part[m.start() - 1 : m.start()]
            if word not in table or (before == "." and not CAMEL.match(word)):
                return word
            return table[word]

        return WORD.sub(one, part)

    out, last = [], 0
    for m in COMMENT.finditer(text):
        out.append(code(text[last : m.start()]))
        out.append(camels(m.group(0), table))
        last = m.end()
    return "".join(out) + code(text[last:])


def camels(text, table):
    return CAMEL.sub(lambda m: table.get(m.group(0), m.group(0)), text)


def main():
    if sys.argv[1:] == ["--table"]:
        for old, new in sorted(table_of(os.getcwd()).items()):
            print(old + "\t" + new)
        return
    with open(os.path.join(TOP, "tools", "spelling.tsv"), encoding="utf-8") as f:
        table = dict(line.rstrip("\n").split("\t") for line in f)
    root, n = os.getcwd(), 0
    paths = list(antt(root))
    for folder, dirs, files in os.walk(os.path.join(root, "crates")):
        dirs[:] = sorted(d for d in dirs if d != "out")
        paths += [os.path.join(folder, f) for f in sorted(files) if f.endswith((".rt", ".edit"))]
    pages = [os.path.join(root, "README.md")] + [os.path.join(root, "docs", f) for f in sorted(os.listdir(os.path.join(root, "docs")))]
    paths += [p for p in pages if p.endswith(".md") and os.path.basename(p) not in ("PORT.md", "CHANGES.md")]
    for path in paths:
        with open(path, encoding="utf-8") as f:
            text = f.read()
        new = turned_antt(text, table) if path.endswith(".antt") else camels(text, table)
        if new != text:
            with open(path, "w", encoding="utf-8") as f:
                f.write(new)
            n += 1
    print(f"spelling: {n} files")


main()
