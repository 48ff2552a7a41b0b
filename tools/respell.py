#!/usr/bin/env python3
"""Brings the repository's own definitions and lemmas to snake case, in which a dash joins two names.

respell.txt has a line for each name: the old one, the new one, and f where it is a record's field, d where it is a definition.
Run once at the top of the repository, after the toolchain's own script. Names of functions, exported names, strings and data stay.
"""
import glob
import os
import re

HERE = os.path.dirname(os.path.abspath(__file__))
NAMES = {}
for line in open(os.path.join(HERE, "respell.txt")):
    old, new, kind = line.split()
    NAMES[old] = (new, kind)

TOKEN = re.compile(r"(\.?)([A-Za-z][\w'\-→]*)")


def proves_a_function(path):
    return re.search(r"/proofs/[^/]+/[^/]+\.antt$", path) is not None


def respelled(text, inside_function, comment):
    def turn(match):
        dot, name = match.groups()
        if name not in NAMES:
            return match.group()
        new, kind = NAMES[name]
        # steps of the code are generated names, and stand behind a dot
        if dot and inside_function and kind != "f":
            return match.group()
        # plain words in a comment
        if comment and "-" in name:
            return match.group()
        return dot + new

    return TOKEN.sub(turn, text)


def turn_file(path):
    text = open(path).read()
    inside = proves_a_function(path)
    out = []
    for line in text.split("\n"):
        mark = "//" if path.endswith(".rt") else "#" if path.endswith(".edit") else "--"
        if path.endswith(".md"):
            out.append(re.sub(r"`[^`]*`", lambda m: respelled(m.group(), False, False), line))
        else:
            code, at, note = line.partition(mark)
            # in a comment a name with a dash stands in backquotes
            parts = re.split(r"(`[^`]*`)", note)
            note = "".join(respelled(p, inside, not p.startswith("`")) for p in parts)
            out.append(respelled(code, inside, False) + at + note)
    turned = "\n".join(out)
    if turned != text:
        open(path, "w").write(turned)


def main():
    for pattern in ["crates/**/*.antt", "crates/*/src/*.rt", "crates/*/must-fail/*.edit", "README.md", "docs/*.md"]:
        for path in sorted(glob.glob(pattern, recursive=True)):
            turn_file(path)


main()
