#!/usr/bin/env python3
"""Spells the repository's own definitions, fields and lemmas in snake case, by the table beside this file.

usage: python3 tools/respell.py            at the top of the repository, once, after the kit's port.py

It turns whole words: in specs/, proofs/ and must-fail/ everywhere but in comments, in src/ inside clauses, ghost items and
ghost use items, and in comments and documents inside code spans. A word with a dash is one of antt alone, and behind a dot it
is a name that Rattle makes, so there it stays. Functions of src/, strings, inputs and outputs keep their names.
"""

import glob
import os
import re

HERE = os.path.dirname(os.path.realpath(__file__))
WORD = re.compile(r'(?<![^\s(){}.;,:@"«»`\[\]])([^\s(){}.;,:@"«»`\[\]]+)')
SPAN = re.compile(r"`[^`\n]+`")
# Lemmas that the kit's script had spelled like a definition of the same crate already.
ALONE = {"crates/nomination/proofs/Bounding.antt": {"some_of": "some_of_lem"}}


def table():
    with open(os.path.join(HERE, "respell.tsv"), encoding="utf-8") as rows:
        return dict(row.rstrip("\n").split("\t") for row in rows)


def turn(text, names):
    def word(m):
        name = m[1]
        behind_dot = m.start() > 0 and text[m.start() - 1] == "."
        return name if name not in names or behind_dot and "-" in name else names[name]

    return WORD.sub(word, text)


def spans(text, names):
    return SPAN.sub(lambda m: turn(m[0], names), text)


def antt(text, names):
    """Code turns, and of a comment its code spans."""
    out = []
    for line in text.split("\n"):
        code, mark, said = line.partition("-- ") if line.lstrip().startswith("-- ") else (line, "", "")
        out.append(turn(code, names) + mark + spans(said, names))
    return "\n".join(out)


def ghost_parts(text):
    """The places of what only contracts and proofs see: ghost use items, ghost members and clauses."""
    begin = re.compile(r"ghost use [^;]*;|(?:pub )?\bghost(?: \w+)?\s*[:=]?\s*\{|\b(?:requires|ensures)\*?(?: \w+)?\s*\{")
    at = 0
    while m := begin.search(text, at):
        at = m.end()
        if text[at - 1] == "{":
            depth = 1
            while depth:
                depth += {"{": 1, "}": -1}.get(text[at], 0)
                at += 1
        yield m.start(), at


def source(text, names):
    out, last = [], 0
    for start, end in ghost_parts(text):
        out.append(comments(text[last:start], names))
        out.append(turn(text[start:end], names))
        last = end
    return "".join(out) + comments(text[last:], names)


def comments(text, names):
    return re.sub(r"(?m)//.*$", lambda m: spans(m[0], names), text)


def main():
    names = table()
    kinds = [("crates/*/specs/**/*.antt", antt), ("crates/*/proofs/**/*.antt", antt), ("crates/*/src/**/*.rt", source)]
    kinds += [("crates/*/must-fail/*.edit", turn), ("docs/*.md", spans), ("README.md", spans)]
    for pattern, how in kinds:
        for path in sorted(glob.glob(pattern, recursive=True)):
            with open(path, encoding="utf-8") as file:
                old = file.read()
            new = how(old, names | ALONE.get(path, {}))
            if new != old:
                with open(path, "w", encoding="utf-8") as file:
                    file.write(new)


if __name__ == "__main__":
    main()
