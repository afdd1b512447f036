#!/usr/bin/env python3
"""Gives the repository's own names today's spelling, by respelled.tsv beside this file: OLD, NEW, and whether the name is a field.

usage: tools/respell.py        at the top of a repository that port.py has just turned; run it once

In .antt files each name is turned; behind a dot, where a step of a function's code may stand, only a field is. In a comment, and in
.rt and .edit files, only names that cannot be English or code are. `_lem` marks a lemma whose name would fall together with its function's.
"""
import os
import re

HERE = os.path.dirname(os.path.realpath(__file__))
WORD = re.compile(r"[^\s()\[\]{},;.\"`|:]+")
# Names that fall together in one file alone.
APART = {("crates/bands/proofs/Framing.antt", "in_order"): "in_order_lem"}


def read_map():
    names, fields = {}, set()
    with open(os.path.join(HERE, "respelled.tsv"), encoding="utf-8") as f:
        for line in f:
            old, new, kind = line.rstrip("\n").split("\t")
            names[old] = new
            if kind == "field":
                fields.add(old)
    return names, fields


NAMES, FIELDS = read_map()


def is_camel(word):
    return re.search(r"[a-z0-9][A-Z]", word) is not None


def turned(text, path, plain):
    """The text with its names turned; of a plain text (a comment, a contract) only those that are no English."""

    def one(m):
        word = m.group(0)
        apart = APART.get((path, word))
        if apart:
            return apart
        if word not in NAMES:
            return word
        behind_dot = m.start() > 0 and text[m.start() - 1] == "."
        if behind_dot and word not in FIELDS and not is_camel(word):
            return word
        if plain and not is_camel(word):
            return word
        return NAMES[word]

    return WORD.sub(one, text)


def antt(text, path):
    lines = []
    for line in text.split("\n"):
        code, dash, comment = re.match(r"(.*?)((?:(?<!\S)--(?:\s|$))|$)(.*)", line).groups()
        lines.append(turned(code, path, False) + dash + turned(comment, path, True))
    return "\n".join(lines)


def edit(text, path):
    lines, of_antt = [], False
    for line in text.split("\n"):
        if line.startswith("file:"):
            of_antt = line.endswith(".antt")
        if line.startswith(("old:", "new:")):
            line = turned(line, path, not of_antt)
        lines.append(line)
    return "\n".join(lines)


def main():
    for folder, dirs, files in os.walk("crates"):
        dirs[:] = [d for d in dirs if d != "out"]
        for name in files:
            path = os.path.join(folder, name)
            if not name.endswith((".antt", ".rt", ".edit")):
                continue
            with open(path, encoding="utf-8") as f:
                text = f.read()
            if name.endswith(".antt"):
                new = antt(text, path)
            elif name.endswith(".rt"):
                new = turned(text, path, True)
            else:
                new = edit(text, path)
            if new != text:
                with open(path, "w", encoding="utf-8") as f:
                    f.write(new)


if __name__ == "__main__":
    main()
