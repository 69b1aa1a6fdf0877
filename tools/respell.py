#!/usr/bin/env python3
"""Brings the definitions and lemmas of this repository to the spelling of today's Rattle.

usage: python3 tools/respell.py        at the top, once, after the kit's own script and before any edit by hand

A definition or lemma in camel case gets snake case; a lemma that would then have its definition's name gets `_lem`.
Types, modules, functions of src/, exported names and strings keep theirs. It turns the sources, the must-fail edits and the pages.
"""

import glob
import os
import re

# A name of antt: what stands between spaces, brackets and the dots of paths.
WORD = r"[^\s(){}\[\],;.:`\"«»\\|]"
TOKEN = re.compile(WORD + "+")
DEFINED = re.compile(r"^\s*(?:(?:pub|abbrev|unfoldable|data|record)\s+)*(" + WORD + r"+)\s*(?:\(.*\)\s*)*:(?:\s|$)")
HUMP = re.compile(r"(?<=[a-z0-9'])([A-Z])")

# Lemmas of hyphens whose words the kit's script joined, where the definition of the same words gets that name now.
LEMMAS = """all_in any_below at_first bit_is by_mask fields_fit homes_at kept_byte member_is no_pairs numbers_fit
out_of_range pairs_of rows_on""".split()

# Lemmas on the word that the library calls `get_or`.
GET_OR = {"get_d_after": "get_or-after", "get_d_map": "get_or-map_lem"}


def snake(name):
    """The name with each part in snake case; a part that begins with a capital is a type and keeps its spelling."""
    parts = [p.replace("getD", "get_or") for p in name.split("-")]
    return "-".join(HUMP.sub(lambda m: "_" + m.group(1).lower(), p) if p[:1].islower() else p for p in parts)


def files(*endings):
    for ending in endings:
        for path in sorted(glob.glob("**/*" + ending, recursive=True)):
            if "/out/" not in path and "/target/" not in path and os.path.basename(path) != "PORT.md":
                yield path


def text(path):
    with open(path, encoding="utf-8") as f:
        return f.read()


def code(line):
    return "" if line.lstrip().startswith("--") else line


def new_names():
    """Old name to new, of every definition, lemma and local in camel case."""
    names = {}
    for path in files(".antt"):
        for line in text(path).splitlines():
            for word in TOKEN.findall(code(line)):
                if snake(word) != word and word[:1].islower():
                    names[word] = snake(word)
    return names


def respelled(line, names):
    return TOKEN.sub(lambda m: names.get(m.group(0), m.group(0)), line)


def turned_edit(line):
    """Today's form of what an edit of antt cites."""
    line = re.sub(r"Rattle·(\w+)(?:·\w+\.(?=specs|proofs))?", r"Rattle.\1", line)
    line = re.sub(r"(?<=[\w)']) \.(?=[a-z0-9«])", ".", line)
    return re.sub(r"_(\S{1,2})_(?=[,}])", r"◌\1◌", line)


def main():
    names = new_names()
    lemmas = {n: n + "_lem" for n in LEMMAS} | GET_OR
    for path in files(".antt", ".rt"):
        old = text(path)
        lines = []
        for line in old.splitlines(keepends=True):
            if path.endswith(".antt"):
                line = re.sub(r"(?<!\.)" + TOKEN.pattern, lambda m: lemmas.get(m.group(0), m.group(0)), line)
            lines.append(respelled(line, names))
        new = "".join(lines)
        if new != old:
            with open(path, "w", encoding="utf-8") as f:
                f.write(new)
    # In edits and pages stand also names that the kit's script turned before: a word whose new form the sources have now.
    known = {word for path in files(".antt") for line in text(path).splitlines() for word in TOKEN.findall(code(line))}
    for path in files(".edit", ".md"):
        old = text(path)
        antt = path.endswith(".edit") and re.search(r"(?m)^file: .*\.antt$", old)
        lines = []
        for line in old.splitlines(keepends=True):
            line = turned_edit(line) if antt else line
            turned = {w: snake(w) for w in TOKEN.findall(line) if snake(w) != w and snake(w) in known}
            lines.append(respelled(line, turned))
        new = "".join(lines)
        if new != old:
            with open(path, "w", encoding="utf-8") as f:
                f.write(new)


if __name__ == "__main__":
    main()
