#!/usr/bin/env python3
"""Brings the repository's own definitions and lemmas to today's spelling: words in snake case, a dash only between two names.

usage: python3 tools/respell.py      once, at the top, on what port.py left

A name of specs/ or proofs/ that has a part in camel case, as entryBytes or length-fillIf, gets that part in snake case, wherever it
stands: in specs/, proofs/, clauses and must-fail edits. Names of src/ (functions, types, fields) are not in camel case with a small first
letter, so none of them is touched. Five lemmas whose name would fall together with a definition's get the dash back that they had.
"""

import collections
import glob
import re

TOKEN = re.compile(r"[\w'◌]+(?:-[\w'◌]+)*")
CAMEL = re.compile(r"^[a-z].*[A-Z]")
DEFINED = re.compile(r"^[ ]*(?:(?:abbrev|unfoldable|private|pub|inline)\s+)*([^\s:(){}]+)\s*:\s", re.M)

# file (a part of its path): the lemma as port.py spelled it, and as it was
DASHED = {
    "readback/proofs/Sound.antt": ("on_value", "on-value"),
    "model/proofs/Accepted.antt": ("read_as", "read-as"),
    "replacement/proofs/Cuts.antt": ("cut_all", "cut-all"),
    "replacement/proofs/Theorem.antt": ("cut_all", "cut-all"),
    "why/proofs/Deciding.antt": ("stands_at", "stands-at"),
}


def snake(part):
    if not CAMEL.match(part):
        return part
    part = re.sub(r"(?<=[a-z0-9])(?=[A-Z])", "_", part)
    part = re.sub(r"(?<=[A-Z])(?=[A-Z][a-z])", "_", part)
    return part.lower()


def files(*patterns):
    return sorted(p for pattern in patterns for p in glob.glob(pattern, recursive=True))


def read(path):
    with open(path, encoding="utf-8") as f:
        return f.read()


def write(path, text):
    with open(path, "w", encoding="utf-8") as f:
        f.write(text)


def main():
    antt = files("crates/*/specs/**/*.antt", "crates/*/proofs/**/*.antt")
    for path in antt:
        for tail, (found, was) in DASHED.items():
            if path.endswith(tail):
                write(path, TOKEN.sub(lambda m: was if m.group() == found else m.group(), read(path)))
    names = collections.OrderedDict()
    for path in antt:
        for name in DEFINED.findall(read(path)):
            new = "-".join(snake(p) for p in name.split("-"))
            if new != name and re.match(r"[a-z]", name):
                names[name] = new
    turned = collections.defaultdict(list)
    for name, new in names.items():
        turned[new].append(name)
    for new, olds in turned.items():
        if len(olds) > 1:
            raise SystemExit(f"respell: {olds} fall together as {new}")
    for path in antt + files("crates/*/src/**/*.rt", "crates/*/must-fail/*.edit"):
        text = read(path)
        new = TOKEN.sub(lambda m: names.get(m.group(), m.group()), text)
        if new != text:
            write(path, new)
    print(f"respell: {len(names)} names")


main()
