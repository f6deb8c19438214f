#!/usr/bin/env python3
"""Places of issue 42's points in crates/*/src, by rule and not by hand: design_places.py [-v].

1  own enums of the shape of Option (two cases, one of them empty) or Result (two or more, one of which holds a Refusal), and matches on number literals
2  groups of functions whose bodies differ in names, types and numbers only (eight tokens at least), counted as the functions that are one too many
3  loops by `while` and `loop`
4  functions that compare, order, copy, clear, convert or print by hand, by their names
5  `requires` clauses with one text in three or more functions of a crate, and runs of three or more parameters that three or more functions of a crate share
6  binary searches by hand (`while low < high`), fixed arrays made in a function
7  parameters of the type bool, which choose a step
8  proofs/*/Answers.antt files
"""
import collections
import glob
import re
import sys

HAND = re.compile(r"^(same\w*|equal\w*|is_before|compare|copy\w*|clear|fill|number_of|place_of|code_of|\w+_from|from_\w+|\w+_number|\w*number_of\w*|put_digits|put_number|digit|print_\w+|move_(?:up|down)|insert|find)$")


def sources():
    return [(p.split("/")[1], open(p).read()) for p in sorted(glob.glob("crates/*/src/*.rt"))]


def functions(text):
    lines = text.split("\n")
    i = 0
    while i < len(lines):
        m = re.match(r"( *)(?:pub(?:\(\w+\))? )?(?:extern \"C\" )?fn (\w+)", lines[i])
        if not m:
            i += 1
            continue
        head = []
        while not (lines[i] == m.group(1) + "{" or lines[i].endswith(" {") and not re.match(r"\s*(requires|ensures)", lines[i])):
            head.append(lines[i])
            i += 1
        head.append(lines[i])
        body = []
        i += 1
        while lines[i] != m.group(1) + "}":
            body.append(lines[i])
            i += 1
        yield m.group(2), "\n".join(head), "\n".join(body) + "\n"


def point1(found):
    for crate, s in sources():
        for m in re.finditer(r"^(?:pub )?enum (\w+) \{\n(.*?)^\}", s, re.M | re.S):
            body = re.sub(r"//[^\n]*", "", m.group(2))
            cases, depth, cur = [], 0, ""
            for ch in body:
                depth += (ch in "({") - (ch in ")}")
                if ch == "," and depth == 0:
                    cases.append(cur.strip())
                    cur = ""
                else:
                    cur += ch
            cases = [c for c in cases + [cur.strip()] if c]
            empty = [c for c in cases if re.fullmatch(r"\w+", c)]
            if len(cases) == 2 and len(empty) == 1 or any("Refusal" in c for c in cases):
                found.append(f"{crate}: enum {m.group(1)}")
        for name, _, body in functions(s):
            if re.search(r"match (?:kind|k|n|bytes|entry|code) \{\n\s+\d+ =>", body):
                found.append(f"{crate}: {name} matches on numbers")


def shape(body):
    body = re.sub(r"//[^\n]*", "", body)
    words = re.findall(r"\w+|[^\w\s]", body)
    keep = {"if", "else", "match", "while", "for", "loop", "return", "let", "mut", "in", "as", "break"}
    return tuple(w if w in keep or not re.match(r"\w", w) else "_" for w in words)


def point2(found):
    groups = collections.defaultdict(list)
    for crate, s in sources():
        for name, head, body in functions(s):
            sh = shape(body)
            if len(sh) >= 30 and "extern" not in head:
                groups[sh].append(f"{crate}::{name}")
    for g in groups.values():
        found.extend([" ~ ".join(g)] * (len(g) - 1))


def point3(found):
    for crate, s in sources():
        for name, _, body in functions(s):
            for m in re.finditer(r"^\s*(while [^\n]*|loop) \{|^\s*(while [^\n]*)$", body, re.M):
                found.append(f"{crate}::{name}: {(m.group(1) or m.group(2)).strip()}")


def point4(found):
    for crate, s in sources():
        for name, _, _ in functions(s):
            if HAND.match(name):
                found.append(f"{crate}::{name}")


def point5(found):
    for crate, s in sources():
        clauses = collections.Counter()
        runs = collections.Counter()
        for name, head, _ in functions(s):
            for c in re.findall(r"requires (?:\w+ )?\{ (.*) \}", head):
                clauses[c] += 1
            m = re.search(r"\(([^)]*)\)", head)
            names = re.findall(r"(\w+): ", m.group(1)) if m else []
            runs.update({tuple(names[i:i + 3]) for i in range(len(names) - 2)})
        found.extend(f"{crate}: {n} functions require {c[:80]}" for c, n in clauses.items() if n >= 3)
        found.extend(f"{crate}: {n} functions take {', '.join(r)}" for r, n in runs.items() if n >= 3)


def point6(found):
    for crate, s in sources():
        for name, _, body in functions(s):
            if re.search(r"while low < high", body):
                found.append(f"{crate}::{name}: searches by hand")
            for m in re.finditer(r"let mut (\w+) = \[[^\]]*; ?\w+\]", body):
                found.append(f"{crate}::{name}: {m.group(0)}")


def point7(found):
    for crate, s in sources():
        for name, head, _ in functions(s):
            m = re.search(r"\(([^)]*)\)", head)
            if m and re.search(r": bool\b", m.group(1)):
                found.append(f"{crate}::{name}")


def point8(found):
    found.extend(sorted(glob.glob("crates/*/proofs/**/Answers.antt", recursive=True)))


for i, f in enumerate([point1, point2, point3, point4, point5, point6, point7, point8], 1):
    places = []
    f(places)
    print(i, len(places))
    if "-v" in sys.argv:
        for p in places:
            print("   ", p)
