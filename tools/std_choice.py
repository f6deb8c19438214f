#!/usr/bin/env python3
"""The choice by a test, `if b then x else y`, is std's now: rt ci takes no second operator of that name.

usage: python3 tools/std_choice.py      once, at the top, behind respell.py; a second run changes nothing

Each import of Rattle.lists.specs.Choose.{if◌then◌else◌} becomes one of std's Prelude, and lists/specs/Choose.antt goes.
"""

import glob
import os
import re

NAME = "if◌then◌else◌"
OWN = re.compile(r"^(?:ghost )?use Rattle\.lists\.specs\.Choose\.\{" + NAME + r"\};?\n", re.M)
PRELUDE = re.compile(r"^((?:ghost )?use Rattle\.std\.specs\.Prelude\.\{)([^{}]*)(\};?)$", re.M)


def moved(text):
    found = OWN.search(text)
    if not found:
        return text
    prelude = PRELUDE.search(text)
    if not prelude:
        return OWN.sub(lambda m: m.group().replace("lists.specs.Choose", "std.specs.Prelude"), text)
    names = prelude.group(2)
    if NAME not in re.split(r",\s*", names):
        text = text[: prelude.end(2)] + f", {NAME}" + text[prelude.end(2) :]
    return OWN.sub("", text)


def main():
    changed = 0
    for path in sorted(p for k in ("src/**/*.rt", "specs/**/*.antt", "proofs/**/*.antt") for p in glob.glob(f"crates/*/{k}", recursive=True)):
        with open(path, encoding="utf-8") as f:
            text = f.read()
        new = moved(text)
        if new != text:
            changed += 1
            with open(path, "w", encoding="utf-8") as f:
                f.write(new)
    if os.path.exists("crates/lists/specs/Choose.antt"):
        os.remove("crates/lists/specs/Choose.antt")
    lib = "crates/lists/specs/Lib.antt"
    with open(lib, encoding="utf-8") as f:
        text = f.read()
    with open(lib, "w", encoding="utf-8") as f:
        f.write(re.sub(r"^pub mod Choose\n", "", text, flags=re.M))
    print(f"std_choice: {changed} files")


main()
