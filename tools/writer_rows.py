#!/usr/bin/env python3
"""Rows for crates/writer_trials and what the program must print for them, by document 01's rules and without the proved code.
tools/writer_rows.py stdin|stdout"""
import itertools
import re
import sys

NAMES = ["FORMAT :", "VERSION:", "HDRBLKS:", "NOVERFL:", "NPIXELB:", "NROWS  :", "NCOLS  :", "LINEAR :", "NEXP   :"]
PLACES = [0, 1, 2, 20, 39, 40, 41, 58, 79]


class Refused(Exception):
    pass


def check(good, number):
    if not good:
        raise Refused(number)


def made(given, lines):
    """The bytes given: spaces, and each line at its place. A ! takes the place of the name's colon."""
    b = bytearray(b" " * 8192)
    for name, place, text in zip(NAMES, PLACES, lines):
        b[place * 80:place * 80 + 8] = name.encode()
        at = place * 80 + (7 if text.startswith("!") else 8)
        b[at:at + len(text)] = text.encode()
    return bytes(b[:given])


def line(b, k, end):
    at = PLACES[k] * 80
    check(at + 80 <= end and b[at:at + 8] == NAMES[k].encode(), 7)
    return b[at + 8:at + 80].decode().split(" ")


def numbers(fields, n, minus=False):
    fields = [f for f in fields if f]
    check(len(fields) >= n, 3)
    if minus and fields[0] == "-1":
        return [-1] + numbers(fields[1:], n - 1)
    check(all(re.fullmatch("[0-9]{1,10}", f) and int(f) < 2**32 for f in fields[:n]), 3)
    return [int(f) for f in fields[:n]]


def baseline(b, end):
    fields = [f for f in line(b, 8, end) if f]
    check(len(fields) >= 3, 3)
    return numbers(fields[2:], 1)[0]


def header(b):
    """Format, header's length, underflow count, rows, columns and the baseline where it is read."""
    check(len(b) >= 240, 1)
    check(all(b[k * 80:k * 80 + 8] == NAMES[k].encode() for k in range(3)), 2)
    form = numbers(line(b, 0, 240), 1)[0]
    check(form in (86, 100), 4)
    version = [f for f in line(b, 1, 240) if f]
    check(version and re.fullmatch(r"[0-9]{1,2}\+{0,2}", version[0]), 3)
    check(1 <= int(version[0].rstrip("+")) <= 17 and int(version[0].rstrip("+")) != 6, 5)
    blocks = numbers(line(b, 2, 240), 1)[0]
    check(10 <= blocks <= 64 and (form == 100 or blocks % 5 == 0), 6)
    end = blocks * 512
    check(len(b) >= end, 1)
    counts = numbers(line(b, 3, end), 3 if form == 100 else 1, form == 100)
    widths = numbers(line(b, 4, end), 2 if form == 100 else 1)
    rows, columns = numbers(line(b, 5, end), 1)[0], numbers(line(b, 6, end), 1)[0]
    linear = [f for f in line(b, 7, end) if f]
    base = baseline(b, end) if form == 100 and counts[0] >= 0 else 0
    most = 4096 if form == 100 else 2048
    sizes = 1 <= rows <= most and 1 <= columns <= most and base <= 65535 and widths[0] in (1, 2, 4)
    check(sizes and (form == 86 or (widths[1] <= 2 and not (widths[1] == 0 and counts[0] > 0))), 8)
    decimal = "[0-9]+([.][0-9]+)?"
    check(len(linear) > 1 and all(re.fullmatch(decimal, f) and float(f) == v for f, v in zip(linear, (1, 0))), 9)
    return form, end, counts[0], rows, columns, base


def table(entries, width):
    t = b"".join(e.to_bytes(width, "little") for e in entries)
    return t + bytes(-len(t) % 16)


def written(b, pixels, width, kind, room):
    form, end, count, rows, columns, base = header(b)
    check(len(pixels) >= rows * columns, 10)
    pixels = pixels[:rows * columns]
    check(form == 100 and width in (1, 2, 4) and kind in (0, 1, 2), 16)
    if kind and count == -1:
        try:
            base = baseline(b[:end], end)
        except Refused:
            raise Refused(16)
        check(base <= 65535, 16)
    under = [p for p in pixels if kind and p <= base]
    low = [p if not kind else 0 if p <= base else p - base for p in pixels]
    check(all(p < 256**kind for p in under), 17)
    two = [min(v, 65535) for v in low if v >= 255] if width == 1 else []
    four = [v for v in low if v >= 65535] if width < 4 else []
    image = b"".join(min(v, 256**width - 1).to_bytes(width, "little") for v in low)
    body = image + table(under, kind) + table(two, 2) + table(four, 4)
    check(end + len(body) <= room, 18)
    cells = "".join(str(n).ljust(24) for n in (len(under) if kind else -1, len(two), len(four)))
    return end + len(body), cells, (str(width).ljust(24) + str(kind).ljust(24)).ljust(72), body.hex()


def expanded(text):
    return [int(v) for token in text.split(" ") if token for v in [token.split("x")[0]] * int((token + "x1").split("x")[1])]


def packed(pixels):
    """The pixels as a row has them: 40x3 for 40 40 40."""
    runs = [(p, len(list(same))) for p, same in itertools.groupby(pixels)]
    return " ".join(f"{p}x{n}" if n > 1 else str(p) for p, n in runs)


def row(pixels, form, columns=None, rows=1, base=32, noverfl="1 2 1", npixelb="1 1", blocks=15, given=None, room=None, more=0, **other):
    """A row; room is what the frame needs and `more` bytes, unless it is said."""
    lines = [other.get("format", "100"), other.get("version", "11"), str(blocks), noverfl, npixelb, str(rows)]
    lines += [str(len(expanded(pixels)) if columns is None else columns), other.get("linear", "1 0"), other.get("nexp", f"1 0 {base}")]
    given = 512 * int(blocks) if given is None else given
    if room is None:
        try:
            w, k = map(int, form.split())
            room = written(made(given, lines), expanded(pixels), w, k, 10**9)[0] + more
        except Refused:
            room = 9000
    return "|".join([str(given), *lines, form, str(room), pixels])


def answer(text):
    given, *lines, form, room, pixels = text.split("|")
    width, kind = (int(w) for w in form.split())
    try:
        length, noverfl, npixelb, body = written(made(int(given), lines), expanded(pixels), width, kind, int(room))
        return f"{text} -> length {length} NOVERFL[{noverfl}] NPIXELB[{npixelb}] {body} header ok tail ok back ok"
    except Refused as r:
        return f"{text} -> refused {r} output ok"


FORMS = [f"{w} {k}" for k in (0, 1, 2) for w in (1, 2, 4)]


def rows():
    example = "35 332 70032 30"
    yield "# the document's example, and its pixels in every form"
    yield from (row(example, f) for f in FORMS)
    yield "# every threshold from both sides, above no baseline and above baselines of 32, 0, 255 and 65535"
    for base in (32, 0, 255, 65535):
        tops = [0, 1, 254, 255, 256, 65534, 65535, 65536, 4294967294, 4294967295]
        near = [max(base + d, 0) for d in (-1, 0, 1, 2, 253, 254, 255, 256, 65533, 65534, 65535, 65536)]
        pixels = " ".join(map(str, dict.fromkeys(tops + near)))
        yield from (row(pixels, f, base=base, more=5) for f in FORMS if base == 32 or f[2] == "2" or (f[2] == "1" and base < 256))
    yield "# nothing at or below the baseline, everything, and one pixel"
    yield from (row(p, "1 1") for p in ("33 34 35", "32x3", "0", "33", "4294967295"))
    yield "# entries about a multiple of 16 bytes in each table"
    yield from (row(f"{p}x{n}", f) for p, f, n in [("300", "1 0", 8), ("300", "1 0", 9), ("70000", "2 0", 4), ("70000", "2 0", 5), ("7", "2 1", 16), ("7", "2 1", 17), ("7", "4 2", 8), ("7", "4 2", 9)])
    yield "# more pixels than a block, with entries at its ends"
    for n in (63, 64, 65, 127, 128):
        yield from (row(f"40x{n - 2} 30 70000", f) for f in ("1 1", "2 2", "4 0"))
    yield row("30 300x62 70000 70000 31x64 65566 65567 40x66", "1 2", rows=14, columns=14)
    yield row("4294967295x256", "1 1", rows=16, columns=16)
    yield row("1x256", "2 2", rows=16, columns=16)
    yield "# many pixels with few entries: runs that end at an entry, after 512 pixels, and at the last pixel"
    few = {0: 30, 15: 287, 16: 286, 17: 70000, 511: 32, 512: 65567, 513: 65566, 529: 4294967295}
    yield from (row(packed([few.get(k, 40) for k in range(530)]), f) for f in FORMS)
    yield "# as many entries as a sixteenth of the pixels, and one more"
    for n in (33, 34):
        spread = set(range(0, 16 * 33, 16)) | set(range(529, 529 + n - 33))
        yield from (row(packed([p if k in spread else 33 for k in range(530)]), f) for p, f in ((32, "1 1"), (300, "1 0"), (70000, "2 0"), (0, "4 2")))
    yield "# a header that has -1, one with no underflow width, one with counts of its own"
    for noverfl, npixelb in (("-1 0 0", "1 0"), ("-1 9 9", "4 2"), ("0 0 0", "2 0"), ("4294967295 1 1", "2 2")):
        yield from (row(example, f, noverfl=noverfl, npixelb=npixelb) for f in ("1 0", "1 1", "2 2"))
    yield "# 16: FORMAT 86, a width and a kind that are not listed"
    yield row(example, "1 0", format="86", noverfl="0", npixelb="1")
    yield from (row(example, f) for f in ("0 0", "3 0", "8 1", "1 3", "4 4"))
    yield "# 16 where the header has -1: line 79 outside the header, misnamed, without its field, with no number, above 65535; kind none needs none"
    for blocks, given in ((10, 5120), (12, 6144), (12, 8192)):
        yield from (row(example, f, noverfl="-1 0 0", blocks=blocks, given=given) for f in ("1 1", "4 2", "1 0"))
    for nexp in ("!1 0 32", "", "1 0", "1 0 x", "1 0 -1", "1 0 3.2", "1 0 65536", "1 0 4294967296", "1 0 65535", "x y 32 z", "1 0 0"):
        yield from (row(example, f, noverfl="-1 0 0", nexp=nexp) for f in ("2 2", "2 0"))
    yield "# 17: an underflow entry above 255 in one byte, and none where no pixel is there"
    for base in (255, 256, 65535):
        yield from (row(p, f, base=base) for p in ("255 65536", "256 65536", f"{base} 65536") for f in ("1 1", "4 1", "1 2"))
    yield "# 18: exact room, one byte short, none, and room behind the frame"
    for f in ("1 0", "2 1", "4 2"):
        yield from (row(example, f, more=m) for m in (0, -1, 1, 100))
        yield row(example, f, room=0)
    yield row("33", "1 1", more=0)
    yield row("33", "1 1", more=-1)
    yield "# bytes behind the header; another length of header"
    yield from (row(example, "1 1", given=g) for g in (7681, 8192))
    yield from (row(example, "1 1", blocks=b, given=g) for b, g in ((13, 6656), (13, 8192), (16, 8192)))
    yield "# 10: an array shorter than N; a longer one"
    yield from (row(example, "1 1", columns=c) for c in (5, 3, 1, 4096))
    yield row("", "1 0", columns=1)
    yield "# the header's refusals, each before what comes later"
    yield row("", "3 3", given=239)
    yield row("", "3 3", given=7679)
    yield row("", "3 3", format="!100")
    yield row("", "3 3", version="x")
    yield row("", "3 3", format="99")
    yield row("", "3 3", version="6")
    yield row("", "3 3", blocks=9, given=8192)
    yield row("", "3 3", noverfl="!1 2 1")
    yield row("", "3 3", nexp="!1 0 32")
    yield row("", "3 3", npixelb="1")
    yield row("", "3 3", base=65536, columns=1)
    yield row("", "3 3", npixelb="3 1", columns=1)
    yield row("", "3 3", linear="1 1", columns=1)
    yield row("", "3 3", columns=1, room=0)
    yield row("1", "3 3", columns=1, room=0)
    yield row("300", "1 1", base=300, room=0)
    yield row("300", "1 2", base=300, room=0)


if __name__ == "__main__":
    for text in rows():
        print(answer(text) if sys.argv[1:] == ["stdout"] and not text.startswith("#") else text)
