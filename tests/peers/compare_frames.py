#!/usr/bin/python3
"""compare_frames.py FOLDER: each file in it read by the library, by the second reader and by FabIO; one row of a table for each."""
import logging
import pathlib
import sys
import tempfile

import numpy

import bruker


def header_field(data, line):
    """The first field of a header line, or `?`."""
    fields = data[80 * line + 8:80 * line + 80].split()
    return fields[0].decode("ascii", "replace") if fields else "?"


def fabio_against(ours, fabio):
    """Whether FabIO's reading is the library's: `agree`, or the first difference."""
    if isinstance(fabio, Exception):
        return "agree" if ours.refusal else f"FabIO: {type(fabio).__name__}"
    if ours.refusal:
        return f"FabIO reads {fabio.shape[0]} x {fabio.shape[1]} pixels"
    if fabio.shape != ours.pixels.shape:
        return f"FabIO has shape {fabio.shape[0]} x {fabio.shape[1]}"
    places = numpy.flatnonzero(fabio.astype(numpy.float64) != ours.pixels)
    if places.size == 0:
        return "agree"
    place = int(places[0])
    return f"{places.size} pixels, the first {place}: library {ours.pixels.ravel()[place]}, FabIO {fabio.ravel()[place]}"


def row(path, scratch):
    data = path.read_bytes()
    frame = scratch / "frame"
    frame.write_bytes(data)
    ours = bruker.library_read(frame)
    fabio = bruker.fabio_read(frame)
    answer = f"refusal {ours.refusal}" if ours.refusal else "frame"
    theirs = type(fabio).__name__ if isinstance(fabio, Exception) else "frame"
    verdict = fabio_against(ours, fabio) if ours.same else "THE TWO READERS DIFFER"
    cells = [path.name, *(header_field(data, line) for line in (0, 40, 41)), answer, answer if ours.same else "other", theirs, verdict]
    return cells, ours.same


def main():
    logging.disable(logging.CRITICAL)
    files = sorted(path for path in pathlib.Path(sys.argv[1]).rglob("*") if path.is_file() and path.name != "README.md")
    print("| file | format | rows | columns | library | second reader | FabIO | agree |\n|---|---|---|---|---|---|---|---|")
    same = True
    with tempfile.TemporaryDirectory() as scratch:
        for path in files:
            cells, agreed = row(path, pathlib.Path(scratch))
            print("| " + " | ".join(cells) + " |", flush=True)
            same &= agreed
    print(f"{len(files)} files; {'the two readers agree on each' if same else 'THE TWO READERS DIFFER'}")
    return 0 if same else 1


if __name__ == "__main__":
    sys.exit(main())
