#!/usr/bin/python3
"""Makes crates/fabio_trials' frames, arguments and stored output: FabIO writes each frame, reads it again and its reading is printed."""
import pathlib

import numpy

import bruker

CRATE = pathlib.Path(__file__).parents[2] / "crates/fabio_trials"


def mixed(shape, baseline, tops):
    """Small counts with these among them."""
    pixels = (numpy.arange(shape[0] * shape[1], dtype=numpy.int64) * 7) % 190 + baseline + 1
    pixels[1:1 + len(tops)] = tops
    return pixels.reshape(shape)


def wide(least, tops):
    """So many counts from `least` on that FabIO stores more bytes for each pixel, with these among them."""
    pixels = numpy.arange(64 * 65, dtype=numpy.int64) * 3 + least
    pixels[1:1 + len(tops)] = tops
    return pixels.reshape(64, 65)


TOPS = [253, 254, 255, 256, 65534, 65535, 65536, 70000, 999_999_999]
FRAMES = [
    ("86-width1-plain", 86, None, mixed((3, 4), 0, [])),
    ("86-width1", 86, None, mixed((5, 7), 0, TOPS)),
    ("86-width1-more-than-a-block", 86, None, mixed((6, 10), 0, list(range(255, 255 + 33)))),
    ("86-width2", 86, None, wide(255, TOPS)),
    ("86-width4", 86, None, wide(65535, TOPS + [2**32 - 2])),
    ("100-none-plain", 100, None, mixed((2, 5), 0, [])),
    ("100-none", 100, None, mixed((5, 7), 0, [0] + TOPS)),
    ("100-none-nine-entries", 100, None, mixed((4, 4), 0, [300] * 9)),
    ("100-underflows1-none-below", 100, 32, mixed((4, 4), 32, [])),
    ("100-underflows1", 100, 32, mixed((5, 7), 32, [0, 1, 31, 32, 33, 286, 287, 288, 65566, 65567, 70000, 2**31 - 1])),
    ("100-underflows2", 100, 300, mixed((5, 7), 300, [0, 255, 256, 299, 300, 301, 555, 65834, 65835, 1_000_000])),
]


def line(name, length, pixels):
    numbers = " ".join(str(int(value)) for value in pixels.ravel())
    return f"{name}: {pixels.shape[0]} x {pixels.shape[1]}, end {length}: {numbers}\n"


def main():
    data = CRATE / "data"
    data.mkdir(parents=True, exist_ok=True)
    lines = []
    for name, form, baseline, pixels in FRAMES:
        path = data / name
        bruker.fabio_write(path, pixels.astype(numpy.uint32 if form == 86 else numpy.int32), form, baseline)
        lines.append(line(name, path.stat().st_size, bruker.fabio_read(path)))
    (CRATE / "args").write_text("".join(f"{name}\n" for name, *_ in FRAMES))
    (CRATE / "stdout").write_text("".join(lines))


if __name__ == "__main__":
    main()
