"""A folder with the files that examples and tests use."""
from __future__ import annotations

import os
import pathlib
import struct
import subprocess

import numpy

from quayrudder import places

MAKER = pathlib.Path(__file__).parents[2] / "target/cli/release/examples/example_frame"
SIDE = 1200


def example(folder: pathlib.Path) -> None:
    """example.sfrm, the README's frame."""
    maker = os.environ.get("QUAYRUDDER_EXAMPLE_FRAME", str(MAKER))
    subprocess.run([maker, folder], check=True)
    words = ["--header", "header.bin", "--pixels", "counts.raw", "--form", "1+1", "-o", "example.sfrm"]
    subprocess.run([places.command(), "write", *words], check=True, cwd=folder, capture_output=True)


def plate(order: str = "<", address: int = 2) -> bytes:
    """A mar image with one pair: count 100000 at pixel 1, whose address is 2."""
    header = struct.pack(f"{order}6I", SIDE, SIDE, 2 * SIDE, 1200, 1, 1) + struct.pack(f"{order}4I", 0, 0, 0, 0)
    header += struct.pack(f"{order}15f", *(numpy.float32(1.5418) if entry == 20 else entry for entry in range(11, 26)))
    image = numpy.arange(SIDE * SIDE, dtype=f"{order}u2") % 1000
    image[1] = 65535
    pair = struct.pack(f"{order}2I", address, 100_000)
    return header.ljust(2 * SIDE, b"\0") + image.astype(f"{order}u2").tobytes() + pair.ljust(2 * SIDE, b"\0")


def scan() -> bytes:
    """A d*TREK image of three pixels."""
    items = "DIM=2;\nSIZE1=3;\nSIZE2=1;\nBYTE_ORDER=little_endian;\nData_type= unsigned short int ;\nTITLE=;\n"
    return f"{{\nHEADER_BYTES=  512;\n{items}}}\n\f\n".ljust(512).encode() + struct.pack("<3H", 1, 258, 65535)


def fill(folder: pathlib.Path) -> None:
    example(folder)
    (folder / "plate.image").write_bytes(plate())
    (folder / "scan.img").write_bytes(scan())
