"""mar .image files. FabIO has no reader for them: its writers make the image and the pairs, and its generic reader is pointed at each part."""
import pathlib
import subprocess
from typing import NamedTuple

import fabio
import numpy
from fabio.binaryimage import BinaryImage
from fabio.mar345image import Mar345Image
from fabio.marccdimage import MarccdImage

ROOT = pathlib.Path(__file__).parents[2]
BINARY = ROOT / "target/peers/mar_read"
ORDERS = {"<": "little-endian", ">": "big-endian"}
HEADER_345 = 4096


def build():
    """The program that asks the library."""
    BINARY.parent.mkdir(parents=True, exist_ok=True)
    source, library = ROOT / "tests/peers/mar_read.c", ROOT / "target/staticlib/libquayrudder.a"
    subprocess.run(["cc", "-O2", "-I", ROOT / "include", source, library, "-o", BINARY], check=True)


class Mar(NamedTuple):
    """A file's side, byte order (`<` or `>`) and number of pairs."""
    side: int
    order: str
    pairs: int

    def record(self):
        return 2 * self.side

    def start(self):
        """Of the pairs."""
        return self.record() * (self.side + 1)

    def records(self):
        return -(-self.pairs // (self.side // 4))


def counts_of(random, mar):
    """Counts up to 65535, and as many above as there are pairs."""
    counts = random.integers(0, 300, mar.side**2, dtype=numpy.int64)
    places = random.choice(counts.size, mar.pairs + 50, replace=False)
    counts[places[:50]] = random.choice([255, 256, 32767, 32768, 65280, 65534, 65535], 50)
    counts[places[50:]] = random.integers(65536, 2**31, mar.pairs)
    return counts


def header(random, mar):
    """The numbers that follow from the size and the pairs, and any bytes after them."""
    first = [mar.side, mar.side, mar.record(), 1200 if mar.side == 1200 else 4000, mar.pairs, mar.records()]
    return numpy.array(first, f"{mar.order}u4").tobytes() + random.bytes(mar.record() - 24)


def fabio_image(path, mar, counts):
    """The 16-bit array, written by FabIO's generic writer."""
    BinaryImage(data=counts.clip(0, 65535).astype(f"{mar.order}u2").reshape(mar.side, mar.side)).write(str(path))
    return path.read_bytes()


def fabio_pairs(path, mar, counts):
    """The pairs, taken from the mar345 file that FabIO writes of these counts; its own records have 8 of them."""
    image = Mar345Image(data=counts.reshape(mar.side, mar.side))
    image.swap_needed = mar.order == ">"
    image.write(str(path))
    return path.read_bytes()[HEADER_345:HEADER_345 + 8 * mar.pairs]


def make(path, random, mar, counts):
    parts = header(random, mar), fabio_image(path, mar, counts), fabio_pairs(path, mar, counts)
    path.write_bytes(b"".join(parts) + random.bytes(mar.records() * mar.record() - 8 * mar.pairs))


def turn_pairs(path, mar):
    """The pairs in the opposite order."""
    data = path.read_bytes()
    pairs = numpy.frombuffer(data, "u8", mar.pairs, mar.start())
    path.write_bytes(data[:mar.start()] + pairs[::-1].tobytes() + data[mar.start() + 8 * mar.pairs:])


def part(path, mar, offset, columns, rows, kind):
    """FabIO's generic reader at a part of the file."""
    return BinaryImage().read(str(path), columns, rows, offset, kind, mar.order).data


def fabio_pixels(path, mar):
    """The 16-bit array, and what the pairs put into it."""
    pixels = part(path, mar, mar.record(), mar.side, mar.side, "uint16").astype(numpy.int64)
    if mar.pairs:
        pairs = part(path, mar, mar.start(), 2, mar.pairs, "uint32")
        pixels.ravel()[pairs[:, 0].astype(numpy.int64) - 1] = pairs[:, 1]
    return pixels


def fabio_entries(path, mar):
    return [[0, int(number >= 10), int(bits)] for number, bits in enumerate(part(path, mar, 0, 25, 1, "uint32").ravel())]


class Reading(NamedTuple):
    answer: list
    entries: list
    pixels: numpy.ndarray


def library_read(path):
    out = pathlib.Path(f"{path}.pixels")
    ran = subprocess.run([str(BINARY), str(path), str(out)], check=True, capture_output=True, text=True)
    answer, *entries = ([int(word) for word in line.split()] for line in ran.stdout.splitlines())
    pixels = numpy.fromfile(out, "<u4").reshape(answer[3], answer[4])
    out.unlink()
    return Reading(answer, entries, pixels)


# FabIO's own choice by the file's first bytes and name, and its two readers of mar formats.
READERS = {"fabio.open": fabio.open, "mar345": lambda name: Mar345Image().read(name), "marccd": lambda name: MarccdImage().read(name)}


def reads(reader, path):
    """Whether a reader of FabIO has pixels for a file."""
    try:
        return reader(str(path)).data is not None
    except Exception:
        return False
