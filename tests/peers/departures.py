"""Where FabIO departs from the published format: each trial makes one frame and holds both readings to what docs/PEERS.md says."""
import numpy

import bruker


def frame(path, form, stored, tables, novrfl, npixelb, baseline=32, lines=()):
    """A frame with a whole header, in which some lines have other values, and these bytes after it."""
    image = bruker.Bruker100Image(header=bruker.whole_header(form, baseline, novrfl, lines))
    image.header.update(NPIXELB=npixelb, NROWS="1", NCOLS=str(len(stored)))
    width = int(npixelb.split()[0])
    body = b"".join(int(value).to_bytes(width, "little") for value in stored)
    path.write_bytes(image.gen_header().encode("ASCII") + body + tables)


def padded(table, unit=16, fill=b"\0"):
    return table + fill * (-len(table) % unit)


def two(*values):
    return padded(b"".join(value.to_bytes(2, "little") for value in values))


def four(*values):
    return padded(b"".join(value.to_bytes(4, "little") for value in values))


def shown(reading):
    """FabIO's reading or the library's in words."""
    if isinstance(reading, bruker.Reading):
        return f"refusal {reading.refusal}" if reading.refusal else shown(reading.pixels)
    if isinstance(reading, Exception):
        return type(reading).__name__
    if reading is None or reading.size == 0:
        return "no pixels"
    first, more = reading.ravel()[:8], reading.size - 8
    return " ".join(str(value) for value in first) + (f" and {more} more" if more > 0 else "")


def judged(path, fabio, library, readers=bruker):
    """Both readings, by the functions of a module, held to what is expected of them."""
    found = shown(readers.fabio_read(path)), shown(readers.library_read(path))
    text = f"FabIO {found[0]}, library {found[1]}"
    return f"as noted: {text}" if found == (fabio, library) else f"{text}; expected {fabio}, {library}"


def made(form, stored, tables, novrfl, npixelb, fabio, library, baseline=32):
    def trial(path):
        frame(path, form, stored, tables, novrfl, npixelb, baseline)
        return judged(path, fabio, library)
    return trial


def patched(line, text, form, fabio, library):
    """Pixels 5 6 in width 1 with one header line's text replaced."""
    def trial(path):
        frame(path, form, [5, 6], b"", "-1 0 0" if form == 100 else "0", "1 0" if form == 100 else "1")
        data = bytearray(path.read_bytes())
        data[80 * line:80 * line + 80] = text.ljust(80)
        path.write_bytes(data)
        return judged(path, fabio, library)
    return trial


def moved(path):
    """Two lines change places."""
    frame(path, 100, [5, 6], b"", "-1 0 0", "1 0")
    data = bytearray(path.read_bytes())
    data[40 * 80:41 * 80], data[42 * 80:43 * 80] = data[42 * 80:43 * 80], data[40 * 80:41 * 80]
    path.write_bytes(data)
    return judged(path, "5 6", "refusal 7")


def written(form, values, fabio, library, baseline=None, header=None, kind=numpy.int32):
    """FabIO writes these counts; both read its frame."""
    def trial(path):
        pixels = numpy.array([values], dtype=kind)
        try:
            if header is None:
                bruker.fabio_write(path, pixels, form, baseline)
            else:
                maker = bruker.Bruker100Image if form == 100 else bruker.BrukerImage
                maker(data=pixels, header=header()).write(str(path))
        except Exception as error:
            return "as noted: FabIO's writer raises " + type(error).__name__ if fabio is type(error) else repr(error)
        return judged(path, fabio, library)
    return trial


def without(*names):
    """A whole header for kind none, these lines left to FabIO."""
    def header():
        lines = bruker.whole_header(100, 32, "0 0 0")
        for name in names:
            del lines[name]
        return lines
    return header


entry = b"%9d%7d"
DEPARTURES = [
    ("an underflow entry of 1 byte above 127", made(100, [0, 3], padded(b"\xc8"), "1 0 0", "1 1", "-56 203", "200 203", 200)),
    ("an underflow entry of 2 bytes above 32767",
     made(100, [0, 3], padded(b"\x40\x9c"), "1 0 0", "1 2", "-25536 40003", "40000 40003", 40000)),
    ("a four-byte entry from 2^31", made(100, [255], two(65535) + four(3000000000), "-1 1 1", "1 0", "-1294967296", "3000000000")),
    ("a pixel of 4 bytes from 2^31", made(100, [3000000000], b"", "-1 0 0", "4 0", "-1294967296", "3000000000")),
    ("a baseline sum above 32 bits", made(100, [2**32 - 1], b"", "0 0 0", "4 1", "31", "refusal 15")),
    ("underflow count 0, and a 0 is stored", made(100, [0, 3], b"", "0 0 0", "1 1", "32 35", "refusal 14")),
    ("one two-byte entry, two marked pixels", made(100, [255, 255], two(300), "-1 1 0", "1 0", "300 300", "refusal 14")),
    ("one two-byte entry, no marked pixel", made(100, [5, 6], two(300), "-1 1 0", "1 0", "5 6", "refusal 14")),
    ("no entries, a marked pixel", made(100, [255, 6], b"", "-1 0 0", "1 0", "255 6", "refusal 14")),
    ("padding that is not zero", made(100, [255], two(300)[:-1] + b"x", "-1 1 0", "1 0", "300", "refusal 12")),
    ("FORMAT 100 with a scale of 0.1", patched(58, b"LINEAR :0.1 0.0", 100, "5 6", "refusal 9")),
    ("FORMAT 86 with a scale of 2", patched(58, b"LINEAR :2 0", 86, "10.0 12.0", "refusal 9")),
    ("lines found by name: NROWS where another stands", moved),
    ("FORMAT 86: a second entry for a pixel",
     made(86, [255], padded(entry % (300, 0) + entry % (400, 0), 512), "2", "1", "400", "refusal 13")),
    ("FORMAT 86: an entry for a pixel that is not marked", made(86, [5], padded(entry % (300, 0), 512), "1", "1", "300", "refusal 13")),
    ("FORMAT 86: a marked pixel with no entry", made(86, [255], b"", "0", "1", "255", "refusal 14")),
    ("FabIO writes FORMAT 86, NOVERFL left to it",
     written(86, [300, 5], "255 5", "refusal 14", header=lambda: bruker.whole_header(86, 0, "0"), kind=numpy.uint32)),
    ("FabIO writes FORMAT 86, counts of ten digits", written(86, [2000000000, 2000000000], "20000000 255", "refusal 13", kind=numpy.uint32)),
    ("FabIO writes FORMAT 100, TITLE left to it", written(100, [40, 50], "40 50", "refusal 7", header=without("TITLE"))),
    ("FabIO writes FORMAT 100, NEXP left to it", written(100, [40, 50], "40 9", "40 9", header=without("NEXP"))),
    ("FabIO writes an underflow of 128", written(100, [128, 300], "-128 300", "128 300", 128)),
    ("FabIO writes a count from 2^31, kind none", written(100, [3000000000, 5], "-1294967296 5", "3000000000 5", kind=numpy.uint32)),
    ("FabIO writes a count from 2^31 over a baseline", written(100, [3000000000, 50], "-1294967296 50", "refusal 8", 32, kind=numpy.uint32)),
    ("FabIO writes underflows that are all 0", written(100, [0, 50], OverflowError, None, 32)),
    ("FabIO writes an underflow above 32768", written(100, [40000, 50000], TypeError, None, 45000)),
]
