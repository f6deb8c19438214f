"""Where FabIO departs from the published d*TREK format: each trial makes one file and holds both readings to what docs/PEERS.md says."""
import numpy

import dtrek
from departures import judged

PIXELS = numpy.array([[1, 258, 65535]], numpy.uint16)
READ = "1 258 65535"
# Its bytes, and two more, as one double.
DOUBLE = str(numpy.frombuffer(PIXELS.astype("<u2").tobytes() + bytes(2), "<f8")[0])


def plain():
    items = dtrek.items_of(PIXELS.shape, "u2", "<")
    return dtrek.header_of(items).decode("latin1"), PIXELS.astype("<u2").tobytes()


def changed(old, new, fabio, library, pixels=b"", less=0):
    """One text of a header by the page replaced, its padding fitted; more pixels, or fewer bytes."""
    def trial(path):
        header, body = plain()
        assert header.count(old) == 1, old
        text = header.rstrip(" ").replace(old, new).ljust(512).encode("latin1") + body + pixels
        path.write_bytes(text[:len(text) - less])
        return judged(path, fabio, library, dtrek)
    return trial


def padded(byte, fabio, library):
    """Another last byte of the padding."""
    def trial(path):
        header, body = plain()
        path.write_bytes(header[:511].encode("latin1") + byte + body)
        return judged(path, fabio, library, dtrek)
    return trial


def written(pixels, fabio, library, **header):
    """FabIO writes these pixels; both read its file."""
    def trial(path):
        try:
            dtrek.fabio_write(path, pixels, **header)
        except Exception as error:
            return "as noted: FabIO's writer raises " + type(error).__name__ if fabio is type(error) else repr(error)
        return judged(path, fabio, library, dtrek)
    return trial


def full(path):
    """FabIO writes a header that has room for no padding."""
    dtrek.fabio_write(path, PIXELS)
    used = len(path.read_bytes()[:512].rstrip(b" ")) + len("A= ;\n")
    dtrek.fabio_write(path, PIXELS, A="x" * (512 - used))
    length = path.read_bytes()[15:20].decode()
    text = judged(path, READ, READ, dtrek)
    return text if length == " 1024" else f"a header of {length}: {text}"


ONE_COMPRESSED = "SIZE1=1;\nSIZE2=1;\nBYTE_ORDER=little_endian;\nData_type=Compressed"
LONG = {f"KEY{at:04}": "x" * 1000 for at in range(9)}
DEPARTURES = [
    ("d*TREK: a second item for a keyword", changed("SIZE1=3;\n", "SIZE1=9;\nSIZE1=3;\n", READ, "refusal 33")),
    ("d*TREK: no semicolon", changed("SIZE1=3;", "SIZE1=3", READ, "refusal 34")),
    ("d*TREK: no semicolon at the last item", changed("int;", "int", READ, "refusal 33")),
    ("d*TREK: space after a semicolon", changed("SIZE1=3;", "SIZE1=3; ", READ, "refusal 33")),
    ("d*TREK: two items on a line", changed("SIZE1=3;\n", "A=1; SIZE1=3;\n", "KeyError", "refusal 33")),
    ("d*TREK: white space before the equals sign", changed("SIZE1=", "SIZE1 =", READ, "refusal 33")),
    ("d*TREK: carriage returns", changed("SIZE1=3;\n", "SIZE1=3;\r\n", READ, "refusal 33")),
    ("d*TREK: a newline before a value", changed("SIZE1=3", "SIZE1=\n3", "ValueError", READ)),
    ("d*TREK: a tab before the type", changed("=unsigned", "=\tunsigned", "OSError", READ)),
    ("d*TREK: no closing brace", changed("}\n\f\n", "", READ, "refusal 33")),
    ("d*TREK: no form feed", changed("}\n\f\n", "}\n", READ, "refusal 33")),
    ("d*TREK: another byte in the padding", padded(b"x", READ, "refusal 33")),
    ("d*TREK: a line of a value that starts with a brace", changed("DIM=", "A=\n}\n;\nDIM=", "KeyError", READ)),
    ("d*TREK: HEADER_BYTES of three characters", changed("=  512;", "=512;", READ, "refusal 32")),
    ("d*TREK: text after the first brace", changed("{\n", "{ image\n", READ, "refusal 32")),
    ("d*TREK: DIM missing", changed("DIM=2;\n", "", READ, "refusal 34")),
    ("d*TREK: BYTE_ORDER missing", changed("BYTE_ORDER=little_endian;\n", "", READ, "refusal 34")),
    ("d*TREK: BYTE_ORDER BIG_ENDIAN", changed("little_endian", "BIG_ENDIAN", READ, "refusal 34")),
    ("d*TREK: BYTE_ORDER not_big", changed("little_endian", "not_big", "256 513 65535", "refusal 34")),
    ("d*TREK: Data_type missing", changed("Data_type=unsigned short int;\n", "", READ, "refusal 34")),
    ("d*TREK: one size 0", changed("SIZE1=3", "SIZE1=0", "OSError", "refusal 34")),
    ("d*TREK: 4097 pixels in a row", changed("SIZE1=3", "SIZE1=4097", f"{READ} 0 0 0 0 0 and 4089 more", "refusal 34", bytes(2 * 4094))),
    ("d*TREK: short int", changed("unsigned short int", "short int", "1 258 -1", "refusal 35")),
    ("d*TREK: Data_type Compressed, eight bytes for one pixel",
     changed("SIZE1=3;\nSIZE2=1;\nBYTE_ORDER=little_endian;\nData_type=unsigned short int", ONE_COMPRESSED, DOUBLE, "refusal 35", bytes(2))),
    ("d*TREK: COMPRESSION gzip", changed("DIM=", "COMPRESSION=gzip;\nDIM=", READ, "refusal 35")),
    ("d*TREK: a byte after the last pixel", changed("DIM=", "DIM=", "OSError", READ, b"\0\0")),
    ("FabIO writes d*TREK, signed pixels", written(PIXELS.astype(numpy.int16), "1 258 -1", "refusal 35")),
    ("FabIO writes d*TREK, 64 bits", written(PIXELS.astype(numpy.uint64), READ, READ)),
    ("FabIO writes d*TREK, no pixels", written(None, "no pixels", "refusal 35")),
    ("FabIO writes d*TREK, three dimensions", written(PIXELS.reshape(1, 1, 3), READ, "refusal 34")),
    ("FabIO writes d*TREK, an array of the other byte order", written(PIXELS.astype(">u2"), "256 513 65535", "256 513 65535")),
    ("FabIO writes d*TREK, a semicolon in a value", written(PIXELS, READ, "refusal 33", TITLE="a;b")),
    ("FabIO writes d*TREK, a header of 9,728 bytes", written(PIXELS, READ, READ, **LONG)),
    ("FabIO writes d*TREK, a header of 10,240 bytes", written(PIXELS, AssertionError, None, **LONG, MORE="x" * 520)),
    ("FabIO writes d*TREK, HEADER_BYTES of 600 given", written(PIXELS, AssertionError, None, HEADER_BYTES="600")),
    ("FabIO writes d*TREK, a header that ends with a block", full),
]
