"""d*TREK images: FabIO writes and reads them, CBFlib's programs read those that say their type as ADSC does, and the library reads all that the page allows."""
import pathlib
import subprocess

import fabio
import numpy
from fabio.dtrekimage import DtrekImage

import bruker

TYPES = {"u1": "unsigned char", "u2": "unsigned short int", "u4": "unsigned long int"}
ORDERS = {"<": "little_endian", ">": "big_endian"}
# ADSC's keyword for the type, without which CBFlib reads nothing.
ADSC_TYPES = {"u2": "unsigned_short", "u4": "unsigned_long"}


def library_read(path):
    return bruker.library_read(path, "expand-dtrek")


def fabio_read(path):
    """FabIO's pixels, none where it has none, or the error that it raises."""
    try:
        return DtrekImage().read(str(path)).data
    except Exception as error:
        return error


def fabio_write(path, pixels, order=None, **header):
    """FabIO's file; without an order the machine's."""
    if order:
        header["BYTE_ORDER"] = ORDERS[order]
    DtrekImage(data=pixels, header=header).write(str(path))


def cbflib_read(path):
    """The pixels in the file's order, by CBFlib: an image made a CBF, and unpacked so that FabIO reads it."""
    packed, plain = pathlib.Path(f"{path}.packed.cbf"), pathlib.Path(f"{path}.plain.cbf")
    try:
        # makecbf's status says how its own copy compares, not whether it read the image
        subprocess.run(["makecbf", path, packed], capture_output=True)
        subprocess.run(["cif2cbf", "-i", packed, "-o", plain, "-c", "b", "-e", "n"], check=True, capture_output=True)
        return fabio.open(str(plain)).data
    except Exception as error:
        return error
    finally:
        packed.unlink(missing_ok=True), plain.unlink(missing_ok=True)


def counts_of(random, shape, kind):
    """Counts of every size that the type has, the largest among them."""
    most = 2 ** (8 * int(kind[1])) - 1
    counts = random.integers(0, most, shape, dtype=numpy.int64, endpoint=True)
    flat = counts.ravel()
    flat[:3] = [most, 1, most // 2 + 1][:flat.size]
    return counts


def items_of(shape, kind, order):
    return [("DIM", "2"), ("SIZE1", str(shape[1])), ("SIZE2", str(shape[0])), ("BYTE_ORDER", ORDERS[order]), ("Data_type", TYPES[kind])]


def header_of(items, before="", after="=", behind=""):
    """A header by the page, with this text before keywords, between keyword and value, and behind values."""
    text = "".join(f"{before}{key}{after}{value}{behind};\n" for key, value in items) + "}\n\f\n"
    length = -(-(22 + len(text)) // 512) * 512
    return f"{{\nHEADER_BYTES={length:5};\n{text}".ljust(length).encode("latin1")


def make(path, counts, kind, order, items=(), **spaces):
    """A file by the page, with more items before those that are needed."""
    header = header_of([*items, *items_of(counts.shape, kind, order)], **spaces)
    path.write_bytes(header + counts.astype(f"{order}{kind}").tobytes())
