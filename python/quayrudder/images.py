"""Frames and images read into counts, and counts written as frames."""
from __future__ import annotations

import struct
from typing import Any, NamedTuple

import numpy
from numpy.typing import ArrayLike

from .library import Bytes, Pixels, Source, call, lent
from .refusals import Refusal


class Image(NamedTuple):
    """An image that was accepted.

    pixels: the counts, an array of rows and columns, 32-bit unsigned
    header: what the header says, by the names that it has there
    end: the byte of the file at which the image ends; what follows was not looked at
    """

    pixels: Pixels
    header: dict[Any, Any]
    end: int


def read(source: Source) -> Image:
    """A Bruker frame of FORMAT 100 or 86, from a path or from bytes.

    >>> pixels, header, end = read("example.sfrm")
    >>> int(pixels.max()), header["NROWS"]
    (4000000, '256')

    The header has each line's text by its name, and lines of one name joined by newlines. Bytes are read where they lie:

    >>> import mmap
    >>> with open("example.sfrm", "rb") as file:
    ...     read(mmap.mmap(file.fileno(), 0, access=mmap.ACCESS_READ)).end
    107632

    Raises Refusal, with the numbers 1 to 15.
    """
    data, name = lent(source)
    said = call("qr_header", data)
    pixels, end = _pixels("qr_read", data, name, said)
    return Image(pixels, _lines(data[:said.start].tobytes()), end)


def read_mar(source: Source) -> Image:
    """An uncompressed mar image, from a path or from bytes. The header has its entries by their numbers, 1 to 25.

    >>> plate = read_mar("plate.image")
    >>> plate.pixels.shape, int(plate.pixels[0, 1]), plate.header[1], round(plate.header[20], 4)
    ((1200, 1200), 100000, 1200, 1.5418)

    Raises Refusal, with the numbers 28, 1, 29, 11 and 13.
    """
    data, name = lent(source)
    said = call("qr_mar_entry", data, 1)
    said.rows = said.columns = said.bits
    pixels, end = _pixels("qr_mar_read", data, name, said)
    return Image(pixels, {number: _entry(data, number) for number in range(1, 26)}, end)


def read_dtrek(source: Source) -> Image:
    """A d*TREK image, from a path or from bytes. The header has its items by their keywords.

    >>> image = read_dtrek("scan.img")
    >>> image.pixels.tolist(), image.header["Data_type"]
    ([[1, 258, 65535]], 'unsigned short int')

    Raises Refusal, with the numbers 32, 1, 33, 34, 35 and 11.
    """
    data, name = lent(source)
    pixels, end = _pixels("qr_dtrek_read", data, name, call("qr_dtrek_header", data))
    return Image(pixels, _items(data), end)


def write(header: Source, pixels: ArrayLike, form: str) -> bytearray:
    """The bytes of a FORMAT 100 frame of these counts.

    header: a path or bytes that start with an accepted FORMAT 100 header, such as a frame, with as many rows and columns
    pixels: whole numbers from 0 to 4294967295; an array of rows and columns, 32-bit unsigned, is read where it lies
    form: bytes per pixel ("1", "2" or "4"), and "+1" or "+2" for the baseline subtracted with underflow entries of so many bytes

    >>> pixels = read("example.sfrm").pixels
    >>> pixels[100, 250] = 90
    >>> frame = write("example.sfrm", pixels, "1+1")
    >>> len(frame), bool((read(frame).pixels == pixels).all())
    (107632, True)

    Raises Refusal, with the numbers 1 to 10, 16 and 17.
    """
    data, name = lent(header)
    counts = _counts(pixels)
    width, underflow = _form(form)
    said = call("qr_header", data)
    _accepted(said, name)
    if counts.ndim > 1 and counts.shape != (said.rows, said.columns):
        raise ValueError(f"{counts.shape} counts for a header of {said.rows} rows and {said.columns} columns")
    # At most an entry in each table for every pixel, and three paddings.
    out = bytearray(said.start + 9 * said.rows * said.columns + 48)
    answer = call("qr_write", data, counts, width, underflow, numpy.frombuffer(out, numpy.uint8))
    _accepted(answer, name)
    del out[answer.length:]
    return out


def _pixels(function: str, data: Bytes, name: str | None, said: Any) -> tuple[Pixels, int]:
    """What a reading function answers, with as many places as the header calls for; the header's refusal comes first."""
    _accepted(said, name)
    pixels = numpy.empty((said.rows, said.columns), numpy.uint32)
    answer = call(function, data, pixels)
    _accepted(answer, name)
    return pixels, int(answer.end)


def _accepted(answer: Any, name: str | None) -> None:
    if answer.refusal:
        raise Refusal(answer.refusal, getattr(answer, "place", 0), name)


def _lines(header: bytes) -> dict[str, str]:
    """A Bruker header's lines: 80 bytes each, of which 8 are the name and its colon."""
    found: dict[str, list[str]] = {}
    text = header.decode("latin-1")
    for start in range(0, len(text) - 79, 80):
        name, value = text[start:start + 8].partition(":")[0].strip(), text[start + 8:start + 80].rstrip(" \0")
        found.setdefault(name, []).append(value.strip())
    return {name: "\n".join(values) for name, values in found.items() if name.isprintable() and name}


def _entry(data: Bytes, number: int) -> int | float:
    answer = call("qr_mar_entry", data, number)
    if answer.is_float:
        return float(struct.unpack("<f", struct.pack("<I", answer.bits))[0])
    return int(answer.bits)


def _items(data: Bytes) -> dict[str, str]:
    items, item = {}, call("qr_dtrek_item", data, 1)
    while item.found:
        key, value = data[item.key_start:item.key_end], data[item.value_start:item.value_end]
        items[key.tobytes().decode("latin-1")] = value.tobytes().decode("latin-1")
        item = call("qr_dtrek_item", data, item.next)
    return items


def _counts(pixels: ArrayLike) -> Pixels:
    """As they lie where they are 32-bit unsigned and contiguous; else a copy, if every one of them can be such a number."""
    given = numpy.asarray(pixels)
    if given.dtype == numpy.uint32:
        return numpy.ascontiguousarray(given)
    if given.dtype.kind not in "iub" or (given.size and not 0 <= given.min() <= given.max() <= 0xFFFFFFFF):
        raise ValueError("counts are whole numbers from 0 to 4294967295")
    return numpy.ascontiguousarray(given, numpy.uint32)


def _form(text: str) -> tuple[int, int]:
    """Whether there is such a form is for the library to say."""
    width, _, underflow = text.partition("+")
    if not width.isdecimal() or not (underflow or "0").isdecimal():
        raise ValueError(f"a form is written like 2 or 1+2, not {text!r}")
    return int(width), int(underflow or 0)
