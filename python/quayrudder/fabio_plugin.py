"""FabIO with the proved reader for Bruker frames and mar images.

>>> import fabio, quayrudder.fabio_plugin
>>> quayrudder.fabio_plugin.register()
>>> image = fabio.open("example.sfrm")
>>> image.data.shape, image.data.dtype.name, image.header["NROWS"]
((256, 384), 'uint32', '256')
>>> fabio.open("plate.image").data.shape
(1200, 1200)

From then on `fabio.open` gives what `quayrudder.read` and `quayrudder.read_mar` give, compressed files included, and raises `quayrudder.Refusal`
where they do. Every file that starts with `FORMAT :` or with a mar image's first number is read so; others are FabIO's as before.
"""
from __future__ import annotations

import struct
from typing import Any, Callable, ClassVar

import fabio.fabioformats
import fabio.openimage
from fabio.fabioimage import FabioImage

from .images import Image, read, read_mar
from .refusals import Refusal

# FabIO finds a class by these first bytes and a name.
_MAGIC = [(b"FORMAT :", "quayrudderbruker")]
_MAGIC += [(struct.pack(order, side), "quayruddermar") for side in (1200, 2000) for order in ("<I", ">I")]


class _ProvedImage(FabioImage):  # type: ignore[misc]
    reader: ClassVar[Callable[[bytes], Image]]

    def read(self, fname: Any, frame: int | None = None) -> _ProvedImage:
        """The counts and the header of a file with one image."""
        self.resetvals()
        if frame not in (None, 0):
            raise IndexError("a frame or plate is one image")
        with self._open(fname) as file:
            self.data = self._readheader(file).pixels
        self._shape, self._dtype = None, None
        self.filename = fname
        return self

    def _readheader(self, file: Any) -> Image:
        """FabIO asks by this for the header alone. A header is the file's only where the whole file is accepted."""
        try:
            image = type(self).reader(file.read())
        except Refusal as refusal:
            raise refusal.of(str(self.filename)) from None
        self.header = self.check_header({str(key): value for key, value in image.header.items()})
        return image


class QuayrudderBrukerImage(_ProvedImage):
    """Bruker frames of FORMAT 100 and 86."""

    DESCRIPTION = "Bruker FORMAT 86 and 100 by Quayrudder's proved reader"
    DEFAULT_EXTENSIONS: list[str] = []
    reader = staticmethod(read)


class QuayrudderMarImage(_ProvedImage):
    """Uncompressed mar images."""

    DESCRIPTION = "uncompressed mar .image files by Quayrudder's proved reader"
    DEFAULT_EXTENSIONS: list[str] = []
    reader = staticmethod(read_mar)


def register() -> None:
    """Makes FabIO use these classes. Twice is as once."""
    for image_class in (QuayrudderBrukerImage, QuayrudderMarImage):
        fabio.fabioformats.register(image_class)
    known = fabio.openimage.MAGIC_NUMBERS
    known[:0] = [magic for magic in _MAGIC if magic not in known]
