"""X-ray frames of a cold archive, by a library whose every answer is proved.

Any bytes give an image or one numbered refusal, which is raised as `Refusal`:

>>> import quayrudder
>>> pixels, header, end = quayrudder.read("example.sfrm")
>>> pixels.shape, pixels.dtype.name, int(pixels[100, 250])
((256, 384), 'uint32', 4000000)
>>> header["NEXP"], end
('1 0 32', 107632)

`read` takes Bruker frames (FORMAT 100 and 86), `read_mar` uncompressed mar images and `read_dtrek` d*TREK images, each a path or
bytes that are in memory already. `write` makes a frame of counts. The counts are numpy arrays that the library fills or reads where they lie.

>>> try:
...     quayrudder.read(b"no frame at all")
... except quayrudder.Refusal as refusal:
...     print(refusal.number, refusal.case)
1 HeaderTruncated

A frame that is held in the archive, with its ledger of corrections and keep dates, is a `Holding`. Its changes go through the command
`quayrudder`, so that lock, record and sums are the command's:

>>> holding = quayrudder.Holding.open("example.sfrm", "lyso1", form="1+2")
>>> holding.correct((100, 250), 90)
Line(number=1, kind='correct', withdrawn=False, pixel=38650, old=4000000, new=90, date=None)
>>> holding.keep("2031-11-02").date
datetime.date(2031, 11, 2)
>>> holding.may_purge("2031-11-02"), holding.may_purge("2031-11-03")
(False, True)
>>> holding.why_day("2031-11-02").line.number, holding.why_pixel((100, 250)).number
(2, 1)
>>> int(holding.read().pixels[100, 250])
90

`quayrudder.fabio_plugin` makes `fabio.open` read Bruker and mar files in the same way. The numbers of refusals, and more of the command, are in
REFUSALS.md and MANUAL.md, which are installed beside (share/doc/quayrudder).
"""
from .holding import Holding, Line, PurgeAnswer
from .images import Image, read, read_dtrek, read_mar, write
from .refusals import Error, Refusal

__all__ = ["Error", "Holding", "Image", "Line", "PurgeAnswer", "Refusal", "read", "read_dtrek", "read_mar", "write"]
