"""dxtbx's reader of frames of Bruker's Photon II detector: the header lines that it wants, and where it departs from the published format."""
import itertools

import bruker
from departures import entry, four, frame, padded, shown, two
from rigaku import Detector, dxtbx_read

# A detector square to the beam at 50 mm, and one rotation about omega.
LINES = {
    "DETTYPE": "CMOS-PHOTONII 37.037037 1 0", "CCDPARM": "1 1 1 1 163810", "CENTER": "10 10 10 10", "DISTANC": "5 5",
    "ANGLES": "0 0 0 54.7", "AXIS": "2", "START": "0", "INCREME": "0.5", "WAVELEN": "1.54184 1.54056 1.54439 0 0",
}
PHOTON = Detector("FormatBrukerPhotonII", [], "u4", "<")


def read(path):
    return dxtbx_read(path, PHOTON)


# dxtbx keeps what it has found for a path, and takes its last number for that of the image.
numbers = itertools.count(1)


def made(stored, tables, novrfl, npixelb, dxtbx, library, form=100, baseline=32, **lines):
    """One frame, and both readings held to what is expected of them."""
    def trial(path):
        path = path.with_name(f"photon_{next(numbers):04}.sfrm")
        frame(path, form, stored, tables, novrfl, npixelb, baseline, {**LINES, **lines})
        found = shown(read(path)), shown(bruker.library_read(path))
        text = f"dxtbx {found[0]}, library {found[1]}"
        return f"as noted: {text}" if found == (dxtbx, library) else f"{text}; expected {dxtbx}, {library}"
    return trial


DEPARTURES = [
    ("dxtbx: an underflow entry of 7", made([0, 3], padded(b"\x07"), "1 0 0", "1 1", "39 35", "7 35")),
    ("dxtbx: an underflow entry above 127", made([0, 3], padded(b"\xc8"), "1 0 0", "1 1", "400 203", "200 203", baseline=200)),
    ("dxtbx: underflow entries of 2 bytes", made([0, 3], padded(b"\x07\x00"), "1 0 0", "1 2", "AssertionError", "7 35")),
    ("dxtbx: kind none with an underflow width of 0", made([5, 6], b"", "-1 0 0", "1 0", "AssertionError", "5 6")),
    ("dxtbx: kind none with an underflow width of 1", made([5, 6], b"", "-1 0 0", "1 1", "5 6", "5 6")),
    ("dxtbx: pixels of 4 bytes", made([5, 6], b"", "0 0 0", "4 1", "TypeError", "37 38")),
    ("dxtbx: a four-byte entry from 2^31", made([255], two(65535) + four(3000000000), "-1 1 1", "1 1", "RuntimeError", "3000000000")),
    ("dxtbx: underflow count 0, and a 0 is stored", made([0, 3], b"", "0 0 0", "1 1", "32 35", "refusal 14")),
    ("dxtbx: one two-byte entry, two marked pixels", made([255, 255], two(300), "-1 1 0", "1 1", "RuntimeError", "refusal 14")),
    ("dxtbx: one two-byte entry, no marked pixel", made([5, 6], two(300), "-1 1 0", "1 1", "RuntimeError", "refusal 14")),
    ("dxtbx: no entries, a marked pixel", made([255, 6], b"", "-1 0 0", "1 1", "255 6", "refusal 14")),
    ("dxtbx: padding that is not zero", made([255], two(300)[:-1] + b"x", "-1 1 0", "1 1", "300", "refusal 12")),
    ("dxtbx: a scale of 0.1", made([5, 6], b"", "-1 0 0", "1 1", "5 6", "refusal 9", LINEAR="0.1 0.0")),
    ("dxtbx: FORMAT 86", made([255], padded(entry % (300, 0), 512), "1", "1", "NotImplementedError", "300", form=86)),
]
