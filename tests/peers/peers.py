#!/usr/bin/python3
"""FabIO's frames read by the library and the library's by FabIO, and by dxtbx where it can, pixel by pixel; mar files by both, part by part; d*TREK images by both, by dxtbx and by
CBFlib; then where FabIO and dxtbx depart from the published formats."""
import logging
import pathlib
import sys
import tempfile
from itertools import product

import fabio
import numpy
from quayrudder import Refusal, fabio_plugin

import bruker
import dtrek
import dtrek_departures
import mar
import photon
import rigaku
from departures import DEPARTURES, shown

SHAPES = [(1, 1), (1, 7), (3, 5), (64, 65), (512, 512), (2048, 2048)]
BASELINE = 32


def counts(random, shape, most, baseline):
    """Counts like measured ones: few above 255, fewer above 65535, some at or below the baseline."""
    pixels = random.integers(1, 200, shape, dtype=numpy.int64) + baseline
    kind = random.random(shape)
    near = [0, 1, 31, 32, 33, 253, 254, 255, 256, 286, 287, 288, 65534, 65535, 65536, 65566, 65567, 65568, most]
    pixels = numpy.where(kind < 0.004, random.integers(255, 70000, shape), pixels)
    pixels = numpy.where(kind < 0.002, random.choice(near, shape), pixels)
    pixels = numpy.where(kind > 0.99, random.integers(0, baseline + 1, shape), pixels)
    return numpy.minimum(pixels, most)


def first_difference(found, expected):
    if not isinstance(found, numpy.ndarray):
        return f"no pixels: {found}"
    if found.shape != expected.shape:
        return f"shape {found.shape}, not {expected.shape}"
    places = numpy.flatnonzero(found.astype(numpy.int64) != expected)
    if places.size == 0:
        return ""
    place = int(places[0])
    return f"{places.size} pixels, the first {place}: {found.ravel()[place]}, not {expected.ravel()[place]}"


class Report:
    def __init__(self):
        self.agreed, self.failed = {}, 0

    def note(self, name, *differences):
        found = [text for text in differences if text]
        self.agreed.setdefault(name, [0, 0])[bool(found)] += len(differences)
        for text in found:
            self.failed += 1
            print(f"DIFFERENT: {name}: {text}")


def field(path, line, index=0):
    """A number of a header line."""
    with open(path, "rb") as file:
        file.seek(80 * line + 8)
        return int(file.read(72).split()[index])


def all_read(report, name, path, expected, readers):
    """The library, the second reader and FabIO read a file by the functions of a module."""
    ours = readers.library_read(path)
    pixels = ours.pixels if ours.refusal == 0 else f"refusal {ours.refusal}"
    second = "" if ours.same else f"the second reader: {ours.text}"
    report.note(name, first_difference(pixels, expected), second, first_difference(readers.fabio_read(path), expected))


def both_read(report, name, path, expected, width=1, underflow=None):
    """A frame that has this form, read by all."""
    found = field(path, 39), None if underflow is None else field(path, 39, 1)
    report.note(name, "" if found == (width, underflow) else f"form {found}")
    all_read(report, name, path, expected, bruker)


def fabio_86(report, folder, random):
    path = folder / "frame"
    for (width, most), shape in product(((1, 999_999_999), (2, 999_999_999), (4, 2**31 - 1)), SHAPES):
        pixels = counts(random, shape, most, 0)
        if width > 1 and pixels.size < 8192:
            continue
        overflows_for(pixels.ravel(), width)
        bruker.fabio_write(path, pixels.astype(numpy.uint32), 86)
        both_read(report, f"FabIO writes FORMAT 86, width {width}", path, pixels, width)
        turned_table(path)
        both_read(report, f"the same, entries turned round, spaces for zeros, width {width}", path, pixels, width)


def overflows_for(flat, width):
    """FabIO stores one byte for each pixel where fewer than 4096 overflow, two where fewer than 4096 overflow those, else four."""
    if width == 1:
        flat[numpy.flatnonzero(flat >= 255)[4000:]] = 254
    else:
        flat[:5000] = 300 if width == 2 else 70000


def turned_table(path):
    """The entries of a FORMAT 86 frame in the opposite order, their leading zeros made spaces."""
    data = path.read_bytes()
    blocks, count, width, rows, columns = (field(path, line) for line in (2, 20, 39, 40, 41))
    start = 512 * blocks + width * rows * columns
    entries = [data[start + 16 * i:start + 16 * i + 16] for i in range(count)]
    turned = b"".join(b"%9d%7d" % (int(e[:9]), int(e[9:])) for e in reversed(entries))
    path.write_bytes(data[:start] + turned + data[start + len(turned):])


# With kind none FabIO's header still has an underflow width of 1.
FABIO_KINDS = (("none", None, 1), ("underflows 1", BASELINE, 1), ("underflows 2", 300, 2))


def fabio_100(report, folder, random):
    path = folder / "frame"
    for (name, baseline, underflow), shape in product(FABIO_KINDS, SHAPES):
        pixels = counts(random, shape, 2**31 - 1 - 300, baseline or 0)
        if baseline is not None:
            pixels.ravel()[0] = baseline
        bruker.fabio_write(path, pixels.astype(numpy.int32), 100, baseline)
        both_read(report, f"FabIO writes FORMAT 100, width 1, {name}", path, pixels, 1, underflow)


def library_100(report, folder, random):
    path = folder / "frame"
    for width, (underflow, baseline), shape in product((1, 2, 4), ((0, BASELINE), (1, BASELINE), (2, 300)), SHAPES):
        pixels = counts(random, shape, 2**31 - 1, baseline)
        bruker.fabio_write(path, pixels.clip(1, 9).astype(numpy.int32), 100, baseline)
        written = bruker.library_write(path, path.read_bytes(), pixels, width, underflow)
        name = f"the library writes FORMAT 100, width {width}, underflows {underflow}"
        report.note(name, f"refusal {written.refusal}" if written.refusal else "", "" if written.same else written.text)
        both_read(report, name, path, pixels, width, underflow)


def photon_read(report, name, path, pixels, width):
    """All read it; dxtbx adds the baseline to pixels from the underflow table as well."""
    both_read(report, name, path, pixels, width, 1)
    expected = pixels + numpy.where(pixels <= BASELINE, BASELINE, 0)
    report.note(name, first_difference(photon.read(path), expected))


def photon_library(report, folder, random):
    for width, least, shape in product((1, 2), (BASELINE + 1, 0), SHAPES):
        path = folder / f"photon_{width}_{least}_{shape[0]}_{shape[1]}.sfrm"
        pixels = counts(random, shape, 2**31 - 1, BASELINE).clip(least)
        bruker.fabio_write(path, pixels.clip(1, 9).astype(numpy.int32), 100, BASELINE, photon.LINES)
        written = bruker.library_write(path, path.read_bytes(), pixels, width, 1)
        name = f"the library writes FORMAT 100 for dxtbx, width {width}, " + ("with underflows" if least == 0 else "with none")
        report.note(name, f"refusal {written.refusal}" if written.refusal else "", "" if written.same else written.text)
        photon_read(report, name, path, pixels, width)


def photon_fabio(report, folder, random):
    for shape in SHAPES:
        path = folder / f"photon_fabio_{shape[0]}_{shape[1]}.sfrm"
        pixels = counts(random, shape, 2**31 - 1 - 300, BASELINE)
        pixels.ravel()[0] = BASELINE
        bruker.fabio_write(path, pixels.astype(numpy.int32), 100, BASELINE, photon.LINES)
        photon_read(report, "FabIO writes FORMAT 100 for dxtbx, width 1", path, pixels, 1)


def mar_read(report, name, path, file, counts):
    """The library, and FabIO's generic reader at each part."""
    ours, expected = mar.library_read(path), counts.reshape(file.side, file.side)
    answer = [0, 0, 0, file.side, file.side, path.stat().st_size]
    report.note(name, "" if ours.answer == answer else f"answer {ours.answer}, not {answer}")
    report.note(name, first_difference(ours.pixels, expected), first_difference(mar.fabio_pixels(path, file), expected))
    entries = mar.fabio_entries(path, file)
    report.note("mar header entries", "" if ours.entries == entries else f"{ours.entries}, not {entries}")


def mar_files(report, folder, random):
    mar.build()
    path = folder / "frame.image"
    for side, order, pairs in product((1200, 2000), "<>", (0, 1, 299, 300, 301, 499, 500, 501, 4000)):
        file = mar.Mar(side, order, pairs)
        counts = mar.counts_of(random, file)
        mar.make(path, random, file, counts)
        mar_read(report, f"mar {side}, {mar.ORDERS[order]}", path, file, counts)
        mar.turn_pairs(path, file)
        mar_read(report, f"the same, pairs turned round, {side}, {mar.ORDERS[order]}", path, file, counts)


def mar_unread(report, folder, random):
    path = folder / "frame.image"
    for side, order, pairs in product((1200, 2000), "<>", (0, 7)):
        file = mar.Mar(side, order, pairs)
        mar.make(path, random, file, mar.counts_of(random, file))
        found = [name for name, reader in mar.READERS.items() if mar.reads(reader, path)]
        report.note("no reader of FabIO reads a mar file", ", ".join(found))


def dtrek_files(report, folder, random):
    path = folder / "frame.img"
    for kind, order, shape in product(dtrek.TYPES, "<>", [*SHAPES, (1, 4096), (4096, 1)]):
        counts = dtrek.counts_of(random, shape, kind)
        dtrek.fabio_write(path, counts.astype(kind), order, TITLE="a title", SATURATED_VALUE="1048544")
        all_read(report, f"FabIO writes d*TREK, {dtrek.TYPES[kind]}, {dtrek.ORDERS[order]}", path, counts, dtrek)
        dtrek.make(path, counts, kind, order)
        all_read(report, f"d*TREK by the page, {dtrek.TYPES[kind]}, {dtrek.ORDERS[order]}", path, counts, dtrek)


# Before a keyword, behind the equals sign, behind the value: white space that FabIO takes too.
SPACES = ((" ", "= ", " "), ("\t", "=   ", "  "), ("\n\n ", "=", "   "))


def dtrek_spaced(report, folder, random):
    path = folder / "frame.img"
    more = [("COMMENT", ""), ("DTREK_VERSION", "d*TREK version 9.4W"), ("dim", "3"), ("RAXIS_COMPRESSION_RATIO", "8"), ("COMPRESSION", "none")]
    more += [(f"KEY_{at}", "x" * 50) for at in range(200)]
    for kind, order, (before, after, behind) in product(dtrek.TYPES, "<>", SPACES):
        counts = dtrek.counts_of(random, (31, 17), kind)
        dtrek.make(path, counts, kind, order, more, before=before, after=after, behind=behind)
        all_read(report, "d*TREK by the page, with white space and 205 more items", path, counts, dtrek)


def dtrek_adsc(report, folder, random):
    """CBFlib gives rows and columns exchanged, so that its pixels are compared in the file's order."""
    path = folder / "frame.img"
    for (kind, name), order, shape in product(dtrek.ADSC_TYPES.items(), "<>", [(3, 5), (64, 64), (512, 512), (700, 400)]):
        pixels = counts(random, shape, min(2 ** (8 * int(kind[1])), 2**31) - 1, 0)
        dtrek.make(path, pixels, kind, order, [("TYPE", name)])
        all_read(report, f"d*TREK with ADSC's TYPE, {name}, {dtrek.ORDERS[order]}", path, pixels, dtrek)
        found = dtrek.cbflib_read(path)
        flat = found.reshape(shape) if isinstance(found, numpy.ndarray) and found.size == pixels.size else found
        report.note(f"CBFlib, {name}, {dtrek.ORDERS[order]}", first_difference(flat, pixels))


def dtrek_rigaku(report, folder, random):
    """Files by the page and by FabIO, with the items that dxtbx wants."""
    for detector, shape in product(rigaku.DETECTORS, [(1, 1), (3, 5), (64, 65), (512, 512), (619, 487)]):
        items = rigaku.items_of(detector, shape)
        for order, writer in product(detector.orders, ("page", "FabIO")):
            path = folder / f"{detector.reader}_{shape[0]}_{dtrek.ORDERS[order]}_{writer}_0001.img"
            pixels = dtrek.counts_of(random, shape, detector.kind) % 2**31
            if writer == "page":
                dtrek.make(path, pixels, detector.kind, order, items)
            else:
                dtrek.fabio_write(path, pixels.astype(detector.kind), order, **dict(items))
            name = f"d*TREK by {writer}, for {detector.reader}, {dtrek.ORDERS[order]}"
            all_read(report, name, path, pixels, dtrek)
            report.note(name, first_difference(rigaku.dxtbx_read(path, detector), pixels))


def dtrek_rigaku_order(report, folder, random):
    path, pixels = folder / "turned_0001.img", dtrek.counts_of(random, (5, 7), "u4") % 2**31
    dtrek.make(path, pixels, "u4", ">", rigaku.items_of(rigaku.PILATUS, pixels.shape))
    all_read(report, "d*TREK for a Pilatus, big_endian", path, pixels, dtrek)
    turned = pixels.astype(">u4").view("<i4").astype(numpy.int64)
    report.note("dxtbx reads big_endian pixels of a Pilatus as little_endian", first_difference(rigaku.dxtbx_read(path, rigaku.PILATUS), turned))


def plug_in_frames(report, folder, random):
    """FabIO with the plug-in: frames of every form, with counts that FabIO has as negative."""
    fabio_plugin.register()
    path = folder / "plugged.sfrm"
    for width, underflow in product((1, 2, 4), (0, 1, 2)):
        pixels = counts(random, (64, 65), 2**32 - 1, BASELINE)
        bruker.fabio_write(path, pixels.clip(1, 9).astype(numpy.int32), 100, BASELINE)
        bruker.library_write(path, path.read_bytes(), pixels, width, underflow)
        report.note("FabIO with the plug-in, FORMAT 100", first_difference(fabio.open(str(path)).data, pixels))


def plug_in_plates(report, folder, random):
    fabio_plugin.register()
    path = folder / "plugged.image"
    for side, order in product((1200, 2000), "<>"):
        file = mar.Mar(side, order, 301)
        pixels = mar.counts_of(random, file)
        mar.make(path, random, file, pixels)
        report.note("FabIO with the plug-in, mar", first_difference(fabio.open(str(path)).data, pixels.reshape(side, side)))


def plug_in_refuses(report, folder):
    """The same where FabIO departs from the page."""
    fabio_plugin.register()
    for name, trial in DEPARTURES:
        path = folder / "departure"
        trial(path)
        try:
            found = bruker.Reading(0, fabio.open(str(path)).data, True, "")
        except Refusal as refusal:
            found = bruker.Reading(refusal.number, None, True, "")
        found, expected = shown(found), shown(bruker.library_read(path))
        report.note("FabIO with the plug-in, departures", "" if found == expected else f"{name}: {found}, not {expected}")


def departures(report, folder):
    print("\nWhere FabIO and dxtbx depart:")
    for name, trial in DEPARTURES + dtrek_departures.DEPARTURES + photon.DEPARTURES:
        text = trial(folder / "frame")
        print(f"- {name}: {text}")
        report.note("departures as docs/PEERS.md has them", "" if text.startswith("as noted") else f"{name}: {text}")


def main():
    logging.disable(logging.CRITICAL)
    numpy.seterr(divide="ignore")
    seed = int(sys.argv[1]) if len(sys.argv) > 1 else 2026
    print(f"seed {seed}")
    random = numpy.random.default_rng(seed)
    report = Report()
    with tempfile.TemporaryDirectory() as folder:
        folder = pathlib.Path(folder)
        for trial in (fabio_86, fabio_100, library_100, photon_library, photon_fabio, mar_files, mar_unread, dtrek_files, dtrek_spaced, dtrek_adsc, dtrek_rigaku, dtrek_rigaku_order):
            trial(report, folder, random)
        departures(report, folder)
        # last, since FabIO stays changed
        plug_in_frames(report, folder, random)
        plug_in_plates(report, folder, random)
        plug_in_refuses(report, folder)
    print()
    for name, (agreed, failed) in report.agreed.items():
        print(f"{name}: {agreed} comparisons agree" + (f", {failed} DIFFER" if failed else ""))
    return 1 if report.failed else 0


if __name__ == "__main__":
    sys.exit(main())
