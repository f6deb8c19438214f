"""Reading and writing: what the library answers, and arrays that are not copied."""
import os
import pathlib
import pickle
import threading
import unittest

import numpy
from files import plate, scan

import quayrudder
from quayrudder import images, library


def refused(call, *arguments):
    """The refusal that a call raises."""
    try:
        call(*arguments)
    except quayrudder.Refusal as refusal:
        return refusal
    raise AssertionError("accepted")


class Frames(unittest.TestCase):
    def setUp(self):
        with open("example.sfrm", "rb") as file:
            self.frame = file.read()
        self.counts = numpy.fromfile("counts.raw", "<u4").reshape(256, 384)

    def test_counts_are_those_that_were_written(self):
        image = quayrudder.read(self.frame)
        self.assertTrue((image.pixels == self.counts).all())

    def test_header_lines_of_one_name_are_joined(self):
        frame = bytearray(self.frame)
        for line, text in ((11, b"clay, 3rd"), (12, b" core: deep ")):
            frame[80 * line:80 * line + 80] = (b"TITLE  :" + text).ljust(80)
        header = quayrudder.read(frame).header
        self.assertEqual((header["TITLE"], header["HDRBLKS"]), ("clay, 3rd\ncore: deep", "15"))

    def test_a_path_bytes_and_a_view_are_the_same(self):
        for source in ("example.sfrm", bytearray(self.frame), memoryview(self.frame)):
            self.assertTrue((quayrudder.read(source).pixels == self.counts).all())

    def test_bytes_in_memory_are_lent_and_not_copied(self):
        data, name = library.lent(self.frame)
        self.assertTrue(numpy.shares_memory(data, numpy.frombuffer(self.frame, numpy.uint8)))
        self.assertIsNone(name)

    def test_a_pipe_is_a_path_too(self):
        os.mkfifo("pipe.sfrm")
        writer = threading.Thread(target=pathlib.Path("pipe.sfrm").write_bytes, args=[self.frame])
        writer.start()
        self.assertTrue((quayrudder.read("pipe.sfrm").pixels == self.counts).all())
        writer.join()

    def test_every_cut_frame_is_refused(self):
        for length, number in ((0, 1), (239, 1), (7679, 1), (7680, 11), (len(self.frame) - 1, 11)):
            self.assertEqual(refused(quayrudder.read, self.frame[:length]).number, number, length)

    def test_a_refusal_names_the_file_and_is_pickled(self):
        with open("cut.sfrm", "wb") as file:
            file.write(self.frame[:7680])
        refusal = refused(quayrudder.read, "cut.sfrm")
        self.assertEqual((refusal.file, refusal.kind, refusal.case), ("cut.sfrm", "refused", "DataTruncated"))
        again = pickle.loads(pickle.dumps(refusal))
        self.assertEqual((str(again), again.number, again.advice), (str(refusal), 11, refusal.advice))

    def test_format_86(self):
        entry = b"%9d%7d" % (100_000, 2)
        self.assertEqual(quayrudder.read(self.format_86(entry, b"1")).pixels.tolist(), [[1, 2], [100_000, 3]])
        twice = refused(quayrudder.read, self.format_86(2 * entry, b"2"))
        self.assertEqual((twice.number, twice.place, twice.line), (13, 1, None))

    def format_86(self, entries, number):
        header = bytearray(self.frame[:7680])
        lines = {0: b"FORMAT :86", 1: b"VERSION:8", 20: b"NOVERFL:" + number, 39: b"NPIXELB:1", 40: b"NROWS  :2", 41: b"NCOLS  :2"}
        for line, text in lines.items():
            header[80 * line:80 * line + 80] = text.ljust(80)
        return bytes(header) + bytes([1, 2, 255, 3]) + entries.ljust(512, b"\0")

    def test_a_file_that_is_missing_is_no_refusal(self):
        with self.assertRaises(FileNotFoundError):
            quayrudder.read("missing.sfrm")


class Written(unittest.TestCase):
    def setUp(self):
        self.counts = quayrudder.read("example.sfrm").pixels

    def test_every_form_is_read_back(self):
        for form in ("1", "2", "4", "1+1", "2+1", "4+1", "1+2", "2+2", "4+2"):
            frame = quayrudder.write("example.sfrm", self.counts, form)
            self.assertTrue((quayrudder.read(frame).pixels == self.counts).all(), form)

    def test_counts_of_any_whole_kind_and_layout(self):
        expected = quayrudder.write("example.sfrm", self.counts, "1+1")
        turned = numpy.asfortranarray(self.counts)
        for counts in (self.counts.astype("i8"), self.counts.astype(">u4"), turned, self.counts.ravel(), self.counts.tolist()):
            self.assertEqual(quayrudder.write("example.sfrm", counts, "1+1"), expected)

    def test_an_array_that_can_be_lent_is_not_copied(self):
        self.assertTrue(numpy.shares_memory(images._counts(self.counts), self.counts))

    def test_counts_that_are_none(self):
        low, high = self.counts.astype("i8"), self.counts.astype("i8")
        low[0, 0], high[0, 0] = -1, 2**32
        for counts in (low, high, self.counts.astype(float), self.counts.T):
            with self.assertRaises(ValueError):
                quayrudder.write("example.sfrm", counts, "1")

    def test_refusals_of_writing(self):
        self.assertEqual(refused(quayrudder.write, "example.sfrm", self.counts, "3").number, 16)
        self.assertEqual(refused(quayrudder.write, "example.sfrm", self.counts.ravel()[1:], "1").number, 10)
        self.assertEqual(refused(quayrudder.write, b"", self.counts, "1").number, 1)
        with self.assertRaises(ValueError):
            quayrudder.write("example.sfrm", self.counts, "one")


class OtherImages(unittest.TestCase):
    def test_mar_in_both_orders(self):
        for order in "<>":
            image = quayrudder.read_mar(plate(order))
            self.assertEqual(image.pixels.ravel()[:4].tolist(), [0, 100_000, 2, 3])
            self.assertEqual((image.header[4], image.header[25], len(image.header)), (1200, 25.0, 25))

    def test_mar_refused(self):
        pair = refused(quayrudder.read_mar, plate(address=3))
        self.assertEqual((pair.number, pair.place, pair.line), (13, 0, None))
        self.assertIn("(entry 0)", str(pair))
        self.assertEqual(refused(quayrudder.read_mar, plate()[:-1]).number, 11)
        self.assertEqual(refused(quayrudder.read_mar, b"").number, 28)

    def test_dtrek(self):
        image = quayrudder.read_dtrek(scan())
        self.assertEqual(list(image.header), ["HEADER_BYTES", "DIM", "SIZE1", "SIZE2", "BYTE_ORDER", "Data_type", "TITLE"])
        self.assertEqual((image.header["TITLE"], image.end), ("", 518))

    def test_dtrek_refused(self):
        for old, new, number in ((b"DIM=2", b"DIM=3", 34), (b"unsigned", b"signed  ", 35), (b"SIZE2", b"SIZE1", 33), (b"{", b"(", 32)):
            self.assertEqual(refused(quayrudder.read_dtrek, scan().replace(old, new)).number, number)
        self.assertEqual(refused(quayrudder.read_dtrek, scan()[:517]).number, 11)

    def test_every_refusal_has_a_name_and_a_meaning(self):
        for number in range(1, 39):
            refusal = quayrudder.Refusal(number)
            self.assertTrue(refusal.case and refusal.meaning, number)
        self.assertIn("not known", quayrudder.Refusal(99).meaning)
