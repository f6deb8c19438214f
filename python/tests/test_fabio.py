"""FabIO with the proved reader."""
import gzip
import shutil
import unittest

import fabio

import quayrudder
from files import plate
from quayrudder import fabio_plugin
from test_images import refused


class FabIO(unittest.TestCase):
    @classmethod
    def setUpClass(cls):
        fabio_plugin.register()
        fabio_plugin.register()

    def test_a_frame_is_what_the_library_reads(self):
        image, ours = fabio.open("example.sfrm"), quayrudder.read("example.sfrm")
        self.assertEqual(type(image).__name__, "QuayrudderBrukerImage")
        self.assertTrue((image.data == ours.pixels).all())
        self.assertEqual((image.shape, image.dtype.name), ((256, 384), "uint32"))
        self.assertEqual(dict(image.header), ours.header)
        self.assertEqual(dict(fabio.openheader("example.sfrm").header), ours.header)

    def test_a_compressed_frame(self):
        with open("example.sfrm", "rb") as plain, gzip.open("packed.sfrm.gz", "wb") as packed:
            shutil.copyfileobj(plain, packed)
        self.assertEqual(int(fabio.open("packed.sfrm.gz").data[100, 250]), 4_000_000)

    def test_counts_that_fabio_has_as_negative(self):
        counts = quayrudder.read("example.sfrm").pixels
        counts[0, 0] = 3_000_000_000
        with open("large.sfrm", "wb") as file:
            file.write(quayrudder.write("example.sfrm", counts, "1"))
        self.assertEqual(int(fabio.open("large.sfrm").data[0, 0]), 3_000_000_000)

    def test_mar_in_both_orders(self):
        for order in "<>":
            with open("order.image", "wb") as file:
                file.write(plate(order))
            image = fabio.open("order.image")
            self.assertEqual((int(image.data[0, 1]), image.header["20"]), (100_000, quayrudder.read_mar("order.image").header[20]))

    def test_refusals_are_raised(self):
        with open("example.sfrm", "rb") as file:
            frame = bytearray(file.read())
        frame[-1] = 1
        for name, data, number in (("padded.sfrm", frame, 12), ("cut.image", plate()[:-1], 11), ("pair.image", plate(address=3), 13)):
            with open(name, "wb") as file:
                file.write(data)
            refusal = refused(fabio.open, name)
            self.assertEqual((refusal.number, refusal.file), (number, name))

    def test_an_image_is_converted_as_any_other(self):
        fabio.open("example.sfrm").convert("edf").write("example.edf")
        self.assertTrue((fabio.open("example.edf").data == quayrudder.read("example.sfrm").pixels).all())
        with self.assertRaises(IndexError):
            fabio.open("example.sfrm", frame=1)

    def test_other_formats_are_fabio_s(self):
        self.assertEqual(type(fabio.open("scan.img")).__name__, "DtrekImage")
