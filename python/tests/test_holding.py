"""Holdings, through the command."""
import datetime
import os
import pathlib
import pickle
import subprocess
import unittest
from unittest import mock

import quayrudder
from quayrudder import Holding, places
from test_images import refused


class Holdings(unittest.TestCase):
    names = iter(range(1000))

    def setUp(self):
        self.holding = Holding.open("example.sfrm", f"held{next(self.names)}", form="1+2")

    def error(self, call, *arguments, **options):
        with self.assertRaises(quayrudder.Error) as caught:
            call(*arguments, **options)
        error = pickle.loads(pickle.dumps(caught.exception))
        self.assertEqual(str(error), str(caught.exception))
        return error.kind

    def test_a_correction_is_in_the_frame_and_in_the_ledger(self):
        line = self.holding.correct((100, 250), 90)
        self.assertEqual((line.number, line.pixel, line.old, line.new), (1, 38650, 4_000_000, 90))
        self.assertEqual(int(self.holding.read().pixels[100, 250]), 90)
        self.assertEqual(self.holding.withdraw(), line)
        self.assertEqual(int(self.holding.read().pixels[100, 250]), 4_000_000)
        self.assertEqual([line.kind for line in self.holding.list()], ["correct", "withdraw"])

    def other(self):
        """A second holding of the same frame."""
        return Holding.open("example.sfrm", self.holding.name + "b", form="1+2")

    def test_the_command_gives_the_same_files(self):
        other = self.other()
        self.holding.correct(5, 7), self.holding.keep("2031-11-02"), self.holding.withdraw(), self.holding.amend(8)
        for command, *words in (["correct", "5", "7"], ["keep", "2031-11-02"], ["withdraw"], ["amend", "8"]):
            subprocess.run([places.command(), command, other.name, *words], check=True, capture_output=True)
        self.assertEqual(self.files(self.holding), self.files(other))
        self.holding.verify()

    def files(self, holding):
        return [pathlib.Path(holding.name + ending).read_bytes() for ending in (".held", ".ledger")]

    def test_the_order_of_corrections_is_in_the_ledger_and_not_in_the_frame(self):
        opened, other = self.files(self.holding)[0], self.other()
        lines = [self.holding.correct(pixel, count) for pixel, count in ((5, 65_535), (38650, 90))]
        later = [other.correct(pixel, count) for pixel, count in ((38650, 0), (38650, 90), (5, 65_535))]
        (held, ledger), (other_held, other_ledger) = self.files(self.holding), self.files(other)
        self.assertTrue(opened != held == other_held and ledger != other_ledger)
        self.assertTrue((self.holding.read().pixels == other.read().pixels).all())
        self.assertEqual((self.holding.why_pixel(38650), other.why_pixel(38650)), (lines[1], later[1]))
        self.assertEqual((self.holding.withdraw(), other.withdraw()), (lines[1], later[2]))
        self.assertNotEqual(self.files(self.holding)[0], self.files(other)[0])
        self.holding.withdraw(), other.withdraw(), other.withdraw()
        self.assertTrue(self.files(self.holding)[0] == self.files(other)[0] == opened)

    def test_refusals_have_the_library_s_numbers(self):
        self.assertEqual(refused(self.holding.withdraw).number, 22)
        self.assertEqual(refused(self.holding.amend, 5).number, 22)
        self.assertEqual(refused(self.holding.correct, 256 * 384, 5).number, 24)
        self.assertEqual(refused(self.holding.correct, (0, 384), 5).number, 24)
        self.assertEqual(refused(self.holding.keep, "2031-02-29").number, 25)
        self.assertEqual(refused(self.holding.may_purge, "2031-02-29").number, 25)
        self.holding.keep("2031-11-02")
        self.assertEqual(refused(self.holding.amend, 5).number, 31)

    def test_purge_questions(self):
        self.assertFalse(self.holding.may_purge("2031-11-03"))
        self.holding.keep(datetime.date(2031, 11, 2))
        self.assertEqual(self.holding.kept_until(), datetime.date(2031, 11, 2))
        self.assertIs(self.holding.may_purge(datetime.date(2031, 11, 2)), False)
        self.assertIs(self.holding.may_purge(datetime.date(2031, 11, 3)), True)

    def test_the_last_keep_line_that_stands_decides(self):
        self.assertEqual(self.holding.why_day("2031-11-03"), quayrudder.PurgeAnswer(False, None))
        lines = [self.holding.keep("2040-01-01"), self.holding.keep("2031-11-02", shorten=True)]
        self.assertEqual(self.holding.why_day("2031-11-02"), (False, lines[1]))
        self.assertEqual(self.holding.why_day(datetime.date(2031, 11, 3)), (True, lines[1]))
        self.holding.withdraw()
        self.assertEqual(self.holding.why_day("2031-11-03"), (False, lines[0]))
        self.assertEqual(self.holding.kept_until(), datetime.date(2040, 1, 1))
        self.assertEqual(refused(self.holding.why_day, "2031-02-29").number, 25)
        self.assertEqual(self.error(self.holding.why_day, "tomorrow"), "usage")

    def test_an_answer_is_true_where_it_is_yes(self):
        self.assertFalse(self.holding.why_day("2031-11-03"))
        self.holding.keep("2031-11-02")
        self.assertFalse(self.holding.why_day("2031-11-02"))
        self.assertTrue(self.holding.why_day("2031-11-03"))
        self.assertIs(self.holding.why_day("2031-11-03").may_purge, True)

    def test_the_last_correction_of_a_pixel_is_named(self):
        first, other = self.holding.correct((100, 250), 90), self.holding.correct(7, 12)
        second = self.holding.correct(38650, 91)
        self.assertEqual([self.holding.why_pixel(pixel) for pixel in (38650, 7, 8)], [second, other, None])
        self.holding.withdraw()
        self.assertEqual(self.holding.why_pixel((100, 250)), first)
        self.assertIsNone(self.holding.why_pixel(2 ** 64 - 1))
        self.assertEqual(refused(self.holding.why_pixel, (256, 0)).number, 24)
        self.assertEqual(self.error(self.holding.why_pixel, -1), "usage")
        os.remove(self.holding.name + ".held")
        self.assertEqual(self.holding.why_pixel(7), other)
        self.assertEqual(self.error(self.holding.why_pixel, (0, 7)), "damaged")

    def test_compaction_leaves_what_stands(self):
        self.holding.correct(1, 5)
        self.holding.keep("2031-11-02")
        self.assertEqual((self.holding.withdraw().kind, self.holding.compact()), ("keep", 1))
        with open(self.holding.name + ".compacted") as log:
            self.assertIn("2 keep 2031-11-02 withdrawn", log.read())
        self.assertEqual((self.holding.keep("2031-11-03").number, self.holding.compact()), (2, 2))
        self.holding.withdraw()
        self.assertEqual((self.holding.compact(log=False), [line.pixel for line in self.holding.list()]), (1, [1]))
        self.holding.verify()

    def test_a_malformed_ledger_is_never_a_yes(self):
        os.remove(self.holding.name + ".sha256")
        with open(self.holding.name + ".ledger", "wb") as ledger:
            ledger.write(b"\xff" * 16)
        for question, asked in ((self.holding.may_purge, "2031-11-03"), (self.holding.why_day, "2031-11-03"), (self.holding.why_pixel, 7)):
            refusal = refused(question, asked)
            self.assertEqual((refusal.number, refusal.file), (20, self.holding.name + ".ledger"))
        self.assertEqual(refused(self.holding.list).number, 20)

    def test_what_the_command_declines(self):
        self.holding.keep("2031-11-02")
        self.assertEqual(self.error(self.holding.keep, "2030-01-01"), "declined")
        self.assertEqual(self.holding.keep("2030-01-01", shorten=True).number, 2)
        self.assertEqual(self.error(Holding.open, "example.sfrm", self.holding.name, form="1"), "declined")

    def test_damage_machine_and_usage(self):
        self.assertEqual(self.error(Holding("missing").list), "failed")
        self.assertEqual(self.error(self.holding.keep, "tomorrow"), "usage")
        self.assertEqual(self.error(self.holding.correct, 1, -1), "usage")
        with open(self.holding.name + ".held", "ab") as held:
            held.write(b"\0")
        self.assertEqual(self.error(self.holding.correct, 1, 1), "damaged")

    def test_the_environment_names_the_command(self):
        with mock.patch.dict(os.environ, QUAYRUDDER_COMMAND="/bin/false"):
            self.assertEqual(self.error(self.holding.list), "failed")
        with mock.patch.dict(os.environ, PATH=""), mock.patch.object(places, "_first", return_value=None):
            self.assertRaises(FileNotFoundError, self.holding.list)

    def test_names_that_look_like_options_and_endings(self):
        holding = Holding.open("example.sfrm", "--json", form="1")
        self.assertEqual(holding.correct(0, 1).number, 1)
        for name in ("--json.held", "--json.ledger", os.path.abspath("--json")):
            self.assertEqual(len(Holding(name).list()), 1)
            self.assertEqual(int(Holding(name).read().pixels[0, 0]), 1)

    def test_another_process_is_waited_for(self):
        holding = Holding(self.holding.name, wait=0)
        locker = subprocess.Popen(["flock", self.holding.name + ".lock", "sh", "-c", "echo locked; read line"],
                                  stdin=subprocess.PIPE, stdout=subprocess.PIPE)
        locker.stdout.readline()
        self.assertEqual(self.error(holding.correct, 1, 1), "failed")
        locker.communicate(b"\n")
        self.assertEqual(holding.correct(1, 1).number, 1)
