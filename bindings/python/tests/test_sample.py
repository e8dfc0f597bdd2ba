"""The sample of the repository, and the example of docs/TAPE.md."""
import doctest
import unittest

import puchkewa
from puchkewa import Line, Listing, clean, tape

from . import common


def load_tests(loader, tests, pattern):
    """The example of the package's own text is a test too."""
    tests.addTests(doctest.DocTestSuite(puchkewa))
    return tests


class Sample(unittest.TestCase):
    def test_the_sample_is_read_printed_and_written(self):
        listing = tape.read(common.sample())
        self.assertEqual(str(listing), (common.TOP / "samples" / "press.txt").read_text())
        self.assertEqual(tape.write(listing), common.sample())

    def test_the_sample_is_cleaned(self):
        _, raw, numbers, want = next(common.answers())
        self.assertEqual(raw, common.sample())
        cleaned = clean(tape.read(common.sample()))
        self.assertEqual([*cleaned.counts.attempts, cleaned.counts.removed, cleaned.counts.cut], numbers[:5])
        self.assertEqual(common.unmarked(cleaned.listing), tape.read(want))

    def test_the_example_of_the_tape_page(self):
        raw = bytes.fromhex(
            "01 00 10 40 00 00 00 00 00 01  11 03 00 72 61 78  16 03 00 20 3D 20  12 01 00 35  16 01 00 3B"
            "02 01  11 03 00 72 62 78  16 03 00 20 3D 20  11 03 00 72 61 78  16 03 00 20 2B 20  12 01 00 34  16 01 00 3B  FF"
        )
        first, second = common.listing("r:rax\tp: = \tn:5\tp:;", "r:rbx\tp: = \tr:rax\tp: + \tn:4\tp:;").lines
        listing = Listing([Line(0x401000, 1, None, first.tokens), Line(None, 1, None, second.tokens)])
        self.assertEqual(tape.write(listing), raw)
        cleaned = clean(listing)
        want = "02 01  03 00 10 40 00 00 00 00 00 00 10 40 00 00 00 00 00  11 03 00 72 62 78  16 03 00 20 3D 20  12 01 00 39  16 01 00 3B  FF"
        self.assertEqual(tape.write(cleaned.listing), bytes.fromhex(want))
        self.assertEqual(cleaned.listing.lines[0].marks, (0x401000, 0x401000))
        self.assertEqual((cleaned.counts.attempts, cleaned.counts.removed, cleaned.counts.cut), ((2, 1, 0), 1, 0))
