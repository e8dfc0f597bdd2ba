"""The calls beside the cleaning, on the examples of docs/TAPE.md."""
import unittest

import puchkewa
from puchkewa import Caution, Line, Listing, Refusal, Store, clean, tape

from . import common


class Calls(unittest.TestCase):
    def test_between_the_two_editions(self):
        newer = common.listing("n:0b1010\tn:0b0\tn:-0B0001'010\tn:1'000\tn:0'10\tn:0X1'F\tn:08\tn:10u")
        older = common.listing("n:0xa\tn:0x0\tn:-0xa\tn:1000\tn:010\tn:0X1F\tn:08\tn:10u")
        self.assertEqual(puchkewa.to_2018(newer), older)
        self.assertEqual(puchkewa.to_2024(older), older)

    def test_by_offset_and_back(self):
        listing = Listing([Line(0x1010, 2)])
        based = bytes.fromhex("06 00 10 00 00 00 00 00 00 04 10 00 00 00 02 FF")
        self.assertEqual(puchkewa.to_offsets(listing, 0x1000), based)
        self.assertEqual(puchkewa.from_offsets(based), listing)

    def test_named_states(self):
        one, two = common.listing("t:one"), common.listing("t:two")
        store = Store()
        store.save(b"first   ", one)
        store.save(b"second  ", two)
        self.assertEqual(store.restore(b"first   "), one)
        store.save(b"first   ", two)
        kept = Store(bytes(store))
        self.assertEqual(kept.restore(b"first   "), two)
        kept.delete(b"first   ")
        with self.assertRaises(Refusal):
            kept.restore(b"first   ")
        self.assertEqual(kept.restore(b"second  "), two)
        self.assertEqual(store.restore(b"first   "), two)

    def test_the_most_laborious_listing(self):
        for lines, attempts in [(0, 0), (1, 1), (2, 2), (256, 510)]:
            made = puchkewa.laborious(lines)
            self.assertEqual(len(made.lines), lines)
            self.assertEqual(clean(made).counts.attempts[0], attempts)
        self.assertEqual(len(tape.laborious(256)), 6_131)

    def test_start_values(self):
        total = common.listing("k:return\tp: \tr:rax\tp: + \tr:rbx\tp:;")
        self.assertEqual(puchkewa.start_value(total, "rax", {"rbx": 3}, 10), 7)
        self.assertEqual(puchkewa.start_value(total, "rax", {}, 10), 10)
        self.assertEqual(puchkewa.start_value(total, "rax", [("rax", 99), ("rbx", 3), ("rbx", 4)], 10), 7)
        self.assertEqual(puchkewa.start_value(total, "rax", {"rbx": 3}, 1), 2**64 - 2)
        self.assertEqual(puchkewa.start_value(total, "rax", {"rbx": -1}, 1), 2)
        self.assertEqual(puchkewa.start_value(total, "r77", {"rbx": 3}, 3), 0)

    def test_cautions(self):
        # f() comes to be called behind the read of counter
        moved = common.listing(
            "r:rax\tp: = \ts:f\tp:();", "r:rbx\tp: = \ts:counter\tp: + \tr:rax\tp:;", "k:return\tp: \tr:rbx\tp:;"
        )
        self.assertEqual([line.text for line in clean(moved).listing.lines], ["return (counter + f());"])
        self.assertIn(Caution.CALL_MOVED, puchkewa.cautions(moved)[0])
        # nothing comes to be otherwise
        constant = common.listing("r:rax\tp: = \tn:5\tp:;", "r:rbx\tp: = \tr:rax\tp: + \tn:4\tp:;", "k:return\tp: \tr:rbx\tp:;")
        self.assertEqual(puchkewa.cautions(constant), [Caution(0)])
        self.assertEqual(puchkewa.cautions(Listing()), [])
        self.assertEqual(sum(puchkewa.SENTENCES), 1023)
        self.assertTrue(all(sentence.endswith(".") for sentence in puchkewa.SENTENCES.values()))
