"""Each refusal, with its number, place, line and token."""
import pickle
import unittest

import puchkewa
from puchkewa import MEANINGS, Kind, Line, Listing, LongName, Refusal, Settings, Store, Token, Unwritable, clean, clean_tape, tape

from . import common

NAME = b"12345678"


class Refusals(unittest.TestCase):
    def said(self, call, *words):
        with self.assertRaises(Refusal) as told:
            call(*words)
        r = told.exception
        return r.number, r.place, r.line, r.token

    def tape_said(self, text):
        raw = bytes.fromhex(text)
        want = self.said(clean_tape, raw)
        # every other call that takes a tape says the same
        for call, words in [
            (tape.to_2018, (raw,)), (tape.to_2024, (raw,)), (tape.to_offsets, (raw, 0)), (tape.start_value, (raw, "rax", {}, 0)),
            (puchkewa.cautions_of_tape, (raw,)),
            (Store().save_tape, (NAME, raw)), (tape.read, (raw,)),
        ]:
            self.assertEqual(self.said(call, *words), want)
        return want

    def test_every_number_is_provoked(self):
        provoked = set()

        def case(got, *want):
            self.assertEqual(got, want)
            provoked.add(got[0])

        even = common.listing("k:return\tp: \tr:rax\tp: + \tr:rax\tp:;")
        low = Listing([Line(0x1000), Line(0xfff)])
        x = Token(Kind.TEXT, "x")
        case(self.said(clean, low, Settings(convention=3)), 1, 0, None, None)
        case(self.said(clean, low, Settings(convention=256)), 1, 0, None, None)
        case(self.said(clean, low, Settings(convention=-1)), 1, 0, None, None)
        case(self.said(Store(bytes(1000)).restore, NAME), 2, 0, None, None)
        case(self.said(Store(b"").delete, NAME), 2, 0, None, None)
        # the tapes of docs/TAPE.md's table, and some more
        case(self.tape_said(""), 3, 0, None, None)
        case(self.tape_said("02 00"), 3, 2, 0, None)
        case(self.tape_said("02 00 04"), 3, 2, 0, None)
        case(self.tape_said("10 02 00 66"), 4, 0, None, None)
        case(self.tape_said("02 00 11 01 00 66 10 02 00 66"), 4, 6, 0, 1)
        case(self.tape_said("10 00 00 FF"), 5, 0, None, None)
        case(self.tape_said("02 00 02 40 FF"), 6, 2, 1, None)
        case(self.tape_said("02 00 10 02 00 41 09 FF"), 7, 6, 0, 0)
        case(self.tape_said("FF 00"), 8, 0, None, None)
        case(self.said(clean, low, Settings(edition=2)), 9, 0, None, None)
        case(self.said(puchkewa.cautions, low, Settings(edition=2)), 9, 0, None, None)
        case(self.said(puchkewa.cautions, low, Settings(convention=3)), 1, 0, None, None)
        case(self.said(clean, Listing([Line(), Line(marks=(2, 1))])), 5, 4, 1, None)
        case(self.said(clean, Listing([Line(tokens=[x, Token(Kind.NUMBER, "1" * 25)])])), 6, 6, 0, 1)
        case(self.said(clean, Listing([Line()] * 257)), 10, 512, 256, None)
        case(self.said(clean, Listing([Line(tokens=[x] * 1025)])), 10, 2 + 4 * 1024, 0, 1024)
        case(self.said(clean, Listing([Line(), Line(tokens=[Token(Kind.TEXT, "x" * 24_576), x])])), 11, 4 + 3 + 24_576, 1, 1)
        case(self.said(puchkewa.to_2024, common.listing("s:f", "k:bool\ts:typeof")), 12, 6 + 2 + 7, 1, 1)
        case(self.said(puchkewa.to_2018, common.listing("n:0b1\tn:0b2")), 13, 8, 0, 1)
        crooked = common.listing("r:rax\tp: = \tn:5\tp:;", "r:eax\tp: = \tn:5\tp:;", "k:return\tp: \tr:rax\tp:;")
        case(self.said(clean, crooked, Settings(profile=True)), 14, 1, 1, None)
        case(self.said(puchkewa.cautions, crooked, Settings(profile=True)), 14, 1, 1, None)
        case(self.said(puchkewa.start_value, even, "rax", {}, 11), 15, 0, None, None)
        case(self.said(puchkewa.start_value, even, "eax", {}, 10), 16, 0, None, None)
        case(self.said(puchkewa.start_value, even, "rax", {"var_8": 1}, 10), 16, 0, None, None)
        case(self.said(puchkewa.laborious, 257), 17, 0, None, None)
        case(self.said(puchkewa.to_offsets, low, 0x1000), 18, 10, 1, None)
        case(self.said(puchkewa.from_offsets, bytes.fromhex("06 FF FF FF FF FF FF FF FF 04 01 00 00 00 00 FF")), 18, 9, 0, None)
        case(self.said(puchkewa.from_offsets, bytes.fromhex("06 00 00")), 4, 0, None, None)
        case(self.said(puchkewa.from_offsets, b"\xff"), 19, 0, None, None)
        case(self.said(Store().restore, NAME), 20, 0, None, None)
        case(self.said(Store().delete, NAME), 20, 0, None, None)
        full = Store()
        for number in range(8):
            full.save(number.to_bytes(8, "little"), low)
        case(self.said(full.save, b"ninth   ", low), 21, 0, None, None)
        damaged = bytearray(bytes(full))
        damaged[3 * 65_536] = 2
        case(self.said(Store(damaged).restore, bytes(8)), 22, 3, None, None)
        self.assertEqual(provoked, set(MEANINGS))

    def test_what_no_tape_takes_is_told_before_the_call(self):
        def said(line):
            with self.assertRaises(Unwritable) as told:
                clean(Listing([Line(), line]))
            self.assertEqual((told.exception.number, told.exception.place, told.exception.line), (None, None, 1))
            return told.exception.token, str(told.exception)

        def text(it):
            return said(Line(tokens=[Token(Kind.TEXT, "x"), Token(Kind.ADDRESS, it)]))

        front = "no tape takes this text: "
        self.assertEqual(text(""), (1, front + "it is empty (lines[1].tokens[1])"))
        self.assertEqual(text('"long\u2026"'), (1, front + "'\u2026' at offset 5 is outside 20 to 7E (lines[1].tokens[1])"))
        self.assertEqual(text("a\tb"), (1, front + "'\\t' at offset 1 is outside 20 to 7E (lines[1].tokens[1])"))
        self.assertEqual(text("\x7f"), (1, front + "'\\x7f' at offset 0 is outside 20 to 7E (lines[1].tokens[1])"))
        self.assertEqual(text("x" * 65_536), (1, front + "it has 65536 bytes, more than 65,535 (lines[1].tokens[1])"))
        self.assertEqual(said(Line(tokens=[Token(8, "x")])), (0, "no tape takes this kind: 8 (lines[1].tokens[0])"))
        self.assertEqual(said(Line(address=1 << 64)), (None, "no tape takes the address 0x10000000000000000 (lines[1])"))
        self.assertEqual(said(Line(marks=(-1, 1))), (None, "no tape takes the address -0x1 (lines[1])"))
        self.assertEqual(said(Line(indent=256)), (None, "no tape takes the indent 256 (lines[1])"))
        clean(Listing([Line(tokens=[Token(Kind.TEXT, " ~")])]))

    def test_names_and_numbers_are_told_before_the_call(self):
        formula = common.listing("k:return\tp: \tr:rax\tp:;")
        with self.assertRaises(LongName):
            puchkewa.start_value(formula, "rax", [("rbx", 1), ("r" + "1" * 255, 2)], 0)
        for wanted in (1 << 64, -(1 << 63) - 1):
            with self.assertRaises(ValueError):
                puchkewa.start_value(formula, "rax", {}, wanted)
        with self.assertRaises(ValueError):
            Store().delete(b"short")

    def test_refusals_are_told_in_words_and_can_be_sent(self):
        with self.assertRaises(Refusal) as told:
            clean(Listing([common.line("t:x"), Line(indent=64)]))
        self.assertEqual(str(told.exception), "refused 6 at 6: an indent above 63, an empty text, or a Number of more than 24 bytes (lines[1])")
        for refusal in (told.exception, Unwritable("no tape takes this", 2, 3), LongName("r" * 300)):
            again = pickle.loads(pickle.dumps(refusal))
            self.assertEqual((type(again), str(again), again.line, again.token), (type(refusal), str(refusal), refusal.line, refusal.token))
