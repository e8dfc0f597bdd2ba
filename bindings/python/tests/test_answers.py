"""The real Rust's answers: the sample and random tapes, from tape to tape and from listing to listing. And the listings with their cautions of
tests/cautions, which another implementation made."""
import unittest

from puchkewa import Cleaned, Refusal, Settings, cautions, cautions_of_tape, clean, clean_tape, tape

from . import common


class Answers(unittest.TestCase):
    def test_the_package_answers_as_the_real_rust(self):
        cleaned = refused = 0
        for settings, raw, numbers, want in common.answers():
            if want is None:
                with self.assertRaises(Refusal) as told:
                    clean_tape(raw, settings)
                self.assertEqual([told.exception.number, told.exception.place], numbers)
                refused += 1
                continue
            got, counts = clean_tape(raw, settings)
            attempts, (removed, cut, rounds, all_attempts) = numbers[:3], numbers[3:]
            self.assertEqual((counts.removed, counts.cut), (removed, cut))
            self.assertEqual(counts.attempts, (all_attempts,) if settings.settle else tuple(attempts))
            self.assertEqual(counts.rounds, rounds if settings.settle else None)
            self.assertEqual(tape.write(common.unmarked(tape.read(got))), want)
            self.assertEqual(clean(tape.read(raw), settings), Cleaned(tape.read(got), counts))
            cleaned += 1
        print(f"{cleaned} cleaned, {refused} refused, all as the real Rust does it")
        self.assertGreater(cleaned, 400)
        self.assertGreater(refused, 30)

    def test_the_cautions_are_those_of_another_implementation(self):
        lines = (common.TOP / "tests/cautions/list.txt").read_text().splitlines()
        self.assertGreater(len(lines), 200)
        for line in lines:
            _, convention, bits, raw, want = line.split(" ")
            n = int(bits)
            settings = Settings(int(convention), n % 2 == 1, n // 2 % 2, n // 4 % 2 == 1, n // 8 % 2 == 1)
            sets = b"".join(kinds.to_bytes(2, "little") for kinds in cautions_of_tape(bytes.fromhex(raw), settings))
            self.assertEqual(sets.hex() or "-", want)
            self.assertEqual(cautions(tape.read(bytes.fromhex(raw)), settings), cautions_of_tape(bytes.fromhex(raw), settings))
