"""Two threads at once, small stacks, and the deepest brackets."""
import threading
import unittest

from puchkewa import Kind, Line, Listing, Refusal, Settings, Token, clean, clean_tape, start_value, tape, with_stack

from . import common


def run(inputs):
    out = []
    for settings, raw in inputs:
        try:
            out.append(clean_tape(raw, settings))
        except Refusal as refusal:
            out.append((refusal.number, refusal.place))
    return out


def brackets(opened: int, closed: int) -> Listing:
    puncts = Token(Kind.PUNCT, " " + "(" * opened), Token(Kind.PUNCT, ")" * closed + ";")
    return Listing([Line(tokens=[Token(Kind.KEYWORD, "return"), puncts[0], Token(Kind.REGISTER, "rax"), puncts[1]])])


class Threads(unittest.TestCase):
    def test_two_threads_at_once_answer_as_one(self):
        inputs = [(settings, raw) for settings, raw, _, _ in common.answers()][:600]
        alone = run(inputs)
        answers = []
        threads = [threading.Thread(target=lambda: answers.extend(run(inputs) for _ in range(4))) for _ in range(2)]
        for thread in threads:
            thread.start()
        for thread in threads:
            thread.join()
        self.assertEqual(len(answers), 8)
        self.assertTrue(all(answer == alone for answer in answers))

    def test_a_small_stack_is_enough_behind_with_stack(self):
        raw = tape.read(common.sample())
        answers = []
        small = 128 << 10
        before = threading.stack_size(small)
        try:
            thread = threading.Thread(target=lambda: answers.append(with_stack(clean, raw)))
            thread.start()
            thread.join()
            # what other threads get is as it was
            self.assertEqual(threading.stack_size(), small)
        finally:
            threading.stack_size(before)
        self.assertEqual(answers, [clean(raw)])

    def test_the_deepest_brackets_have_room(self):
        even = brackets(12_000, 12_000)
        profile = Settings(profile=True)
        self.assertEqual(with_stack(clean, even, profile).counts.removed, 0)
        self.assertEqual(with_stack(start_value, even, "rax", {}, 5), 5)
        with self.assertRaises(Refusal) as told:
            with_stack(clean, brackets(24_500, 0), profile)
        self.assertEqual((told.exception.number, told.exception.place), (14, 0))
