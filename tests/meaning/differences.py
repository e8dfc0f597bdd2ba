"""A raw listing beside another form of it: run from the same start states, compared, and shortened while they still differ.

Two runs are the same when their events and their ends are. Where one was stopped (a division by zero, too many calls or instructions), only what came
before counts; but an end that one reaches in a quarter of the instructions, and the other not at all, is a difference. Where the raw listing passes or returns
0xffffffff and the other -1, they are taken for the same, but in mode exact: C makes an int of the -1. A start state in which the raw listing's own
meaning hangs on the order of operands is passed over; the other form differs if either order does.
"""
import re
from typing import NamedTuple

from cleaning import addressed_of, finished, run_of
from listing import Line, line_of, texts_of
from meaning import ALL, LONGEST, Run, Setting, is_of_32_bits, states, widths_of
from reading import NoC, hangs_on_order, read

STATES = 6


class Behaviour(NamedTuple):
    events: list
    end: tuple        # None where the run was stopped
    steps: int
    places: list      # of each event its line
    line: int         # the last line


class Difference(NamedTuple):
    state: int
    raw: Behaviour
    other: Behaviour  # None where the other form is no C
    line: int         # the line of the other form where it first shows
    words: str


def behave(code, state, setting, is_right_first):
    run = Run(code, state, setting, is_right_first)
    end = run.go()
    return Behaviour(run.events, end, run.steps, run.places, run.line)


LEAST = ALL - (1 << 31) + 1


def is_same_event(a, b, is_exact):
    if a == b:
        return True
    if is_exact or len(a) != len(b) or a[0] != b[0] or a[0] not in ("call", "value"):
        return False
    return all(x == y or x.__class__ is int and y.__class__ is int and y >= LEAST and x == y & 0xFFFFFFFF and x >> 31 for x, y in zip(a[1:], b[1:]))


def first_other(a, b, is_exact):
    """The number of the first event that is not the same, or how many are."""
    for k, (x, y) in enumerate(zip(a, b)):
        if not is_same_event(x, y, is_exact):
            return k
    return min(len(a), len(b))


def compare(raw, other, is_exact):
    """None, or the number of the first event of the other that differs."""
    if raw.events == other.events and raw.end == other.end:
        return None
    shown = first_other(raw.events, other.events, is_exact)
    if shown < min(len(raw.events), len(other.events)):
        return shown
    if raw.end is not None and other.end is not None:
        is_same = len(raw.events) == len(other.events) and is_same_event(raw.end, other.end, is_exact)
        return None if is_same else shown
    if raw.end is not None and (len(other.events) > len(raw.events) or raw.steps < LONGEST // 4 and other.steps >= LONGEST):
        return shown
    if other.end is not None and (len(raw.events) > len(other.events) or other.steps < LONGEST // 4 and raw.steps >= LONGEST):
        return shown
    return None


class Original:
    """A raw listing, and what it does. NoC where it is no C, or is excluded."""

    def __init__(self, lines, convention, mode, seed, count=STATES, only=None):
        if convention == 0 and not is_of_32_bits(lines):
            raise NoC("a name of a 64-bit register in 32-bit code")
        self.mode = mode
        self.code = read(texts_of(lines))
        self.setting = Setting(convention, mode, frozenset(addressed_of(lines)), widths_of(lines))
        self.states = [(k, state) for k, state in enumerate(states(seed, count, mode.aliased)) if only is None or k == only]
        self.is_ordered = not hangs_on_order(self.code, mode.reads)
        self.behaviours = {}

    def behaviour(self, number, state):
        """What it does from a state, or None where that hangs on the order of operands."""
        if number not in self.behaviours:
            found = behave(self.code, state, self.setting, False)
            if not self.is_ordered:
                other = behave(self.code, state, self.setting, True)
                if found[:2] != other[:2]:
                    found = None
            self.behaviours[number] = found
        return self.behaviours[number]

    def difference(self, lines):
        """The first difference of another form of the listing, or None."""
        try:
            code = read(texts_of(lines))
        except NoC as fault:
            number, state = self.states[0]
            return Difference(number, self.behaviour(number, state), None, None, f"no C: {fault}")
        orders = (False, True) if hangs_on_order(code, self.mode.reads) else (False,)
        for number, state in self.states:
            raw = self.behaviour(number, state)
            if raw is None:
                continue
            for is_right_first in orders:
                try:
                    other = behave(code, state, self.setting, is_right_first)
                except NoC as fault:
                    return Difference(number, raw, None, None, f"no C: {fault}")
                shown = compare(raw, other, self.mode.exact)
                if shown is not None:
                    line = other.places[shown] if shown < len(other.places) else other.line
                    return Difference(number, raw, other, line, told(raw, other, shown))
        return None


def told(raw, other, shown):
    def word(behaviour):
        return str(behaviour.events[shown]) if shown < len(behaviour.events) else f"end {behaviour.end}"
    return f"{word(raw)} / {word(other)}"


def step_that_differs(original, steps):
    """The first step of a run whose listing differs from the raw one, and the difference."""
    for step in steps:
        found = original.difference(step.after)
        if found:
            return step, found
    return None, None


# ---- shortening

class Case(NamedTuple):
    """What a listing is cleaned and run in."""
    settings: tuple
    mode: tuple
    seed: int
    count: int = STATES


def steps_if_different(lines, case, only, is_wanted):
    """The steps of the listing's run if they are wanted and its cleaned form differs in that state, else None."""
    steps = run_of(lines, case.settings)
    if not steps or not is_wanted(lines, steps):
        return None
    try:
        found = Original(lines, case.settings.convention, case.mode, case.seed, case.count, only).difference(finished(lines, steps))
    except NoC:
        return None
    return steps if found else None


CONDITIONAL = re.compile(r"if \((.*)\) (.*)")
UNTIL = re.compile(r"\} while \((.*)\);")
ASSIGNED = re.compile(r"(.*?) = (.*);")
CALLED = re.compile(r"(.*\w)\(([^()]+)\);")


def simpler(text):
    """Simpler forms of a line's text."""
    out = []
    found = CONDITIONAL.fullmatch(text)
    if found and len(found[1]) > 3:
        out += [f"if ({word}) {found[2]}" for word in ("rsi", "rbx", "rcx", "ebx", "ecx")]
    found = UNTIL.fullmatch(text)
    if found and len(found[1]) > 3:
        out += [f"}} while ({word});" for word in ("rdx", "rbx", "rsi", "edx", "ebx")]
    found = ASSIGNED.fullmatch(text)
    if found and len(found[2]) > 3 and not re.match(r"\w+\(", found[2]):
        out += [f"{found[1]} = {word};" for word in ("5", "rcx", "rdx", "rbx", "ecx", "edx")]
    found = CALLED.fullmatch(text)
    if found:
        arguments = found[2].split(", ")
        out += [f"{found[1]}({', '.join(arguments[:k] + arguments[k + 1:])});" for k in range(len(arguments))]
    return out


def without_a_block(lines):
    """The listing without the two braces of a block, for each block."""
    for i, line in enumerate(lines):
        if texts_of([line])[0].endswith("{"):
            j = next((j for j in range(i + 1, len(lines)) if lines[j].indent == line.indent and texts_of([lines[j]])[0].lstrip().startswith("}")), None)
            if j is not None:
                inner = [Line(max(0, x.indent - 1), x.tokens) for x in lines[i + 1:j]]
                yield lines[:i] + inner + lines[j + 1:]


def shorter(lines):
    for i in range(len(lines)):
        yield lines[:i] + lines[i + 1:]
    yield from without_a_block(lines)
    for i, line in enumerate(lines):
        body = texts_of([line])[0]
        indent = " " * line.indent
        for text in simpler(body.lstrip(" ")):
            yield lines[:i] + [line_of(indent + text)] + lines[i + 1:]


def shortened(lines, case, only, is_wanted=lambda lines, steps: True):
    """A listing that still differs in that state, and has nothing that can be left out; and the steps of its run, which are wanted still."""
    steps = steps_if_different(lines, case, only, is_wanted)
    if steps is None:
        return lines, run_of(lines, case.settings)
    while True:
        for some in shorter(lines):
            found = steps_if_different(some, case, only, is_wanted)
            if found is not None:
                lines, steps = some, found
                break
        else:
            return lines, steps
