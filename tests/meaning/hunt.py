"""Differences without a caution: listings are cleaned, run raw and cleaned, and asked for their cautions. Where a listing differs, some line of it must have one.
Beside it is counted what the cautions say of listings that do not differ. And the library must tell the same cautions of each listing as cautions.py.

A stricter question is asked of chains: the steps of a run between two that have a caution. What stands before a chain and what stands behind it must not differ. So
the steps of a listing that has a caution elsewhere are tried too.
"""
import collections

from cautions import KINDS, cautions_of
from cleaning import finished, run_of
from differences import Case, Original, shortened
from listing import listing_of_tape, tape_of, texts_of
from meaning import MODES
from reading import NoC


class Hunt:
    """What was counted."""

    def __init__(self):
        self.counts, self.kinds, self.alone = collections.Counter(), collections.Counter(), collections.Counter()
        self.unsaid, self.faults, self.others = [], [], []

    def add(self, other):
        for name in ("counts", "kinds", "alone"):
            getattr(self, name).update(getattr(other, name))
        self.unsaid += other.unsaid
        self.faults += other.faults
        self.others += other.others

    def look(self, lines, settings, modes, seed, library):
        self.counts["listings"] += 1
        tape, report = library.clean(tape_of(lines), settings)
        if report.refusal:
            self.counts["refused"] += 1
            return
        cleaned, steps = listing_of_tape(tape), run_of(lines, settings)
        if finished(lines, steps) != cleaned:
            self.faults.append((settings, texts_of(lines), texts_of(cleaned)))
        sets, own = cautions_of(lines, settings, steps)
        told = library.cautions(tape_of(lines), settings)
        self.counts["compared with the library's cautions"] += 1
        if told != sets:
            self.others.append((settings, texts_of(lines), told, sets))
        if cleaned == lines:
            self.counts["unchanged"] += 1
            return
        self.counts["steps"] += len(own)
        for mode in modes:
            try:
                original = Original(lines, settings.convention, MODES[mode], seed)
                found = original.difference(cleaned)
            except NoC:
                self.counts["no C, or excluded"] += 1
                return
            if found:
                self.differs(lines, settings, mode, seed, sets, found)
                return
        self.counts["same"] += 1
        self.counts["steps of same"] += len(own)
        self.counts["steps of same, cautioned"] += sum(map(bool, own))
        self.counts["lines of same"] += len(sets)
        self.counts["lines of same, cautioned"] += sum(map(bool, sets))

    def look_at_chains(self, lines, settings, modes, seed):
        """Runs the listings before and behind each chain."""
        self.counts["listings"] += 1
        steps = run_of(lines, settings)
        if not steps:
            return
        _, own = cautions_of(lines, settings, steps)
        for chain in chains(steps, own):
            self.counts["chains"] += 1
            self.counts["steps in chains"] += len(chain)
            for mode in modes:
                try:
                    found = Original(chain[0].before, settings.convention, MODES[mode], seed).difference(chain[-1].after)
                except NoC:
                    self.counts["chains that are no C, or excluded"] += 1
                    break
                if found:
                    self.unsaid.append(minimal(chain[0].before, Case(settings, MODES[mode], seed), mode, found, chain[-1].after))
                    break

    def differs(self, lines, settings, mode, seed, sets, found):
        self.counts["different"] += 1
        said = set().union(*sets)
        self.kinds.update(KINDS[k] for k in said)
        if len(said) == 1:
            self.alone[KINDS[min(said)]] += 1
        if not said:
            self.unsaid.append(minimal(lines, Case(settings, MODES[mode], seed), mode, found))
        elif found.line is not None and sets[min(found.line, len(sets) - 1)]:
            self.counts["different, with a caution on the very line"] += 1


def chains(steps, own):
    """The longest rows of steps without a caution."""
    out, is_open = [], False
    for step, found in zip(steps, own):
        if found:
            is_open = False
        elif is_open:
            out[-1].append(step)
        else:
            out.append([step])
            is_open = True
    return out


def has_no_caution(settings):
    return lambda lines, steps: not any(cautions_of(lines, settings, steps)[0])


def minimal(lines, case, mode, found, after=None):
    """A listing without a caution that differs, shortened; its settings, mode, seed and cleaned form. Of a chain that has no such listing of its own it is the chain's."""
    short, steps = shortened(lines, case, found.state, has_no_caution(case.settings))
    cleaned = after if short == lines and after is not None else finished(short, steps)
    seen = Original(short, case.settings.convention, case.mode, case.seed, only=found.state).difference(cleaned)
    return case.settings, mode, case.seed, texts_of(short), texts_of(cleaned), (seen or found).words
