"""How much is cautioned where nothing is made to meet: of compiled-looking listings (ordinary.py), and of samples/press."""
import collections

from cautions import KINDS, cautions_of
from cleaning import Settings, run_of
from library import ROOT
from listing import listing_of_tape, texts_of
from ordinary import ordinary

JOINS, LINES, SAMPLE = 0.12, 0.08, 0.25     # bars: shares that may be cautioned


class Noise:
    def __init__(self):
        self.joins = self.joins_cautioned = self.lines = self.lines_cautioned = 0
        self.kinds, self.kinds_of_lines = collections.Counter(), collections.Counter()

    def look(self, lines, settings):
        """Counts a listing; answers the finished listing and its sets."""
        steps = run_of(lines, settings)
        sets, own = cautions_of(lines, settings, steps)
        joins = [found for step, found in zip(steps, own) if not step.is_cut]
        self.joins += len(joins)
        self.joins_cautioned += sum(map(bool, joins))
        self.lines += len(sets)
        self.lines_cautioned += sum(map(bool, sets))
        self.kinds.update(KINDS[k] for found in joins for k in found)
        self.kinds_of_lines.update(KINDS[k] for found in sets for k in found)
        return steps[-1].after if steps else lines, sets

    def share_of_joins(self):
        return self.joins_cautioned / max(1, self.joins)

    def share_of_lines(self):
        return self.lines_cautioned / max(1, self.lines)

    def words(self):
        def told(counts):
            return ", ".join(f"{n} {c}" for n, c in counts.most_common())
        return (f"{self.joins} joins, cautioned {self.joins_cautioned} ({100 * self.share_of_joins():.1f} %); {self.lines} finished lines, cautioned "
                f"{self.lines_cautioned} ({100 * self.share_of_lines():.1f} %)\n  joins by kind: {told(self.kinds)}\n  lines by kind: {told(self.kinds_of_lines)}")


def measure(count, show, put):
    """Prints the noise; answers the number of bars that do not hold."""
    plain, special = Noise(), Noise()
    for seed in range(count):
        plain.look(ordinary(seed), Settings())
        special.look(ordinary(seed, 0.1), Settings())
    sample = Noise()
    data = (ROOT / "samples" / "press.tape").read_bytes()
    finished, sets = sample.look(listing_of_tape(data[1:]), Settings(convention=data[0]))
    put(f"{count} compiled-looking listings: {plain.words()}")
    put(f"the same with an instruction by name for each tenth statement (no bar): {special.words()}")
    put(f"samples/press: {sample.words()}")
    for text, found in [x for x in zip(texts_of(finished), sets) if x[1]][:show]:
        put(f"    {text:<70} {', '.join(KINDS[k] for k in sorted(found))}")
    faults = [plain.share_of_joins() > JOINS, plain.share_of_lines() > LINES, sample.share_of_lines() > SAMPLE]
    put(f"bars that do not hold: {sum(faults)}")
    return sum(faults)
