"""The cleaning, and the cautions of its lines."""
from __future__ import annotations

from dataclasses import dataclass
from typing import List, Optional, Tuple

from . import library, tape
from .caution import Caution
from .library import CAUTIONS_OUTPUT, LIBRARY, OUTPUT, WORK, room
from .listing import Listing
from .settings import Settings


@dataclass(frozen=True)
class Counts:
    """What a cleaning did.

    attempts  the attempts to join a line into a later one: of each of at most three rounds; where it was to settle, one number, of all
    rounds    the rounds that were made, where it was to settle; otherwise None
    removed   lines removed: the attempts that succeeded
    cut       results of calls that were cut because nothing reads them
    """

    attempts: Tuple[int, ...]
    rounds: Optional[int]
    removed: int
    cut: int


@dataclass(frozen=True)
class Cleaned:
    """A cleaned listing and what was done to it. Each of its lines has marks where any of the lines that came into it has an address or
    marks."""

    listing: Listing
    counts: Counts


def clean(listing: Listing, settings: Settings = Settings()) -> Cleaned:
    """Cleans a listing. Refusal: why it is not cleaned; the listing is as it was in any case."""
    cleaned, counts = clean_tape(tape.write(listing), settings)
    return Cleaned(tape.read(cleaned), counts)


def clean_tape(raw: bytes, settings: Settings = Settings()) -> Tuple[bytes, Counts]:
    """Cleans the listing of a tape: the new tape and the counts. Refusal: why it is not cleaned."""
    work_a, work_b, out = room(WORK), room(WORK), room(OUTPUT)
    report = LIBRARY.puchkewa_clean(_lent(settings), raw, len(raw), work_a, len(work_a), work_b, len(work_b), out, len(out))
    if report.refusal:
        raise tape.refusal(report.refusal, report.place, raw)
    if settings.settle:
        counts = Counts((report.attempts,), report.rounds, report.removed, report.cut)
    else:
        counts = Counts((report.attempts_1, report.attempts_2, report.attempts_3), None, report.removed, report.cut)
    return out.raw[:report.length], counts


def cautions(listing: Listing, settings: Settings = Settings()) -> List[Caution]:
    """The cautions of each line of the cleaned listing: the ways in which it may mean something else than the raw lines that it came from.
    Refusal: why the listing is not cleaned."""
    return cautions_of_tape(tape.write(listing), settings)


def cautions_of_tape(raw: bytes, settings: Settings = Settings()) -> List[Caution]:
    """The same of the listing of a tape."""
    work_a, work_b, out = room(WORK), room(WORK), room(CAUTIONS_OUTPUT)
    answer = LIBRARY.puchkewa_cautions(_lent(settings), raw, len(raw), work_a, len(work_a), work_b, len(work_b), out, len(out))
    sets = tape.written(answer, raw, out)
    return [Caution(int.from_bytes(sets[at:at + 2], "little")) for at in range(0, len(sets), 2)]


def _lent(settings: Settings) -> library.Settings:
    return library.Settings(_byte(settings.convention), settings.settle, _byte(settings.edition), settings.parts, settings.profile)


def _byte(number: int) -> int:
    """A number of a byte; 255, which the library refuses, for any other."""
    return number if 0 <= number <= 255 else 255
