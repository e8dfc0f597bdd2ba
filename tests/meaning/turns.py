"""The generated listings of a seed by their numbers: convention, settings, share of odd lines, length and modes come in turn."""
from cleaning import Settings, merged
from listing import PUNCT, TEXT, Line, Token, listing_of
from listings import generated, straight
from meaning import MODES

# settings in turn, by the listing's number: the first a little more often, as most calls have it
TURNS = ({}, {"parts": True}, {}, {"settle": True}, {}, {"edition": 1}, {}, {"parts": True, "settle": True, "edition": 1}, {}, {"profile": True})
ODD = (0.0, 0.0, 0.1, 0.0, 0.3)       # shares of odd lines, in turn
LONG, LONG_EVERY = 40, 23             # one listing of so many is that long
OTHER_MODES = tuple(m for m in MODES if m != "base")


def modes_of(number, mode):
    """The modes that a listing is run in: base and one other in turn, or the one that is asked for."""
    return (mode,) if mode else ("base", OTHER_MODES[number % len(OTHER_MODES)])


def listing_number(seed, number, odd, long=None):
    """A generated listing, and the settings that it is cleaned in."""
    turn = TURNS[number % len(TURNS)]
    share = ODD[number // len(TURNS) % len(ODD)] if odd is None else odd
    own = seed * 1_000_003 + number
    convention, texts = straight(own) if turn.get("profile") else generated(own, share, long or (LONG if number % LONG_EVERY == 7 else None))
    lines = listing_of(texts)
    return without_blanks(lines) if turn.get("profile") else lines, Settings(convention=convention, **turn)


def without_blanks(lines):
    """The blank behind `return` as Punct: the profile takes no Text."""
    return [Line(line.indent, tuple(merged([Token(PUNCT if t.kind == TEXT else t.kind, t.text) for t in line.tokens]))) for line in lines]
