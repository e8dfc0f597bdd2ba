"""Cleans listings of pseudocode (C-like lines lifted from machine code) with Puchkewa's shared library, every function of which is proved
to meet its contract. This package is not proved: it puts listings on tapes, calls the library and reads its answers.

    >>> from puchkewa import Kind, Line, Listing, Settings, Token, clean
    >>> raw = Listing([
    ...     Line(indent=1, tokens=[Token(Kind.REGISTER, "rax"), Token(Kind.PUNCT, " = "), Token(Kind.NUMBER, "5"), Token(Kind.PUNCT, ";")]),
    ...     Line(indent=1, tokens=[Token(Kind.REGISTER, "rbx"), Token(Kind.PUNCT, " = "), Token(Kind.REGISTER, "rax"),
    ...                            Token(Kind.PUNCT, " + "), Token(Kind.NUMBER, "4"), Token(Kind.PUNCT, ";")]),
    ... ])
    >>> cleaned = clean(raw, Settings())
    >>> cleaned.listing.lines[0].text
    'rbx = 9;'
    >>> cleaned.counts.removed
    1

What to do with a refusal. The library takes at most 256 lines, 1,024 tokens, 24,576 bytes of text, and texts of the bytes 20 to 7E
(hexadecimal). A refused listing is left as it was: show it, or go on with it, uncleaned. The exception says why, and which line and token
earned it. Never clean a listing in pieces: whether a value is read again is told by all lines to the listing's end, and the end of a piece
would count as the end of every value.

Threads. Calls may run in several threads at the same time: each has its own memory, and Python's lock is free during the call. A Store
takes one call after the other.

Stack. A cleaning takes about 118,000 bytes of stack (measured). With Settings.profile, and in a search for a start value, it takes 144
bytes more for each level of nested brackets: up to 3.7 million. The main thread and the threads that Python makes have the system's limit
as a rule (`ulimit -s`, 8 MiB). Where that or threading.stack_size is less, use with_stack.
"""
from .calls import from_offsets, laborious, start_value, to_2018, to_2024, to_offsets
from .caution import SENTENCES, Caution
from .cleaning import Cleaned, Counts, cautions, cautions_of_tape, clean, clean_tape
from .listing import Kind, Line, Listing, Token
from .refusals import MEANINGS, LongName, Refusal, Unwritable
from .settings import Convention, Edition, Settings
from .stack import STACK, with_stack
from .store import Store
from .version import __version__
from . import tape

__all__ = [
    "Caution", "Cleaned", "Convention", "Counts", "Edition", "Kind", "Line", "Listing", "LongName", "MEANINGS", "Refusal", "SENTENCES",
    "STACK", "Settings", "Store", "Token", "Unwritable", "__version__", "cautions", "cautions_of_tape", "clean", "clean_tape", "from_offsets",
    "laborious", "start_value", "tape", "to_2018", "to_2024", "to_offsets", "with_stack",
]
