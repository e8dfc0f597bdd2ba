"""Why a finished line may mean something else than the raw lines that it came from."""
from __future__ import annotations

import enum


class Caution(enum.IntFlag):
    """Known ways in which a finished line may mean something else than the raw lines that it came from, a bit for each. A line without one
    is one in which none of these ways was found; it is no proof that the line means the same."""

    ODD_FORM = 1
    STILL_READ = 2
    OVERWRITTEN = 4
    CALL_MOVED = 8
    READ_MOVED = 16
    OTHER_WIDTH = 32
    OTHER_TEXT = 64
    ODD_NUMBER = 128
    SLOT = 256
    HANDED_OVER = 512


SENTENCES = {
    Caution.ODD_FORM: (
        "A line here, or one that the value may reach, is not looked into (inline assembly, an instruction by name, two statements, `&&`, a "
        "loop other than do .. while, a line entered from elsewhere): compare with the raw lines yourself."
    ),
    Caution.STILL_READ: "The register was read elsewhere too, on this line or another: there it now holds an older value.",
    Caution.OVERWRITTEN: "A call stands between the value's assignment and its use here, which may have overwritten the register.",
    Caution.CALL_MOVED: "A call is now made in another order, after other reads, or only under a condition.",
    Caution.READ_MOVED: (
        "A value is now read later, in another order, or only under a condition: mind what calls change, and device registers."
    ),
    Caution.OTHER_WIDTH: "The value went through a part of a register, or is now computed or compared at another width or sign.",
    Caution.OTHER_TEXT: (
        "Read as C, the line's text groups otherwise than the joined expression, or writes what was only read, or counts elements for bytes."
    ),
    Caution.ODD_NUMBER: "A number is large, or not spelt plainly: C may read it, or add it up, otherwise.",
    Caution.SLOT: "A stack slot was taken for a register; it is memory, and pointers and calls may reach it.",
    Caution.HANDED_OVER: (
        "The value may be handed over unseen: to a call that does not spell its arguments, or back to the caller (the result, and the "
        "registers that calls preserve)."
    ),
}
"""What to mind of each, in words."""
