"""Why a call gave nothing: a question of the library that was answered "no", or something that no tape takes. Either names the line and the
token."""
from __future__ import annotations

from typing import Dict, Optional

MEANINGS: Dict[int, str] = {
    1: "the convention is not 0, 1 or 2",
    2: "what was lent to write to is too short",
    3: "the tape ends where a command must begin, or the byte there begins none",
    4: "the command runs past the end of the tape",
    5: "a token before any line, or marks not directly after a line's command or with their lowest above their highest",
    6: "an indent above 63, an empty text, or a Number of more than 24 bytes",
    7: "a byte of a text is outside 20 to 7E (hexadecimal)",
    8: "bytes follow the end of the tape",
    9: "the number edition is not 0 or 1",
    10: "more than 256 lines or 1,024 tokens",
    11: "more than 24,576 bytes of text",
    12: "a Symbol is a keyword of C's edition of 2024",
    13: "a Number is binary or has quotes, and C's edition of 2024 does not read it",
    14: "the listing is no straight piece: this line is not as the profile wants it, or there is no line",
    15: "no start value makes the formula return the wanted value",
    16: "the chosen or a listed name is no 64-bit register, or the list of names ends inside an entry",
    17: "more than 256 lines were asked for",
    18: "an address is below the base or 2^32 or more above it, or base and offset are together above 2^64 - 1",
    19: "the tape does not begin with 06 and a base",
    20: "no state is held under this name",
    21: "the name is new, and eight states are held",
    22: "the store is damaged in this cell",
}
"""What a "no" to each question means (docs/TAPE.md)."""


class Refusal(Exception):
    """Why a call gave nothing. Nothing has changed then.

    number  the number of the library's question; None where the library was not called (the classes below)
    place   an offset in the tape; of 14 the number of a line, of 22 that of a cell, all from 0; 0 where the question has no place; None as
            above
    line    the number of the line that the place is in, from 0, where there is one
    token   the number of the token that the place is in, from 0 in its line, where there is one
    """

    def __init__(
        self, number: Optional[int], place: Optional[int], line: Optional[int], token: Optional[int], said: Optional[str] = None
    ) -> None:
        self.number = number
        self.place = place
        self.line = line
        self.token = token
        self.said = f"refused {number} at {place}: {MEANINGS[number]}" if number is not None else said
        super().__init__(number, place, line, token, said)

    def __str__(self) -> str:
        if self.line is None:
            return str(self.said)
        token = "" if self.token is None else f".tokens[{self.token}]"
        return f"{self.said} (lines[{self.line}]{token})"


class Unwritable(Refusal):
    """Something that no tape takes: a text that is empty, has a character outside 20 to 7E or more than 65,535 bytes; an address, an indent
    or marks that the tape has no room for. The library was not called."""

    def __init__(self, said: str, line: int, token: Optional[int] = None) -> None:
        super().__init__(None, None, line, token, said)

    def __reduce__(self) -> tuple:
        return type(self), (self.said, self.line, self.token)


class LongName(Refusal):
    """A name of more than 255 bytes in a list of start values. The library was not called."""

    def __init__(self, name: str) -> None:
        self.name = name
        super().__init__(None, None, None, None, f"the name {name[:20]!r}.. has more than 255 bytes")

    def __reduce__(self) -> tuple:
        return type(self), (self.name,)
