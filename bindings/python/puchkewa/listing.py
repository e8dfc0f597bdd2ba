"""What a listing is: lines of tokens. `str` gives the text that `puchkewa show` prints, without marks."""
from __future__ import annotations

from dataclasses import dataclass, field
from enum import IntEnum
from typing import List, Optional, Tuple


class Kind(IntEnum):
    """The kinds of tokens, in the order of the tape's commands. docs/TAPE.md says what the cleaner makes of each."""

    TEXT = 0
    REGISTER = 1
    NUMBER = 2
    KEYWORD = 3
    SYMBOL = 4
    ADDRESS = 5
    PUNCT = 6
    PREFIX = 7


@dataclass
class Token:
    """A token: its kind, and its text of at least one character, all of them 20 to 7E (hexadecimal); of a Number at most 24."""

    kind: Kind
    text: str

    def __str__(self) -> str:
        return self.text


@dataclass
class Line:
    """A line: the address of its code or None, an indent of at most 63, marks (the lowest and the highest address of the code that came
    into it, which cleaning fills in) or None, and tokens."""

    address: Optional[int] = None
    indent: int = 0
    marks: Optional[Tuple[int, int]] = None
    tokens: List[Token] = field(default_factory=list)

    @property
    def text(self) -> str:
        """The texts of the tokens, one after the other."""
        return "".join(t.text for t in self.tokens)

    def __str__(self) -> str:
        address = " " * 8 if self.address is None else f"{self.address:08x}"
        return f"{address}  {'  ' * self.indent}{self.text}"


@dataclass
class Listing:
    """A listing: at most 256 lines with at most 1,024 tokens and 24,576 bytes of text together."""

    lines: List[Line] = field(default_factory=list)

    def __str__(self) -> str:
        return "".join(f"{line}\n" for line in self.lines)
