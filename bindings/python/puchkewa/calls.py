"""The calls beside the cleaning, from listing to listing. Each gives its Refusal as an exception."""
from __future__ import annotations

from . import tape
from .listing import Listing


def to_2018(listing: Listing) -> Listing:
    """A listing for C's edition of 2024 brought down to that of 2018: Numbers lose their quotes, and binary ones become hexadecimal.
    Refusal: the tape's questions; 13, a Number that is binary or has quotes, and is not read by the edition of 2024."""
    return tape.read(tape.to_2018(tape.write(listing)))


def to_2024(listing: Listing) -> Listing:
    """A listing for C's edition of 2018 as one for that of 2024: nothing changes. Refusal: the tape's questions; 12, a Symbol that is a new
    keyword."""
    return tape.read(tape.to_2024(tape.write(listing)))


def to_offsets(listing: Listing, base: int) -> bytes:
    """The tape of a listing in the form by offset from a load address. Refusal: the tape's questions; 18, an address below the base, or
    2^32 or more above it."""
    return tape.to_offsets(tape.write(listing), base)


def from_offsets(based: bytes) -> Listing:
    """The listing of a tape in the form by offset. Refusal: 19, a tape of the other form; 4 of a base that is cut off; the tape's
    questions; 18, base and offset are together above 2^64 - 1."""
    return tape.read(tape.from_offsets(based))


def laborious(lines: int) -> Listing:
    """The most laborious listing of so many lines: no listing of as many lines needs more attempts in its first round. Refusal: 17, more
    than 256 lines."""
    return tape.read(tape.laborious(lines))


def start_value(formula: Listing, chosen: str, values: tape.Values, wanted: int) -> int:
    """The smallest value that the chosen register can start with so that a formula returns the wanted value, modulo 2^64.

    formula  a straight piece, as for the profile
    values   what other registers start with: one that is not named starts with 0, and one for the chosen register is ignored
    wanted   the value that the formula is to return

    Refusal: the tape's questions; 14, no straight piece; 16, a name that is no 64-bit register; 15, no start value does it. LongName before
    the call.
    """
    return tape.start_value(tape.write(formula), chosen, values, wanted)
