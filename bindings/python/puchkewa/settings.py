"""The settings of a cleaning."""
from __future__ import annotations

from dataclasses import dataclass
from enum import IntEnum


class Convention(IntEnum):
    """The calling convention of the listed code: which registers a call overwrites."""

    BITS_32 = 0
    """32 bits: rax rcx rdx and their parts."""
    SYSV_64 = 1
    """64 bits, System V: rax rcx rdx rsi rdi r8 r9 r10 r11."""
    WINDOWS_64 = 2
    """64 bits, Windows: rax rcx rdx r8 r9 r10 r11."""


class Edition(IntEnum):
    """How numbers are read."""

    C_2018 = 0
    """By C's edition of 2018, as far as the Rust that is followed reads it."""
    C_2024 = 1
    """By C's edition of 2024."""


@dataclass(frozen=True)
class Settings:
    """The settings of a cleaning, with the command's defaults. Set them by their names: a later version may have more.

    convention  the calling convention
    settle      whether rounds are made until one changes nothing; otherwise at most three
    edition     how numbers are read
    parts       whether a value assigned to a part of a register is joined into a use below 32 bits only if that is the same part: ah is
                not al
    profile     whether the listing must be a straight piece (assignments of sums and differences to 64-bit registers, and a return), whose
                returned value is kept. Such a cleaning can take much stack: see the package's own text

    A number for convention or edition that is none of theirs is refused by the library (1, 9).
    """

    convention: int = Convention.SYSV_64
    settle: bool = False
    edition: int = Edition.C_2018
    parts: bool = False
    profile: bool = False
