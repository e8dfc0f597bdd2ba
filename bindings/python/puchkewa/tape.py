"""Listings as tapes, the library's own form (docs/TAPE.md), and its calls from tape to tape."""
from __future__ import annotations

import ctypes
from typing import Iterable, List, Mapping, Optional, Tuple, Union

from .library import LIBRARY, OFFSETS_OUTPUT, OUTPUT, Answer, room
from .listing import Kind, Line, Listing, Token
from .refusals import LongName, Refusal, Unwritable

LINE_AT, LINE, MARKS, TOKEN, END = 0x01, 0x02, 0x03, 0x10, 0xFF
# the form by offset: a line, marks, the base
LINE_OFFSET, MARKS_OFFSET, BASE = 0x04, 0x05, 0x06
WIDTHS = {LINE_AT: 10, LINE: 2, MARKS: 17, LINE_OFFSET: 6, MARKS_OFFSET: 9, BASE: 9, END: 1}

Values = Union[Mapping[str, int], Iterable[Tuple[str, int]]]
"""What registers start with: a dict, or pairs of which the first of equal names decides."""


def write(listing: Listing) -> bytes:
    """The tape of a listing. Unwritable where no tape takes it; all limits of a call are asked by the calls."""
    return b"".join(_commands(listing)) + bytes([END])


def _commands(listing: Listing) -> Iterable[bytes]:
    for number, line in enumerate(listing.lines):
        if not 0 <= line.indent <= 255:
            raise Unwritable(f"no tape takes the indent {line.indent}", number)
        if line.address is None:
            yield bytes([LINE, line.indent])
        else:
            yield bytes([LINE_AT]) + _word(line.address, number) + bytes([line.indent])
        if line.marks is not None:
            low, high = line.marks
            yield bytes([MARKS]) + _word(low, number) + _word(high, number)
        for at, token in enumerate(line.tokens):
            fault = _fault(token)
            if fault:
                raise Unwritable(f"no tape takes this {fault}", number, at)
            yield bytes([TOKEN + token.kind]) + len(token.text).to_bytes(2, "little") + token.text.encode("ascii")


def _word(address: int, line: int) -> bytes:
    if not 0 <= address < 1 << 64:
        raise Unwritable(f"no tape takes the address {address:#x}", line)
    return address.to_bytes(8, "little")


def _fault(token: Token) -> Optional[str]:
    """What is wrong with a token."""
    if not 0 <= token.kind <= 7:
        return f"kind: {token.kind}"
    if not token.text:
        return "text: it is empty"
    if not (token.text.isascii() and token.text.isprintable()):
        offset, character = next((i, c) for i, c in enumerate(token.text) if not " " <= c <= "~")
        return f"text: {character!r} at offset {offset} is outside 20 to 7E"
    if len(token.text) > 65_535:
        return f"text: it has {len(token.text)} bytes, more than 65,535"
    return None


def read(tape: bytes) -> Listing:
    """The listing of a tape. Refusal where one of questions 3 to 8 is answered "no"; 10 and 11, the limits of a whole listing, are not
    asked here: a cleaned listing may have more text than a call takes."""

    def refuse(number: int, place: int) -> Refusal:
        return refusal(number, place, tape)

    listing = Listing()
    at = 0
    # whether the command just before is a line's
    fresh = False
    while True:
        byte = tape[at] if at < len(tape) else None
        if byte is None or not (byte in (LINE_AT, LINE, MARKS, END) or TOKEN <= byte <= TOKEN + 7):
            raise refuse(3, at)
        width = _width(tape, at)
        if width is None or at + width > len(tape):
            raise refuse(4, at)
        command = tape[at:at + width]
        if byte in (LINE_AT, LINE):
            if command[-1] > 63:
                raise refuse(6, at)
            listing.lines.append(Line(int.from_bytes(command[1:9], "little") if byte == LINE_AT else None, command[-1]))
        elif byte == MARKS:
            low, high = int.from_bytes(command[1:9], "little"), int.from_bytes(command[9:], "little")
            if not fresh or low > high:
                raise refuse(5, at)
            listing.lines[-1].marks = low, high
        elif byte == END:
            if at + 1 < len(tape):
                raise refuse(8, at)
            return listing
        else:
            kind, text = Kind(byte - TOKEN), command[3:]
            if not listing.lines:
                raise refuse(5, at)
            if not text or kind == Kind.NUMBER and len(text) > 24:
                raise refuse(6, at)
            if not (text.isascii() and text.decode("ascii").isprintable()):
                raise refuse(7, at + 3 + next(i for i, b in enumerate(text) if not 0x20 <= b <= 0x7E))
            listing.lines[-1].tokens.append(Token(kind, text.decode("ascii")))
        fresh = byte in (LINE_AT, LINE)
        at += width


def _width(tape: bytes, at: int) -> Optional[int]:
    """How many bytes the command has that begins here, in either form of the tape; None where no command begins or its length is cut
    off."""
    if not TOKEN <= tape[at] <= TOKEN + 7:
        return WIDTHS.get(tape[at])
    return 3 + int.from_bytes(tape[at + 1:at + 3], "little") if at + 3 <= len(tape) else None


def locate(tape: bytes, place: int) -> Tuple[Optional[int], Optional[int]]:
    """The numbers of the line and of the token that an offset of a tape lies in, where it lies in one."""
    is_based = tape[:1] == bytes([BASE])
    lines, marks = ((LINE_OFFSET, LINE), MARKS_OFFSET) if is_based else ((LINE_AT, LINE), MARKS)
    line: Optional[int] = None
    token: Optional[int] = None
    at = 0
    while at <= place and at < len(tape):
        byte = tape[at]
        if byte in lines:
            line, token = 0 if line is None else line + 1, None
        elif TOKEN <= byte <= TOKEN + 7:
            token = None if line is None else 0 if token is None else token + 1
        elif byte == END:
            return None, None
        elif byte != marks and not (byte == BASE and at == 0):
            # no command: its place is no token's
            return line, None
        width = _width(tape, at)
        if width is None or at + width > place:
            return line, token
        at += width
    return line, None


def refusal(number: int, place: int, tape: bytes) -> Refusal:
    """The refusal that the library answered of a tape."""
    line: Optional[int] = None
    token: Optional[int] = None
    if number == 14:
        line = place
    elif number in (3, 4, 5, 6, 7, 8, 10, 11, 12, 13, 18):
        line, token = locate(tape, place)
    return Refusal(number, place, line, token)


def value(answer: Answer, tape: bytes) -> int:
    """What a call answered, or its refusal."""
    if answer.refusal:
        raise refusal(answer.refusal, answer.place, tape)
    return answer.value


def written(answer: Answer, tape: bytes, out: ctypes.Array) -> bytes:
    """What a call left at the front of its output, or its refusal."""
    length = value(answer, tape)
    return out.raw[:length]


def to_2018(tape: bytes) -> bytes:
    """The tape for C's edition of 2018 of one for that of 2024. Refusal: the tape's questions, 13."""
    out = room(len(tape))
    return written(LIBRARY.puchkewa_to_2018(tape, len(tape), out, len(out)), tape, out)


def to_2024(tape: bytes) -> bytes:
    """The tape for C's edition of 2024 of one for that of 2018. Refusal: the tape's questions, 12."""
    out = room(len(tape))
    return written(LIBRARY.puchkewa_to_2024(tape, len(tape), out, len(out)), tape, out)


def to_offsets(tape: bytes, base: int) -> bytes:
    """The tape by offset from a load address. Refusal: the tape's questions, 18."""
    out = room(OFFSETS_OUTPUT)
    return written(LIBRARY.puchkewa_to_offsets(word(base), tape, len(tape), out, len(out)), tape, out)


def from_offsets(tape: bytes) -> bytes:
    """The tape of a tape by offset. Refusal: 19, 4 of the base, the tape's questions, 18."""
    out = room(OFFSETS_OUTPUT)
    return written(LIBRARY.puchkewa_from_offsets(tape, len(tape), out, len(out)), tape, out)


def laborious(lines: int) -> bytes:
    """The tape of the most laborious listing of so many lines. Refusal: 17."""
    out = room(OUTPUT)
    return written(LIBRARY.puchkewa_laborious(word(lines), out, len(out)), b"", out)


def start_value(tape: bytes, chosen: str, values: Values, wanted: int) -> int:
    """The smallest start value of a register with which a formula returns the wanted value. Refusal: the tape's questions, 14, 16, 15;
    LongName."""
    entries: List[bytes] = []
    for name, start in values.items() if isinstance(values, Mapping) else values:
        text = name.encode()
        if len(text) > 255:
            raise LongName(name)
        entries.append(bytes([len(text)]) + text + word(start).to_bytes(8, "little"))
    listed, register = b"".join(entries), chosen.encode()
    answer = LIBRARY.puchkewa_start_value(tape, len(tape), register, len(register), listed, len(listed), word(wanted))
    return value(answer, tape)


def word(number: int) -> int:
    """A number of 64 bits; one from -1 to -2^63 as a register holds it."""
    if not -(1 << 63) <= number < 1 << 64:
        raise ValueError(f"{number} has no 64 bits")
    return number % (1 << 64)
