"""A listing as the cleaner has it: lines of tokens, each of a kind. From text and to text, to a tape and back.

Text is split as the listing generator splits it: registers, numbers, keywords, names and strings are tokens of their own, a cast or a typed `*(T *)` is one
Keyword, the blank behind `goto`, `return` and `case` is a Text, and what stands between is Punct. A minus that no operand stands before is part of its
number. The inside of an `__asm { .. }` is one Text, and so is a comment from `//` on.
"""
import re
from typing import NamedTuple

TEXT, REGISTER, NUMBER, KEYWORD, SYMBOL, ADDRESS, PUNCT, PREFIX = range(8)


class Token(NamedTuple):
    kind: int
    text: str


class Line(NamedTuple):
    indent: int
    tokens: tuple


# ---- registers

LEGACY = [("rax", "eax", "ax", "al"), ("rbx", "ebx", "bx", "bl"), ("rcx", "ecx", "cx", "cl"), ("rdx", "edx", "dx", "dl"),
          ("rsi", "esi", "si", "sil"), ("rdi", "edi", "di", "dil"), ("rbp", "ebp", "bp", "bpl"), ("rsp", "esp", "sp", "spl")]
HIGH_BYTES = ("ah", "bh", "ch", "dh")
KNOWN = {name: (row[0], width) for row in LEGACY for name, width in zip(row, (64, 32, 16, 8))}
KNOWN.update({name: (f"r{name[0]}x", 8) for name in HIGH_BYTES})
SUFFIXES = {"": 64, "d": 32, "w": 16, "b": 8, "l": 8}
NUMBERED = re.compile(r"(r[0-9]+)(.*)", re.S)


def family(name):
    """The family of a register's name and its width in bits, or None; a slot is a family of 64 bits."""
    if name not in KNOWN:
        found = NUMBERED.fullmatch(name)
        if found:
            width = SUFFIXES.get(found[2])
            KNOWN[name] = None if width is None else (found[1], width)
        else:
            KNOWN[name] = (name, 64) if name.startswith("var_") else None
    return KNOWN[name]


def family_of(token):
    """The family that a token names, or None."""
    if token.kind != REGISTER:
        return None
    found = family(token.text)
    return found[0] if found else None


# ---- text

KEYWORDS = frozenset("""if else do while for goto return break continue switch case default __pop __rdtsc __cpuid __asm __fastfail
    _InterlockedExchange _InterlockedCompareExchange __ROL__ __ROR__ __readgsqword""".split())
OTHER_REGISTER = re.compile(r"xmm\d+|st\d|arg_\w+|stack_arg\d+|rip|eflags")
PART = re.compile(r"""(?P<keyword>\*\((?:u?int\d+_t|void|__m128)\ \*\)|\(\(void\ \(\*\)\(\)\)|\((?:u?int\d+_t|unsigned)\))
    |(?P<string>L?"[^"]*")|(?P<comment>//.*)|(?P<word>[A-Za-z_]\w*)|(?P<number>[0-9][0-9A-Za-z']*)|(?P<other>.)""", re.X)
ASM = re.compile(r"__asm \{ (.*) \}")
SPACED = {Token(KEYWORD, word) for word in ("goto", "return", "case")}
SPLIT = {}


def kind_of(word):
    if word in KEYWORDS:
        return KEYWORD
    return REGISTER if family(word) or OTHER_REGISTER.fullmatch(word) else SYMBOL


def begins_number(punct):
    """Whether the minus that ends a Punct belongs to the number behind it: no operand stands before it."""
    front = punct[:-1]
    return punct.endswith("-") and not punct.endswith(" --") and (front == "" or front.endswith(("(", " ")))


def split(text):
    """The tokens of a line's text, without its indent."""
    inside = ASM.fullmatch(text)
    if inside:
        return (Token(KEYWORD, "__asm"), Token(PUNCT, " { "), Token(TEXT, inside[1]), Token(PUNCT, " }"))
    out = []
    for found in PART.finditer(text):
        part = found[0]
        if found["comment"]:
            out.append(Token(TEXT, part))
        elif found["other"]:
            if part == " " and out and out[-1] in SPACED:
                out.append(Token(TEXT, part))
            elif out and out[-1].kind == PUNCT:
                out[-1] = Token(PUNCT, out[-1].text + part)
            else:
                out.append(Token(PUNCT, part))
        elif found["number"]:
            if out and out[-1].kind == PUNCT and begins_number(out[-1].text):
                front = out.pop().text[:-1]
                if front:
                    out.append(Token(PUNCT, front))
                part = "-" + part
            out.append(Token(NUMBER, part))
        else:
            out.append(Token(KEYWORD if found["keyword"] else ADDRESS if found["string"] else kind_of(part), part))
    return tuple(out)


def line_of(text):
    body = text.lstrip(" ")
    tokens = SPLIT.get(body)
    if tokens is None:
        if len(SPLIT) > 100_000:
            SPLIT.clear()
        tokens = SPLIT[body] = split(body)
    return Line(len(text) - len(body), tokens)


def listing_of(texts):
    return [line_of(text) for text in texts]


def body_of(line):
    return "".join(token.text for token in line.tokens)


def texts_of(lines):
    return [" " * line.indent + body_of(line) for line in lines]


# ---- tapes (docs/TAPE.md)

def tape_of(lines):
    out = bytearray()
    for line in lines:
        out += bytes((2, line.indent))
        for kind, text in line.tokens:
            out.append(0x10 + kind)
            out += len(text).to_bytes(2, "little")
            out += text.encode("latin-1")
    out.append(0xFF)
    return bytes(out)


def listing_of_tape(tape):
    """The listing of an accepted tape; addresses and marks are passed over."""
    lines, indent, tokens, at = [], None, [], 0
    while True:
        first = tape[at]
        if first in (1, 2, 0xFF):
            if indent is not None:
                lines.append(Line(indent, tuple(tokens)))
            if first == 0xFF:
                return lines
            at += 10 if first == 1 else 2
            indent, tokens = tape[at - 1], []
        elif first == 3:
            at += 17
        else:
            size = int.from_bytes(tape[at + 1:at + 3], "little")
            tokens.append(Token(first - 0x10, tape[at + 3:at + 3 + size].decode("latin-1")))
            at += 3 + size
