"""What the tests share: random listings, and the real Rust's answers of bindings/answers.txt."""
import os
import random
from pathlib import Path

from puchkewa import Kind, Line, Listing, Settings, Token

TOP = Path(__file__).resolve().parents[3]
# The letters of `puchkewa show --exact`.
KINDS = dict(zip("trnksapx", Kind))


def sample() -> bytes:
    """The tape of the sample, without its convention byte."""
    return (TOP / "samples" / "press.tape").read_bytes()[1:]


def line(tokens: str) -> Line:
    """A line of tokens with tabs between them, each a letter of its kind, a colon and its text."""
    pairs = [token.split(":", 1) for token in tokens.split("\t")]
    return Line(tokens=[Token(KINDS[letter], text) for letter, text in pairs])


def listing(*lines: str) -> Listing:
    return Listing([line(tokens) for tokens in lines])


def unmarked(it: Listing) -> Listing:
    return Listing([Line(l.address, l.indent, None, l.tokens) for l in it.lines])


def answers():
    """The lines of the file of answers: settings, tape, and the rest as numbers and, of a cleaned one, the tape without marks.
    PUCHKEWA_ANSWERS may name another file."""
    file = os.environ.get("PUCHKEWA_ANSWERS", TOP / "bindings" / "answers.txt")
    for row in Path(file).read_text().splitlines():
        if row.startswith("#"):
            continue
        convention, settle, edition, parts, tape, *rest = row.split(" ")
        settings = Settings(int(convention), settle == "1", int(edition), parts == "1")
        if len(rest) == 2:
            yield settings, bytes.fromhex(tape), [int(n) for n in rest], None
        else:
            yield settings, bytes.fromhex(tape), [int(n) for n in rest[:-1]], bytes.fromhex(rest[-1])


REGISTERS = ["rax", "eax", "al", "ah", "rbx", "ebx", "rcx", "rdx", "r8", "r8d", "var_8", "var_10"]
NUMBERS = ["0", "1", "5", "010", "0x10", "-1", "9223372036854775807", "0xffffffffffffffff", "--5", "0b101"]


def statement(chance: random.Random):
    """A statement as lifters write them."""
    def operand():
        return Token(Kind.NUMBER, chance.choice(NUMBERS)) if chance.random() < 0.3 else Token(Kind.REGISTER, chance.choice(REGISTERS))

    def punct(text):
        return Token(Kind.PUNCT, text)

    def name(*names):
        return Token(Kind.SYMBOL, chance.choice(names))

    assigned = [Token(Kind.REGISTER, chance.choice(REGISTERS)), punct(" = ")]
    which = chance.randrange(10)
    if which < 4:
        return [*assigned, operand(), punct(";")]
    if which < 6:
        return [*assigned, operand(), punct(chance.choice([" + ", " - ", " & "])), operand(), punct(";")]
    if which == 6:
        return [*assigned, name("f"), punct("("), operand(), punct(");")]
    if which == 7:
        return [name("f", "g"), punct("("), operand(), punct(", "), operand(), punct(");")]
    if which == 8:
        return [name("L1", "L2"), punct(":")]
    return [Token(Kind.KEYWORD, chance.choice(["return", "goto", "do", "while"])), punct(chance.choice([" ", ";", " {", "}"]))]


def random_listing(chance: random.Random) -> Listing:
    """A random listing; one of about twenty has something that no call takes."""
    lines = []
    for _ in range(chance.randrange(24)):
        address = chance.randrange(1 << chance.randrange(1, 65)) if chance.random() < 0.5 else None
        marks = tuple(sorted(chance.randrange(1 << 64) for _ in range(2))) if chance.random() < 0.1 else None
        lines.append(Line(address, chance.randrange(4), marks, statement(chance)))
    if lines and chance.random() < 0.05:
        spoilt = chance.choice(lines)
        which = chance.randrange(4)
        if which == 0:
            spoilt.indent = 64
        elif which == 1:
            spoilt.marks = (2, 1)
        elif which == 2:
            spoilt.tokens.append(Token(Kind.NUMBER, "1" * 25))
        else:
            lines += [Line() for _ in range(257)]
    return Listing(lines)


def random_settings(chance: random.Random) -> Settings:
    return Settings(chance.randrange(3), chance.random() < 0.5, chance.randrange(2), chance.random() < 0.5)
