"""What is told of a refusal: the one reason, the line and the token; what a file looks like that is no bare tape; `tape` and `start`."""
from common import GOOD, expect, run

NAMES = {"text": 0x10, "register": 0x11, "number": 0x12, "keyword": 0x13, "symbol": 0x14, "address": 0x15, "punct": 0x16, "prefix": 0x17}
LINE, END = b"\x02\x00", b"\xff"


def token(kind, text):
    return bytes([NAMES[kind]]) + len(text).to_bytes(2, "little") + (text if isinstance(text, bytes) else text.encode())


def line(*tokens, indent=0):
    return bytes([0x02, indent]) + b"".join(token(kind, text) for kind, text in tokens)


def marks(low, high):
    return b"\x03" + low.to_bytes(8, "little") + high.to_bytes(8, "little")


RETURN = (("keyword", "return"), ("punct", " "), ("register", "rax"), ("punct", ";"))
ONE = line(("register", "rax"))
# A tape that is refused, and what is told behind `refused `: the number, the offset, where that is in the listing, and the one reason.
CASES = (
    (LINE + b"\x7f", "3 at 2, behind line 1: the byte at this offset begins no command"),
    (ONE, "3 at 8, behind line 1, token 1: the tape ends here, and no end (FF) was read"),
    (b"", "3 at 0: the tape ends here, and no end (FF) was read"),
    (b"\x7f", "3 at 0: the byte at this offset begins no command"),
    (ONE + b"\x11\x03\x00ra", "4 at 8, behind line 1, token 1: the command that begins at this offset runs past the end of the tape"),
    (LINE + b"\x11", "4 at 2, behind line 1: the command that begins at this offset runs past the end of the tape"),
    (token("register", "rax") + END, "5 at 0: the token at this offset stands before any line"),
    (marks(1, 2) + END, "5 at 0: the marks at this offset do not follow the command of a line"),
    (LINE + ONE + marks(1, 2) + END, "5 at 10, line 2, token 1: the marks at this offset do not follow the command of a line"),
    (LINE + LINE + marks(2, 1) + END, "5 at 4, line 2: the marks at this offset have their lowest above their highest"),
    (ONE + b"\x02\x40" + END, "6 at 8, line 2: the line at this offset has an indent above 63"),
    (ONE + b"\x11\x00\x00" + END, "6 at 8, line 1, token 2: the token at this offset has a text with no byte"),
    (ONE + line(("number", "1" * 25)) + END, "6 at 10, line 2, token 1: the Number at this offset has more than 24 bytes"),
    (LINE * 257 + END, "10 at 512, line 257: with the line at this offset there are more than 256 lines"),
    (LINE + token("punct", ";") * 1025 + END, "10 at 4098, line 1, token 1025: with the token at this offset there are more than 1,024 tokens"),
)
# A tape that is no straight piece, the line that is not, from 0, and why: the profile's tests in their order.
ONE_REGISTER = line(("register", "rax"), ("punct", " = "), ("number", "1"), ("punct", ";"))
BROKEN = (
    ((), 0, "there is no line"),
    ((ONE_REGISTER, line(*RETURN, indent=1)), 1, "the indent of this line is not the first line's"),
    ((line(),), 0, "the line has no token"),
    ((ONE_REGISTER,), 0, "the last line does not begin with the Keyword return"),
    ((line(*RETURN), line(*RETURN, indent=1)), 0, "the line does not assign to a 64-bit register (as rax, r8)"),
    ((line(("register", "eax"), ("punct", " = "), ("number", "1"), ("punct", ";")), line(*RETURN)), 0, "the line does not assign to a 64-bit register (as rax, r8)"),
    ((line(("keyword", "return"), ("punct", " "), ("register", "eax"), ("punct", ";")),), 0, "a Register in this line is no 64-bit register (as rax, r8)"),
    ((line(("keyword", "return"), ("punct", " "), ("number", "01"), ("punct", ";")),), 0, "a Number in this line has a plus, a second minus or a zero in front"),
    ((line(("keyword", "return"), ("punct", " "), ("number", "+1"), ("punct", ";")),), 0, "a Number in this line has a plus, a second minus or a zero in front"),
    ((line(("keyword", "return"), ("punct", " "), ("number", "1x"), ("punct", ";")),), 0, "a Number in this line is none that the profile reads"),
    ((line(("keyword", "return"), ("punct", " "), ("symbol", "f"), ("punct", ";")),), 0, "a token in this line is no Register, Number or Punct"),
    ((line(("keyword", "return"), ("register", "rax"), ("punct", ";")),), 0, "behind the return of this line stands no blank"),
    ((ONE_REGISTER, line(("register", "rcx"), ("punct", "="), ("register", "rax"), ("punct", ";")), line(*RETURN)), 1,
     "behind the register of this line stands no = between blanks"),
    ((line(("keyword", "return"), ("punct", " ("), ("register", "rax"), ("punct", ";")),), 0, "a bracket in this line is not closed, or not opened"),
    ((line(("keyword", "return"), ("punct", " "), ("register", "rax"), ("punct", ");")),), 0, "a bracket in this line is not closed, or not opened"),
    ((line(("keyword", "return"), ("punct", " "), ("register", "rax"), ("punct", " * "), ("register", "rcx"), ("punct", ";")),), 0,
     "this line's value is not terms joined by + or - between blanks, and then a semicolon"),
    ((line(("keyword", "return"), ("punct", " "), ("register", "rax")),), 0, "this line's value is not terms joined by + or - between blanks, and then a semicolon"),
    ((line(("keyword", "return"), ("punct", " "), ("punct", "("), ("register", "rax"), ("punct", ")"), ("punct", ";")),), 0, "two Puncts stand side by side in this line"),
)

def try_reasons(folder):
    """The one reason of a refusal, and where it is in the listing."""
    file = folder / "x.tape"
    for tape, words in CASES:
        file.write_bytes(tape)
        for verb in ("check", "clean", "counts"):
            status, printed, told = run(verb, file)
            expect((status, printed) == (1, b"") and told.splitlines()[0] == f"{file}: refused {words}", verb, tape[:40], told, words)
    for lines, number, words in BROKEN:
        file.write_bytes(b"".join(lines) + END)
        for call in (("clean", "--profile", file), ("start", "--return", "1", "--choose", "rax", file)):
            status, printed, told = run(*call)
            expect((status, printed, told) == (1, b"", f"{file}: refused 14 at {number}, line {number + 1}: {words}\n"), call, lines, told, words)
    file.write_bytes(line(*RETURN) + END)
    for call, name in ((("--choose", "eax"), "eax"), (("--choose", "rax", "ebx=1"), "ebx"), (("--choose", "ecx", "ebx=1"), "ecx"), (("--choose", "rax", "rcx=1", "var_8=2", "al=1"), "var_8")):
        told = run("start", "--return", "1", *call, file)
        expect(told == (1, b"", f"{file}: refused 16 at 0: {name} is no 64-bit register (as rax, r8)\n"), call, told)


def try_looks(folder):
    """A file that is no bare tape, but the filter's form or a tape by offset, is named as such; --filter-form reads the first."""
    file = folder / "x.tape"
    for convention, name in ((0, "32"), (1, "sysv"), (2, "windows")):
        tape = line(("register", "rdi"), ("punct", " = "), ("number", "1"), ("punct", ";")) + line(("symbol", "f"), ("punct", "();"))
        tape += line(("keyword", "return"), ("punct", " "), ("register", "rdi")) + END
        for verb, more in (("clean", ()), ("counts", ()), ("check", ()), ("show", ()), ("edition", ("2018",)), ("offsets", ("0",)), ("page", ())):
            file.write_bytes(bytes([convention]) + tape)
            status, _, told = run(verb, *more, file)
            looks = f"{file}: it looks like a convention byte in front, as the filter takes it: --filter-form reads it\n"
            expect(status == 1 and told.startswith(f"{file}: refused ") and told.endswith(looks) and told.count("\n") == 2, verb, convention, status, told)
            formed = run(verb, *more, "--filter-form", file)
            file.write_bytes(tape)
            setting = ("-c", name) if verb in ("clean", "counts", "page") else ()
            expect(formed == run(verb, *more, *setting, file) and formed[0] == 0, verb, convention, "--filter-form", formed)
    file.write_bytes(b"\x01" + LINE)
    expect("--filter-form" not in run("clean", file)[2], "what is no tape behind the byte either")
    low = b"\x01" + (0x400010).to_bytes(8, "little") + b"\x00" + END
    (folder / "low.tape").write_bytes(low)
    run("offsets", "0x400000", folder / "low.tape", "-o", file)
    for verb in ("clean", "counts", "check", "page"):
        status, _, told = run(verb, file)
        looks = f"{file}: it looks like a tape by offset: addresses makes a bare tape of it\n"
        expect(status == 1 and told.startswith(f"{file}: refused ") and told.endswith(looks) and told.count("\n") == 2, verb, told)
    expect(run("addresses", file) == (0, low, ""), "addresses")


def try_texts(folder):
    """`tape` refuses what `check` would, counts lines and fields from 1; `help start` lists what start takes."""
    file = folder / "x.txt"
    file.write_bytes(b"-\t0\n" * 257)
    status, printed, told = run("tape", file)
    expect((status, printed) == (1, b"") and told.startswith(f"{file}: the tape of this text is refused 10 at 512, line 257: "), told)
    file.write_bytes(b"-\t0\n" * 256)
    expect(run("tape", file) == (0, LINE * 256 + END, ""), "256 lines")
    for text, number, field in ((b"x\n", 1, 1), (b"-\t0\n-\t0\nx\n", 3, 1), (b"-\t0\tr:rax\n-\t0\tq:rax\n", 2, 3), (b"-\t0\n-\tx\n", 2, 2)):
        file.write_bytes(text)
        status, printed, told = run("tape", file)
        expect((status, printed, told) == (1, b"", f"{file}: line {number}, field {field}, is not as show --exact prints it\n"), text, told)
    helped = run("help", "start")[1].decode()
    expect("--parts" not in helped and "--settle" not in helped and " -d " not in helped, "help start lists what start does not take", helped)
    expect(run("check", data=GOOD)[0] == 0, "check")
