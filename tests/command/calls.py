"""What the calls of the command give: tapes there and back, beside the filter; start values of random formulas, beside what is worked out here."""
import math
import os
import subprocess

from common import BAD, COMMAND, FILTER, GOOD, ROOT, expect, expect_wrong, low_tape, random_tape, run


def try_tapes(folder, count, chance):
    file = folder / "one.tape"
    for i in range(count):
        tape = random_tape(chance)
        file.write_bytes(tape)
        status, shown, told = run("show", "--exact", file)
        expect(status == 0, i, tape, told)
        status, back, told = run("tape", data=shown)
        expect((status, back) == (0, tape), "show --exact, then tape:", i, tape, shown, back, told)
        status, cleaned, told = run("clean", data=tape)
        filtered = subprocess.run([FILTER], input=b"\x01" + tape, capture_output=True).stdout
        expect((status, cleaned) == (0, filtered), "clean:", i, tape, told)
        low = low_tape(chance)
        status, moved, told = run("offsets", "0x400000", data=low)
        status, back, told = run("addresses", data=moved)
        expect((status, back) == (0, low), "offsets, then addresses:", i, low, told)


REGISTERS = ["rax", "rbx", "rcx", "rdx", "rsi", "r8", "r08", "r99"]
KINDS = {"register": 0x11, "number": 0x12, "keyword": 0x13, "punct": 0x16}
MODULUS = 1 << 64


def number(chance):
    value = chance.choice([0, 1, 2, chance.randrange(100), chance.randrange(1 << 31)])
    text = str(value) if chance.random() < 0.5 else hex(value)
    return [("number", text)], lambda store: value


def expression(chance, depth):
    """Pieces of text, and what they are worth, given what each register holds: terms joined from the left by + and -."""
    pieces, worth = term(chance, depth)
    for _ in range(chance.randrange(4)):
        more, second = term(chance, depth)
        sign = chance.choice([1, -1])
        pieces = pieces + [("punct", " + " if sign == 1 else " - ")] + more
        worth = (lambda first, second, sign: lambda store: first(store) + sign * second(store))(worth, second, sign)
    return pieces, worth


def term(chance, depth):
    sort = chance.random()
    if sort < 0.25 and depth > 0:
        pieces, worth = expression(chance, depth - 1)
        return [("punct", "(")] + pieces + [("punct", ")")], worth
    if sort < 0.45:
        return number(chance)
    name = chance.choice(REGISTERS)
    return [("register", name)], lambda store: store.get(name, 0)


def line_of(pieces):
    """A line of a tape; neighbouring Puncts are one."""
    out, last = [], None
    for kind, text in pieces:
        if kind == "punct" and last == "punct":
            out[-1] = (kind, out[-1][1] + text)
        else:
            out.append((kind, text))
        last = kind
    return b"\x02\x01" + b"".join(bytes([KINDS[kind]]) + len(text).to_bytes(2, "little") + text.encode() for kind, text in out)


def formula(chance):
    """The tape of a formula, and what it returns, given what each register starts with."""
    lines, steps = b"", []
    for _ in range(chance.randrange(4)):
        name = chance.choice(REGISTERS)
        pieces, worth = expression(chance, 2)
        lines += line_of([("register", name), ("punct", " = ")] + pieces + [("punct", ";")])
        steps.append((name, worth))
    pieces, result = expression(chance, 2)
    lines += line_of([("keyword", "return"), ("punct", " ")] + pieces + [("punct", ";")])

    def returned(start):
        store = dict(start)
        for name, worth in steps:
            store[name] = worth(store) % MODULUS
        return result(store) % MODULUS

    return lines + b"\xff", returned


def smallest(returned, chosen, start, wanted):
    """The smallest start value of a register for which a formula, which is m * v + c, returns what is wanted, and how far the next one is; None if there is none."""
    at = lambda v: returned({**start, chosen: v})
    constant = at(0)
    multiplier = (at(1) - constant) % MODULUS
    missing = (wanted - constant) % MODULUS
    divisor = math.gcd(multiplier, MODULUS)
    if missing % divisor:
        return None, None
    period = MODULUS // divisor
    value = missing // divisor * pow(multiplier // divisor, -1, period) % period if period > 1 else 0
    assert at(value) == wanted
    return value, period


def further(name, period):
    """What is told of the other values that do."""
    if period == MODULUS:
        return ""
    if period == 1:
        return f"{name}: any other value does too: the result does not depend on it\n"
    return f"{name}: the smallest of several: each {period:#x} further does too\n"


def written(chance, value):
    """A value as a user may write it."""
    forms = [str(value), hex(value), "0x" + hex(value)[2:].upper(), "00" + str(value)]
    if value >= MODULUS // 2:
        forms += [str(value - MODULUS), "-" + hex(MODULUS - value)]
    return chance.choice(forms)


def try_start(folder, count, chance):
    file, told_values, none = folder / "formula.tape", 0, 0
    for i in range(count):
        tape, returned = formula(chance)
        chosen = chance.choice(REGISTERS)
        given = [(chance.choice(REGISTERS), chance.randrange(1 << chance.choice([4, 33, 64]))) for _ in range(chance.randrange(5))]
        start = {}
        for name, value in given:
            start.setdefault(name, value)
        wanted = chance.randrange(1 << chance.choice([4, 64]))
        if chance.random() < 0.6:
            wanted = returned({**start, chosen: chance.randrange(MODULUS)})
        # in any order, but for the entries: of equal names the first decides
        places = [["--return", written(chance, wanted)], ["--choose", chosen]] + [None] * len(given)
        chance.shuffle(places)
        entries = (f"{name}={written(chance, value)}" for name, value in given)
        words = [word for place in places for word in (place or [next(entries)])]
        value, period = smallest(returned, chosen, start, wanted)
        file.write_bytes(tape)
        in_file = chance.random() < 0.5
        status, printed, told = run("start", *words, *([file] if in_file else []), data=b"" if in_file else tape)
        name = str(file) if in_file else "standard input"
        if value is None:
            none += 1
            expect((status, printed) == (1, b"") and told.startswith(f"{name}: refused 15 at 0: ") and told.count("\n") == 1, "start:", i, tape, words, status, printed, told)
        else:
            told_values += 1
            expect((status, printed, told) == (0, f"{chosen} = {value:#x} ({value})\n".encode(), further(name, period)), "start:", i, tape, words, value, printed, told)
    expect(count < 100 or min(told_values, none) > count // 50, "start: too few of one sort", told_values, none)


def try_start_words(folder):
    sum_tape = line_of([("keyword", "return"), ("punct", " "), ("register", "rax"), ("punct", " + "), ("register", "rbx"), ("punct", ";")]) + b"\xff"
    file = folder / "a=b"
    file.write_bytes(sum_tape)
    here = os.getcwd()
    os.chdir(folder)
    ask = ("start", "--return", "10", "--choose", "rax")
    for words, line in ((ask + ("rbx=3", "./a=b"), "rax = 0x7 (7)"), (ask + (file,), "rax = 0xa (10)"), (ask + ("rbx=3", "rbx=4", "rax=99", file), "rax = 0x7 (7)"),
                        (("start", file, "rbx=3", "--choose", "rax", "--return", "1"), "rax = 0xfffffffffffffffe (18446744073709551614)"),
                        (("start", file, "--choose", "rax", "--return", "-1"), "rax = 0xffffffffffffffff (18446744073709551615)"),
                        (("start", file, "--choose", "rax", "--return", "-9223372036854775808"), "rax = 0x8000000000000000 (9223372036854775808)"),
                        (("start", file, "--choose", "rax", "--return", "18446744073709551615"), "rax = 0xffffffffffffffff (18446744073709551615)"),
                        (("start", file, "--choose", "rax", "--return", "-0"), "rax = 0x0 (0)"),
                        (("start", file, "--choose", "rax", "--return", "0xffffFFFFffffFFFF", "rbx=-1"), "rax = 0x0 (0)")):
        expect(run(*words) == (0, line.encode() + b"\n", ""), words, run(*words))
    names, breaks = "16 at 0: ", "14 at 0, line 1: "
    for words, data, what in ((("--return", "10", "--choose", "eax"), sum_tape, names), (("--return", "10", "--choose", "rax", "ebx=1"), sum_tape, names),
                              (("--return", "10", "--choose", "rax", "=1"), sum_tape, names), (("--return", "10", "--choose", "rax", "r" + "0" * 254 + "=1"), sum_tape, None),
                              (("--return", "10", "--choose", "rax"), b"\x02\x00\xff", breaks), (("--return", "10", "--choose", "rax"), b"\x02", "4 at 0")):
        status, printed, told = run("start", *words, data=data)
        right = (status, told) == (0, "") if what is None else status == 1 and printed == b"" and told.startswith("standard input: refused " + what)
        expect(right, words, status, printed, told)
    for words, what in ((("start", "--choose", "rax"), "--return and --choose must both"), (("start", "--return", "1"), "--return and --choose must both"),
                        (("start", "--return", "1", "--choose"), "the value of the last option is missing"),
                        (ask + ("--return", "11"), "11 is a second value"), (ask + ("--choose", "rbx"), "rbx is a second value"), (ask + ("a=b",), "a=b is no REG=V"),
                        (ask + ("rbx=",), "rbx= is no REG=V"), (ask + ("rbx=3=",), "rbx=3= is no REG=V"), (ask + ("r" + "0" * 255 + "=1",), "=1 is no REG=V"),
                        (ask + (file, file), "is one word too many"),
                        (ask + ("-o", "x"), "-o is no option here"), (("clean", "--return", "1"), "--return is no option here")):
        expect_wrong(words, what)
    for value in ("", "x", "0x", "-", "--1", "1_0", "1 ", "+1", "0X1", "0b1", "1f", "0xg", "18446744073709551616", "99999999999999999999999", "0x10000000000000000", "-9223372036854775809"):
        expect_wrong(("start", "--choose", "rax", "--return", value, file), f"puchkewa: {value} is no value of the option before it")
    os.chdir(here)


def try_states(folder):
    store, tape = folder / "store", b"\x02\x03\xff"
    for i in range(8):
        expect(run("state", store, "save", f"name{i}", data=tape) == (0, b"", ""), "save")
    for words, data, what in ((("save", "ninth"), tape, f"{store}: refused 21 at 0: "), (("get", "ninth"), b"", f"{store}: refused 20 at 0: "),
                              (("save", "name4"), BAD, "standard input: refused 4 at 0: ")):
        status, printed, told = run("state", store, *words, data=data)
        expect((status, printed) == (1, b"") and told.startswith(what), words, status, printed, told)
    expect(run("state", store, "list")[1] == b"".join(b"name%d 3\n" % i for i in range(8)), "list")
    expect(run("state", store, "get", "name3") == (0, tape, ""), "get")
    expect(run("state", store, "delete", "name3") == (0, b"", ""), "delete")
    expect(run("state", store, "get", "name3")[2].startswith(f"{store}: refused 20 at 0"), "20")
    expect(store.stat().st_size == 524288, "the store's size")
    expect(run("state", store, "save", os.fsdecode(b"a \\\x1b\x7f\xff~"), data=tape) == (0, b"", ""), "save")
    expect(b"\na \\x5c\\x1b\\x7f\\xff~ 3\n" in run("state", store, "list")[1], "list of a name that cannot be printed", run("state", store, "list"))
    store.write_bytes(b"\x02" + store.read_bytes()[1:])
    expect(run("state", store, "list")[2].startswith(f"{store}: refused 22 at 0"), "22")


def try_statuses(folder):
    """0: all well; 1: something was refused or failed; 2: wrong use. What is told goes to standard error, and a result that is not whole is no file."""
    good, bad = folder / "good.tape", folder / "bad.tape"
    good.write_bytes(GOOD)
    bad.write_bytes(BAD)
    before = sorted(folder.iterdir())
    for words, what in ((("clean", folder / "none"), "No such file"), (("clean", folder), "Is a directory"), (("clean", good, "-o", "/dev/full"), "No space"),
                        (("clean", good, "-o", folder), "Is a directory"), (("clean", good, "-d", folder / "none"), "No such file"),
                        (("clean", bad, "-o", folder / "new"), "refused 4 at 0"), (("check", good, bad), "refused 4 at 0"), (("laborious", "257"), "refused 17")):
        status, printed, told = run(*words)
        expect(status == 1 and what in told, words, status, printed, told)
    for words, what in ((("clean", good, bad, "-o", folder / "new"), "one file only"), (("clean", good, "-o"), "missing"), (("nonsense",), "no word"), (("check", "-o", "x"), "no option"),
                        (("edition", "2020"), "not what must stand here"), (("show", good, bad), "too many"), ((), "no word says"), (("clean", "-d", folder, "-o", "x"), "second place")):
        expect_wrong(words, what)
    expect(sorted(folder.iterdir()) == before, "something was left behind")
    for words in (("help",), ("version",), ("check", good), ("counts", good), ("clean", good), ("show", good)):
        with open("/dev/full", "wb") as full:
            done = subprocess.run([COMMAND, *map(str, words)], stdin=subprocess.DEVNULL, stdout=full, stderr=subprocess.PIPE)
        expect(done.returncode == 1 and done.stderr == b"standard output: No space left on device\n", words, "to a full device:", done.returncode, done.stderr)
    if os.getuid() != 0:
        good.chmod(0)
        status, printed, told = run("clean", good)
        expect(status == 1 and "Permission denied" in told, told)
        good.chmod(0o400)
        status, printed, told = run("clean", good, "-f", "-o", good)
        expect(status == 1 and "Permission denied" in told, told)
    for words in (("help",), ("clean", "--help"), ("-h",), ("clean", "-o", "--help"), ("version",), ("laborious", "3"), ("help", "state"), ("help", "start"), ("start", "--help")):
        status, printed, told = run(*words)
        expect(status == 0 and printed != b"" and told == "", words, told)


def try_version():
    header = (ROOT / "include" / "puchkewa.h").read_text()
    version = header.split('#define PUCHKEWA_VERSION "')[1].split('"')[0]
    for words in (("version",), ("--version",), ("-V",)):
        expect(run(*words) == (0, f"puchkewa {version}\n".encode(), ""), words)
    expect(f"Puchkewa {version}" in (ROOT / "docs" / "puchkewa.1").read_text(), "version of the man page")
