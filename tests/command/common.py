"""What the trials of the command share: how it is run, and random tapes."""
import pathlib
import subprocess
import sys

ROOT = pathlib.Path(__file__).resolve().parents[2]
WRAPPER = ROOT / "bin" / "puchkewa"
COMMAND = str(WRAPPER)
FILTER = str(ROOT / "target" / "bin" / "filter")
# The smallest tape of one line, and one that is refused.
GOOD, BAD = b"\x02\x00\xff", b"\x02"


def run(*words, data=b"", **more):
    """The status of a command, what it wrote to standard output, and what it told."""
    done = subprocess.run([COMMAND, *map(str, words)], input=data, capture_output=True, **more)
    return done.returncode, done.stdout, done.stderr.decode(errors="replace")


def expect(is_right, *what):
    if not is_right:
        print("not as it should be:", *what)
        sys.exit(1)


def expect_wrong(words, what, **more):
    """Wrong use: told with a line that has these words in it, status 2, and nothing on standard output."""
    status, printed, told = run(*words, **more)
    expect(status == 2 and printed == b"" and what in told.splitlines()[0], words, "is wrong use:", status, printed, told)


WORDS = ["rax", "eax", "rbx", "rcx", "var_8", "5", "0x10", "return", "goto", "f", "L1", " = ", "(", ")", ";", ", ", ":", "{", "}", " + ", "// x:y", "m:", "-"]


def text(chance):
    if chance.random() < 0.8:
        return chance.choice(WORDS).encode()
    return bytes(chance.randrange(0x20, 0x7F) for _ in range(chance.randrange(1, 25)))


def random_tape(chance):
    """An accepted tape: every kind, marks, lines with and without an address."""
    out = b""
    for _ in range(chance.randrange(0, 12)):
        indent = bytes([chance.randrange(64)])
        address = chance.randrange(1 << chance.choice([8, 32, 64]))
        out += b"\x01" + address.to_bytes(8, "little") + indent if chance.random() < 0.5 else b"\x02" + indent
        if chance.random() < 0.3:
            low, high = sorted(chance.randrange(1 << 64) for _ in range(2))
            out += b"\x03" + low.to_bytes(8, "little") + high.to_bytes(8, "little")
        for _ in range(chance.randrange(0, 8)):
            t = text(chance)
            out += bytes([0x10 + chance.randrange(8)]) + len(t).to_bytes(2, "little") + t
    return out + b"\xff"


def low_tape(chance):
    """A tape whose addresses lie within 32 bits above 400000."""
    out = b""
    for _ in range(chance.randrange(1, 9)):
        out += b"\x01" + (0x400000 + chance.randrange(1 << 32)).to_bytes(8, "little") + b"\x01" + b"\x11\x03\x00rax"
    return out + b"\xff"


def put_tapes(folder, count, chance):
    """So many tapes in a folder; their paths."""
    folder.mkdir()
    files = [folder / f"t{i:05}.tape" for i in range(count)]
    for file in files:
        file.write_bytes(random_tape(chance))
    return files
