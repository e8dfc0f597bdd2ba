"""The command's run in the gate: one call of `counts --json --profile` over some thirty files, each line of which is told here, none by the
command itself. `python3 tests/command/gate.py` writes crates/command's args, status, stdout and data; tests/command/run asks that they are these."""
import pathlib
from refusals import BROKEN, CASES, END, RETURN, line

CRATE = pathlib.Path(__file__).resolve().parents[2] / "crates" / "command"
NUMBER = line(("register", "rcx"), ("punct", " = "), ("number", "5"), ("punct", ";"))
# Tapes in the profile of which nothing is joined: each line is tried once, the round changes nothing and is the only one, and the finished tape
# is the tape.
KEPT = ((line(*RETURN),), (NUMBER, line(*RETURN)))


def refused(name, number, place, words):
    return f'{{"file":"{name}","refused":{number},"place":{place},"words":"{words}"}}\n'


def kept(name, lines, size):
    return f'{{"file":"{name}","length":{size},"settled":false,"attempts":[{lines},0,0],"removed":0,"cut":0,"cautioned":0}}\n'


def run():
    """The files by their names, and what the call prints of them."""
    files, printed = {}, ""

    def add(tape, told, *more):
        nonlocal printed
        name = f"{len(files) + 1:02}.tape"
        files[name] = tape
        printed += told(name, *more)

    for tape, told in CASES:
        place, words = told.split(": ", 1)
        number, place = place.split(",")[0].split(" at ")
        add(tape, refused, number, place, words)
    for lines, place, words in BROKEN:
        add(b"".join(lines) + END, refused, 14, place, words)
    for lines in KEPT:
        tape = b"".join(lines) + END
        add(tape, kept, len(lines), len(tape))
    # standard input: the sample, whose first line is a label
    printed += refused("-", 14, 0, "the line does not assign to a 64-bit register (as rax, r8)")
    return files, printed


def parts():
    """What stands in crates/command, by its path there."""
    files, printed = run()
    words = ["counts", "--json", "--profile", *files, "-"]
    return {"args": "\n".join(words).encode() + b"\n", "status": b"1\n", "stdout": printed.encode()} | {f"data/{name}": tape for name, tape in files.items()}


def try_gate():
    """The files of crates/command are those that this file tells."""
    told = parts()
    assert {f"data/{p.name}" for p in (CRATE / "data").iterdir()} == {p for p in told if p.startswith("data/")}, "crates/command/data"
    for path, content in told.items():
        assert (CRATE / path).read_bytes() == content, path


if __name__ == "__main__":
    (CRATE / "data").mkdir(exist_ok=True)
    for path, content in parts().items():
        (CRATE / path).write_bytes(content)
