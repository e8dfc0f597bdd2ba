"""What is otherwise on a terminal: a tape is neither read from one nor written to one unasked, a batch shows how far it is, and Ctrl-C ends all of it."""
import fcntl
import os
import pty
import re
import select
import shutil
import signal
import subprocess
import termios
import time

from common import BAD, COMMAND, GOOD, expect, put_tapes, run


def on_terminal(words, streams, data=b"", keys=None):
    """Runs a command that has a terminal in the place of these streams (numbers of 0, 1, 2), as a shell's job in front does. Its status, and what the terminal, standard output and standard error got.

    keys, if given, is called with the terminal and the process once it runs.
    """
    mine, its = pty.openpty()
    # The terminal leaves a line's end as it is, and takes keys for what they mean.
    modes = termios.tcgetattr(its)
    modes[1] &= ~termios.OPOST
    modes[3] &= ~termios.ECHO
    termios.tcsetattr(its, termios.TCSANOW, modes)

    def in_front():
        os.setsid()
        fcntl.ioctl(its, termios.TIOCSCTTY, 0)

    pipes = [subprocess.PIPE] * 3
    for number in streams:
        pipes[number] = its
    child = subprocess.Popen([COMMAND, *map(str, words)], stdin=pipes[0], stdout=pipes[1], stderr=pipes[2], preexec_fn=in_front)
    os.close(its)
    if child.stdin:
        child.stdin.write(data)
        child.stdin.close()
    if keys:
        keys(mine, child)
    shown, said = b"", {1: b"", 2: b""}
    ends = {mine: None, **{stream.fileno(): number for number, stream in ((1, child.stdout), (2, child.stderr)) if stream}}
    # The terminal has no end of its own: what it still holds is read once the process has ended.
    while True:
        ready = select.select(list(ends), [], [], 0.05)[0]
        for end in ready:
            try:
                read = os.read(end, 65536)
            except OSError:
                read = b""
            if not read:
                del ends[end]
            elif end == mine:
                shown += read
            else:
                said[ends[end]] += read
        if not ends or (not ready and child.poll() is not None):
            break
    os.close(mine)
    for stream in (child.stdout, child.stderr):
        if stream:
            stream.close()
    return child.wait(), shown, said[1], said[2]


def try_asked(folder):
    """No tape is read from a terminal, or written to one, unless that is said."""
    file = folder / "x.tape"
    file.write_bytes(GOOD)
    reads = b"puchkewa: no FILE is named, and standard input is a terminal; - reads it\n"
    for words in (("clean",), ("counts",), ("check",), ("show",), ("tape",), ("page",), ("addresses",), ("edition", "2018"), ("offsets", "0"), ("start", "--return", "1", "--choose", "rax")):
        status, shown, printed, told = on_terminal(words, (0,))
        expect((status, shown, printed) == (2, b"", b"") and told.startswith(reads), words, "from a terminal", status, shown, printed, told)

    def type_tape(terminal, child):
        os.write(terminal, b"-\t0\n\x04")

    status, shown, printed, told = on_terminal(("tape", "-"), (0,), keys=type_tape)
    expect((status, printed, told) == (0, GOOD, b""), "tape - from a terminal", status, printed, told)

    writes = b"puchkewa: a tape is no text for a terminal; -o FILE, or -f\n"
    store = folder / "store"
    run("state", store, "save", "a", data=GOOD)
    for words in (("clean", file), ("tape", "-"), ("addresses", file), ("edition", "2018", file), ("offsets", "0", file), ("laborious", "3"), ("state", store, "get", "a")):
        status, shown, printed, told = on_terminal(words, (1,), b"-\t0\n")
        expect((status, shown) == (2, b"") and told.startswith(writes), words, "to a terminal", status, shown, told)
    for words in (("clean", file, "-f"), ("clean", "-f", file), ("state", store, "get", "a", "-f")):
        expect(on_terminal(words, (1,)) == (0, GOOD, b"", b""), words, "to a terminal by -f", on_terminal(words, (1,)))
    for words in (("check", file), ("counts", file), ("show", file), ("help",), ("version",), ("state", store, "list")):
        expect(on_terminal(words, (1,))[:2] == (0, run(*words)[1]), words, "is text for a terminal", on_terminal(words, (1,)))
    expect(on_terminal(("clean", file, "-o", folder / "y"), (0, 1, 2)) == (0, b"", b"", b""), "to a file, all on a terminal")


def rows(shown):
    """What stands on the terminal's lines at the end, and how far the batch was shown to be."""
    return [re.split(r"\r|\x1b\[K", row)[-1] for row in shown.decode().split("\n")], [tuple(map(int, m)) for m in re.findall(r"(\d+) of (\d+) files", shown.decode())]


def try_progress(folder, chance):
    """How far a batch is, in one line, where standard error is a terminal; then the sum. Nothing of the first where it is none, nothing of either by -q."""
    out = folder / "out"
    files = put_tapes(folder / "raw", 300, chance)
    files[10].write_bytes(BAD)
    message, total = run("clean", files[10], "-o", folder / "none")[2].rstrip("\n"), "puchkewa: 300 files: 299 cleaned, 1 refused, 0 failed"
    out.mkdir()
    status, shown, printed, told = on_terminal(("clean", *files, "-d", out), (2,))
    lines, steps = rows(shown)
    expect((status, printed) == (1, b"") and lines == [message, total, ""], "the lines of a batch on a terminal", lines)
    expect(20 <= len(steps) <= 400 and all(n == 300 for _, n in steps) and [i for i, _ in steps] == sorted({i for i, _ in steps}) and steps[-1][0] <= 300, "progress", steps)
    expect(shown.count(b"\n") == 2, "progress takes one line", shown.count(b"\n"))
    for words in (("clean", *files[:10], "-q", "-d", out), ("clean", files[0], "-o", folder / "y"), ("clean", files[0], "-d", out)):
        expect(on_terminal(words, (2,))[:2] == (0, b""), words, "shows nothing", on_terminal(words, (2,)))
    status, _, told = run("clean", *files, "-d", out)
    expect((status, told) == (1, f"{message}\n{total}\n"), "no terminal, no progress", told)


def try_keys(folder, chance):
    """Ctrl-C in a batch, and while a tape is read from the terminal: the program ends with the wrapper, and no part is left."""
    out = folder / "out"
    files = put_tapes(folder / "raw", 5000, chance)

    def press_later(key):
        def press(terminal, child):
            time.sleep(0.1)
            os.write(terminal, key)
        return press

    ended = 0
    for key, number in ((b"\x03", signal.SIGINT), (b"\x1c", signal.SIGQUIT)) * 5:
        shutil.rmtree(out, ignore_errors=True)
        out.mkdir()
        status = on_terminal(("clean", *files, "-d", out), (0, 1, 2), keys=press_later(key))[0]
        left = sorted(file.name for file in out.iterdir())
        expect(status in (0, -number) and not [name for name in left if ".part" in name], key, status, [name for name in left if ".part" in name])
        ended += status != 0
        time.sleep(0.02)
        expect(len(list(out.iterdir())) == len(left), "the program goes on")
    expect(ended >= 5, "too few of 10 runs were ended", ended)
    status = on_terminal(("tape", "-"), (0, 2), keys=press_later(b"\x03"))[0]
    expect(status == -signal.SIGINT, "Ctrl-C while a terminal is read", status)
