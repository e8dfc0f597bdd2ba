"""Files: what a signal in the middle of a batch leaves, older parts, inputs that would be written over, modes, the lock of a store, base names, and how long a batch takes."""
import html.parser
import json
import os
import re
import resource
import shutil
import signal
import subprocess
import time
import urllib.parse

from common import BAD, COMMAND, FILTER, GOOD, expect, expect_wrong, put_tapes, random_tape, run

# A number that no process has.
NOBODY = "999999999-00000000"


def summed(told, files, cleaned, refused, failed, what="cleaned"):
    """Whether the last line of what was told is the sum of a batch."""
    return told.splitlines()[-1:] == [f"puchkewa: {files} files: {cleaned} {what}, {refused} refused, {failed} failed"]


def try_folder(folder, chance):
    """A batch of 200 tapes into a folder, three damaged and one missing: the others are done as the filter does them, and the sum is told."""
    raw, out = folder / "raw tapes", folder / "out"
    put_tapes(raw, 200, chance)
    out.mkdir()
    damaged = {"t00007.tape": (b"\x02", "4 at 0"), "t00100.tape": (b"", "3 at 0"), "t00199.tape": (b"\x02\x40\xff", "6 at 0, line 1")}
    for name, (tape, _) in damaged.items():
        (raw / name).write_bytes(tape)
    files = sorted(raw.iterdir())
    status, printed, told = run("clean", *files, raw / "none", "-d", out)
    expect((status, printed) == (1, b""), status, told)
    wanted = [f"{raw}/{name}: refused {where}: " for name, (_, where) in damaged.items()] + [f"{raw}/none: No such file or directory"]
    lines = told.splitlines()
    expect(len(lines) == len(wanted) + 1 and all(line.startswith(begin) for line, begin in zip(lines, wanted)), lines)
    expect(summed(told, 201, 197, 3, 1), lines[-1])
    expect(sorted(p.name for p in out.iterdir()) == [p.name for p in files if p.name not in damaged], "names in the folder")
    for p in out.iterdir():
        filtered = subprocess.run([FILTER], input=b"\x01" + (raw / p.name).read_bytes(), capture_output=True).stdout
        expect(p.read_bytes() == filtered, p)
    for verb, what in (("clean", "cleaned"), ("counts", "cleaned"), ("check", "accepted")):
        status, _, told = run(verb, files[0], files[1], files[7])
        expect(status == 1 and summed(told, 3, 2, 1, 0, what), verb, status, told)
        status, _, told = run(verb, files[0], files[1], "-q")
        expect((status, told) == (0, ""), verb, "-q", status, told)
        status, _, told = run(verb, files[0])
        expect((status, told) == (0, ""), verb, "one file", status, told)


def try_one_name(folder):
    """Two files of one base name: wrong use, and nothing is written."""
    out = folder / "apart"
    out.mkdir()
    for name in ("x", "y"):
        (folder / name).mkdir()
        (folder / name / "same.tape").write_bytes(GOOD)
    (folder / "x" / "apart").write_bytes(b"\x02\x01\xff")
    words = ("clean", folder / "x" / "apart", folder / "x" / "same.tape", "-d", out)
    expect_wrong((*words, folder / "y" / "same.tape"), f"puchkewa: {folder}/y/same.tape has the base name of another file")
    names = [folder / name for name in ("x/first", "x/second", "y/second", "y/first")]
    expect_wrong(("clean", *names, "-d", out), f"puchkewa: {names[3]} has the base name of another file")  # the twin of the first that has one behind it
    expect(list(out.iterdir()) == [], "something was written")
    status, printed, told = run(*words)
    expect((status, printed) == (0, b"") and summed(told, 2, 2, 0, 0), "files of other names, one of them named as the folder", status, told)
    expect(sorted(p.name for p in out.iterdir()) == ["apart", "same.tape"], "names in the folder")


class Rows(html.parser.HTMLParser):
    """The rows of an index: the text of each cell, and the link in it."""

    def __init__(self, text):
        super().__init__()
        self.rows, self.is_cell = [], False
        self.feed(text)

    def handle_starttag(self, tag, attributes):
        self.is_cell = tag == "td" or (self.is_cell and tag == "a")
        if tag == "tr":
            self.rows.append([])
        elif tag == "td":
            self.rows[-1].append(["", None])
        elif tag == "a":
            self.rows[-1][-1][1] = dict(attributes)["href"]

    def handle_data(self, data):
        if self.is_cell and self.rows and self.rows[-1]:
            self.rows[-1][-1][0] += data.strip("\n")


def try_pages(folder, chance):
    """`page -d`: a page for each file, and an index whose rows say what became of each, with a link to its page."""
    raw, out = folder / "raw", folder / "out"
    files = put_tapes(raw, 5, chance)
    for name in ('a b#?%<&">.tape', "x:y.tape", "\u00e4.tape"):
        files.append(raw / name)
        files[-1].write_bytes(files[1].read_bytes())
    files[2].write_bytes(BAD)
    out.mkdir()
    status, printed, told = run("page", *files, raw / "none", "-d", out)
    expect((status, printed) == (1, b"") and summed(told, 9, 7, 1, 1), status, told)
    pages = [file for i, file in enumerate(files) if i != 2]
    expect(sorted(p.name for p in out.iterdir()) == sorted([f"{file.name}.html" for file in pages] + ["index.html"]), list(out.iterdir()))
    for file in pages:
        expect(run("page", file)[1] == (out / f"{file.name}.html").read_bytes(), file, "is not the page of page FILE")
    rows = Rows((out / "index.html").read_text())
    rows = [row for row in rows.rows if row]
    expect(len(rows) == 9, rows)
    for file, row in zip(files + [raw / "none"], rows):
        shown, link = row[0]
        expect(shown.endswith(file.name), file, row)
        if file in pages:
            lines = [str(run("show", "-", data=tape)[1].count(b"\n")) for tape in (file.read_bytes(), run("clean", file)[1])]
            expect((out / urllib.parse.unquote(link)).name == f"{file.name}.html" and (out / urllib.parse.unquote(link)).exists() and [row[1][0], row[2][0]] == lines, row, lines)
            told = json.loads(run("cautions", "--json", file)[1])
            expect(row[3][0] == str(len(told["cautioned"])) and row[4][0] == "kept", row, told)
        else:
            expect(link is None and row[-1][0] != "", row)
    expect("refused 4 at 0: " in rows[2][-1][0], rows[2])
    expect_wrong(("page", files[0], files[1]), "puchkewa: ")
    (raw / "index").write_bytes(GOOD)
    expect_wrong(("page", raw / "index", "-d", out), "index")


def seconds_of(words, **more):
    """The processor time of a command and of what it starts."""
    before = resource.getrusage(resource.RUSAGE_CHILDREN)
    done = subprocess.run(list(map(str, words)), stdin=subprocess.DEVNULL, stdout=subprocess.DEVNULL, stderr=subprocess.PIPE, **more)
    after = resource.getrusage(resource.RUSAGE_CHILDREN)
    return after.ru_utime + after.ru_stime - before.ru_utime - before.ru_stime, done


def try_many_names(folder):
    """20,000 files of which the last has the base name of the one before it: the look for it is not quadratic, and within a second of processor time."""
    (folder / "out").mkdir()
    times = []
    for count in (5000, 20000):
        names = [f"{i:05}" for i in range(count)]
        last = f"./{count - 1:05}"
        time_taken, done = seconds_of([COMMAND, "clean", *names, "-d", "out", last], cwd=folder)
        expect(done.returncode == 2 and done.stderr.startswith(f"puchkewa: {last} has the base name of another file".encode()), done.returncode, done.stderr[:200])
        times.append(time_taken)
    expect(times[1] < 1 and times[1] < 8 * times[0], "processor time of 5,000 and of 20,000 names:", times)
    print(f"the names of 20,000 files: {times[1]:.2f} s of processor time")


def try_speed(folder, chance):
    """5,000 tapes in one command take at most three times the processor time of `cp` of the same files into a folder."""
    raw, out = folder / "raw", folder / "out"
    files = [file.name for file in put_tapes(raw, 5000, chance)]
    times = {"command": [], "cp": []}
    for _ in range(5):
        for name, words in (("command", [COMMAND, "clean", *files, "-d", out]), ("cp", ["cp", *files, out])):
            shutil.rmtree(out, ignore_errors=True)
            out.mkdir()
            time_taken, done = seconds_of(words, cwd=raw)
            expect(done.returncode == 0 and len(list(out.iterdir())) == 5000, name, done)
            times[name].append(time_taken)
    best = {name: min(taken) for name, taken in times.items()}
    print(f"5,000 tapes: {best['command']:.3f} s of processor time, cp {best['cp']:.3f} s: {best['command'] / best['cp']:.2f} times")
    expect(best["command"] <= 3 * best["cp"], times)


def try_interrupted(folder, chance):
    """A batch of 5,000, ended by each signal at twelve places each: the message of a damaged tape is there, each file that is there is whole, no part is, and the program is gone."""
    raw, whole, out = folder / "raw", folder / "whole", folder / "out"
    files = put_tapes(raw, 5000, chance)
    damaged = files[0]
    damaged.write_bytes(BAD)
    whole.mkdir()
    began = time.monotonic()
    status, _, told = run("clean", *files, "-d", whole)
    length = time.monotonic() - began
    expect(status == 1 and summed(told, 5000, 4999, 1, 0), status, told)
    cleaned = {file.name: file.read_bytes() for file in whole.iterdir()}
    ended = 0
    for number in (signal.SIGHUP, signal.SIGINT, signal.SIGQUIT, signal.SIGTERM):
        for _ in range(12):
            shutil.rmtree(out, ignore_errors=True)
            out.mkdir()
            child = subprocess.Popen([COMMAND, "clean", *map(str, files), "-d", str(out)], stdin=subprocess.DEVNULL, stdout=subprocess.PIPE, stderr=subprocess.PIPE, cwd="/")
            first = child.stderr.readline().decode()
            expect(first.startswith(f"{damaged}: refused 4 at 0: "), "the message comes at once:", first)
            time.sleep(chance.random() * length)
            child.send_signal(number)
            status = child.wait(timeout=60)
            left = {file.name: file.read_bytes() for file in out.iterdir()}
            if status == 1:
                expect(len(left) == 4999, "a run that was not ended", len(left))
            else:
                expect(status == -number, number, status)
                ended += 1
            expect(all(cleaned.get(name) == tape for name, tape in left.items()), "what is not whole:", [name for name, tape in left.items() if cleaned.get(name) != tape])
            time.sleep(0.02)
            expect(len(list(out.iterdir())) == len(left), "the program goes on")
    expect(ended >= 24, "too few of 48 runs were ended", ended)


def try_older_parts(folder):
    """A part of a run that was ended is told, and stays; that of a run that goes on is not told."""
    tape, out = folder / "x.tape", folder / "out"
    tape.write_bytes(GOOD)
    out.mkdir()
    mine = f"{os.getpid()}-00000000"
    note = "is left of a run that was ended: remove it\n"
    for part, destination in ((out / f"x.tape.part{NOBODY}", ("-d", out)), (out / f"other.part{NOBODY}", ("-d", out)), (out / f"x.part{NOBODY}", ("-o", out / "x"))):
        part.write_bytes(b"half")
        status, printed, told = run("clean", tape, *destination)
        expect((status, printed, told) == (0, b"", f"puchkewa: {part} {note}"), destination, status, printed, told)
        expect(part.read_bytes() == b"half", "the part is gone")
        expect(run("clean", tape, *destination, "-q") == (0, b"", ""), "-q tells of a part")
        part.unlink()
    for name in (f"x.tape.part{mine}", "x.tape.part", "x.tape.parts", "x.tape.part-1", "y.partial"):
        (out / name).write_bytes(b"half")
    expect(run("clean", tape, "-d", out) == (0, b"", ""), "told of what is no part that was left", run("clean", tape, "-d", out))
    (out / f"y.part{NOBODY}").write_bytes(b"half")
    expect(run("clean", tape, "-o", out / "x") == (0, b"", ""), "told of another file's part", run("clean", tape, "-o", out / "x"))
    store = folder / "store"
    (folder / f"store.part{NOBODY}").write_bytes(b"half")
    expect(run("state", store, "save", "a", data=GOOD) == (0, b"", f"puchkewa: {store}.part{NOBODY} {note}"), "a store's part")


def try_inputs_kept(folder):
    """An input is not written over by its own result unless -f is given, by whatever name it is reached."""
    tapes = folder / "tapes"
    tapes.mkdir()
    tape = b"\x02\x00\x11\x03\x00rax\x16\x03\x00 = \x14\x01\x00f\x16\x03\x00();\x02\x00\x13\x06\x00return\x16\x01\x00;\xff"
    file, other = tapes / "x.tape", tapes / "y.tape"
    for path in (file, other):
        path.write_bytes(tape)
    (folder / "link").symlink_to(file)
    os.link(file, folder / "hard")
    (folder / "tapes-too").symlink_to(tapes)
    what = "would be written over by its own result; -f does it"
    for words in (("clean", file, "-o", file), ("clean", file, "-d", tapes), ("clean", "./x.tape", "-d", "."), ("clean", "x.tape", "y.tape", "-d", "."), ("clean", file, "-o", folder / "link"),
                  ("clean", folder / "link", "-o", file), ("clean", file, "-o", folder / "hard"), ("clean", file, "-d", folder / "tapes-too"), ("clean", "x.tape", "-o", "./x.tape"),
                  ("page", file, "-o", file), ("edition", "2018", file, "-o", file), ("offsets", "0", file, "-o", file), ("addresses", file, "-o", file), ("tape", file, "-o", file)):
        expect_wrong(words, what, cwd=tapes)
        expect(file.read_bytes() == tape and other.read_bytes() == tape and (folder / "hard").read_bytes() == tape, words, "was written over")
    (tapes / "x.tape.html").write_bytes(tape)
    expect_wrong(("page", "x.tape", "x.tape.html", "-d", "."), "would be written over", cwd=tapes)
    expect((tapes / "x.tape.html").read_bytes() == tape, "a page went onto another input")
    (folder / "out").mkdir()
    expect(run("page", "x.tape", "x.tape.html", "-q", "-d", folder / "out", cwd=tapes) == (0, b"", ""), "pages elsewhere")
    cleaned = run("clean", file)[1]
    expect(cleaned not in (b"", tape), "the tape has nothing to be cleaned")
    for words in (("clean", file, "-f", "-o", file), ("clean", "x.tape", "-f", "-d", "."), ("clean", "-f", file, f"-o{file}"), ("clean", "x.tape", "-f", "-d.")):
        file.write_bytes(tape)
        expect(run(*words, cwd=tapes) == (0, b"", "") and file.read_bytes() == cleaned, words, "does it", file.read_bytes())
    # What is no input is written over as ever.
    file.write_bytes(tape)
    expect(run("clean", file, "-o", other) == (0, b"", "") and other.read_bytes() == cleaned, "another file is written over")


def try_modes(folder):
    """An output that is there keeps its mode; a new one has what the user's mask leaves of 666."""
    tape, out = folder / "x.tape", folder / "out"
    tape.write_bytes(GOOD)
    out.mkdir()
    for mask in (0o022, 0o077, 0o002):
        old = os.umask(mask)
        try:
            for mode in (0o600, 0o640, 0o755, 0o664, 0o400 if os.getuid() == 0 else 0o606):
                for path, words, data in ((out / "y", ("clean", tape, "-o", out / "y"), b""), (out / "x.tape", ("clean", tape, "-d", out), b""),
                                          (out / "page", ("page", tape, "-o", out / "page"), b""), (out / "store", ("state", out / "store", "save", "a"), GOOD)):
                    path.unlink(missing_ok=True)
                    expect(run(*words, data=data) == (0, b"", ""), words, run(*words, data=data))
                    expect(path.stat().st_mode & 0o7777 == 0o666 & ~mask, words, "a new file's mode", oct(path.stat().st_mode))
                    path.chmod(mode)
                    expect(run(*words, data=data) == (0, b"", ""), words, run(*words, data=data))
                    expect(path.stat().st_mode & 0o7777 == mode, words, "mode", oct(mode), "became", oct(path.stat().st_mode))
        finally:
            os.umask(old)


def try_locks(folder):
    """Eight saves at a time lose nothing; a lock of a run that goes on is waited for, one of a run that was ended is told; none stays."""
    for turn in range(10):
        store = folder / f"store{turn}"
        tapes = {f"name{i}": b"\x02" + bytes([i]) + b"\xff" for i in range(8)}
        children = [(subprocess.Popen([COMMAND, "state", str(store), "save", name], stdin=subprocess.PIPE, stderr=subprocess.PIPE), tape) for name, tape in tapes.items()]
        for child, tape in children:
            child.stdin.write(tape)
            child.stdin.close()
        for child, tape in children:
            expect((child.wait(), child.stderr.read()) == (0, b""), "one of eight saves", child.returncode)
        expect(run("state", store, "list")[1].count(b"\n") == 8, "states after eight saves at a time", run("state", store, "list"))
        for name, tape in tapes.items():
            expect(run("state", store, "get", name) == (0, tape, ""), name)
        # Half of them deleted, while the others are saved anew.
        children = [subprocess.Popen([COMMAND, "state", str(store), *(("delete", name) if i % 2 else ("save", name))], stdin=subprocess.PIPE, stderr=subprocess.PIPE) for i, name in enumerate(tapes)]
        for child in children:
            expect((child.communicate(GOOD)[1], child.returncode) == (b"", 0), "one of eight saves and deletes", child.returncode)
        expect(sorted(run("state", store, "list")[1].split()[::2]) == [b"name0", b"name2", b"name4", b"name6"], run("state", store, "list"))
    expect(not list(folder.glob("*.lock")) and not list(folder.glob("*.part*")), "left:", list(folder.iterdir()))

    store, lock = folder / "store0", folder / "store0.lock"
    before = store.read_bytes()
    lock.write_text(NOBODY + "\n")
    for words in (("save", "new"), ("delete", "name0")):
        began = time.monotonic()
        status, printed, told = run("state", store, *words, data=GOOD)
        expect((status, printed) == (1, b"") and told.startswith(f"{lock}: the store is locked by a run that was ended") and told.count("\n") == 1, words, status, told)
        expect(time.monotonic() - began < 5 and store.read_bytes() == before and lock.read_text() == NOBODY + "\n", words, "changed something")
    expect(run("state", store, "get", "name0")[0] == 0 and run("state", store, "list")[0] == 0, "reading needs no lock")
    lock.write_text(f"{os.getpid()}-00000000\n")
    child = subprocess.Popen([COMMAND, "state", str(store), "save", "new"], stdin=subprocess.PIPE, stderr=subprocess.PIPE)
    child.stdin.write(GOOD)
    child.stdin.close()
    time.sleep(0.7)
    expect(child.poll() is None and store.read_bytes() == before, "a lock that is held is waited for")
    lock.unlink()
    expect((child.wait(), child.stderr.read()) == (0, b"") and run("state", store, "get", "new") == (0, GOOD, ""), "the save behind the lock")

    # A save that waits for its tape or for the lock leaves no lock of its own, and takes none of another's, when a signal ends it.
    for held in (False, True):
        if held:
            lock.write_text(f"{os.getpid()}-00000000\n")
        for number in (signal.SIGHUP, signal.SIGINT, signal.SIGTERM):
            child = subprocess.Popen([COMMAND, "state", str(store), "save", "late"], stdin=subprocess.PIPE, stderr=subprocess.PIPE)
            if held:
                child.stdin.write(GOOD)
                child.stdin.close()
            time.sleep(0.2)
            child.send_signal(number)
            expect(child.wait() == -number and lock.exists() == held and not list(folder.glob("*.part*")), held, number, child.returncode, list(folder.iterdir()))
    lock.unlink()


def try_hard_ended(folder, chance):
    """A run that cannot hear the signal (KILL) leaves at most one part, which the next run tells."""
    raw, out = folder / "raw", folder / "out"
    files = put_tapes(raw, 2000, chance)
    found = 0
    for _ in range(40):
        shutil.rmtree(out, ignore_errors=True)
        out.mkdir()
        child = subprocess.Popen([COMMAND, "clean", *map(str, files), "-d", str(out)], stdin=subprocess.DEVNULL, stderr=subprocess.PIPE, start_new_session=True)
        while not any(out.iterdir()):
            time.sleep(0.001)
        time.sleep(chance.random() * 0.05)
        os.killpg(child.pid, signal.SIGKILL)
        child.wait()
        time.sleep(0.05)
        parts = [file for file in out.iterdir() if re.search(r"\.part\d", file.name)]
        expect(len(parts) <= 1, "parts", parts)
        status, _, told = run("clean", files[0], "-d", out)
        expect((status, told) == (0, "".join(f"puchkewa: {part} is left of a run that was ended: remove it\n" for part in parts)), parts, status, told)
        found += len(parts)
    print(f"40 runs ended by KILL: {found} left a part")
