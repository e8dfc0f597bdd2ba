"""The wrapper by itself, beside a program that does as it is told: what it hands on, and what it does with signals."""
import os
import shutil
import signal
import subprocess
import time

from common import WRAPPER, expect

# The program of these trials: what it does is its first word.
PROGRAM = r"""#!/bin/sh
case $1 in
    args) shift; for word; do printf '<%s>' "$word"; done ;;
    status) exit "$2" ;;
    cat) cat ;;
    third) cat <&3 ;;
    open) for n in 0 1 2 3 4 5 6 7 8 9; do if [ -e "/proc/$$/fd/$n" ]; then printf '%s' "$n" >> "$2"; fi; done ;;
    run) printf '%s' "$PUCHKEWA_RUN" ;;
    lines) printf 'first\n' >&2; read -r word; printf '%s\n' "$word" >&2 ;;
    kill) : > "$3.part$PUCHKEWA_RUN"; kill -s "$2" $$ ;;
    hang) : > "$PART.part$PUCHKEWA_RUN"
          printf '%s\n' "$PUCHKEWA_RUN" > "$STORE.lock"
          printf 'ready\n' >&2
          exec sleep 60 ;;
    slow) trap 'sleep 0.3; : > "$2"; exit 3' TERM
          printf 'ready\n' >&2
          while :; do sleep 0.01; done ;;
esac
"""
SIGNALS = (signal.SIGHUP, signal.SIGINT, signal.SIGQUIT, signal.SIGTERM)


def shells():
    """How the wrapper is started: by its first line, and by each shell that is here."""
    return [[]] + [words for words in (["dash"], ["bash"], ["bash", "--posix"], ["busybox", "sh"], ["ksh"], ["yash"]) if shutil.which(words[0])]


def put_wrapper(place):
    place.mkdir(parents=True)
    shutil.copy(WRAPPER, place / "puchkewa")
    program = place / "puchkewa-program"
    program.write_text(PROGRAM)
    program.chmod(0o755)
    return str(place / "puchkewa")


def try_handed_on(folder):
    """Words, streams, descriptors and statuses go through as they are."""
    wrapper = put_wrapper(folder / "a place" / "bin")
    for shell in shells():
        def said(*words, **more):
            done = subprocess.run([*shell, wrapper, *words], capture_output=True, **more)
            return done.returncode, done.stdout, done.stderr

        words = ("a b", "", "*", "it's", '"', "$HOME", "\\", "-e", "\n", "x\ty")
        expect(said("args", *words) == (0, "".join(f"<{word}>" for word in words).encode(), b""), shell, "words", said("args", *words))
        for status in (0, 1, 2, 77):
            expect(said("status", str(status)) == (status, b"", b""), shell, status, said("status", str(status)))
        data = os.urandom(100000)
        expect(said("cat", input=data) == (0, data, b""), shell, "standard input")
        expect(said("kill", "PIPE", folder / "x") == (141, b"", b""), shell, "nobody reads", said("kill", "PIPE", folder / "x"))
        status, printed, told = said("kill", "KILL", folder / "x")
        expect((status, printed) == (137, b"") and told.endswith(b"puchkewa: the program was ended by signal 9\n"), shell, "the program was killed", status, told)
        expect(not list(folder.glob("x*")), shell, "a part is left of a program that was killed", list(folder.glob("x*")))
        expect(said("run") != said("run"), shell, "two runs have one name")

        # Descriptors: 3 is the user's, a closed standard stream is held, and nothing else is open.
        def by_shell(line):
            return subprocess.run(["bash", "-c", line, *shell, wrapper], stdout=subprocess.PIPE, stderr=subprocess.PIPE).stdout

        me = '"$0" "$@"'
        expect(by_shell(me + " third 3<<< three") == b"three\n", shell, "descriptor 3", by_shell(me + " third 3<<< three"))
        for closed, are_open in (("", b"012"), ("3< /dev/null", b"0123"), ("3< /dev/null 4< /dev/null 7> /dev/null", b"012347"),
                                 ("<&-", b"012"), (">&-", b"012"), ("2>&-", b"012"), ("<&- >&- 2>&-", b"012")):
            place = folder / "open"
            by_shell(f"{me} open '{place}' {closed}")
            expect(place.read_bytes() == are_open, shell, "open descriptors by", closed, place.read_bytes())
            place.unlink()

    # It is found by its name and by links.
    links = folder / "links"
    links.mkdir()
    (links / "first").symlink_to(wrapper)
    (links / "second").symlink_to("first")
    for name, path in ((str(links / "second"), None), ("second", str(links)), ("puchkewa", str(folder / "a place" / "bin"))):
        environment = {**os.environ, "PATH": f"{path}:{os.environ['PATH']}"} if path else None
        done = subprocess.run([name, "args", "x"], capture_output=True, env=environment)
        expect((done.returncode, done.stdout) == (0, b"<x>"), "by the name", name, done)
    alone = folder / "alone"
    alone.mkdir()
    shutil.copy(WRAPPER, alone / "puchkewa")
    done = subprocess.run([alone / "puchkewa"], capture_output=True)
    expect(done.returncode == 1 and done.stderr == b"puchkewa: the program is missing: bin/program command makes it\n", done)


def try_passed_on(folder):
    """Messages come at once; a signal is passed on and waited for; then nothing of the run is left, and all of the others is."""
    wrapper = put_wrapper(folder / "bin")
    out = folder / "an out"
    out.mkdir()
    others = [out / "mine.part1-00000000", out / "x.part", out / "other.lock"]
    for file in others:
        file.write_text("1-00000000\n")

    def start(shell, *words, **variables):
        child = subprocess.Popen([*shell, wrapper, *map(str, words)], stdin=subprocess.PIPE, stdout=subprocess.PIPE, stderr=subprocess.PIPE,
                                 env={**os.environ, **{name: str(value) for name, value in variables.items()}})
        return child, child.stderr.readline()

    # What is written, and the words by which it can be found.
    store = out / "store"
    routes = [(out / "x", (out / "x",)), (out / "x", (f"-o{out / 'x'}",)), (out / "x", ("a", "-d", out)), (out / ".x", (f"-d{out}",)), (out / "x y", ("-d", f"{out}/", "b")), (store, ())]
    for shell in shells():
        child, line = start(shell, "lines")
        expect(line == b"first\n" and child.poll() is None, shell, "a message comes at once", line)
        child.stdin.write(b"second\n")
        child.stdin.close()
        expect(child.stderr.read() == b"second\n" and child.wait() == 0, shell, "a later message")
        for number in SIGNALS:
            for part, words in routes:
                child, line = start(shell, "hang", store, *words, out / "other", PART=part, STORE=store)
                expect(line == b"ready\n" and len(list(out.iterdir())) == len(others) + 2, shell, number, words, list(out.iterdir()))
                began = time.monotonic()
                child.send_signal(number)
                status = child.wait(timeout=30)
                # bash cannot end itself by QUIT
                expect(status == -number or (number, status) == (signal.SIGQUIT, 128 + signal.SIGTERM), shell, number, status)
                expect(time.monotonic() - began < 5 and child.stderr.read() == b"", shell, number, "took", time.monotonic() - began)
                expect(sorted(out.iterdir()) == sorted(others), shell, number, words, "left:", list(out.iterdir()))
            mark = folder / "ended by itself"
            child, line = start(shell, "slow", mark)
            child.send_signal(number)
            child.wait(timeout=30)
            expect(mark.exists(), shell, number, "the program was not waited for")
            mark.unlink()
