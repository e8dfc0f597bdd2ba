"""What `cautions` tells of cleaned lines: beside the Python of tests/meaning, which asks neither the library nor the definitions, and the sentences of the definitions."""
import json
import re
import sys

from common import BAD, GOOD, ROOT, expect, run

sys.path.insert(0, str(ROOT / "tests" / "meaning"))
from cautions import KINDS, finished_cautions  # noqa: E402
from cleaning import Settings, finished, run_of  # noqa: E402
from listing import listing_of_tape  # noqa: E402

SILENCE = "of a line without one: none of the known ways was found here; it is no proof that the line means the same"
CONVENTIONS = ("32", "sysv", "windows")


def sentences():
    """The sentence of each kind, as it stands above its bit in the definitions."""
    text = (ROOT / "crates" / "cautions" / "specs" / "Kinds.antt").read_text()
    found = {name.replace("_", "-"): " ".join(line[3:] for line in comment.splitlines())
             for comment, name in re.findall(r"((?:^-- .*\n)+)abbrev pub (\w+) : ℕ$", text, re.M)}
    return [found[name] for name in KINDS]


def calls():
    """Tapes, settings and the words for them: those of tests/cautions/list.txt, and the sample."""
    for row in (ROOT / "tests" / "cautions" / "list.txt").read_text().splitlines():
        _, convention, bits, tape, said = row.split(" ")
        bits, convention = int(bits), int(convention)
        sets = [{k for k in range(10) if int(said[i + 2:i + 4] + said[i:i + 2], 16) >> k & 1} for i in range(0, len(said) - 1, 4)]
        yield bytes.fromhex(tape), Settings(convention, bool(bits & 4), bool(bits & 1), bits >> 1 & 1, bool(bits & 8)), sets
    sample = (ROOT / "samples" / "press.tape").read_bytes()[1:]
    yield sample, Settings(), finished_cautions(listing_of_tape(sample), Settings())


def words_of(settings):
    return ["-c", CONVENTIONS[settings.convention], "-e", ("rust", "2024")[settings.edition], *["--parts"] * settings.parts, *["--settle"] * settings.settle,
            *["--profile"] * settings.profile]


def origins(lines, steps):
    """The raw lines that came into each finished line, from 1."""
    came = [{k + 1} for k in range(len(lines))]
    for step in steps:
        for j in step.uses:
            came[j] |= came[step.at]
        if step.uses:
            del came[step.at]
    return [sorted(c) for c in came]


def shown(tape):
    return run("show", data=tape)[1].decode().splitlines()


def told(tape, settings, sets):
    """The lines of words, and what JSON says, for a tape."""
    lines = listing_of_tape(tape)
    steps = run_of(lines, settings)
    came, left = origins(lines, steps), finished(lines, steps)
    raw, cleaned = shown(tape), shown(run("clean", *words_of(settings), data=tape)[1])
    says = sentences()
    words = [f"cautioned lines: {sum(map(bool, sets))} of {len(left)}; {SILENCE}"]
    objects = []
    for q, found in enumerate(sets):
        if not found:
            continue
        words.append(f"line {q + 1}: {cleaned[q]}")
        words += [f"    {KINDS[k]}: {says[k]}" for k in sorted(found)]
        words += [f"    raw line {k}: {raw[k - 1]}" for k in came[q]]
        objects.append({"line": q + 1, "text": "".join(t.text for t in left[q].tokens), "kinds": [KINDS[k] for k in sorted(found)], "raw": came[q]})
    return words, {"lines": len(left), "cautioned": objects}


def try_cautions(folder):
    """`cautions` in words and as JSON, and the number in `counts`, for each listing of the list; several files; what is refused."""
    expect(len(sentences()) == 10 and all(sentences()), "the sentences", sentences())
    any_of = set()
    for i, (tape, settings, sets) in enumerate(calls()):
        words, said = told(tape, settings, sets)
        any_of |= set().union(*sets)
        status, printed, warned = run("cautions", *words_of(settings), data=tape)
        expect((status, warned, printed.decode().splitlines()) == (0, "", words), i, settings, printed.decode(), words)
        status, printed, warned = run("cautions", "--json", *words_of(settings), data=tape)
        expect((status, warned, json.loads(printed)) == (0, "", {"file": "-", **said}), i, printed, said)
        line = run("counts", *words_of(settings), data=tape)[1].decode()
        expect(line.endswith(f", lines cautioned {len(said['cautioned'])}\n"), i, line, said)
        object_ = json.loads(run("counts", "--json", *words_of(settings), data=tape)[1])
        expect(object_["cautioned"] == len(said["cautioned"]), i, object_)
    expect(any_of == set(range(10)), "a kind is never told here", any_of)
    good, bad = folder / "a \"b\".tape", folder / "bad.tape"
    good.write_bytes(GOOD)
    bad.write_bytes(BAD)
    status, printed, warned = run("cautions", good, bad, good, folder / "none")
    line = f"{good}: cautioned lines: 0 of 1; {SILENCE}\n"
    expect((status, printed.decode()) == (1, line * 2) and f"{bad}: refused 4 at 0: " in warned and "4 files: 2 cleaned, 1 refused, 1 failed" in warned, status, printed, warned)
    status, printed, warned = run("cautions", "-q", "--json", good, bad)
    first, second = map(json.loads, printed.decode().splitlines())
    expect(status == 1 and first == {"file": str(good), "lines": 1, "cautioned": []} and second["refused"] == 4 and warned.count("\n") == 1, printed, warned)
    status, printed, warned = run("cautions", "--profile", data=b"\xff")
    expect((status, printed) == (1, b"") and "refused 14 at 0" in warned, status, printed, warned)
    status, printed, warned = run("cautions", "--filter-form", data=b"\x02" + GOOD)
    expect((status, printed.decode()) == (0, f"cautioned lines: 0 of 1; {SILENCE}\n"), status, printed, warned)
