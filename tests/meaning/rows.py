"""The rows of docs/DIFFERENCES.md that are about meaning, each with its listings, from rows.txt; and their confirmation by execution.

rows.txt, line by line (`#` begins a comment):

    row NAME                     a row of the page; its examples follow
    run CONVENTION MODE WORDS    an example: convention 0, 1 or 2, a mode of meaning.py, and of WORDS: families that are looked at in the end (rbx), `parts`,
                                 `edition_1`; `stands` where the page says that nothing is joined wrongly, and nothing differs
    clean CONVENTION             an example that is only cleaned and compared with the page: the model shows nothing of it as it stands
    two blanks and a line        of the raw listing, and behind a line `->` of the cleaned one, as the page says; one more blank for each step of indent
    rests NAME WORDS             a row that is not executed, and why

A row is confirmed if each of its examples is cleaned to the lines that stand there, by the library, if each `run` differs in its mode, and if naming.py
finds the row in the step that makes the difference. Of the cautions that the page's last column names each example raises one, and each is raised by some example.
"""
import pathlib
import re
from typing import NamedTuple

from cautions import KINDS, finished_cautions
from cleaning import Settings, finished, run_of
from differences import Original, step_that_differs
from listing import family, listing_of, listing_of_tape, tape_of, texts_of
from meaning import MODES
from naming import rows_of
from reading import NoC

HERE = pathlib.Path(__file__).resolve().parent
PAGE = HERE.parents[1] / "docs" / "DIFFERENCES.md"
STATES, SEEDS = 60, (1, 2, 3, 4)
# sections of the page whose rows are about what a run does; of the others (agreement, constants in edition 1) nothing is executed
SECTIONS = ("Names of registers", "Parts of registers", "Calling conventions", "Instructions and operations", "Integer constants in edition 0", "Sums",
            "Expressions", "Statements")


class Example(NamedTuple):
    row: str
    settings: Settings
    mode: str
    seen: tuple
    raw: tuple
    cleaned: tuple
    stands: bool


def read_rows(path=HERE / "rows.txt"):
    """The examples, and of the rows that are not executed the reason."""
    examples, rests, row, head, raw, cleaned, at = [], {}, None, None, [], [], None

    def done():
        if head is not None:
            convention, mode, *words = head if len(head) > 1 else (*head, None)
            settings = Settings(int(convention), "parts" in words, False, 1 if "edition_1" in words else 0)
            seen = tuple(w for w in words if w not in ("parts", "edition_1", "stands"))
            if not all(map(family, seen)):
                raise ValueError(f"{row}: {words}")
            examples.append(Example(row, settings, mode, seen, tuple(raw), tuple(cleaned), "stands" in words))

    for number, line in enumerate(path.read_text(encoding="utf-8").splitlines(), 1):
        if line.startswith("  "):
            at.append(line[2:])
            continue
        if not line.strip() or line.startswith("#"):
            continue
        word, *rest = line.split()
        if word == "->":
            at = cleaned
            continue
        done()
        head, raw, cleaned = None, [], []
        if word == "row":
            row, = rest
        elif word in ("run", "clean"):
            head, at = rest, raw
        elif word == "rests":
            rests[rest[0]] = " ".join(rest[1:])
        else:
            raise ValueError(f"{path.name}, line {number}")
    done()
    return examples, rests


def page_rows(path=PAGE):
    """The names of the page's rows in the sections that are about meaning."""
    out, is_asked = [], False
    for line in path.read_text(encoding="utf-8").splitlines():
        if line.startswith("## "):
            is_asked = line[3:].startswith(SECTIONS)
        elif is_asked and line.startswith(("| `", "| all: `")):
            out += re.findall(r"`([^`]+)`", line.split("|")[1])
    return out


def page_cautions(path=PAGE):
    """Of each row that names cautions their kinds."""
    out, is_asked = {}, False
    for line in path.read_text(encoding="utf-8").splitlines():
        cells = re.split(r"(?<!\\)\|", line)
        if line.startswith("| shown by"):
            is_asked = cells[-2].strip() == "caution"
        elif is_asked and line.startswith("| `"):
            kinds = [k for k in cells[-2].strip().split(", ") if k]
            out.update((name, kinds) for name in re.findall(r"`([^`]+)`", cells[1]) if kinds)
    return out


def raised(example):
    """The kinds of caution on the finished lines of an example."""
    return {KINDS[k] for found in finished_cautions(listing_of(example.raw), example.settings) for k in found}


def caution_faults(examples, kinds):
    """What of the page's column of cautions is not so."""
    found = {}
    for example in examples:
        if example.stands or example.row not in kinds:
            continue
        own = raised(example) & set(kinds[example.row])
        found.setdefault(example.row, set()).update(own)
        if not own:
            yield f"NO CAUTION of those named on {example.row}: {' '.join(example.raw)}"
    for row, kinds_of_row in kinds.items():
        yield from (f"NO KIND {kind}, which {row} names" for kind in kinds_of_row if kind not in KINDS)
        if row in found:
            yield from (f"NO EXAMPLE of {row} raises {kind}" for kind in kinds_of_row if kind not in found[row])


def example_fault(example, clean):
    """None, or what is not as the page says; and the words of the difference that was seen."""
    raw = listing_of(example.raw)
    tape, report = clean(tape_of(raw), example.settings)
    if report.refusal:
        return f"refused by {report.refusal}", None
    cleaned = listing_of_tape(tape)
    if tuple(texts_of(cleaned)) != example.cleaned:
        return f"the library makes of it {' '.join(texts_of(cleaned))}", None
    if example.mode is None:
        return None, ("cleaned so", [example.row])
    mode = MODES[example.mode]._replace(registers=example.seen)
    for seed in SEEDS:
        try:
            original = Original(raw, example.settings.convention, mode, seed, STATES)
            found = original.difference(cleaned)
        except NoC as fault:
            return f"the raw listing is no C: {fault}", None
        if found and not example.stands:
            step, _ = step_that_differs(original, run_of(raw, example.settings))
            return None, (found.words, rows_of(step, example.settings, raw, example.mode))
    if example.stands:
        return (f"it differs: {found.words}" if found else None), ("nothing, as the page says", [])
    return "no difference was seen", None


def confirm(clean, page, put):
    """Confirms every row and prints what was seen; answers the number of faults."""
    examples, rests = read_rows()
    faults, shown = 0, {}
    for example in examples:
        fault, seen = example_fault(example, clean)
        words = f"{example.row} [{example.mode}]"
        if fault:
            faults += 1
            put(f"NOT CONFIRMED {words}: {' '.join(example.raw)} -- {fault}")
            continue
        names = seen[1]
        is_named = example.stands or example.row in names
        if not is_named:
            faults += 1
        if example.mode and not example.stands:
            shown.setdefault(example.row, []).append(example)
        put(f"{'ok' if is_named else 'NOT NAMED'}  {words}: {seen[0]}" + ("" if is_named else f" (rows of its step: {names})"))
    for name, reason in rests.items():
        put(f"rests  {name}: {reason}")
    named = page_rows(page)
    known = {e.row for e in examples} | set(rests)
    for name in sorted(set(named)):
        if name in known and name not in rests and name not in shown and not any(e.row == name and e.stands for e in examples):
            faults += 1
            put(f"NOTHING SHOWS {name}")
        if name not in known:
            faults += 1
            put(f"NO LISTING of the page's row {name}")
    for name in sorted(known - set(named)):
        faults += 1
        put(f"NOT ON THE PAGE: {name}")
    kinds = page_cautions(page)
    for fault in caution_faults(examples, kinds):
        faults += 1
        put(fault)
    put(f"{len(kinds)} rows name cautions")
    put(f"{len(set(named))} rows on the page; {len(shown)} executed, {len(examples)} listings; {len(rests)} not executed; {faults} faults")
    return faults
