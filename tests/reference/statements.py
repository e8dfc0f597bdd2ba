"""The Rust's answers as statements over the definitions of crate `reference`, and their check by computation."""
import re
import shutil
import subprocess
from pathlib import Path

from listings import LETTERS

HERE = Path(__file__).resolve().parent
CRATE = HERE.parent.parent / "crates" / "reference"
SPEC = "Rattle.reference.specs."

# The modules that a statement speaks of, and the one that opens every definition: it is of the crate's proofs, and here stands behind the definitions.
ROOTS = ["Run", "Rules", "Listing", "Text", "Opened"]

HEAD = """use Prim.Native.Nat.{ℕ}
use Prim.Native.String.{String}
use mathlib.Core.Path.{◌≡◌, refl}
use mathlib.Core.Bool.{false}
use mathlib.Core.List.{List, [], ◌∷◌}
use mathlib.Core.Option.{Option, none, some}
use Rattle.reference.specs.Text.{bytes}
use Rattle.reference.specs.Listing.{Token, token, Line, Listing}
use Rattle.reference.specs.Rules.{Rules}
use Rattle.reference.specs.Run.{run, listings, finished, three, Counts, counts}
"""

NOTATION = HEAD + "\n" + "\n".join(f"abbrev pub {c} : String → Token\n{c} s = token {k} (bytes s)\n" for k, c in enumerate(LETTERS)) + """
abbrev pub line : Option ℕ → ℕ → List Token → Line
line a i ts = record { address = a; indent = i; tokens = ts }

abbrev pub made : ℕ → ℕ → ℕ → ℕ → ℕ → Counts
made a b c r x = record { tally = three a b c; lines_removed = r; results_cut = x }

abbrev pub under : ℕ → Rules
under c = record { convention = c; settle = false; edition = 0; parts = false; profile = false }

-- every listing of the run, the finished one, and the counts
abbrev pub Runs : ℕ → Listing → List Listing → Listing → Counts → Type 0
Runs c input all last made = (listings (under c) input ≡ all) × (finished (under c) input ≡ last) × (counts (under c) (run (under c) input) ≡ made)
"""

CASES = HEAD + f"""use Rattle.reference.specs.Opened.{{opened}}
use Rattle.notation.specs.Notation.{{{', '.join(LETTERS)}, line, made, Runs}}
"""


# statements to a crate
BLOCK = 100

FAULT = re.compile(r": error: `case_(\d+)`")
SECTION = re.compile(r"^== (\w+)\n(.*?)(?=^== )", re.M | re.S)


def quoted(text):
    return '"' + text.replace("\\", "\\\\").replace('"', '\\"') + '"'


def listed(items):
    return "(" + " ∷ ".join([*items, "[]"]) + ")"


def line_term(line):
    address = "none" if line.address is None else f"(some {line.address})"
    return f"line {address} {line.indent} " + listed(f"{LETTERS[t.kind]} {quoted(t.text)}" for t in line.tokens)


def statement(index, convention, listing, answer):
    """What the Rust did with the listing, as the declaration `case_INDEX`; each different listing of the run is written once."""
    out, names = [], {}

    def name(some):
        if some not in names:
            names[some] = f"listing_{index}_{len(names)}"
            out.append(f"abbrev {names[some]} : Listing\n{names[some]} = {listed(map(line_term, some))}\n")
        return names[some]

    every = [name(l) for l in (listing, *answer.steps)]
    made = " ".join(map(str, answer.counts))
    out.append(f"pub case_{index} : Runs {convention} {every[0]} {listed(every)} {every[-1]} (made {made})\n"
               f"unfolding opened\ncase_{index} = (refl, refl, refl)\n")
    return "\n".join(out)


def write_crate(root, name, modules):
    folder = root / "crates" / name
    (folder / "src").mkdir(parents=True)
    (folder / "specs").mkdir()
    (folder / "src" / "lib.rt").write_text("// Statements only.\n#![tactic(auto)]\n")
    for module, text in modules.items():
        (folder / "specs" / f"{module}.antt").write_text(text, encoding="utf-8")
    (folder / "specs" / "Lib.antt").write_text("".join(f"pub mod {m}\n" for m in modules))


def definitions(edit=None):
    """The modules of crate `reference` that the statements reach, in the order of its Lib.antt, with the edit (module, old, new) made."""
    found, todo = {}, list(ROOTS)
    while todo:
        module = todo.pop()
        if module not in found:
            found[module] = (CRATE / ("proofs" if module == "Opened" else "specs") / f"{module}.antt").read_text(encoding="utf-8")
            todo += re.findall(rf"^use {re.escape(SPEC)}(\w+)", found[module], re.M)
    if edit:
        module, old, new = edit
        if found[module].count(old) != 1:
            raise RuntimeError(f"the text to edit is {found[module].count(old)} times in {module}.antt, not once: {old}")
        found[module] = found[module].replace(old, new)
    order = re.findall(r"^pub mod (\w+)", (CRATE / "specs" / "Lib.antt").read_text(encoding="utf-8"), re.M)
    return {m: found[m] for m in [*order, "Opened"] if m in found}


def write_repository(root, cases, edit=None):
    """A repository with the definitions and, for each BLOCK cases (index, convention, listing, answer), a crate of statements."""
    if root.exists():
        shutil.rmtree(root)
    write_crate(root, "reference", definitions(edit))
    write_crate(root, "notation", {"Notation": NOTATION})
    rows, names = ["reference:", "notation: reference"], []
    for at in range(0, len(cases), BLOCK):
        names.append(f"cases_{at // BLOCK}")
        write_crate(root, names[-1], {"Cases": CASES + "\n" + "\n".join(statement(*c) for c in cases[at:at + BLOCK])})
        rows.append(f"{names[-1]}: reference notation")
    (root / "crates.txt").write_text("\n".join(rows) + "\n")
    return names


def check(root, names):
    """Checks the crates with `rt`; answers the numbers of the statements that do not hold."""
    words, folder = (["check"], root / "crates" / names[0]) if len(names) == 1 else (["all", "check"], root)
    ran = subprocess.run(["rt", *words], cwd=folder, stdout=subprocess.PIPE, stderr=subprocess.STDOUT, text=True)
    # `rt all check` puts `== NAME` before what it says of a crate
    said = {names[0]: ran.stdout} if len(names) == 1 else dict(SECTION.findall(ran.stdout))
    wrong = set()
    for name in names:
        text = said.get(name, "")
        faults = FAULT.findall(text)
        wrong.update(map(int, faults))
        last = text.rstrip("\n").rpartition("\n")[2]
        if not last.startswith("logic=proved") and (not last.startswith("logic=not-proved") or text.count(": error: ") != len(faults)):
            raise RuntimeError(f"{name} could not be checked:\n{(text or ran.stdout)[:4000]}")
    if (ran.returncode == 0) != (not wrong):
        raise RuntimeError(f"rt ended with status {ran.returncode}:\n{ran.stdout[-4000:]}")
    return wrong
