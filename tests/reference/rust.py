"""The Rust, pseudo_opt.rs: built beside a copy with hooks, and asked for the run of each listing."""
import subprocess
from pathlib import Path
from typing import NamedTuple

from listings import Line, Token

HERE = Path(__file__).resolve().parent

# Where a call is put into the copy. Each text stands in the Rust exactly once.
HOOKS = [
    ("    let mut changed = false;\n    let mut i = 0;\n",
     "    let mut changed = false;\n    let mut i = 0;\n    crate::probe::round();\n"),
    ("        if try_at(lines, i, &labels, &addressed, volatile) {\n",
     "        if crate::probe::attempt(try_at(lines, i, &labels, &addressed, volatile), lines) {\n"),
    ("            lines[i].tokens.drain(..2);\n",
     "            lines[i].tokens.drain(..2);\n            crate::probe::cut(lines);\n"),
]


class Answer(NamedTuple):
    """What the Rust did: attempts of three rounds, removals and cuts, and the listing after each step."""
    counts: tuple
    steps: list

    def removed(self):
        return self.counts[3]

    def cuts(self):
        return self.counts[4]


def build(source, folder):
    """Compiles the driver in its release form; answers the program's path."""
    folder.mkdir(parents=True, exist_ok=True)
    text = Path(source).read_text(encoding="utf-8")
    (folder / "unchanged.rs").write_text(text, encoding="utf-8")
    for old, new in HOOKS:
        if text.count(old) != 1:
            raise RuntimeError(f"the place of a hook was found {text.count(old)} times, not once: {old!r}")
        text = text.replace(old, new)
    (folder / "instrumented.rs").write_text(text, encoding="utf-8")
    for file in (HERE / "driver.rs", HERE.parent / "stand_ins.rs"):
        (folder / file.name).write_text(file.read_text(encoding="utf-8"), encoding="utf-8")
    program = folder / "driver"
    subprocess.run(
        ["rustc", "--edition", "2021", "-C", "opt-level=3", "-C", "overflow-checks=off", "-C", "debug-assertions=off",
         "-A", "dead_code", "-o", str(program), str(folder / "driver.rs")], check=True)
    return program


def written(convention, listing):
    rows = [f"listing {convention}"]
    for line in listing:
        rows.append(f"line {'-' if line.address is None else line.address} {line.indent}")
        rows.extend(f"{t.kind}{t.text}" for t in line.tokens)
    rows.append("end")
    return "\n".join(rows) + "\n"


def read_listing(rows):
    """The listing whose first row was taken already."""
    lines = []
    for row in rows:
        if row == "end":
            return tuple(Line(a, i, tuple(ts)) for a, i, ts in lines)
        if row.startswith("line "):
            address, indent = row.split(" ")[1:]
            lines.append((None if address == "-" else int(address), int(indent), []))
        else:
            lines[-1][2].append(Token(int(row[0]), row[1:]))
    raise RuntimeError("the driver's output ends inside a listing")


def answers(program, cases):
    """The Rust's answer for each (convention, listing)."""
    text = "".join(written(c, l) for c, l in cases)
    ran = subprocess.run([str(program)], input=text, capture_output=True, text=True)
    if ran.returncode != 0:
        raise RuntimeError(f"the driver failed:\n{ran.stderr}")
    rows = iter(ran.stdout.split("\n"))
    out = []
    for _, listing in cases:
        head = next(rows).split(" ")
        steps, last = [], listing
        for row in rows:
            if row == "done":
                break
            if row != "same":
                last = read_listing(rows)
            steps.append(last)
        out.append(Answer(tuple(map(int, head[1:])), steps))
    return out
