#!/usr/bin/env python3
"""Counts the places of issue 46's points in the sources, of the working tree or of a commit.

    tools/places.py [COMMIT] [--list POINT]

A row of the table is a rule: a pattern over the lines of crates/*/src/*.rt, or of crates/*/proofs for point 8. With --list the places of one
rule are printed. A place that stays has a comment that begins "// Kept:" within the five lines before it, or at the head of its file; the first of these
are counted beside the others.
"""
import argparse
import re
import subprocess
import sys

ENUM = re.compile(r"^\s*(?:pub(?:\([a-z]+\))? )?enum (\w+)")
ABSENT = {"Nothing", "None", "Nowhere", "Unread", "Not", "Missing", "Wrong", "Unknown", "CutOff", "Over", "Cut", "Breaks", "Refused", "Full"}
FN = re.compile(r"^\s*(?:pub(?:\([a-z]+\))? )?fn (\w+)")
RULES = [
    ("1", "enum-absent", "own enums with a variant that says that there is nothing, or a refusal", None),
    ("1", "number", "numbers for refusals, faults, verbs and the like in types and literals", re.compile(
        r"\b(number|fault|verb|goal|pending|option|addressed): (u64|[0-9]+)\b")),
    ("1", "sentinel", "a number that stands for nothing: NOTHING, and `or 0`, `or 4` in the comment of a function", re.compile(
        r"\bNOTHING\b|^// .*[,;:] (or )?(0|4|16|99)( |:|,|;)?(if|for|where|of|none|nothing|is none|$)")),
    ("2", "by-form", "functions and types that have a twin by name: _by, _from, _in beside the plain one", re.compile(r"^\s*(pub )?fn \w+_by\b")),
    ("3", "while", "while and loop", re.compile(r"^\s*(while (?!let)|loop \{)")),
    ("4", "cast", "conversions by `as`", re.compile(r"\bas (u64|usize|i64|u8|i32)\b")),
    ("4", "equality", "functions that compare, copy or fill slices by hand", re.compile(
        r"^\s*(pub )?fn (same|starts|ends|has_byte|copy_bytes|copy_words|wipe|same_bytes|equal|among|is_digit)\b")),
    ("5", "tape-area", "functions that take a tape and an area", None),
    ("5", "marks", "lines with the tables of lowest and highest addresses as two parameters", re.compile(r"\b(lows|highs): &")),
    ("6", "out-at", "functions that write into a slice from a place on and say where they end", re.compile(r"\bout: &mut \[u8\], (at|to): usize")),
    ("7", "switch", "a match on a number that says which step to run", re.compile(r"^\s*match (verb|class|request\.verb|goal)\b")),
]


def files(commit, kind):
    root = "crates"
    names = subprocess.run(["git", "ls-tree", "-r", "--name-only", commit, root] if commit else ["git", "ls-files", root],
                           capture_output=True, text=True, check=True).stdout.split()
    for name in names:
        part = name.split("/")
        if len(part) > 3 and part[2] == kind and name.endswith((".rt", ".antt")):
            if commit:
                text = subprocess.run(["git", "show", f"{commit}:{name}"], capture_output=True, text=True, check=True).stdout
            else:
                try:
                    text = open(name, encoding="utf-8").read()
                except FileNotFoundError:
                    continue
            yield name, text.split("\n")


def kept(lines, i):
    return any("// Kept:" in l for l in lines[max(0, i - 5):i + 1])


def enums(lines):
    for i, line in enumerate(lines):
        m = ENUM.match(line)
        if m:
            j, found = i + 1, []
            while not lines[j].startswith("}"):
                v = re.match(r"^    (\w+)", lines[j])
                if v:
                    found.append(v.group(1))
                j += 1
            if ABSENT & set(found):
                yield i


def pairs(lines):
    text = "\n".join(lines)
    for m in re.finditer(r"fn \w+(?:<[^>]*>)?\([^)]*?\btape: &(?:'a )?\[u8\],\s+area: &(?:'a )?(?:mut )?\[u8\]", text):
        yield text.count("\n", 0, m.start())


def main():
    ap = argparse.ArgumentParser()
    ap.add_argument("commit", nargs="?")
    ap.add_argument("--list")
    args = ap.parse_args()
    rows = {r[1]: [] for r in RULES}
    for name, lines in files(args.commit, "src"):
        for point, key, what, pattern in RULES:
            if key == "enum-absent":
                hits = enums(lines)
            elif key == "tape-area":
                hits = pairs(lines)
            else:
                hits = [i for i, l in enumerate(lines) if pattern.search(l) and "ghost use" not in l]
            rows[key] += [(name, i + 1, kept(lines, i), lines[i].strip()) for i in hits]
    for point, key, what, pattern in RULES:
        places = rows[key]
        if args.list == key:
            for name, i, k, line in places:
                print(f"{name}:{i}: {'kept: ' if k else ''}{line}")
        elif not args.list:
            print(f"{point} {key}: {len(places)} ({sum(p[2] for p in places)} with a reason): {what}")
    if not args.list:
        n = search = 0
        for name, lines in files(args.commit, "proofs"):
            n += len(lines) - 1
            search += sum(bool(re.search(r"= search rules$", l)) for l in lines)
        print(f"8 proofs: {n} lines, {search} answers that are `search rules` alone")


sys.exit(main())
