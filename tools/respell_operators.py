#!/usr/bin/env python3
"""Gives the repository's own operators names of their own; run after respell.py, at the top. It may be run again.

`rt ci` keeps the names of the library's operators for the library. So the shut `&&`, `||` and `if .. then .. else ..` of
reference/specs/Control and the `==` of texts of reference/specs/Text are written `and`, `or`, `when .. then .. else ..` and `≟`. Only antt is
turned: specs/, proofs/, the clauses and ghost uses of src/, and the lines of edits that are antt. Comments and strings stay.
"""
import glob
import re
import sys

NAMES = {'◌&&◌': '◌and◌', '◌||◌': '◌or◌', 'if◌then◌else◌': 'when◌then◌else◌', '◌==◌': '◌≟◌'}
TOKENS = {'&&': 'and', '||': 'or', 'if': 'when', '==': '≟', '◌==': '◌≟', '==◌': '≟◌', '◌&&': '◌and', '&&◌': 'and◌', '◌||': '◌or', '||◌': 'or◌', **NAMES}
WORD = re.compile(r"[^\s(){}\[\];,.λ\"]+")


LIBRARY = set()  # the operators that the file at hand takes from the library


def turn(code):
    return WORD.sub(lambda m: m.group(0) if m.group(0) in LIBRARY else TOKENS.get(m.group(0), m.group(0)), code)


def turn_line(line, comment):
    out, at = [], 0
    for part in re.split(r'("(?:[^"\\]|\\.)*")', line):
        if part.startswith('"') and len(part) > 1:
            out.append(part)
        else:
            k = re.search(r"(?:^|\s)" + re.escape(comment), part)
            if k:
                return ''.join(out) + turn(part[:k.start()]) + line[at + k.start():]
            out.append(turn(part))
        at += len(part)
    return ''.join(out)


def antt(text):
    return '\n'.join(turn_line(l, '--') for l in text.split('\n'))


def clauses(text):
    """Turns the clauses and ghost uses of a source file."""
    out, at = [], 0
    for m in re.finditer(r"\b(?:requires|ensures)\*?(?: \w+)? \{|^ghost use [^;]*;|\bghost \w+: \{|\bghost \w+ = \{", text, re.M):
        if m.start() < at:
            continue
        line = text[text.rfind('\n', 0, m.start()) + 1:m.start()]
        if '//' in line:
            continue
        end = m.end()
        if m.group(0).endswith('{'):
            depth, end = 1, m.end()
            while depth and end < len(text):
                depth += {'{': 1, '}': -1}.get(text[end], 0)
                end += 1
        out.append(text[at:m.start()] + turn_line(text[m.start():end], '//'))
        at = end
    return ''.join(out) + text[at:]


def edit(text):
    out, file = [], ''
    for l in text.split('\n'):
        if l.startswith('file: '):
            file = l[6:].strip()
        m = re.match(r"(old: |new: )(.*)$", l)
        if m and file.endswith('.antt'):
            l = m.group(1) + turn_line(m.group(2), '--')
        elif m and re.search(r"\b(requires|ensures)\b|ghost use", m.group(2)):
            l = m.group(1) + clauses(m.group(2))
        out.append(l)
    return '\n'.join(out)


def main():
    foreign = re.compile(r"use Rattle\.std\.specs\.Prelude\.\{([^}]*)\}")
    count = 0
    for pattern, how in (('crates/*/specs/**/*.antt', antt), ('crates/*/proofs/**/*.antt', antt), ('crates/*/src/**/*.rt', clauses),
                         ('crates/*/must-fail/*.edit', edit), ('tests/edits/*/*.edit', edit)):
        for f in sorted(glob.glob(pattern, recursive=True)):
            if '/out/' in f:
                continue
            old = open(f).read()
            taken = [n.strip() for names in foreign.findall(old) for n in names.split(',')]
            LIBRARY.clear()
            LIBRARY.update(w for n in taken if n in NAMES for w in (n, n.replace('◌', ''), 'if') if w != 'if' or n.startswith('if'))
            new = how(old)
            if new != old:
                open(f, 'w').write(new)
                count += 1
    print(count, 'files', file=sys.stderr)


main()
