#!/usr/bin/env python3
"""Two spellings in contracts that respell.py leaves; run after it, at the top. It may be run again.

`was x` in a clause, what the reference x referred to when the function was called, is `x.old` where x is a `&mut` and `x.now` where it is a
`&`. A name behind the short name of a module, as `reference.read-i64`, gets its spelling of respelled.tsv.
"""
import glob
import re

TABLE = dict(l.rstrip('\n').split('\t') for l in open('tools/respelled.tsv'))


def parameters(chunk):
    """How each parameter of the function at the head of chunk is passed: old for a `&mut`, now for a `&`."""
    start, depth = chunk.find('('), 0
    for end in range(start, len(chunk)):
        depth += {'(': 1, ')': -1}.get(chunk[end], 0)
        if depth == 0:
            break
    parts, part, depth = [], '', 0
    for c in chunk[start + 1:end]:
        depth += {'(': 1, '[': 1, '<': 1, ')': -1, ']': -1, '>': -1}.get(c, 0)
        if c == ',' and depth == 0:
            parts.append(part)
            part = ''
        else:
            part += c
    kinds = {}
    for p in parts + [part]:
        m = re.match(r"\s*(?:mut\s+)?(\w+)\s*:\s*(&\s*(?:'\w+\s+)?(mut\b)?)?", p)
        if m and m.group(2):
            kinds[m.group(1)] = 'old' if m.group(3) else 'now'
        m = re.match(r"\s*&\s*(?:'\w+\s+)?(mut\s+)?self\b", p)
        if m:
            kinds['self'] = 'old' if m.group(1) else 'now'
    return kinds


def contracts(text):
    heads = [m.start() for m in re.finditer(r"\bfn\s+\w+", text)] + [len(text)]
    out = text[:heads[0]]
    for a, b in zip(heads, heads[1:]):
        chunk = text[a:b]
        kinds = parameters(chunk)
        body = re.search(r"^\{", chunk, re.M)
        end = body.start() if body else len(chunk)
        turn = lambda m: m.group(1) + '.' + kinds[m.group(1)] if m.group(1) in kinds else m.group(0)
        head = re.sub(r"\(was (\w+)\)", turn, chunk[:end])
        out += re.sub(r"(?<![\w.])was (\w+)(?![\w.])", turn, head) + chunk[end:]
    return re.sub(r"ghost use Rattle\.reference\.specs\.Contract\.\{was\};\n", "", out)


def short_names(text):
    short = [a for a in re.findall(r"use Rattle\.[\w.+]+ as ([\w\-]+)", text) if a not in ('tie', 'goal')]
    if not short:
        return text
    of = r"(?<![\w\-.'])((?:%s)\.)([^\s(){}\[\];,.λ\"]+)" % '|'.join(map(re.escape, short))
    return re.sub(of, lambda m: m.group(1) + TABLE.get(m.group(2), m.group(2)), text)


for pattern in ('crates/*/src/**/*.rt', 'crates/*/specs/**/*.antt', 'crates/*/proofs/**/*.antt'):
    for f in sorted(glob.glob(pattern, recursive=True)):
        if '/out/' in f:
            continue
        old = open(f).read()
        new = short_names(old)
        if f.endswith('.rt') and 'was ' in new:
            new = contracts(new)
        if new != old:
            open(f, 'w').write(new)
            print(f)
