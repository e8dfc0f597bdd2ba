#!/usr/bin/env python3
"""Brings the repository's own definitions and lemmas to today's spelling of names; run once, after port.py, at the top.

Fields, constructors, definitions of specs/ and record members are written in snake case. A lemma keeps a dash where it joins two names, that
is where both sides of it begin with the name of a definition (as `length-drop`); elsewhere a dash becomes an underscore. Names of Rust
functions, strings, and names that come from outside the repository keep their spelling. It stops where two names would fall together.
"""
import glob
import os
import re
import sys
import collections

TOKEN = re.compile(r"[^\s(){}\[\];,.λ\"`:|→×=≡]+")
HEAD = re.compile(r"^(\s*)((?:(?:abbrev|unfoldable|pub|record|data|ruleset|axiom)\s+)*)([^\s(){}\[\];,.:λ\"]+)(\s+)(:|=)\s")
BLOCK = re.compile(r"^(\s*)(?:(?:abbrev|unfoldable|pub)\s+)*(record|data|module)\s+([^\s(){}\[\];,.:λ\"]+)")


def own_crates():
    return [l.split(':')[0].split()[0] for l in open('crates.txt') if l.strip() and not l.startswith('#')]


def files(*patterns):
    return sorted(f for p in patterns for f in glob.glob(p, recursive=True) if '/out/' not in f)


def declared(f):
    """(name, kind) for each name that the file declares; kinds: field, constructor, def."""
    stack = []  # (indent, kind)
    for l in open(f):
        if not l.strip() or l.lstrip().startswith(('--', 'use ', 'pub use ', 'let ')):
            continue
        indent = len(l) - len(l.lstrip())
        while stack and indent <= stack[-1][0]:
            stack.pop()
        b = BLOCK.match(l)
        if b:
            if b.group(2) != 'module':
                yield b.group(3), 'type'
            stack.append((indent, b.group(2)))
            continue
        if stack and stack[-1][1] == 'skip':
            continue
        m = HEAD.match(l)
        if m and m.group(5) == ':':
            inside = stack[-1][1] if stack else None
            kind = {'record': 'field', 'data': 'constructor'}.get(inside, 'def')
            yield m.group(3), kind
            if kind == 'def':
                stack.append((indent, 'skip'))
        elif stack and stack[-1][1] == 'data' and re.match(r"^\s*(?:pub )?[\w\-\d]+(\s+[\w\-\d]+)*\s*:\s", l):
            for n in l.split(':')[0].replace('pub ', '').split():
                yield n, 'constructor'


def main():
    own = own_crates()
    antt = files('crates/*/specs/**/*.antt', 'crates/*/proofs/**/*.antt')
    rt = files('crates/*/src/**/*.rt')
    kinds = collections.defaultdict(set)
    outside = set()
    for f in antt:
        text = open(f).read()
        for m in re.finditer(r"^\s*(?:pub )?use ([^\s{]+)\{([^}]*)\}", text, re.M):
            if not re.match(r"Rattle\.(%s)\." % '|'.join(own), m.group(1)):
                outside |= set(re.split(r"[\s,]+", m.group(2)))
        proof = f.endswith('/Proof.antt')
        if os.path.basename(f) == 'Lib.antt':
            continue
        for name, kind in declared(f):
            if proof and re.search(r"^\s*(?:abbrev )?(?:pub )?%s : (tie\.|\{M : Type 1\})" % re.escape(name), text, re.M):
                kinds[name].add('goal')
            elif kind == 'def':
                kinds[name].add('spec' if '/specs/' in f else 'lemma')
            else:
                kinds[name].add(kind)
    names = {n for n, k in kinds.items() if k & {'spec', 'field', 'type', 'constructor'}}
    names |= {re.sub(r'-', '_', n) for n in names}
    names |= {n for n in outside if n and '-' not in n}
    names |= {'bytes', 'empty', 'nil', 'cons'}
    dull = {'is', 'at', 'in', 'of', 'to', 'as', 'a', 'b', 'c', 'by', 'and', 'or', 'no', 'one', 'two', 'it', 'left', 'none', 'some', 'end', 'same',
            'text', 'size', 'place', 'new', 'old', 'more', 'here', 'line', 'kind', 'value', 'number'}

    def begins(parts):
        for k in range(len(parts), 0, -1):
            w = '_'.join(parts[:k])
            if w in names and w not in dull:
                return True
        return False

    def spelled(n):
        if '-' not in n:
            return n
        parts = n.split('-')
        if any(p == '' for p in parts):
            return n
        if n[0].isupper() and (kinds[n] & {'spec', 'type'} or n in {'Found-here', 'Line-noting', 'Lines-noting', 'Verdict-by'}):
            return parts[0] + ''.join(p[0].upper() + p[1:] for p in parts[1:])
        if kinds[n] & {'spec', 'field', 'constructor', 'type'}:
            return '_'.join(parts)
        out, chunk = '', [parts[0]]
        for i in range(1, len(parts)):
            rest = parts[i:]
            if begins(chunk) and begins(rest):
                out += '_'.join(chunk) + '-'
                chunk = []
            chunk.append(parts[i])
        return out + '_'.join(chunk)

    table = {}
    for n, k in kinds.items():
        if n in outside or k == {'goal'}:
            continue
        s = spelled(n)
        if s != n:
            table[n] = s
    # mixfix names: the words between the holes
    for n, s in list(table.items()):
        if '◌' in n:
            for a, b in zip(n.split('◌'), s.split('◌')):
                if a != b:
                    table[a] = b
    # names that fall together
    seen = collections.defaultdict(set)
    for n in list(kinds) + [x for x in outside if x]:
        seen[table.get(n, n)].add(n)
    bad = {s: ns for s, ns in seen.items() if len(ns) > 1}
    for s, ns in sorted(bad.items()):
        print('fall together:', s, sorted(ns), file=sys.stderr)
        for n in ns:
            if n in table:
                table[n] = table[n] + '_lem' if s in outside or s in kinds else table[n] + "_law"
    fields = {n for n in table if kinds[n] & {'field'}}

    def turn_code(code, proof):
        def one(m):
            w = m.group(0)
            if w not in table:
                # a tick or an operator section at the edge, as (◌== x)
                return w
            before = code[:m.start()]
            if before.endswith('.'):
                head = re.search(r"([^\s(){}\[\];,λ\"]*)\.$", before)
                head = head.group(1) if head else ''
                last = head.split('.')[-1]
                if w in fields and not (last and last[0].isupper() and '.' in head):
                    return table[w]
                if last and (last[0].isupper() or head in ('Rattle',)):
                    return table[w]
                return w if w not in fields else table[w]
            if proof and kinds[w] & {'goal'} and re.match(r"\s*(c|:|κs)", code[m.end():]) and before.strip() == '':
                return w
            return table[w]
        return TOKEN.sub(one, code)

    def turn(text, comment, proof=False, quote='"'):
        lines = []
        for l in text.split('\n'):
            # strings stay; a comment only in its ticked names
            parts = re.split(r'("(?:[^"\\]|\\.)*")', l)
            done, in_comment = [], False
            for p in parts:
                if in_comment:
                    done.append(ticked(p))
                elif p.startswith('"') and len(p) > 1:
                    done.append(p)
                else:
                    k = p.find(comment)
                    if k >= 0 and (k == 0 or p[k - 1] in ' \t' ) and (comment == '//' or p[k:k + 3] in ('-- ', '--') or p[k:k+2] == '--'):
                        done.append(turn_code(p[:k], proof) + ticked(p[k:]))
                        in_comment = True
                    else:
                        done.append(turn_code(p, proof))
            lines.append(''.join(done))
        return '\n'.join(lines)

    def ticked(p):
        return re.sub(r"`([^`]+)`", lambda m: '`' + turn_code(m.group(1), False) + '`', p)

    for f in antt:
        old = open(f).read()
        new = turn(old, '--', f.endswith('/Proof.antt'))
        if new != old:
            open(f, 'w').write(new)
    for f in rt:
        old = open(f).read()
        new = turn(old, '//')
        if new != old:
            open(f, 'w').write(new)
    with open('tools/respelled.tsv', 'w') as out:
        for n in sorted(table):
            out.write('%s\t%s\n' % (n, table[n]))
    print(len(table), 'names respelled', file=sys.stderr)


main()
