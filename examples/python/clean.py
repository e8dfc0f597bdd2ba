"""Cleans the scope paper's filter example, `rax = f();` `return;`, and prints the counts and the new listing. From the repository's root, after
`bin/archive && bin/shared`:

    PYTHONPATH=bindings/python python3 examples/python/clean.py

Where the package is installed (pip install ./bindings/python), without PYTHONPATH.
"""
from puchkewa import Kind, Line, Listing, Refusal, Settings, Token, clean

raw = Listing([
    Line(tokens=[Token(Kind.REGISTER, "rax"), Token(Kind.PUNCT, " = "), Token(Kind.SYMBOL, "f"), Token(Kind.PUNCT, "();")]),
    Line(tokens=[Token(Kind.KEYWORD, "return"), Token(Kind.PUNCT, ";")]),
])
try:
    cleaned = clean(raw, Settings())
except Refusal as refusal:
    raise SystemExit(str(refusal))
print(f"attempts {sum(cleaned.counts.attempts)}, removed {cleaned.counts.removed}, cut {cleaned.counts.cut}")
for line in cleaned.listing.lines:
    print(line.text)
