"""Which finished line may mean something else than the lines it was made of, and why: ten kinds of caution.

Written from the words of issue 39, beside the definitions of crates/cautions/specs, whose names it has; the library's cautions are compared with these. A caution is
put on a line at each join and each cut (a `Step` of cleaning.py), by what the listing just before it says; a line that is joined into others hands its own on to them.
`finished_cautions` answers the set of each finished line.

Lines are looked at as tokens. Nothing here is run, and nothing of meaning.py is used.
"""
from functools import lru_cache

from cleaning import VOLATILE, around, assignment, call_at, is_label, is_operator_expression, is_standalone, low_bit, number, run_of
from listing import ADDRESS, KEYWORD, NUMBER, PREFIX, PUNCT, REGISTER, SYMBOL, TEXT, Line, Token, family, family_of

KINDS = ("odd-form", "still-read", "overwritten", "call-moved", "read-moved", "other-width", "other-text", "odd-number", "slot", "handed-over")
ODD_FORM, STILL_READ, OVERWRITTEN, CALL_MOVED, READ_MOVED, OTHER_WIDTH, OTHER_TEXT, ODD_NUMBER, SLOT, HANDED_OVER = range(10)


# ---- texts and tokens that are not looked into

def marks(text):
    """How often a Punct changes something: `++`, `--`, and each `=` that is of none of `==`, `!=`, `<=`, `>=`."""
    before, count = "", 0
    for k, c in enumerate(text):
        behind = text[k + 1:k + 2]
        if c == "=" and behind != "=" and before not in ("=", "!", "<", ">") or c == before and c in "+-":
            count += 1
        before = "" if c == before and c in "<>" else c     # behind `<<` and `>>` a `=` is of `<<=`, `>>=`
    return count


def marks_of(tokens):
    return sum(marks(t.text) for t in tokens if t.kind == PUNCT)


def has_bare_star(text):
    """A `*` without a blank on one of its sides: a read or a store that the Rust does not see."""
    return any(c == "*" and (text[k - 1:k] != " " or text[k + 1:k + 2] != " ") for k, c in enumerate(text))


def is_strange(token):
    if token.kind == KEYWORD:
        return token.text.startswith("_")
    if token.kind in (TEXT, PREFIX):
        return token.text != " "
    if token.kind == SYMBOL:
        return token.text == "sizeof"       # looks like a call, and is none
    return token.kind == PUNCT and ("&&" in token.text or "||" in token.text or has_bare_star(token.text))


def calls_register(tokens):
    return any(a.kind == REGISTER and b.kind == PUNCT and b.text.startswith("(") for a, b in zip(tokens, tokens[1:]))


def frame(tokens):
    """The texts of the Puncts, each other token as `w`; the Keyword `((void (*)())` has one bracket that stays open."""
    return "".join(t.text if t.kind == PUNCT else "(" if t.kind == KEYWORD and t.text.startswith("((void") else "w" for t in tokens)


def deeper(c, depth):
    return depth + 1 if c == "(" else max(0, depth - 1) if c == ")" else depth


def outside(text):
    """The bytes outside brackets."""
    out, depth = "", 0
    for c in text:
        out += c if depth == 0 and c not in "()" else ""
        depth = deeper(c, depth)
    return out


@lru_cache(100_000)
def is_opaque(tokens):
    """The line may read and write every register and all memory: it has a strange token, or changes more than one thing, or something inside brackets, or has a
    comma outside brackets, behind which C evaluates more."""
    count, top = marks_of(tokens), outside(frame(tokens))
    return any(map(is_strange, tokens)) or calls_register(tokens) or count > 1 or marks(top) < count or "," in top


# ---- forms

CONTROL = frozenset("if else do while for goto return break continue switch case default".split())


@lru_cache(100_000)
def form(tokens):
    """A line's words of control, and behind them its bytes `{`, `}`, `:`, `;` and `?`: of `if (rax) goto L;` that is `ifgoto;`."""
    words = "".join(t.text for t in tokens if t.kind == KEYWORD and t.text in CONTROL)
    return words + "".join(c for t in tokens if t.kind == PUNCT for c in t.text if c in "{}:;?")


def is_case(tokens):
    return form(tokens).startswith(("case", "default"))


def statement_form(tokens):
    """The form without the labels and cases in front; a label alone, or a case alone, has `:`."""
    kept = form(tokens).replace("case", "").replace("default", "")
    return kept.replace(":", "") or kept[:1]


def is_guarded(tokens):
    """What the line does hangs on a condition in front of it."""
    return statement_form(tokens) in ("if;", "ifreturn;", "elseif}{")


# ---- the lines that may come next

FALLING = (";", ":", "{", "{}", "if;", "do{")


class Ways:
    """The lines that may come next after each line of a listing. The number behind the last line stands for the caller."""

    def __init__(self, lines):
        self.lines, self.forms = lines, [statement_form(line.tokens) for line in lines]
        self.labels = {line.tokens[0].text: k for k, line in enumerate(lines) if is_label(line)}
        self.exit = len(lines)
        self.closers, self.openers = {}, {}
        self.known = {}
        self.match_braces()

    def match_braces(self):
        """Which line closes the block that a line opens."""
        opened = []
        for k, found in enumerate(self.forms):
            for c in found:
                if c == "}" and opened:
                    opener = opened.pop()
                    self.closers[opener] = k
                    self.openers.setdefault(k, opener)
                elif c == "{":
                    opened.append(k)

    def jump(self, k):
        """Where the line's `goto` goes, or None."""
        tokens = self.lines[k].tokens
        place = tokens.index(Token(KEYWORD, "goto"))
        return self.labels.get(next((t.text for t in tokens[place + 1:] if t.kind == SYMBOL), None))

    def returns_to(self, k):
        """A bare `return;` hands the registers to the caller; `return e;` hands over e."""
        return (self.exit,) if self.lines[k].tokens[-2:-1] == (Token(KEYWORD, "return"),) else ()

    def next(self, k):
        """The lines that may come next, or None where the line's form is not known."""
        if k not in self.known:
            found = self.next_of(k, self.forms[k])
            self.known[k] = None if found is None or None in found else found
        return self.known[k]

    def next_of(self, k, f):
        if f in FALLING or k == 0 and f == "":
            return (k + 1,)
        if f == "goto;":
            return (self.jump(k),)
        if f == "ifgoto;":
            return (k + 1, self.jump(k))
        if f == "return;":
            return self.returns_to(k)
        if f == "ifreturn;":
            return (k + 1, *self.returns_to(k))
        if f == "while};":
            return (k + 1, self.openers.get(k)) if self.forms[self.openers.get(k, k)] == "do{" else None
        if f == "}":
            return (k + 1,) if self.forms[self.openers.get(k, k)] in ("{", "if{", "switch{", "else}{", "elseif}{") else None
        closer = self.closers.get(k)
        if closer is None:
            return None
        behind = closer + 1 if self.forms[closer] == "else}{" else closer      # where a condition that is false leads
        if f == "if{":
            return (k + 1, behind)
        if f == "elseif}{":                                                    # reached from the branch above it too, and then all is passed over
            return (k + 1, behind, closer)
        if f == "else}{":                                                      # reached from the branch above it
            return (closer,)
        if f == "switch{":
            return (*(m for m in range(k + 1, closer) if is_case(self.lines[m].tokens)), closer)
        return None

    def hangs(self, k):
        """The line above, labels left out, has no known form: an `if (..)` alone, on which the line hangs."""
        above = next((m for m in range(k - 1, -1, -1) if self.forms[m] != ":"), None)
        return above is not None and self.next(above) is None

    def is_dark(self, k):
        """The line is not looked into."""
        return self.next(k) is None or is_opaque(self.lines[k].tokens)


# ---- how far a value goes

def names(tokens, fam):
    return any(family_of(t) == fam for t in tokens)


@lru_cache(100_000)
def kills(tokens, fam):
    """A plain assignment that overwrites the family."""
    found = assignment(Line(0, tokens))
    known = family(found[0].text) if found else None
    return bool(known) and known[0] == fam and known[1] >= 32 and not names(found[1], fam)


@lru_cache(100_000)
def calls(tokens):
    """The number of call marks."""
    return sum(a.kind == SYMBOL and b.kind == PUNCT and b.text.startswith("(") or a.kind == KEYWORD and a.text.startswith("((void")
               for a, b in zip(tokens, tokens[1:]))


def ends(tokens, fam, volatile):
    """The line overwrites the family in any case."""
    return not is_guarded(tokens) and (kills(tokens, fam) or fam in volatile and calls(tokens) > 0)


def reads(tokens, fam):
    return names(tokens, fam) and not kills(tokens, fam)


def reached(ways, i, fam, volatile):
    """The lines, and perhaps the caller, that the value which line i gives the family may reach."""
    seen, stack = set(), list(ways.next(i) or ())
    while stack:
        k = stack.pop()
        if k in seen:
            continue
        seen.add(k)
        if k < ways.exit and k != i and not ways.is_dark(k) and not ends(ways.lines[k].tokens, fam, volatile):
            stack += ways.next(k)
    return seen


# ---- what is handed over unseen

FIRST_ARGUMENTS = (("rcx", "rdx"), ("rdi",), ("rcx",))


def takes_unspelt(tokens, fam, convention):
    """A call with no arguments spelt (in 32-bit code: any call), which may find one in the register."""
    return fam in FIRST_ARGUMENTS[convention] and calls(tokens) > 0 and (convention == 0 or any(t.kind == PUNCT and "()" in t.text for t in tokens))


def is_for_caller(lines, fam, volatile):
    """A caller finds the result, and the registers that calls preserve."""
    is_void = lines[0].tokens[:1] == (Token(KEYWORD, "void"),)
    return fam == "rax" and not is_void or fam not in volatile and not fam.startswith("var_")


# ---- what tokens read

def is_cell(token):
    """A stack slot, or another name of kind Register that is no general register."""
    return token.kind == REGISTER and (token.text.startswith("var_") or family(token.text) is None)


def world(tokens):
    """A read of memory that has a name or an address; a callee's name and what `&` stands before are none."""
    for p, t in enumerate(tokens):
        if t.kind == KEYWORD and t.text.startswith("*("):
            return True
        before, behind = around(tokens, p)
        if t.kind == SYMBOL and not before.endswith("&") and not behind.startswith("("):
            return True
    return False


def memory(tokens):
    return world(tokens) or any(map(is_cell, tokens))


def changeable(tokens, volatile):
    """What a call may change."""
    return memory(tokens) or any(family_of(t) in volatile for t in tokens)


# ---- beside a use

def only_writes(tokens):
    """The line stores its value by ` = `: what its first token names is only written."""
    return next((" = " in t.text for t in tokens if t.kind == PUNCT and marks(t.text)), False)


def rest(tokens, u):
    """The other tokens that the line reads, those from a `goto` on left out."""
    end = next((q for q, t in enumerate(tokens) if t == Token(KEYWORD, "goto")), len(tokens))
    return tuple(t for q, t in enumerate(tokens[:end]) if q != u and not (q == 0 and only_writes(tokens)))


def depth_behind(text):
    depth = 0
    for c in text:
        depth = deeper(c, depth)
    return depth


def is_loose(tokens):
    """An operator or a comma stands outside brackets, unary ones in front left out."""
    return outside(frame(tokens)).lstrip("-~!&*").strip("w") != ""


def acts_beside(tokens, u):
    """The line makes a call, and not just one around the use: the two are in no order."""
    count = calls(tokens)
    if count == 0:
        return False
    front = frame(tokens[call_at(Line(0, tokens)):u])
    return not (count == 1 and depth_behind(front) > 0 and outside(front).strip("w") == "")


def is_spared(before, behind):
    """Between the delimiters that spare brackets, or all that is returned."""
    return is_standalone(before, behind) or before == " " and behind.startswith(";")


def is_whole(before, behind):
    """A whole argument, condition, right side or returned value; the bracket in front is none of a sum."""
    return is_spared(before, behind) and (before.endswith((", ", " = ")) or before in ("(", ")(", " (", " "))


# ---- widths

def full(convention):
    """The width of an address."""
    return 32 if convention == 0 else 64


NAMED_WIDTHS = (("byte_", 8), ("word_", 16), ("dword_", 32), ("qword_", 64))
TYPED_WIDTHS = (("int8_t", 8), ("int16_t", 16), ("int32_t", 32), ("int64_t", 64), ("void *", 64))


def typed_width(text):
    """The width of a cast, or of what is read through an address; 0 where it is not known."""
    return next((w for name, w in TYPED_WIDTHS if name in text), 0)


def token_width(token, before, convention):
    """The width of one token behind a text: None for numbers, Puncts, words of control and `(unsigned)`, 0 where it is not known."""
    if token.kind in (NUMBER, PUNCT) or token.kind == KEYWORD and (token.text in CONTROL or token.text == "(unsigned)"):
        return None
    if token.kind == ADDRESS or is_cell(token) or before.endswith("&"):
        return full(convention)
    if token.kind == SYMBOL:
        return next((w for name, w in NAMED_WIDTHS if token.text.startswith(name)), full(convention))
    if token.kind == KEYWORD:
        return typed_width(token.text)
    return family(token.text)[1] if token.kind == REGISTER else 0


def widths_in(tokens, convention):
    """The widths of all tokens that have one."""
    return [w for p, t in enumerate(tokens) for w in (token_width(t, around(tokens, p)[0], convention),) if w is not None]


def natural(expression, convention):
    """The width of an expression: of the cast or read in front of all of it, or the one that all its names have; else 0."""
    if expression[0].kind == KEYWORD and not is_loose(expression):
        return typed_width(expression[0].text)
    widths = set(widths_in(expression, convention))
    return widths.pop() if len(widths) == 1 else 0


COMPARISONS = (" == ", " != ", " < ", " > ", " <= ", " >= ")


def is_truth(expression):
    """A comparison, or `!` in front."""
    text = outside(frame(expression))
    return text.startswith("!") or any(c in text for c in COMPARISONS)


def is_plain(expression):
    """One token, or a cast or read in front of all of it: no operator computes it."""
    return len(expression) == 1 or expression[0].kind == KEYWORD and not is_loose(expression)


def is_lone_call(expression):
    return call_at(Line(0, expression)) == 0 and not is_loose(expression)


# ---- numbers

def is_tame(token):
    """Both editions read the number alike, it has at most 31 bits and a sign, and the sign is written."""
    if token.kind != NUMBER:
        return True
    value = number(token.text, 0)
    return value is not None and value == number(token.text, 1) and -(1 << 31) <= value < 1 << 31 and (value >= 0 or token.text.startswith("-"))


def is_folded(step, old, new):
    """Numbers were added up when the expression was put into the line."""
    put = [x for t in old for x in (step.expression if family_of(t) == step.family else (t,))]
    return sum(t.kind == NUMBER for t in new) < sum(t.kind == NUMBER for t in put)


# ---- one use: the expression in place of the token at u

class Use:
    def __init__(self, step, settings, tokens, u):
        self.step, self.settings, self.tokens, self.u = step, settings, tokens, u
        self.expression, self.volatile = step.expression, VOLATILE[settings.convention]
        self.before, self.behind = around(tokens, u)
        self.rest = rest(tokens, u)
        self.is_number = len(step.expression) == 1 and step.expression[0].kind == NUMBER
        if step.family.startswith("var_"):      # a slot is as wide as an address
            self.assigned = self.used = full(settings.convention)
        else:
            self.assigned, self.used = step.width, family(tokens[u].text)[1]

    def moves_call(self):
        """A call is made among other reads and calls of the line, or under its condition."""
        return calls(self.expression) > 0 and (acts_beside(self.tokens, self.u) or is_guarded(self.tokens) or changeable(self.rest, self.volatile))

    def moves_read(self, passed):
        """A read comes beside a call, or one of memory beside another or behind one of the lines passed over, or under a condition."""
        return (changeable(self.expression, self.volatile) and acts_beside(self.tokens, self.u)
                or world(self.expression) and (is_guarded(self.tokens) or world(self.rest) or any(world(line.tokens) for line in passed)))

    def target_cuts(self):
        """The use is all of the right side, and the target cuts it as the register did."""
        known = family(self.tokens[0].text) if self.tokens[0].kind == REGISTER else None
        return self.before == " = " and self.behind == ";" and self.u == 2 and known is not None and known[1] <= min(self.assigned, self.used)

    def number_fits(self):
        """The register's number is that number, and what stands beside it is not narrower than the register was."""
        value = number(self.expression[0].text, self.settings.edition)
        if value is None or self.used == 64 and not is_whole(self.before, self.behind) and any(w < 64 for w in widths_in(self.rest, self.settings.convention)):
            return False
        return self.assigned == self.used == 64 or self.assigned >= 32 and 0 <= value < 1 << min(self.assigned, self.used) - 1

    def width_kept(self):
        """The expression's own width is the register's, or it is a 32-bit value that is handed on whole as one of 64 bits. C computes what is narrower than
        int as an int, what a large number stands in at 64 bits, and a comparison is 0 or 1 of no register's width."""
        if self.is_number:
            return self.number_fits()
        if is_truth(self.expression):
            return is_whole(self.before, self.behind)
        own = natural(self.expression, self.settings.convention)
        if self.assigned != self.used:
            return self.assigned == 32 and self.used == 64 and own == 32 and is_whole(self.before, self.behind)
        if is_lone_call(self.expression):
            return self.assigned == full(self.settings.convention) or self.assigned >= 32 and self.step.family == "rax"
        return own == self.assigned and (own == 64 or is_plain(self.expression) or own == 32 and all(map(is_tame, self.expression)))

    def is_beside_number(self):
        """A Number stands on the other side of an operator that is no comparison."""
        sides = ((self.u - 2, self.before), (self.u + 2, self.behind))
        return not is_whole(self.before, self.behind) and any(
            0 <= q < len(self.tokens) and self.tokens[q].kind == NUMBER and not any(c in text for c in COMPARISONS) for q, text in sides)

    def sums_numbers(self, new):
        """Numbers alone are computed where a register of 32 bits was, and not added up to a small one that is not negative."""
        is_small = is_folded(self.step, self.tokens, new) and not any(t.kind == NUMBER and (t.text.startswith("-") or not is_tame(t)) for t in new)
        return self.is_number and self.used < 64 and self.is_beside_number() and not is_small

    def sign_lost(self):
        """A read or cast, of C's unsigned types, beside `<`, `>`, `/` or `%`, that the register had without a sign."""
        return self.expression[0].kind == KEYWORD and self.before != "(unsigned)" and any(c in "<>/%" for c in self.before + self.behind)

    def changes_width(self):
        return low_bit(self.step.target) != low_bit(self.tokens[self.u].text) or self.sign_lost() or not (self.target_cuts() or self.width_kept())

    def is_apart(self):
        """No operator stands directly in front of the use, and none directly behind it."""
        return self.before != "" and self.before[-1] not in "+-*/%&|^<>=!~" and self.behind[:1] in (")", ",", ";", " ") and not self.behind.startswith(" %")

    def is_bracketed(self):
        return len(self.expression) > 1 if self.settings.profile else is_operator_expression(self.expression)

    def groups(self):
        """A comma stays inside brackets, an address out of sums, and what gets no brackets needs none."""
        first = self.expression[0]
        is_address = first.kind == PUNCT and first.text.endswith("&") or first.kind == ADDRESS
        if is_spared(self.before, self.behind):
            return "," not in outside(frame(self.expression)) and (is_whole(self.before, self.behind) or not is_address)
        return not is_address and (self.is_bracketed() and not self.step.is_constant or not is_loose(self.expression))

    def cautions(self, passed, new):
        found = set()
        if self.moves_call():
            found.add(CALL_MOVED)
        if self.moves_read(passed):
            found.add(READ_MOVED)
        if self.changes_width() or self.sums_numbers(new):
            found.add(OTHER_WIDTH)
        if not (self.is_apart() and self.groups()):
            found.add(OTHER_TEXT)
        return found


# ---- one step

def is_entered(tokens):
    """Control may come to the line from elsewhere than from the line above it."""
    return any(c in form(tokens) for c in ":}")


def step_cautions(step, settings):
    """The cautions that a join or a cut puts on lines of the listing before it: a set for each line that has some, and the set of the step itself."""
    lines, i, fam, volatile = step.before, step.at, step.family, VOLATILE[settings.convention]
    ways = Ways(lines)
    far = reached(ways, i, fam, volatile)
    gone = () if step.is_cut else (i, *step.uses)
    other = sorted(k for k in far if k < ways.exit and k not in gone)
    dark, stale = [k for k in other if ways.is_dark(k)], [k for k in other if not ways.is_dark(k) and reads(lines[k].tokens, fam)]
    own = set()
    if dark or ways.is_dark(i):
        own.add(ODD_FORM)
    if stale:
        own.add(STILL_READ)
    if any(k < ways.exit and takes_unspelt(lines[k].tokens, fam, settings.convention) for k in far) or ways.exit in far and is_for_caller(lines, fam, volatile):
        own.add(HANDED_OVER)
    if not step.is_cut:
        own |= join_cautions(step, settings, ways)
    found = {k: {STILL_READ} for k in stale}
    found.update({k: {ODD_FORM} for k in dark})
    for j in step.uses or (i,):
        found[j] = found.get(j, set()) | own
    return found, own


def join_cautions(step, settings, ways):
    """Those of a join that its lines themselves say: what stands between, and what each use is made."""
    lines, i, last, own = step.before, step.at, max(step.uses), set()
    between = range(i + 1, last + 1)
    if ways.hangs(i) or any(ways.is_dark(k) or is_entered(lines[k].tokens) for k in between):
        own.add(ODD_FORM)
    if step.family.startswith("var_"):
        own.add(SLOT)
    if step.family in VOLATILE[settings.convention] and (any(calls(lines[k].tokens) for k in range(i + 1, last)) or any(
            family_of(t) == step.family and acts_beside(lines[j].tokens, u) for j in step.uses for u, t in enumerate(lines[j].tokens))):
        own.add(OVERWRITTEN)
    is_number = len(step.expression) == 1 and step.expression[0].kind == NUMBER
    for j in step.uses:
        old, new = lines[j].tokens, step.after[j - 1].tokens
        for u, token in enumerate(old):
            if family_of(token) == step.family:
                own |= Use(step, settings, old, u).cautions(lines[i + 1:j], new)
        if (is_number or is_folded(step, old, new)) and not all(map(is_tame, (*old, *step.expression, *new))):
            own.add(ODD_NUMBER)
    return own


# ---- a run

def cautions_of(lines, settings, steps=None):
    """The set of each finished line, and the sets of the steps."""
    steps = run_of(lines, settings) if steps is None else steps
    sets, own = [set() for _ in lines], []
    for step in steps:
        found, of_step = step_cautions(step, settings)
        own.append(of_step)
        for k, new in found.items():
            sets[k] |= new
        if not step.is_cut:
            for j in step.uses:
                sets[j] |= sets[step.at]
            del sets[step.at]
    return sets, own


def finished_cautions(lines, settings):
    return cautions_of(lines, settings)[0]
