"""What a step of the cleaning does, seen in C: which instructions read the register that was joined away, on which ways; what the expression reads and changes,
what stands beside its use, whether the text still reads alike, and how wide all is. naming.py decides by these which rows of docs/DIFFERENCES.md a step has.
"""
from functools import cached_property

from cleaning import VOLATILE, around, is_operator_expression, is_standalone, number
from listing import body_of, family, family_of, texts_of
from meaning import widths_of
from reading import EFFECTS, TYPES, NoC, read

# registers that instructions use without naming them (Intel's manual, volume 2)
HIDDEN = {"mul": ("rax", "rdx"), "imul": ("rax", "rdx"), "div": ("rax", "rdx"), "idiv": ("rax", "rdx"),
          "push": ("rsp",), "__pop": ("rsp",), "__cpuid": ("rax", "rbx", "rcx", "rdx")}


def nodes(node):
    """A node and all below it."""
    yield node
    for part in node[1:]:
        if isinstance(part, tuple) and part:
            if isinstance(part[0], str):
                yield from nodes(part)
            else:
                for each in part:
                    if isinstance(each, tuple) and each and isinstance(each[0], str):
                        yield from nodes(each)


def replaced(node, old, new):
    """A tree, or a tuple of them, with each node `old` made `new`."""
    if node == old:
        return new
    return tuple(replaced(part, old, new) for part in node) if isinstance(node, tuple) else node


def parts_of(instruction):
    """The expressions of an instruction."""
    out = [p for p in instruction[1:] if isinstance(p, tuple) and p and isinstance(p[0], str)]
    if instruction[0] == "switch":
        out += [e for e, _ in instruction[2] if e is not None]
    return out


def fam(name):
    known = family(name)
    return known[0] if known else None


def is_call(node):
    return node[0] == "call" and not (node[1][0] == "name" and node[1][1].startswith("_"))


def is_acting_intrinsic(node):
    """A call by a Keyword's name that does more than to compute."""
    return node[0] == "call" and node[1][0] == "name" and node[1][1].startswith("_") and not node[1][1].startswith(("__ROL", "__ROR", "__read"))


def reads_of(node, targets=False):
    """The families that are read; with `targets` those too that are only assigned to."""
    out = set()
    skip = set()
    for n in nodes(node):
        if n[0] == "assign" and n[1][0] == "register" and not targets:
            skip.add(id(n[1]))
        elif n[0] == "register" and id(n) not in skip:
            out.add(fam(n[1]) or n[1])
        elif n[0] == "call" and n[1][0] == "name" and fam(n[1][1]):
            out.add(fam(n[1][1]))
        elif n[0] == "slot_address":
            out.add(n[1])
    return out


def writes_of(node):
    """The families that are changed by assignment, in whatever spelling."""
    out = set()
    for n in nodes(node):
        if n[0] in ("assign", "update", "before", "behind"):
            target = n[1] if n[0] == "assign" else n[2]
            if target[0] == "member":
                target = target[1]
            if target[0] == "register":
                out.add(fam(target[1]) or target[1])
    return out


def surely(node):
    """The nodes that are evaluated in any case."""
    yield node
    inner = node[1:2] if node[0] in ("and", "or", "choose") else node[1:]
    for part in inner:
        if isinstance(part, tuple) and part:
            if isinstance(part[0], str):
                yield from surely(part)
            else:
                for each in part:
                    yield from surely(each)


def overwrites(instruction, wanted, volatile):
    """Whether an instruction overwrites the family in any case."""
    for e in parts_of(instruction):
        for n in surely(e):
            if n[0] == "assign" and n[1][0] == "register" and fam(n[1][1]) == wanted and family(n[1][1])[1] >= 32:
                return True
            if wanted in volatile and is_call(n):
                return True
    return False


def reads_memory(node, with_slots=True):
    """Whether memory is read: also where it is changed in place, but not where it is only assigned to or its address taken."""
    skip = set()
    for n in nodes(node):
        if n[0] == "assign":
            skip.add(id(n[1]))
        elif n[0] == "memory" and id(n) not in skip:
            return True
        elif with_slots and n[0] == "register" and id(n) not in skip and (n[1].startswith("var_") or family(n[1]) is None):
            return True
        elif n[0] == "call" and n[1][0] == "name" and n[1][1].startswith("_Interlocked"):
            return True
    return False


def stores(node):
    for n in nodes(node):
        if n[0] in ("assign", "update", "before", "behind"):
            target = n[1] if n[0] == "assign" else n[2]
            if target[0] in ("memory", "member") or target[0] == "register" and target[1].startswith("var_"):
                return True
        if n[0] == "call" and n[1][0] == "name" and n[1][1].startswith("_Interlocked"):
            return True
    return False


def statement_of(text):
    """A line made a whole statement, as far as one can: what an open brace lacks is put, what closes one is left out."""
    text = text.strip()
    if text.startswith("}"):
        text = text[1:].lstrip()
        if text.startswith("else"):
            text = text[4:].lstrip()
    if text.startswith(("case ", "default")):
        text = "switch (0) { " + text + " }"
    if text.endswith("{"):
        return text + " }"
    if text.startswith(("if ", "for ")) and text.endswith(")"):
        return text + ";"
    return text


def code_of(text):
    try:
        return read([statement_of(text)])
    except NoC:
        return None


HOLE = ("register", "the_use")


class Sight:
    def __init__(self, step, settings, raw):
        self.step, self.settings = step, settings
        self.lines, self.at, self.uses = step.before, step.at, step.uses
        self.family = step.family
        self.convention = settings.convention
        self.volatile = VOLATILE[self.convention]
        self.last = max(self.uses) if self.uses else self.at
        self.word = 32 if self.convention == 0 else 64
        self.widths = widths_of(raw)
        self.bodies = [body_of(line) for line in self.lines]

    # ---- the ways

    @cached_property
    def code(self):
        try:
            return read(texts_of(self.lines))
        except NoC:
            return None

    def next_of(self, k):
        i = self.code[k]
        if i[0] == "jump":
            return (i[1],)
        if i[0] in ("unless", "when"):
            return (k + 1, i[2])
        if i[0] == "switch":
            cases = tuple(at for _, at in i[2])
            return cases if any(e is None for e, _ in i[2]) else (*cases, i[3])
        return () if i[0] in ("return", "end", "leave", "computed") else (k + 1,)

    def line_of(self, k):
        return self.code.line_of[k]

    def reads_it(self, k):
        i = self.code[k]
        if i[0] == "asm":
            return self.family in self.words_of_asm(i[1]) or self.family in HIDDEN.get(i[1].split()[0], ())
        return any(self.family in reads_of(e) for e in parts_of(i))

    @staticmethod
    def words_of_asm(text):
        return {fam(word) for word in text.replace(",", " ").split()[1:]} - {None}

    @cached_property
    def ways(self):
        """From the assignment on, as long as its value may be there: the way (numbers of instructions) to the first reading that is no use of the step, or None;
        the ways to ends; and the instructions that are reached."""
        stale, ends, reached = None, [], []
        if self.code is None:
            return stale, ends, reached
        own = [k for k in range(len(self.code)) if self.line_of(k) == self.at]
        if not own:
            return stale, ends, reached
        begin = own[-1]
        todo = [(k, (begin, k)) for k in self.next_of(begin)]
        seen = set()
        while todo:
            k, way = todo.pop(0)
            if k in seen or k >= len(self.code):
                continue
            seen.add(k)
            reached.append(k)
            i, line = self.code[k], self.line_of(k)
            if line == self.at:
                if self.step.is_cut and self.reads_it(k) and stale is None:
                    stale = way
                if overwrites(i, self.family, self.volatile):
                    continue
            elif line not in self.uses:
                if self.reads_it(k):
                    if stale is None:
                        stale = way
                    continue
            if overwrites(i, self.family, self.volatile) and line != self.at:
                continue
            if i[0] in ("return", "end", "leave", "computed"):
                ends.append(way)
            todo += [(n, way + (n,)) for n in self.next_of(k)]
        return stale, ends, reached

    @cached_property
    def stale(self):
        return self.ways[0]

    @cached_property
    def lines_of_way(self):
        """The lines of the way to a stale reading, each turn of it once."""
        out = []
        for k in self.stale or ():
            if not out or out[-1] != self.line_of(k):
                out.append(self.line_of(k))
        return out

    @cached_property
    def jumps_of_way(self):
        """The pairs of lines of that way that do not follow one another."""
        return [(a, b) for a, b in zip(self.lines_of_way, self.lines_of_way[1:]) if b != a + 1]

    @cached_property
    def entered(self):
        """The lines behind the assignment, up to the last use, that are reached from elsewhere too: pairs (from, to)."""
        out = []
        if self.code is None:
            return out
        for k in range(len(self.code)):
            for n in self.next_of(k):
                if n < len(self.code):
                    a, b = self.line_of(k), self.line_of(n)
                    if self.at < b <= self.last and not self.at <= a <= b:
                        out.append((a, b))
                    elif self.at < b <= self.last and a == b and n <= k:
                        out.append((a, b))       # a loop on one line's own
        return out

    @cached_property
    def is_conditional(self):
        """Whether the assignment is made on one way and the line below it is reached on another: an `if (..)` alone stands above it."""
        return self.at > 0 and self.bodies[self.at - 1].startswith(("if ", "else", "} else")) and not self.bodies[self.at - 1].endswith(("{", ";"))

    # ---- the expression and its uses

    @cached_property
    def expression(self):
        """The expression's tree, or None."""
        text = "".join(t.text for t in self.step.expression)
        code = code_of(text + ";")
        return code[0][1] if code and len(code) == 2 and code[0][0] == "do" else None

    @cached_property
    def number(self):
        """The value of a lone number, or None."""
        x = self.step.expression
        return number(x[0].text, self.settings.edition) if len(x) == 1 and x[0].text[-1:].isalnum() and x[0].text.lstrip("-")[:1].isdigit() else None

    @cached_property
    def places(self):
        """The uses: line and place of the token."""
        return [(j, p) for j in self.uses for p, t in enumerate(self.lines[j].tokens) if family_of(t) == self.family]

    def between(self, j, p):
        return around(self.lines[j].tokens, p)

    def is_bracketed(self, j, p):
        is_operators = len(self.step.expression) > 1 if self.settings.profile else is_operator_expression(self.step.expression)
        return is_operators and not self.step.is_constant and not is_standalone(*self.between(j, p))

    @cached_property
    def use_codes(self):
        """Of each use the instructions of its line with a hole there; None where the line is no statement by itself."""
        out = []
        for j, p in self.places:
            text = "".join("the_use" if q == p else t.text for q, t in enumerate(self.lines[j].tokens))
            code = code_of(text)
            out.append(None if code is None else [replaced(i, ("memory", 0, ("name_address", "the_use"), False), HOLE) for i in code])
        return out

    @cached_property
    def reads_otherwise(self):
        """Whether a rewritten line reads otherwise, as C, than its old tree with the expression's tree at the use."""
        if self.expression is None:
            return True
        for (j, p), code in zip(self.places, self.use_codes):
            text = "".join(t.text for t in self.step.expression)
            if self.is_bracketed(j, p):
                text = f"({text})"
            new = code_of("".join(text if q == p else t.text for q, t in enumerate(self.lines[j].tokens)))
            if code is None or new is None or [replaced(i, HOLE, self.expression) for i in code] != list(new):
                return True
        return False

    @cached_property
    def passed(self):
        """The trees of the lines between the assignment and the last use that are no uses, and their number of statements."""
        out = []
        for k in range(self.at + 1, self.last):
            if k not in self.uses:
                code = code_of(self.bodies[k])
                if code is not None:
                    out.append([e for i in code for e in parts_of(i)])
        return out

    @cached_property
    def beside(self):
        """Of each use: what its line does beside it. Trees that are not around it, and whether it stands where it is not always evaluated."""
        out = []
        for code in self.use_codes:
            if code is None:
                continue
            trees, is_sometimes, around_it = [], False, []
            for number_, i in enumerate(code):
                for e in parts_of(i):
                    if any(n == HOLE for n in nodes(e)):
                        is_sometimes = is_sometimes or number_ > 0 and code[0][0] in ("unless", "switch") or not any(n == HOLE for n in surely(e))
                        self.split(e, trees, around_it)
                    else:
                        trees.append(e)
            out.append((trees, around_it, is_sometimes))
        return out

    def split(self, node, trees, around_it):
        """Puts what is not around the hole into trees, and what is into around_it."""
        if node == HOLE:
            return
        around_it.append(node)
        for part in node[1:]:
            if isinstance(part, tuple) and part:
                for each in (part,) if isinstance(part[0], str) else part:
                    if any(n == HOLE for n in nodes(each)):
                        self.split(each, trees, around_it)
                    elif not (node[0] == "assign" and each is node[1] and each[0] == "register"):
                        trees.append(each)

    def is_read_beside(self, test):
        return any(test(t) for trees, _, _ in self.beside for t in trees)

    @cached_property
    def inputs(self):
        return reads_of(self.expression, True) if self.expression else {family_of(t) for t in self.step.expression} - {None}

    @cached_property
    def has_call(self):
        return self.expression is not None and any(map(is_call, nodes(self.expression)))

    @cached_property
    def has_change(self):
        return self.expression is not None and any(n[0] in EFFECTS and n[0] != "call" or is_acting_intrinsic(n) for n in nodes(self.expression))

    # ---- widths

    def width_of(self, node):
        """The width of what a tree is worth, by the rules of meaning.py; 0 for numbers."""
        kind = node[0]
        if kind == "register":
            if node[1].startswith("var_"):
                return self.widths.get(node[1], self.word)
            known = family(node[1])
            return known[1] if known else 64
        if kind == "memory":
            return node[1] or (self.widths.get(node[2][1], self.word) if node[2][0] in ("name_address", "slot_address") else self.word)
        if kind == "binary":
            if node[1] in ("==", "!=", "<", ">", "<=", ">="):
                return 0
            left, right = self.width_of(node[2]), self.width_of(node[3])
            if node[1] in ("<<", ">>"):
                return max(32, left) if left else 0
            return max(32, left, right) if left or right else 0
        if kind == "unary":
            inner = self.width_of(node[2])
            return 0 if node[1] == "!" or inner == 0 else max(32, inner) if node[1] != "+" else inner
        if kind == "cast":
            return TYPES[node[1]][0] or self.width_of(node[2])
        if kind in ("pointer", "address", "string", "slot_address", "name_address"):
            return self.word
        if kind == "call":
            if node[1][0] == "name" and node[1][1].startswith("__RO") and node[2]:
                return self.width_of(node[2][0])
            return 32 if self.word == 32 or node[1][0] == "name" and node[1][1].startswith("i") else 64
        if kind in ("assign", "before", "behind"):
            return self.width_of(node[1] if kind == "assign" else node[2])
        if kind == "update":
            return self.width_of(node[2])
        if kind == "choose":
            return max(self.width_of(node[2]), self.width_of(node[3]))
        if kind == "comma":
            return self.width_of(node[2])
        return 8 if kind == "member" else 0

    @cached_property
    def target_width(self):
        return self.widths.get(self.step.target, self.word) if self.family.startswith("var_") else self.step.width

    def use_width(self, j, p):
        name = self.lines[j].tokens[p].text
        return self.widths.get(name, self.word) if name.startswith("var_") else family(name)[1]
