"""The text of a listing read as C: to a code of a few instructions with jumps. Text and not tokens, because text is what a reader has.

Constants are read by C's edition of 2024 (6.4.4.2), in which each of 2018 has its value. The longest match makes a C token, so `--5`, `/*` and `&&` are what C makes of them, however the cleaner's tokens lie. What is read:

- statements: expressions, `{ }`, `if`, `else`, `do`, `while`, `for`, `switch`, `case`, `default`, `break`, `continue`, `goto`, `return`, labels; `__asm { .. }`
- expressions: C's operators with C's binding, assignments among them; casts to the types of TYPES; `*(T *)e`, `*e`, `&name`; calls by name, through
  `((void (*)())e)` and through any expression; `x.f` of a slot, which is its lowest byte; `sizeof(..)`, which is 8

Everything else is no C here (`NoC`), and a listing that is none before it is cleaned is passed over.

An instruction is a tuple: ("do", e), ("jump", to), ("unless", e, to), ("when", e, to), ("switch", e, cases, behind), ("return", e or None), ("leave", label) for
a label that the listing lacks, ("computed", e) for `goto *e`, ("asm", text), ("end",). An expression is a tuple too; what each is worth says meaning.py.
"""
import re
from functools import lru_cache

from listing import OTHER_REGISTER, family

TYPES = {"uint8_t": (8, False), "uint16_t": (16, False), "uint32_t": (32, False), "uint64_t": (64, False), "int8_t": (8, True), "int16_t": (16, True),
         "int32_t": (32, True), "int64_t": (64, True), "int": (32, True), "__int64": (64, True), "void": (64, False), "unsigned": (0, False)}
CONTROL = frozenset("if else do while for goto return break continue switch case default".split())
LEXEME = re.compile(r"""\s+|//.*|(?P<comment>/\*)|(?P<string>L?"[^"]*")|(?P<word>[A-Za-z_]\w*)|(?P<number>[0-9][\w']*)
    |(?P<mark><<=|>>=|\+\+|--|->|<<|>>|<=|>=|==|!=|&&|\|\||[-+*/%&|^]=|[][(){};:,?~!+\-*/%&|^<>=.])""", re.X)
CONSTANT = re.compile(r"(?P<bin>0[bB][01](?:'?[01])*)|(?P<hex>0[xX][0-9a-fA-F](?:'?[0-9a-fA-F])*)|(?P<oct>0(?:'?[0-7])*)|(?P<dec>[1-9](?:'?[0-9])*)")
ASM = re.compile(r"\s*__asm \{ (.*) \}")
FUNCTION_POINTER = [("mark", m) for m in "("] + [("word", "void")] + [("mark", m) for m in ("(", "*", ")", "(", ")", ")")]
BINARY = (("||",), ("&&",), ("|",), ("^",), ("&",), ("==", "!="), ("<", ">", "<=", ">="), ("<<", ">>"), ("+", "-"), ("*", "/", "%"))
LEVELS = {operator: level for level, operators in enumerate(BINARY) for operator in operators}
ASSIGNING = frozenset(("=", "+=", "-=", "*=", "/=", "%=", "&=", "|=", "^=", "<<=", ">>="))
NAMED_WIDTHS = {"byte_": 8, "word_": 16, "dword_": 32, "qword_": 64}


class NoC(Exception):
    """The text is no C, or none that is read here."""


def constant(text):
    digits = text.rstrip("uUlL")
    found = CONSTANT.fullmatch(digits)
    if not found:
        raise NoC(f"the number {text}")
    plain = digits.replace("'", "")
    if found["bin"]:
        return int(plain[2:], 2) & (1 << 64) - 1
    return int(plain, {"hex": 16, "oct": 8, "dec": 10}[found.lastgroup]) & (1 << 64) - 1


LEXED = {}


def lexemes(text):
    found = LEXED.get(text)
    if found is None:
        if len(LEXED) > 100_000:
            LEXED.clear()
        try:
            found = lexed(text)
        except NoC as fault:
            found = fault
        LEXED[text] = found
    if isinstance(found, NoC):
        raise found
    return found


def lexed(text):
    inside = ASM.fullmatch(text)
    if inside:
        return [("asm", inside[1])]
    out, at = [], 0
    while at < len(text):
        found = LEXEME.match(text, at)
        if not found or found["comment"]:
            raise NoC(f"at {text[at:at + 8]!r}")
        at = found.end()
        if found.lastgroup:
            out.append((found.lastgroup, constant(found[0]) if found["number"] else found[0]))
    return out


def named_width(name):
    """The width of a name of memory that says it, or 0."""
    return next((width for front, width in NAMED_WIDTHS.items() if name.startswith(front)), 0)


class Reader:
    def __init__(self, texts):
        self.lexemes, self.lines = [], []
        for number, text in enumerate(texts):
            found = lexemes(text)
            self.lexemes += found
            self.lines += [number] * len(found)
        self.lexemes.append(("end", ""))
        self.lines.append(len(texts))
        self.at = 0
        self.code, self.line_of, self.line = [], [], 0
        self.labels, self.jumps = {}, []
        self.breaks, self.continues, self.cases = [], [], []

    # ---- lexemes

    def sees(self, mark):
        return self.lexemes[self.at] == ("mark", mark)

    def takes(self, mark):
        if self.sees(mark):
            self.at += 1
            return True
        return False

    def wants(self, mark):
        if not self.takes(mark):
            raise NoC(f"no {mark} at {self.lexemes[self.at][1]!r}")

    # ---- statements

    def put(self, *instruction):
        self.code.append(list(instruction))
        self.line_of.append(self.line)
        return len(self.code) - 1

    def put_at_end(self, *instruction):
        """An instruction that belongs to the line of the lexeme read last."""
        self.line = self.lines[self.at - 1]
        return self.put(*instruction)

    def here(self):
        return len(self.code)

    def listing(self):
        while self.lexemes[self.at][0] != "end":
            self.statement()
        self.line = self.lines[-1]
        self.put("end")
        for place, label in self.jumps:
            self.code[place] = ["jump", self.labels[label]] if label in self.labels else ["leave", label]
        return Code(map(tuple, self.code), self.line_of)

    def statement(self):
        self.line = self.lines[self.at]
        kind, text = self.lexemes[self.at]
        if kind == "asm":
            self.at += 1
            self.put("asm", text)
        elif self.takes("{"):
            while not self.takes("}"):
                if self.lexemes[self.at][0] == "end":
                    raise NoC("no }")
                self.statement()
        elif self.takes(";"):
            pass
        elif kind == "word" and text in CONTROL:
            self.at += 1
            getattr(self, "read_" + text, self.read_misplaced)()
        elif kind == "word" and self.lexemes[self.at + 1] == ("mark", ":"):
            if text in self.labels or family(text):
                raise NoC(f"the label {text}")
            self.labels[text] = self.here()
            self.at += 2
            self.behind_label()
        else:
            expression = self.expression()
            self.wants(";")
            self.put("do", expression)

    def behind_label(self):
        if not self.sees("}") and self.lexemes[self.at][0] != "end":
            self.statement()

    def read_misplaced(self):
        raise NoC(f"{self.lexemes[self.at - 1][1]} out of place")

    def condition(self):
        self.wants("(")
        expression = self.expression()
        self.wants(")")
        return expression

    def read_if(self):
        skip = self.put("unless", self.condition(), None)
        self.statement()
        if self.lexemes[self.at] == ("word", "else"):
            self.at += 1
            over = self.put_at_end("jump", None)
            self.code[skip][2] = self.here()
            self.statement()
            self.code[over][1] = self.here()
        else:
            self.code[skip][2] = self.here()

    def begin_loop(self):
        self.breaks.append([])
        self.continues.append([])

    def end_loop(self, behind, again):
        for place in self.breaks.pop():
            self.code[place][1] = behind
        for place in self.continues.pop():
            self.code[place][1] = again

    def read_do(self):
        head = self.here()
        self.begin_loop()
        self.statement()
        if self.lexemes[self.at] != ("word", "while"):
            raise NoC("do without while")
        self.line = self.lines[self.at]
        self.at += 1
        test = self.here()
        expression = self.condition()
        self.wants(";")
        self.put("when", expression, head)
        self.end_loop(self.here(), test)

    def read_while(self):
        head = self.here()
        leave = self.put("unless", self.condition(), None)
        self.begin_loop()
        self.statement()
        self.put_at_end("jump", head)
        self.code[leave][2] = self.here()
        self.end_loop(self.here(), head)

    def read_for(self):
        self.wants("(")
        if not self.sees(";"):
            self.put("do", self.expression())
        self.wants(";")
        head, leave, last = self.here(), None, None
        if not self.sees(";"):
            leave = self.put("unless", self.expression(), None)
        self.wants(";")
        if not self.sees(")"):
            last = self.expression()
        self.wants(")")
        own = self.line
        self.begin_loop()
        self.statement()
        again, self.line = self.here(), own
        if last:
            self.put("do", last)
        self.put_at_end("jump", head)
        if leave is not None:
            self.code[leave][2] = self.here()
        self.end_loop(self.here(), again)

    def read_switch(self):
        place = self.put("switch", self.condition(), None, None)
        self.cases.append([])
        self.breaks.append([])
        self.statement()
        self.code[place][2:] = [tuple(self.cases.pop()), self.here()]
        for end in self.breaks.pop():
            self.code[end][1] = self.here()

    def read_case(self, is_default=False):
        if not self.cases:
            raise NoC("case out of place")
        self.cases[-1].append((None if is_default else self.conditional(), self.here()))
        self.wants(":")
        self.behind_label()

    def read_default(self):
        self.read_case(True)

    def leave_loop(self, places):
        self.wants(";")
        if not places:
            self.read_misplaced()
        places[-1].append(self.put("jump", None))

    def read_break(self):
        self.leave_loop(self.breaks)

    def read_continue(self):
        self.leave_loop(self.continues)

    def read_goto(self):
        if self.takes("*"):
            expression = self.unary()
            self.wants(";")
            self.put("computed", expression)
            return
        kind, text = self.lexemes[self.at]
        if kind != "word":
            raise NoC("goto")
        self.at += 1
        self.wants(";")
        self.jumps.append((self.put("jump", None), text))

    def read_return(self):
        expression = None if self.sees(";") else self.expression()
        self.wants(";")
        self.put("return", expression)

    # ---- expressions

    def expression(self):
        left = self.assigned()
        while self.takes(","):
            left = ("comma", left, self.assigned())
        return left

    def assigned(self):
        left = self.conditional()
        kind, text = self.lexemes[self.at]
        if kind == "mark" and text in ASSIGNING:
            self.at += 1
            self.want_place(left)
            right = self.assigned()
            return ("assign", left, right) if text == "=" else ("update", text[:-1], left, right)
        return left

    def want_place(self, expression):
        if expression[0] not in ("register", "memory", "member"):
            raise NoC("a change of what is no place")

    def conditional(self):
        test = self.binary(0)
        if self.takes("?"):
            yes = self.expression()
            self.wants(":")
            return ("choose", test, yes, self.conditional())
        return test

    def binary(self, least):
        left = self.unary()
        while True:
            kind, operator = self.lexemes[self.at]
            level = LEVELS.get(operator, -1) if kind == "mark" else -1
            if level < least:
                return left
            self.at += 1
            right = self.binary(level + 1)
            left = ("and", left, right) if operator == "&&" else ("or", left, right) if operator == "||" else ("binary", operator, left, right)

    def unary(self):
        kind, text = self.lexemes[self.at]
        if kind == "mark":
            if text in ("++", "--"):
                self.at += 1
                inner = self.unary()
                self.want_place(inner)
                return ("before", text[0], inner)
            if text in ("-", "~", "!", "+"):
                self.at += 1
                return ("unary", text, self.unary())
            if text == "*":
                self.at += 1
                inner = self.unary()
                return ("memory", inner[1], inner[2], True) if inner[0] == "pointer" else ("memory", 0, inner, False)
            if text == "&":
                self.at += 1
                return self.address(self.unary())
            if text == "(":
                begin = self.at + 1
                if self.lexemes[begin:begin + 8] == FUNCTION_POINTER:
                    self.at += 9
                    inner = self.unary()
                    self.wants(")")
                    return self.postfix(("function", inner))
                word, name = self.lexemes[begin]
                if word == "word" and name in TYPES:
                    if self.lexemes[begin + 1] == ("mark", ")"):
                        self.at += 3
                        return ("cast", name, self.unary())
                    if self.lexemes[begin + 1:begin + 3] == [("mark", "*"), ("mark", ")")]:
                        self.at += 4
                        return ("pointer", TYPES[name][0], self.unary())
        return self.postfix(self.primary())

    def address(self, inner):
        if inner[0] == "memory":
            return ("address", inner[2], inner[1] // 8)
        if inner[0] == "register" and inner[1].startswith("var_"):
            return ("address", ("slot_address", inner[1]), 0)
        raise NoC("& of what has no address")

    def primary(self):
        kind, text = self.lexemes[self.at]
        self.at += 1
        if kind == "number":
            return ("number", text)
        if kind == "string":
            return ("string", text)
        if (kind, text) == ("mark", "("):
            inner = self.expression()
            self.wants(")")
            return inner
        if kind != "word" or text in CONTROL or text in TYPES:
            raise NoC(f"no expression at {text!r}")
        if text == "sizeof":
            self.condition()
            return ("number", 8)
        if self.sees("("):
            return ("name", text)
        if family(text) or OTHER_REGISTER.fullmatch(text) and not text.startswith("arg_"):
            return ("register", text)
        if text.startswith("arg_"):
            return ("memory", 0, ("slot_address", text), False)
        return ("memory", named_width(text), ("name_address", text), False)

    def postfix(self, inner):
        while True:
            if self.takes("("):
                arguments = []
                if not self.sees(")"):
                    arguments.append(self.assigned())
                    while self.takes(","):
                        arguments.append(self.assigned())
                self.wants(")")
                inner = ("call", inner, tuple(arguments))
            elif self.sees("++") or self.sees("--"):
                self.want_place(inner)
                inner = ("behind", self.lexemes[self.at][1][0], inner)
                self.at += 1
            elif self.takes("."):
                if self.lexemes[self.at][0] != "word" or inner[0] != "register":
                    raise NoC("a member")
                self.at += 1
                inner = ("member", inner)
            elif self.sees("[") or self.sees("->"):
                raise NoC("[ or ->")
            else:
                if inner[0] == "name":
                    raise NoC(f"the function {inner[1]} uncalled")
                return inner


class Code(list):
    """Instructions, and of each the line that it came from."""

    def __init__(self, instructions, line_of):
        super().__init__(instructions)
        self.line_of = line_of
        self.hangs = {}


@lru_cache(256)
def read_once(texts):
    return Reader(texts).listing()


def read(texts):
    """The code of a listing; it is not to be changed, as it is kept for the next time."""
    return read_once(tuple(texts))


# ---- what the order of evaluation can change

EFFECTS = frozenset(("call", "assign", "update", "before", "behind"))


def count(node, kinds):
    own = 1 if node[0] in kinds else 0
    for part in node[1:]:
        if isinstance(part, tuple) and part:
            own += count(part, kinds) if isinstance(part[0], str) else sum(count(each, kinds) for each in part)
    return own


def hangs_on_order(code, reads_count):
    """Whether the order in which operands are evaluated can matter somewhere; it may say so where it cannot."""
    if reads_count not in code.hangs:
        code.hangs[reads_count] = may_hang(code, reads_count)
    return code.hangs[reads_count]


def may_hang(code, reads_count):
    for instruction in code:
        for e in instruction[1:]:
            if not isinstance(e, tuple) or not e or not isinstance(e[0], str):
                continue
            if reads_count and count(e, ("memory",)) > 1:
                return True
            effects = count(e, EFFECTS)
            if effects == 0:
                continue
            whole_call = e[0] == "assign" and e[1][0] == "register" and e[2][0] == "call" and effects == 2
            if not whole_call and (effects > 1 or e[0] not in EFFECTS):
                return True
    return False
