"""Listings to clean and to run: small ones in the shapes that the listing generator writes, with few names so that lines meet, and odd lines on request.

Each is fixed by a seed. `generated(seed, odd, most)` answers a convention and the texts of the lines; `odd` is the share of lines in shapes that the generator
does not write (`rax = rcx++;`, two statements on a line, `while`, `for`, `case` with statements, registers in sums without blanks), `most` about how many lines it
has (3 to 12 where it is not said).
"""
import random

PARTS = {"rax": ("rax", "eax", "ax", "al"), "rbx": ("rbx", "ebx", "bx", "bl"), "rcx": ("rcx", "ecx", "cx", "cl"), "rdx": ("rdx", "edx", "dx", "dl"),
         "rsi": ("rsi", "esi", "si", "sil"), "rdi": ("rdi", "edi", "di", "dil"), "rbp": ("rbp", "ebp", "bp", "bpl"), "rsp": ("rsp", "esp", "sp", "spl")}
PARTS.update({f"r{k}": (f"r{k}", f"r{k}d", f"r{k}w", f"r{k}l") for k in range(8, 16)})
FULL, HALF, WORD, BYTE = range(4)     # 64, 32, 16, 8 bits
BITS = (64, 32, 16, 8)
ARGUMENTS = (("rcx", "rdx"), ("rdi", "rsi", "rdx", "rcx", "r8", "r9"), ("rcx", "rdx", "r8", "r9"))
VOLATILE = (("rax", "rcx", "rdx"), ("rax", "rcx", "rdx", "rsi", "rdi", "r8"), ("rax", "rcx", "rdx", "r8", "r9"))
PRESERVED = (("rbx", "rsi", "rdi"), ("rbx", "r12", "rbp"), ("rbx", "rsi", "r12"))
SLOTS = ((), (), ("var_8",), ("var_8", "var_10"), ("var_8", "var_4"))
NAMES = ((), ("dword_404010",), ("qword_404020",), ("dword_404010", "counter"), ("byte_404030",))


class Maker:
    def __init__(self, seed, odd, most=None):
        self.chance = random.Random(seed)
        self.odd = odd
        pick = self.chance.choice
        self.convention = pick((1, 1, 1, 2, 0))
        self.address = HALF if self.convention == 0 else FULL
        count = self.chance.randint(2, 5)
        wanted = {pick(VOLATILE[self.convention] if self.chance.random() < 0.65 else PRESERVED[self.convention]) for _ in range(count)}
        if self.chance.random() < 0.6:
            wanted.add("rax")
        self.families = sorted(wanted) if len(wanted) > 1 else ["rax", "rbx", "rcx"]
        # which widths the listing has: one, or several
        if self.convention == 0:
            self.widths = pick(((HALF,),) * 4 + ((HALF, HALF, HALF, WORD, BYTE),))
        else:
            self.widths = pick(((FULL,),) * 4 + ((HALF,),) * 2 + ((FULL, FULL, FULL, HALF, HALF, HALF, WORD, BYTE),) * 4)
        self.slots = pick(SLOTS)
        self.names = pick(NAMES)
        self.functions = ("f", "g", "h") if self.widths == (FULL,) else ("f", "g", "h", "isum", "ival")
        self.most = most or self.chance.randint(3, 12)
        self.out, self.labels, self.awaited, self.written = [], [], [], []

    # ---- operands

    def often(self, share):
        return self.chance.random() < share

    def width(self):
        return self.chance.choice(self.widths)

    def part(self, fam, width):
        if width == BYTE and fam in ("rax", "rbx", "rcx", "rdx") and self.often(0.25):
            return fam[1] + "h"
        return PARTS[fam][width]

    def any_family(self):
        return self.chance.choice(self.families)

    def register(self, width=None):
        width = self.width() if width is None else width
        return self.part(self.written[-1] if self.written and self.often(0.5) else self.any_family(), width)

    def pointer(self):
        return self.part(self.any_family(), self.address)

    def number(self, width=FULL):
        pick, q = self.chance.choice, self.chance.random()
        if self.odd and self.often(0.04):
            return pick(("010", "0b101", "1'0", "0x1'0", "017"))
        value = self.chance.randint(0, 9)
        if 0.45 <= q < 0.6:
            value = pick((0x10, 0x20, 0x100, 0x7F, 180))
        elif 0.6 <= q < 0.75:
            value = pick((-1, -2, -8, -0x10))
        elif 0.75 <= q < 0.85:
            value = pick((0x80, 0xFF) if width == BYTE else (0x8000, 0xFFFF) if width == WORD else (0x7FFFFFFF, 0x80000000, 0xFFFFFFFF))
        elif 0.85 <= q < 0.93 and width == FULL:
            value = pick((0x100000005, 0x7FFFFFFFFFFFFFFF, 0x100000000))
        if width in (WORD, BYTE):
            value &= (1 << BITS[width]) - 1
        return str(value) if -9 <= value < 10 else f"-{-value:#x}" if value < 0 else f"{value:#x}"

    def memory(self, width):
        pick = self.chance.choice
        base = self.pointer()
        found = [f"*(uint{BITS[width]}_t *){pick((base, f'({base} + 8)', f'({base} - 8)', f'({base} + ({self.pointer()} * 4))'))}"]
        if self.slots:
            found += [pick(self.slots)] * 2
        if self.names:
            found.append(pick(self.names))
        return pick(found)

    def source(self, width):
        q = self.chance.random()
        return self.number(width) if q < 0.3 else self.register(width) if q < 0.75 else self.memory(width)

    def condition(self):
        width = self.width()
        left = self.register(width) if self.often(0.8) else self.memory(width)
        if self.often(0.25):
            return f"({left} & {self.register(width) if self.often(0.4) else self.number(width)}) {self.chance.choice(('==', '!='))} 0"
        operator = self.chance.choice(("==", "!=", "==", "!=", "<", ">=", ">", "<="))
        if operator not in ("==", "!=") and self.often(0.5):
            left = "(unsigned)" + left
        return f"{left} {operator} {self.register(width) if self.often(0.35) else self.number(width)}"

    # ---- statements

    def call(self):
        pick = self.chance.choice
        callee = f"((void (*)()){self.pointer()})" if self.often(0.12) else pick(self.functions)
        if self.convention == 0:
            given = [pick((self.register(HALF), self.number(HALF), self.memory(HALF))) for _ in range(self.chance.randint(0, 2))]
        else:
            # arguments as the generator spells them: all registers up to the last one that was written
            names = ARGUMENTS[self.convention]
            last = max([k for k, r in enumerate(names) if r in self.written], default=-1)
            given = list(names[:min(last + 1, 4)] if self.often(0.6) else names[:self.chance.randint(0, 3)])
            if self.often(0.3):
                given = [pick((r, self.register())) for r in given]
        self.written = ["rax"] if "rax" in self.families and self.often(0.6) else []
        result = "eax" if self.convention == 0 or callee.startswith("i") and self.widths != (FULL,) else "rax"
        text = f"{callee}({', '.join(given)});"
        return f"{result} = {text}" if self.often(0.9) else text

    def computed(self):
        """`register = an address or a sum;`"""
        one, two = self.pointer(), self.pointer()
        text = self.chance.choice((f"{one} + {self.chance.choice((4, 8, '0x10', 1))}", f"{one} + {two}", f"{one} - 8", f"({one} + ({two} * 4)) + 8", f"{one} * 4",
                                   "&" + self.chance.choice(self.slots + self.names or ("dword_404010",))))
        fam = self.any_family()
        self.written.append(fam)
        width = self.width()
        return f"{self.part(fam, width if width < WORD and self.often(0.3) and width >= self.address else self.address)} = {text};"

    def widened(self):
        types = ("uint32_t", "int32_t") if self.convention == 0 else ("uint32_t", "int32_t", "uint64_t", "int64_t")
        to = self.chance.choice(types)
        narrow = self.chance.choice((WORD, BYTE) if "32" in to or to[0] == "u" else (HALF, WORD, BYTE))
        source = self.part(self.any_family(), narrow) if self.often(0.6) else f"*(uint{BITS[narrow]}_t *){self.pointer()}"
        return f"{self.part(self.any_family(), HALF if '32' in to else FULL)} = ({to}){source};"

    def special(self):
        """Instructions that the generator has no operator for."""
        one, two = self.pointer(), self.pointer()
        return self.chance.choice((f"{one} = __pop();", f"{one} = __pop();", f"{PARTS['rax'][self.address]} = __rdtsc();", "__cpuid(eax, ecx);",
                                   f"{one} = _InterlockedExchange(&{self.memory(self.address)}, {one});", f"{one} = __ROL__({one}, 3);",
                                   f"__asm {{ mul {one} }}", f"__asm {{ div {one} }}", f"__asm {{ xchg {one}, {two} }}", f"__asm {{ bswap {one} }}"))

    def statement(self):
        if self.often(self.odd):
            return self.odd_line()
        pick, q, width = self.chance.choice, self.chance.random(), self.width()
        if q < 0.34:
            fam = self.any_family()
            self.written.append(fam)
            return f"{self.part(fam, width)} = {self.source(width)};"
        if q < 0.42:
            return f"{self.memory(width)} = {pick((self.register(width), self.number(width)))};"
        if q < 0.49:
            return self.computed()
        if q < 0.56:
            operator = pick(("+=", "-=", "&=", "|=", "^=", "<<=", ">>=", "*="))
            return f"{self.register(width)} {operator} {self.source(width) if self.often(0.6) else self.number(HALF)};"
        if q < 0.59:
            return f"{self.register(width)}{pick(('++', '--'))};"
        if q < 0.61:
            name = self.register(width)
            return f"{name} = {pick('-~')}{name};"
        if q < 0.64:
            return self.widened() if self.widths != (FULL,) or self.often(0.2) else f"{self.register()} = {self.register()};"
        if q < 0.66:
            return f"{self.register(min(width, HALF))} = {self.register(min(width, HALF))} * {self.chance.randint(2, 9)};"
        if q < 0.68:
            return f"{self.part(self.any_family(), BYTE)} = {self.condition()};" if self.widths != (FULL,) else f"{self.register()} = {self.register()};"
        if q < 0.71:
            narrow = min(width, HALF)
            return f"if ({self.condition()}) {self.register(narrow)} = {self.register(narrow) if self.often(0.7) else self.memory(narrow)};"
        if q < 0.74:
            return self.special()
        return self.call()

    def odd_line(self):
        a, b, c, d = (self.pointer() for _ in range(4))
        slot, sp = self.chance.choice(self.slots or ("var_8",)), PARTS["rsp"][self.address]
        return self.chance.choice((
            f"{a} = {b}+{c};", f"{a} = ({b}) - ({c});", f"{a} = {b}++;", f"{a} = -{b};", f"{a} = {b} - {c};", f"{a} = {b} ? {c} : {d};", f"{a} = {b} && {c};",
            f"{a} = {b} + f();", f"{a} = g() + {b};", f"{a} = *({b});", f"{a} = *{b};", f"{a} = {b}/{c};", f"{a} = {b}&{c};", f"{a} = {b}; {c} = {d};", f"++{a};",
            f"{a} %= {b};", f"{a}={b};", f"if ({a}) f();", f"if ({a}) return;", f"if ({a}) {b}={c};", f"{a} = {b}();", f"f({a}, g({b}));", f"{a} = {b} = {c};",
            f"{a} = {b} >> 1;", f"if ({a}) return {b};", f"{a} = {b}, {c};", f"{a} = {b} & {c};", f"h({a} - {b}, {c} * 2);", f"if ({a})", f"{slot}.f = 1;",
            f"{a} = *({b} + 8);", f"{a} = 010;", f"{a} = f(); {b} = {c};", f"{a} = sizeof(x);", f"h(&{slot});", f"{a} = {sp} + ({b} * 8);", f"f({sp} + {b} * 8);",
            f"{a} = f() + g();", f"{a} = f(g({b}));", f"{a} = !{b};", f"{a} = {b} == {c};", f"if ({a} && f()) {b} = {c};", f"h({a}++, {b});", f"counter += {a};",
            f"*({a}) += {b};", f"counter++;", f"{a} = {b} | f();", f"{a} = ({b} + {c}) * 2;", f"{a} = {b} - ({c} - {d});", f"{a} = {b} * {c} + {d};", f"{a} = ~({b} + {c});",
            f"{a} = &counter;", f"{a} = ({b} & 7) == 0;", f"f({a}), {b} = {c};", f"{a} = {b}--;", f"{a} -= {b} = {c};", f"{a} = {b} ? f() : {c};",
            f"{a} = {b}; // {c}", f"((void (*)()){a})({b}++);", f"{a} = L\"text\";", f"{a} = -{b} + {c};", f"{a} = {b} < {c};", f"{a} = {b} << 1;", f"{a} = \"text\";", f"rcx_count += {a};", f"{a} = {slot};", f"{slot} = {a};"))

    # ---- blocks

    def put(self, indent, text):
        self.out.append(" " * indent + text)

    def new_label(self):
        return f"loc_{len(self.labels) + len(self.awaited)}"

    def jump(self, indent):
        if self.labels and self.often(0.35):
            label = self.chance.choice(self.labels)
        elif self.awaited and self.often(0.6):
            label = self.chance.choice(self.awaited)
        else:
            label = self.new_label()
            self.awaited.append(label)
        self.put(indent, f"if ({self.condition()}) goto {label};" if self.often(0.85) else f"goto {label};")

    def label(self, indent):
        label = self.awaited.pop(0) if self.awaited and self.often(0.7) else f"loc_{len(self.labels) + len(self.awaited) + 20}"
        if label not in self.labels:
            self.labels.append(label)
            self.put(max(0, indent - 1), label + ":")

    def odd_block(self, indent, is_loop):
        q = self.chance.random()
        if q < 0.08:
            self.put(indent, "for (;;) {")
            self.block(indent + 1, 2, True)
            self.put(indent + 1, f"if ({self.condition()}) break;")
            self.put(indent, "}")
        elif q < 0.14:
            label = f"loc_{len(self.labels) + 60}"
            self.labels.append(label)
            self.put(indent, f"{label}: {self.chance.choice(('// again', self.statement()))}")
        elif q < 0.2 and len(self.labels) > 1:
            self.put(indent, f"if ({self.condition()}) goto {self.chance.choice(self.labels)}; else goto {self.chance.choice(self.labels)};")
        elif q < 0.3:
            self.put(indent, f"while ({self.condition()}) {{")
            self.block(indent + 1, 2, True)
            self.put(indent, "}")
        elif q < 0.45:
            self.put(indent, f"for (; {self.condition()}; ) {{")
            self.block(indent + 1, 2, True)
            self.put(indent, "}")
        elif q < 0.7 and is_loop:
            self.put(indent, f"if ({self.condition()}) {self.chance.choice(('break', 'continue'))};")
        else:
            self.put(indent, f"switch ({self.register(self.address)}) {{")
            self.put(indent + 1, "case 0:")
            self.block(indent + 1, 1, is_loop)
            if self.often(0.5):
                self.put(indent + 1, "break;")
            self.put(indent + 1, "case 1:")
            self.block(indent + 1, 1, is_loop)
            self.put(indent, "}")

    def switch(self, indent):
        self.put(indent, f"switch ({self.register(self.address)}) {{")
        for k in range(2):
            known = self.awaited or self.labels
            if known and self.often(0.5):
                label = known[-1]
            else:
                label = f"loc_{len(self.labels) + len(self.awaited) + 40 + k}"
                self.awaited.append(label)
            self.put(indent + 1, f"case {k}: goto {label};")
        self.put(indent, "}")

    def block(self, indent, count, is_loop=False):
        while count > 0 and len(self.out) < self.most:
            q = self.chance.random()
            if q < 0.72 or count < 3:
                self.put(indent, self.statement())
                count -= 1
            elif q < 0.82:
                inner = self.chance.randint(1, max(1, count - 2))
                self.put(indent, f"if ({self.condition()}) {{")
                self.block(indent + 1, inner, is_loop)
                if self.odd and self.often(0.3):
                    self.put(indent, "} else {" if self.often(0.7) else f"}} else if ({self.condition()}) {{")
                    self.block(indent + 1, self.chance.randint(1, 2), is_loop)
                self.put(indent, "}")
                count -= inner + 2
            elif q < 0.88:
                inner = self.chance.randint(1, max(1, count - 2))
                self.put(indent, "do {")
                self.block(indent + 1, inner, True)
                self.put(indent, f"}} while ({self.condition()});")
                count -= inner + 2
            elif q < 0.94:
                self.jump(indent)
                count -= 1
            elif q < 0.98:
                self.label(indent)
                count -= 1
            else:
                if self.odd and self.often(0.8):
                    self.odd_block(indent, is_loop)
                else:
                    self.switch(indent)
                count -= 4

    def listing(self):
        self.block(0, self.most)
        for label in dict.fromkeys(self.awaited):
            if label not in self.labels:
                self.labels.append(label)
                self.put(0, label + ":")
                if self.often(0.5):
                    self.put(0, self.statement())
        if self.often(0.3):
            self.put(0, f"h({self.register()}, {self.register()});")
        q = self.chance.random()
        if q < 0.6:
            self.put(0, f"return {self.chance.choice((PARTS['rax'][self.address], self.register()))};")
        elif q < 0.8:
            self.put(0, "return;")
        else:
            self.put(0, f"h({self.register()});")
        return self.out


def generated(seed, odd, most=None):
    maker = Maker(seed, odd, most)
    return maker.convention, maker.listing()


# ---- straight pieces, for the profile (request M-106)

def straight(seed):
    """A straight piece: assignments of sums and differences to 64-bit registers, and a return."""
    chance = random.Random(seed)
    names = [chance.choice(("rax", "rbx", "rcx", "rdx", "rsi", "r8", "r12")) for _ in range(chance.randint(2, 4))]

    def term(depth):
        q = chance.random()
        if depth and q < 0.25:
            return f"({total(depth - 1)})"
        return chance.choice(names) if q < 0.75 else chance.choice(("1", "5", "0x10", "0xffffffff", "0x7fffffffffffffff", "9"))

    def total(depth):
        out = term(depth)
        for _ in range(chance.choice((0, 0, 1, 1, 2, 3))):
            out += chance.choice((" + ", " - ")) + term(depth)
        return out

    lines = [f"{chance.choice(names)} = {total(2)};" for _ in range(chance.randint(1, 8))]
    return chance.choice((1, 2)), [*lines, f"return {total(2)};"]
