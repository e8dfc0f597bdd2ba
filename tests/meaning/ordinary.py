"""Compiled-looking listings, to measure how many lines are cautioned where nothing is made to meet: values are set before they are read, volatile registers are not
read behind calls. Each is fixed by a seed; 40 to 80 lines, convention 1.

`ordinary(seed, special)` answers the lines; `special` is the share of statements that are instructions by name (`__asm { .. }`, `__rdtsc()`, ..).
"""
import random

from listing import KEYWORD, PUNCT, REGISTER, SYMBOL, TEXT, Line, Token, listing_of

ARGUMENTS = ("rdi", "rsi", "rdx", "rcx")
PRESERVED = ("rbx", "rbp", "r12", "r13")
HALF = {"rax": "eax", "rbx": "ebx", "rcx": "ecx", "rdx": "edx", "rsi": "esi", "rdi": "edi", "rbp": "ebp", "r12": "r12d", "r13": "r13d"}
SLOTS = ("var_18", "var_20", "var_28")
FUNCTIONS = ("sub_401000", "sub_402000", "valve_set", "read_port", "log_it")
SPECIAL = ("__asm { cli }", "__asm { out dx, al }", "__asm { in al, dx }", "__asm { rep stosd }", "rax = __rdtsc();", "rax = __readgsqword(0x30);", "__asm { nop }",
           "rax = __ROL__(rax, 5);", "__cpuid(eax, ecx);", "eax = _InterlockedExchange(&dword_404010, eax);")


class Ordinary:
    def __init__(self, seed, special):
        self.chance, self.special = random.Random(seed), special
        self.out, self.kept, self.slots, self.labels = [], {}, {}, 0     # kept: registers that hold a value over calls, with its width; slots likewise

    def put(self, indent, text):
        self.out.append(" " * indent + text)

    def often(self, share):
        return self.chance.random() < share

    def pick(self, among):
        return self.chance.choice(sorted(among) if isinstance(among, dict) else among)

    def value(self):
        """A value that is there, and its width: a kept register, a slot, a global, a read through a register, a number (0)."""
        q = self.chance.random()
        if q < 0.45 and self.kept:
            found = self.pick(self.kept)
            return found, self.kept[found]
        if q < 0.6 and self.slots:
            found = self.pick(self.slots)
            return found, self.slots[found]
        if q < 0.75:
            found = self.pick(("dword_404010", "dword_404018", "qword_404020"))
            return found, 32 if found.startswith("d") else 64
        if q < 0.85 and self.kept:
            base, width = self.pick(self.kept), self.pick((32, 64))
            return f"*(uint{width}_t *)({base} + {8 * self.chance.randint(2, 5):#x})", width
        return self.pick(("0", "1", "5", "0x20", "0xb4", "-1", "0x400")), 0

    def part(self, fam, width):
        return fam if width == 64 else HALF[fam]

    def move(self, indent, fam):
        """Sets a register to a value; answers the width."""
        value, width = self.value()
        width = width or self.pick((32, 32, 64))
        if value in HALF:
            value = self.part(value, width)
        self.put(indent, f"{self.part(fam, width)} = {value};")
        return width

    def keep(self, indent, fam, width):
        """Keeps a volatile register's value, in a register or a slot."""
        source = self.part(fam, width)
        if self.often(0.7):
            target = self.pick(PRESERVED)
            self.kept[target] = width
            self.put(indent, f"{self.part(target, width)} = {source};")
        else:
            target = self.pick(SLOTS)
            self.slots[target] = max(width, self.slots.get(target, 0))
            self.put(indent, f"{target} = {source};")

    def call(self, indent):
        """A call with its arguments; answers whether its result is still to be read."""
        given = ARGUMENTS[:self.pick((0, 1, 1, 2, 2, 3))]
        for fam in self.chance.sample(given, len(given)):
            q = self.chance.random()
            if q < 0.2 and self.kept:
                self.put(indent, f"{fam} = {self.pick(self.kept)} + {8 * self.chance.randint(1, 9):#x};")
            elif q < 0.28:
                self.put(indent, f"{fam} = &{self.pick(('dword_404010', 'var_40'))};")
            elif q < 0.34:
                self.put(indent, f"{fam} = \"text {self.chance.randint(0, 9)}\";")
            else:
                self.move(indent, fam)
        self.put(indent, f"rax = {self.pick(FUNCTIONS)}({', '.join(given)});")
        q = self.chance.random()
        if q < 0.35:
            self.keep(indent, "rax", self.pick((32, 64)))
        return 0.35 <= q < 0.6

    def condition_on_result(self):
        if self.often(0.6):
            return f"rax {self.pick(('==', '!='))} 0"
        return f"eax {self.pick(('==', '!=', '<', '>='))} {self.pick(('0', '5', '0x20'))}"

    def condition(self, indent):
        q = self.chance.random()
        if q < 0.6:
            name = self.part("rax", self.move(indent, "rax"))
            sign = "(unsigned)" if self.often(0.2) else ""
            return f"{sign}{name} {self.pick(('==', '!=', '<', '>=', '>'))} {self.pick(('0', '1', '0x20', '0x64'))}"
        if self.kept:
            found = self.pick(self.kept)
            return f"{self.part(found, self.kept[found])} {self.pick(('==', '!='))} 0"
        return "dword_404010 == 0"

    def arithmetic(self, indent):
        fam = self.pick(("rax", "rcx", "rdx"))
        width = self.move(indent, fam)
        name = self.part(fam, width)
        for _ in range(self.chance.randint(0, 2)):
            self.put(indent, f"{name} {self.pick(('+=', '-=', '&=', '<<='))} {self.pick(('1', '4', '0xff', '8'))};")
        q = self.chance.random()
        if q < 0.4:
            self.put(indent, f"{'dword_404010' if width == 32 else 'qword_404020'} = {name};")
        elif q < 0.7 and self.kept:
            self.put(indent, f"*(uint{width}_t *)({self.pick(self.kept)} + 0x10) = {name};")
        else:
            self.keep(indent, fam, width)

    def branch(self, indent, head, count, foot="}"):
        """A block, behind which holds what held before it."""
        kept, slots = dict(self.kept), dict(self.slots)
        self.put(indent, head)
        self.block(indent + 1, count)
        self.put(indent, foot)
        self.kept, self.slots = kept, slots

    def after_call(self, indent):
        count = self.chance.randint(1, 2)
        if self.often(0.6):
            self.branch(indent, f"if ({self.condition_on_result()}) {{", count)
            return
        self.labels += 1
        label, kept, slots = f"loc_{self.labels}", dict(self.kept), dict(self.slots)
        self.put(indent, f"if ({self.condition_on_result()}) goto {label};")
        self.block(indent, count)
        self.put(max(0, indent - 1), f"{label}:")
        self.kept, self.slots = kept, slots

    def block(self, indent, count):
        for _ in range(count):
            if self.special and self.often(self.special):
                self.put(indent, self.pick(SPECIAL))
                continue
            q = self.chance.random()
            if q < 0.45:
                if self.call(indent):
                    self.after_call(indent)
            elif q < 0.7:
                self.arithmetic(indent)
            elif q < 0.85:
                self.branch(indent, f"if ({self.condition(indent)}) {{", self.chance.randint(1, 3))
            elif q < 0.93:
                self.put(indent, "r14d = 0;")
                self.branch(indent, "do {", self.chance.randint(1, 2))
                self.out[-1:] = [" " * (indent + 1) + "r14d++;", " " * indent + "} while (r14d < 0xa);"]
            else:
                source = f"*(uint8_t *)({self.pick(self.kept)} + 4)" if self.kept else "al"
                fam = self.pick(("rcx", "rdx"))
                self.put(indent, f"{HALF[fam]} = (uint32_t){source};")
                self.put(indent, f"dword_404018 = {HALF[fam]};")

    def listing(self):
        self.put(0, "{")
        self.put(1, "rbx = rdi;")
        self.kept["rbx"] = 64
        self.block(1, self.chance.randint(8, 16))
        returns = self.often(0.7)
        if returns:
            self.put(1, self.pick(("eax = 0;", "eax = dword_404010;", "rax = rbx;", "eax = -1;")))
        self.put(1, "return rax;" if returns else "return;")
        self.put(0, "}")
        return [head("__int64" if returns else "void"), *listing_of(self.out)]


def head(result):
    """The line of a function's name, as the generator makes it."""
    tokens = [(KEYWORD, result), (TEXT, " "), (SYMBOL, "sub_400000"), (PUNCT, "("), (KEYWORD, "__int64"), (TEXT, " "), (REGISTER, "rdi"), (PUNCT, ", "),
              (KEYWORD, "__int64"), (TEXT, " "), (REGISTER, "rsi"), (PUNCT, ")")]
    return Line(0, tuple(Token(*t) for t in tokens))


def ordinary(seed, special=0.0):
    return Ordinary(seed, special).listing()
