"""What a listing does: states, execution, events. Assumed is, and nothing else:

registers    A family is a register of 64 bits (32 under convention 0). A write of 32 bits clears the upper half, a write of 8 or 16 leaves the
             rest, ah is the second byte. Other registers (xmm0) are cells of 64 bits. A register has no sign.
widths       An expression is computed at the width of its widest operand, at least 32 bits. A number takes the width of what stands beside it (in a
             sum one beyond 32 bits makes 64; in a comparison one that does not fit is compared whole), so C's types of numbers are not modelled. `*(uintN_t *)` and `(uintN_t)`
             have C's unsigned type, `(intN_t)` carries the sign of its operand, `&x` and strings are pointers: sums with them count elements,
             other arithmetic with them is no C. Comparisons are signed unless `(unsigned)` stands there, which cuts nothing (so the listing
             generator means it), or C's conversions make them unsigned; `/`, `%` and `>>` are unsigned.
slots        `var_` names are cells of their own that only their name reaches, as wide as the widest register that stands opposite to them in the raw
             listing, else as an address; one that the raw listing takes the address of is memory at that address. `arg_` names are memory of the
             frame.
memory       Bytes at addresses. A byte that nothing wrote holds what the seed says. `byte_`, `word_`, `dword_`, `qword_` names have that width;
             another name the width of what stands opposite to it, else that of an address; so has an untyped `*e`.
calls        A call is an event with its argument values. Its result is the seed's and the count of calls'; volatile registers are new after it, and
             so, in two of three states, is all memory that is no private slot. A function whose name begins with i answers 32 bits, as every one
             does under convention 0. A call returns, keeps the preserved registers and does not see private slots.
stores       A store outside the frame is an event with address, width and value. A read is none, but in mode reads.
intrinsics   `__pop`, `__rdtsc`, `__readgsqword`: values of the seed; `__pop` and `push` move rsp. `__cpuid` writes rax to rdx. `_Interlocked..` reads
             and stores. `__ROL__` and `__ROR__` turn. `__asm` of mul, imul, div, xchg, bswap, sbb, push: what the manual says of registers, without
             flags (div and sbb: some value of their inputs).
order        C leaves the order of operands open: both left to right and right to left are run.
ends         A value returned, a bare return, the end of the listing, a jump to a label that is not there, a jump to a computed address. A division by
             zero, more than 40 calls or 120 instructions stop a run.

Not modelled: C's types of numbers, types of elements (`[`, `->`), floating point, flags, instructions that jump, the target of a computed jump. Excluded,
with a word: in 32-bit code names of 64-bit registers, which it does not have, and untyped `*e`, whose width is not known.
"""
import random
import zlib
from functools import lru_cache
from typing import NamedTuple

from cleaning import VOLATILE
from listing import HIGH_BYTES, REGISTER, SYMBOL, PUNCT, family
from reading import TYPES, NoC

ALL = (1 << 64) - 1
FRAME = 0x7FF01000
LONGEST, MOST_CALLS = 120, 40
ARGUMENTS = (("rcx", "rdx"), ("rdi",), ("rcx",))     # what a call that spells no argument may see, by convention
PRESERVED = (("rbx", "rsi", "rdi", "rbp", "rsp"), ("rbx", "rbp", "rsp", "r12", "r13", "r14", "r15"),
             ("rbx", "rbp", "rsi", "rdi", "rsp", "r12", "r13", "r14", "r15"))


class Mode(NamedTuple):
    """What is seen beside calls, stores and the returned value. Each is off in mode base."""
    reads: bool = False       # reads outside the frame are events: a device's registers
    exits: bool = False       # rax at a bare return and at the end of the listing
    implicit: bool = False    # a call that spells no argument sees the first argument register (convention 0: ecx and edx)
    # pointers may point into the frame, slots are memory at their addresses and overlap, calls write them, a move is as wide as its register
    aliased: bool = False
    slots: bool = False       # calls see the slots that were written, and so does whoever looks at a bare return and at the end
    preserved: bool = False   # the registers that belong to the caller, and the stack pointer, at a bare return
    exact: bool = False       # an argument -1 is not the argument 0xffffffff
    registers: tuple = ()     # these, at a bare return and at the end: for rows that show a register


MODES = {"base": Mode(), "reads": Mode(reads=True), "exits": Mode(exits=True), "implicit": Mode(implicit=True), "aliased": Mode(aliased=True),
         "slots": Mode(slots=True), "preserved": Mode(preserved=True), "exact": Mode(exact=True)}


class Stop(Exception):
    """The run does not go on: a division by zero, or too many calls."""


# ---- values: number, width in bits (0: a number that takes the width of what stands beside it), kind

PLAIN, UNSIGNED, C_UNSIGNED, POINTER = 0, 1, 2, 16     # UNSIGNED: `(unsigned)` stands there; POINTER + n: to elements of n bytes


def signed(value, width):
    value &= (1 << width) - 1
    return value - (1 << width) if value >> width - 1 else value


def wrapped(value):
    return signed(value, 64)


def bits(value):
    """The 64 bits of a value."""
    return value[0] if value[1] else value[0] & ALL


def cut(value, width):
    return value[0] & (1 << width) - 1


NUMBER_OF = {}


def number_of(text):
    found = NUMBER_OF.get(text)
    if found is None:
        found = NUMBER_OF[text] = zlib.crc32(text.encode()) | 1 << 40
    return found


def some(*what):
    """Some 64 bits, fixed by what they are of."""
    value = hash(tuple([number_of(x) if x.__class__ is str else x for x in what])) & ALL
    value = value * 0xBF58476D1CE4E5B9 & ALL
    return (value ^ value >> 31) * 0x94D049BB133111EB & ALL


def hexadecimal_behind(name):
    try:
        return int(name.rpartition("_")[2], 16)
    except ValueError:
        return None


@lru_cache(None)
def slot_address(name):
    place = hexadecimal_behind(name)
    if name.startswith("arg_"):
        return FRAME + 16 + (place or 0)
    return FRAME - 0x400 - 8 * (number_of(name) & 255) if place is None else FRAME - place


@lru_cache(None)
def name_address(name):
    place = hexadecimal_behind(name) if "_" in name else None
    return 0x700000 + 0x40 * (number_of(name) & 0xFFF) if place is None else place


# ---- operators

def fits(number, width):
    return -(1 << width - 1) <= number < 1 << width


def compared(operator, a, b):
    (x, a_width, a_kind), (y, b_width, b_kind) = a, b
    is_unsigned = a_kind == UNSIGNED or b_kind == UNSIGNED
    if not is_unsigned and (a_kind == C_UNSIGNED or b_kind == C_UNSIGNED):
        # what is narrower than int becomes int
        if a_kind == C_UNSIGNED and a_width < 32:
            a_width, a_kind = 32, PLAIN
        if b_kind == C_UNSIGNED and b_width < 32:
            b_width, b_kind = 32, PLAIN
        is_unsigned = a_kind == C_UNSIGNED and a_width >= (b_width or 32) or b_kind == C_UNSIGNED and b_width >= (a_width or 32)
    if a_width == 0 and b_width and fits(x, b_width):
        x, a_width = x & (1 << b_width) - 1, b_width
    elif b_width == 0 and a_width and fits(y, a_width):
        y, b_width = y & (1 << a_width) - 1, a_width
    if operator in ("==", "!="):
        return int((x & ALL == y & ALL) == (operator == "==")), 0, PLAIN
    if is_unsigned:
        x, y = x & ALL, y & ALL
    else:
        x, y = signed(x, a_width or 64), signed(y, b_width or 64)
    return int(x < y if operator == "<" else x > y if operator == ">" else x <= y if operator == "<=" else x >= y), 0, PLAIN


def shifted(operator, a, b):
    x, width, _ = a
    width = max(32, width) if width else 0
    by = b[0] & (31 if width == 32 else 63)
    if width == 0:
        return (wrapped(x << by) if operator == "<<" else (x & ALL) >> by), 0, PLAIN
    return (x << by if operator == "<<" else x >> by) & (1 << width) - 1, width, PLAIN


def number_beside(number, width):
    """The width of an expression of a number and an operand of that width."""
    return max(32, width) if -(1 << 31) <= number < 1 << 32 else 64


def arithmetic(operator, a, b):
    (x, a_width, a_kind), (y, b_width, b_kind) = a, b
    kind = UNSIGNED if UNSIGNED in (a_kind, b_kind) else PLAIN
    if a_kind >= POINTER or b_kind >= POINTER:
        both = a_kind >= POINTER and b_kind >= POINTER
        if operator not in "+-" or operator == "+" and both or operator == "-" and a_kind < POINTER:
            raise NoC(f"a pointer and {operator}")
        if not both:
            kind = max(a_kind, b_kind)
            if a_kind >= POINTER:
                y *= kind - POINTER
            else:
                x *= kind - POINTER
    if a_width == 0 and b_width == 0:
        width = 0
    elif a_width == 0:
        width = number_beside(x, b_width)
    elif b_width == 0:
        width = number_beside(y, a_width)
    else:
        width = max(32, a_width, b_width)
    if operator == "+":
        value = x + y
    elif operator == "-":
        value = x - y
    elif operator == "*":
        value = x * y
    elif operator in "&|^":
        x, y = x if a_width else x & ALL, y if b_width else y & ALL
        value = x & y if operator == "&" else x | y if operator == "|" else x ^ y
    else:
        x, y = x & ALL, y & ALL
        if y == 0:
            raise Stop
        value = x // y if operator == "/" else x % y
    if width == 0:
        return wrapped(value), 0, PLAIN
    return value & (1 << width) - 1, width, kind


COMPARISONS = frozenset(("==", "!=", "<", ">", "<=", ">="))


def operated(operator, a, b):
    if operator in COMPARISONS:
        return compared(operator, a, b)
    if operator in ("<<", ">>"):
        return shifted(operator, a, b)
    return arithmetic(operator, a, b)


def turned(value, by, is_left):
    width = value[1] or 64
    x, by = value[0] & (1 << width) - 1, (by if is_left else -by) % width
    return (x << by | x >> width - by) & (1 << width) - 1, width, PLAIN


# ---- a run

PARTS = {}     # of a register's name: its family, lowest bit, mask and width


class State(NamedTuple):
    """What a run begins with: the registers, the seed of all that is not said, and whether calls write memory."""
    registers: dict
    seed: int
    calls_write: bool


class Setting(NamedTuple):
    """What holds for all runs of a listing and of its cleaned form: made from the raw listing."""
    convention: int
    mode: Mode
    addressed: frozenset      # slots whose address the raw listing takes
    widths: dict              # of slots and names: the widest register opposite to them


class Run:
    def __init__(self, code, state, setting, is_right_first):
        self.code, self.seed, self.calls_write = code, state.seed, state.calls_write
        self.registers = dict(state.registers)
        self.convention, self.mode, self.addressed, self.widths = setting
        self.volatile = VOLATILE[self.convention]
        self.word = 32 if self.convention == 0 else 64
        self.is_right_first = is_right_first
        self.events, self.memory = [], {}
        self.calls = self.fetched = self.steps = 0
        self.written = self.frame_written = 0         # how often calls wrote all memory, and the frame

    # ---- registers and slots

    def fresh(self, fam):
        """What a register holds that nothing wrote."""
        return some(self.seed, fam, self.calls if fam in self.volatile else 0)

    def slot_width(self, name):
        return self.widths.get(name, self.word)

    def slot_key(self, name):
        return slot_address(name) if self.mode.aliased or name in self.addressed else name

    def get(self, name):
        part = PARTS.get(name)
        if part is not None:
            fam, low, mask, width = part
            value = self.registers.get(fam)
            if value is None:
                value = self.registers[fam] = self.fresh(fam)
            return value >> low & mask, width, PLAIN
        known = family(name)
        if known is None:
            value = self.registers.get(name)
            return some(self.seed, name) if value is None else value, 64, PLAIN
        if name.startswith("var_"):
            width, key = self.slot_width(name), self.slot_key(name)
            value = self.cell(key) if key.__class__ is str else self.load(key, width // 8)
            return value & (1 << width) - 1, width, PLAIN
        fam, width = known
        low = 8 if name in HIGH_BYTES else 0
        PARTS[name] = fam, low, (1 << width) - 1, width
        return self.get(name)

    def put(self, name, value):
        known = family(name)
        if known is None:
            self.registers[name] = cut(value, 64)
            return
        if name.startswith("var_"):
            width, key = self.slot_width(name), self.slot_key(name)
            if key.__class__ is str:
                self.memory[key] = cut(value, width)
            else:
                self.store(key, width // 8, cut(value, width))
            return
        fam, width = known
        x = cut(value, width)
        if width < 32:
            old = self.registers.get(fam)
            if old is None:
                old = self.fresh(fam)
            low = 8 if name in HIGH_BYTES else 0
            x = old & ~((1 << width) - 1 << low) & ALL | x << low
        self.registers[fam] = x

    # ---- memory

    def cell(self, name):
        value = self.memory.get(name)
        return some(self.seed, "slot", name) if value is None else value

    def is_frame(self, address):
        return FRAME - 0x2000 <= address <= FRAME + 0x1000

    def load(self, address, size):
        address &= (1 << self.word) - 1
        is_frame = self.is_frame(address)
        if self.mode.reads and not is_frame:
            self.events.append(("read", address, size))
        written = self.frame_written if is_frame else self.written
        value = 0
        for k in range(size):
            byte = self.memory.get(address + k)
            if byte is None:
                byte = some(self.seed, address + k, written) & 255
            value |= byte << 8 * k
        return value

    def store(self, address, size, value):
        address &= (1 << self.word) - 1
        for k in range(size):
            self.memory[address + k] = value >> 8 * k & 255
        if not self.is_frame(address):
            self.events.append(("store", address, size, value))

    # ---- places: what can be assigned to

    def place(self, node):
        if node[0] == "memory":
            width = self.memory_width(node)
            return "memory", bits(evaluate(self, node[2])), width // 8
        return node

    def memory_width(self, node):
        _, width, address, _ = node
        if width:
            return width
        if address[0] in ("name_address", "slot_address"):
            return self.widths.get(address[1], self.word)
        if self.word == 32:
            raise NoC("an untyped read in 32-bit code")
        return self.word

    def read(self, place):
        if place[0] == "register":
            return self.get(place[1])
        if place[0] == "member":
            return self.get(place[1][1])[0] & 255, 8, PLAIN
        return self.load(place[1], place[2]), 8 * place[2], PLAIN

    def write(self, place, value):
        if place[0] == "register":
            self.put(place[1], value)
        elif place[0] == "member":
            whole = self.get(place[1][1])
            self.put(place[1][1], (whole[0] & ~255 | cut(value, 8), 64, PLAIN))
        else:
            self.store(place[1], place[2], cut(value, 8 * place[2]))

    def in_order(self, first, second):
        """Both, in this run's order."""
        if self.is_right_first:
            late = second()
            return first(), late
        early = first()
        return early, second()

    # ---- calls

    def call(self, name, arguments):
        if self.calls >= MOST_CALLS:
            raise Stop
        event = ("call", name, *arguments)
        if self.mode.implicit and not arguments:
            event += tuple(map(self.whole, ARGUMENTS[self.convention]))
        if self.mode.slots:
            event += self.slots_seen()
        self.calls += 1
        self.events.append(event)
        for fam in self.volatile:
            self.registers.pop(fam, None)
        if self.calls_write:
            self.written += 1
            if self.mode.aliased or self.addressed:
                self.frame_written += 1
                self.memory = {k: v for k, v in self.memory.items() if k.__class__ is str}
            else:
                self.memory = {k: v for k, v in self.memory.items() if k.__class__ is str or self.is_frame(k)}
        return likely(some(self.seed, "result", name, self.calls))

    def intrinsic(self, name, arguments):
        if name in ("__pop", "__rdtsc"):
            self.fetched += 1
            if name == "__pop":
                self.registers["rsp"] = self.registers["rsp"] + self.word // 8 & ALL
            return some(self.seed, name, self.fetched), 64, PLAIN
        if name == "__fastfail":
            self.events.append(("fastfail",))
            raise Stop
        if name == "__cpuid":
            given = [bits(evaluate(self, a)) & 0xFFFFFFFF for a in arguments]
            for fam in ("rax", "rbx", "rcx", "rdx"):
                self.registers[fam] = some("cpuid", fam, *given) & 0xFFFFFFFF
            return 0, 0, PLAIN
        if name in ("_InterlockedExchange", "_InterlockedCompareExchange") and len(arguments) == (2 if name.endswith("dExchange") else 3):
            values = self.evaluated(arguments)
            address, kind = bits(values[0]), values[0][2]
            size = kind - POINTER if kind > POINTER else 8
            old = self.load(address, size)
            if len(values) == 2 or old == cut(values[2], 8 * size):
                self.store(address, size, cut(values[1], 8 * size))
            return old, 8 * size, PLAIN
        if name in ("__ROL__", "__ROR__") and len(arguments) == 2:
            return turned(evaluate(self, arguments[0]), bits(evaluate(self, arguments[1])), name == "__ROL__")
        if name.startswith("__read") and len(arguments) == 1:
            return some(self.seed, name, bits(evaluate(self, arguments[0]))), 64, PLAIN
        raise NoC(f"the intrinsic {name}")

    def evaluated(self, nodes):
        if self.is_right_first:
            return [evaluate(self, n) for n in reversed(nodes)][::-1]
        return [evaluate(self, n) for n in nodes]

    def instruction(self, text):
        """An `__asm` line."""
        name, *operands = text.replace(",", " ").split()
        for operand in operands:
            if not family(operand):
                raise NoC(f"the instruction {text}")
        if name in ("mul", "imul") and len(operands) == 1:
            product = self.get("rax")[0] * self.get(operands[0])[0]
            self.registers["rax"], self.registers["rdx"] = product & ALL, product >> 64 & ALL
        elif name == "div" and len(operands) == 1:
            given = self.get("rax")[0], self.get(operands[0])[0], self.get("rdx")[0]
            self.registers["rax"], self.registers["rdx"] = some("quotient", *given), some("remainder", *given)
        elif name == "xchg" and len(operands) == 2:
            one, two = map(self.get, operands)
            self.put(operands[0], two)
            self.put(operands[1], one)
        elif name == "bswap" and len(operands) == 1:
            self.put(operands[0], (some("bswap", self.get(operands[0])[0]), 64, PLAIN))
        elif name == "sbb" and len(operands) == 2:
            self.put(operands[0], (some("sbb", self.get(operands[0])[0], self.get(operands[1])[0]), 64, PLAIN))
        elif name == "push" and len(operands) == 1:
            self.events.append(("push", self.get(operands[0])[0]))
            self.registers["rsp"] = self.registers["rsp"] - self.word // 8 & ALL
        else:
            raise NoC(f"the instruction {text}")

    # ---- the end

    def seen(self, end):
        out = (end,)
        if self.mode.exits:
            out += (self.whole("rax"),)
        if self.mode.preserved and end == "return":
            out += tuple(map(self.whole, PRESERVED[self.convention]))
        if self.mode.slots:
            out += self.slots_seen()
        return out + tuple((r, self.get(r)[0]) for r in self.mode.registers)

    def whole(self, fam):
        """A register as the code's machine has it: of 32 bits under convention 0."""
        return self.get(fam)[0] & (1 << self.word) - 1

    def slots_seen(self):
        return tuple(sorted((k, v) for k, v in self.memory.items() if k.__class__ is str))

    def go(self):
        """The end of the run, or None where it was stopped; the events are in `events`, the line of each in `places`."""
        code, line_of, at = self.code, self.code.line_of, 0
        events, self.places = self.events, []
        try:
            while self.steps < LONGEST:
                self.steps += 1
                i = code[at]
                what, self.line = i[0], line_of[at]
                at += 1
                if what == "do":
                    evaluate(self, i[1])
                elif what == "unless":
                    if not evaluate(self, i[1])[0]:
                        at = i[2]
                elif what == "when":
                    if evaluate(self, i[1])[0]:
                        at = i[2]
                elif what == "jump":
                    at = i[1]
                elif what == "return":
                    return self.seen("return") if i[1] is None else ("value", bits(evaluate(self, i[1])))
                elif what == "end":
                    return self.seen("end")
                elif what == "switch":
                    at = self.case(i)
                elif what == "asm":
                    self.instruction(i[1])
                elif what == "leave":
                    return i
                else:
                    return "computed", bits(evaluate(self, i[1]))
                if len(self.places) < len(events):
                    self.places += [self.line] * (len(events) - len(self.places))
            return None
        except Stop:
            return None
        finally:
            self.places += [self.line] * (len(events) - len(self.places))

    def case(self, switch):
        _, node, cases, behind = switch
        value = bits(evaluate(self, node))
        for constant, at in cases:
            if constant is not None and bits(evaluate(self, constant)) == value:
                return at
        return next((at for constant, at in cases if constant is None), behind)


def likely(value):
    """A call's result: often 0 or small, so that conditions on it go both ways."""
    by = value % 7
    return 0 if by == 0 else value & 255 if by < 4 else value & 0x7FFFFFFF if by == 4 else value


# ---- expressions: a function for each kind of node

def e_register(run, node):
    return run.get(node[1])


def e_number(run, node):
    return node[1], 0, PLAIN


def e_binary(run, node):
    _, operator, left, right = node
    if run.is_right_first:
        late = evaluate(run, right)
        return operated(operator, evaluate(run, left), late)
    early = evaluate(run, left)
    return operated(operator, early, evaluate(run, right))


def e_memory(run, node):
    width = run.memory_width(node)
    return run.load(bits(evaluate(run, node[2])), width // 8), width, C_UNSIGNED if node[3] else PLAIN


def e_assign(run, node):
    _, target, right = node
    if run.mode.aliased and target[0] == right[0] == "register" and is_slot(target) != is_slot(right):
        return moved(run, target, right)
    place, value = run.in_order(lambda: run.place(target), lambda: evaluate(run, right))
    run.write(place, value)
    if target[0] == "register":
        return run.get(target[1])
    return (cut(value, 8 * place[2]), 8 * place[2], PLAIN) if place[0] == "memory" else run.read(place)


def is_slot(node):
    return node[1].startswith("var_")


def moved(run, target, right):
    """A move between a slot and a register, in mode aliased: as wide as the register."""
    known = family((right if is_slot(target) else target)[1])
    size = (known[1] if known else 64) // 8
    if is_slot(target):
        value = run.get(right[1])
        run.store(slot_address(target[1]), size, cut(value, 8 * size))
    else:
        value = run.load(slot_address(right[1]), size), 8 * size, PLAIN
        run.put(target[1], value)
    return value


def e_update(run, node):
    _, operator, target, right = node

    def old():
        place = run.place(target)
        return place, run.read(place)
    (place, before), value = run.in_order(old, lambda: evaluate(run, right))
    new = operated(operator, before, value)
    run.write(place, new)
    return run.get(target[1]) if target[0] == "register" else new


def e_step(run, node):
    when, sign, target = node
    place = run.place(target)
    before = run.read(place)
    new = operated(sign, before, (1, 0, PLAIN))
    run.write(place, new)
    return before if when == "behind" else run.get(target[1]) if target[0] == "register" else new


def e_unary(run, node):
    value, width, kind = evaluate(run, node[2])
    operator = node[1]
    if operator == "!":
        return int(value == 0), 0, PLAIN
    if kind >= POINTER:
        raise NoC(f"a pointer and {operator}")
    if operator == "+":
        return value, width, kind
    value = -value if operator == "-" else ~value
    if width == 0:
        return value, 0, PLAIN
    return value & (1 << max(32, width)) - 1, max(32, width), PLAIN


def e_cast(run, node):
    value = evaluate(run, node[2])
    x, width, _ = value
    if node[1] == "unsigned":
        if width == 0 and x >= 0:
            return x, 0, UNSIGNED
        return bits(value), width or 64, UNSIGNED
    to, is_signed = TYPES[node[1]]
    if is_signed and width:
        x = signed(x, width)
    return x & (1 << to) - 1, to, PLAIN if is_signed else C_UNSIGNED


def e_pointer(run, node):
    return bits(evaluate(run, node[2])), run.word, PLAIN


def e_address(run, node):
    size = node[2] or run.word // 8
    return bits(evaluate(run, node[1])) & (1 << run.word) - 1, run.word, POINTER + size


def e_string(run, node):
    return some("string", node[1]) & 0xFFFFFF | 0x500000, run.word, POINTER + (2 if node[1].startswith("L") else 1)


def e_call(run, node):
    _, callee, arguments = node
    if callee[0] == "name":
        name = callee[1]
        if name.startswith("_"):
            return run.intrinsic(name, arguments)
        if family(name):
            name = run.get(name)[0]
    else:
        name = bits(evaluate(run, callee[1] if callee[0] == "function" else callee)) & (1 << run.word) - 1
    values = [bits(v) for v in run.evaluated(arguments)]
    width = 32 if run.word == 32 or name.__class__ is str and name.startswith("i") else 64
    return run.call(name, values) & (1 << width) - 1, width, PLAIN


def e_comma(run, node):
    evaluate(run, node[1])
    return evaluate(run, node[2])


EVALUATE = {
    "register": e_register, "number": e_number, "binary": e_binary, "memory": e_memory, "assign": e_assign, "update": e_update, "before": e_step,
    "behind": e_step, "unary": e_unary, "cast": e_cast, "pointer": e_pointer, "address": e_address, "string": e_string, "call": e_call, "comma": e_comma,
    "and": lambda run, n: (int(bool(evaluate(run, n[1])[0] and evaluate(run, n[2])[0])), 0, PLAIN),
    "or": lambda run, n: (int(bool(evaluate(run, n[1])[0] or evaluate(run, n[2])[0])), 0, PLAIN),
    "choose": lambda run, n: evaluate(run, n[2] if evaluate(run, n[1])[0] else n[3]),
    "member": lambda run, n: (evaluate(run, n[1])[0] & 255, 8, PLAIN),
    "slot_address": lambda run, n: (slot_address(n[1]), run.word, PLAIN),
    "name_address": lambda run, n: (name_address(n[1]), run.word, PLAIN),
}


def evaluate(run, node):
    return EVALUATE[node[0]](run, node)


# ---- from the raw listing

def widths_of(lines):
    """Of slots and names: the widest register that stands opposite to them in an assignment of the listing."""
    out = {}
    for line in lines:
        tokens = line.tokens
        if len(tokens) == 4 and tokens[1] == (PUNCT, " = ") and tokens[3] == (PUNCT, ";"):
            for one, other in ((tokens[0], tokens[2]), (tokens[2], tokens[0])):
                if (one.kind == SYMBOL or one.kind == REGISTER and one.text.startswith(("var_", "arg_"))) and other.kind == REGISTER:
                    known = family(other.text)
                    if known and not other.text.startswith("var_"):
                        out[one.text] = max(out.get(one.text, 8), known[1])
    return out


def is_of_32_bits(lines):
    """Whether all registers that are named exist in 32-bit code."""
    for line in lines:
        for token in line.tokens:
            known = family(token.text) if token.kind == REGISTER else None
            if known and not token.text.startswith("var_") and (known[1] == 64 or token.text in ("sil", "dil", "bpl", "spl") or token.text[1:2].isdigit()):
                return False
    return True


SPECIAL = (0, 1, 2, 5, 0x100000005, 0xFFFFFFFF, 0x80000000, ALL, 0x600000, 0x600040, 255, 256, 0x123456789ABCDEF0, 3, 7, 0x7FFFFFFF, 1 << 32)
FAMILIES = ("rax", "rbx", "rcx", "rdx", "rsi", "rdi", "rbp", "r8", "r9", "r10", "r11", "r12", "r13", "r14", "r15")


def states(seed, count, is_aliased):
    """Start states, each fixed by seed and number: numbers at edges, small ones, any, and addresses of the frame where pointers may point there."""
    chance, out = random.Random(seed), []
    for k in range(count):
        registers = {}
        for fam in FAMILIES:
            q = chance.random()
            if is_aliased and q < 0.25:
                registers[fam] = chance.choice((FRAME - 8, FRAME - 0x10, FRAME - 4, FRAME - 0x18))
            else:
                registers[fam] = chance.choice(SPECIAL) if q < 0.6 else chance.randrange(4) if q < 0.8 else chance.getrandbits(64)
        registers["rsp"] = FRAME - 0x100
        out.append(State(registers, chance.getrandbits(60), k % 3 != 0))
    return out
