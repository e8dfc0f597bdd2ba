"""What the Rust does to a listing, step by step, in the settings of a call: to see which steps a run made. The library decides: `run` compares each cleaned
listing with the library's, and a difference between the two is told.

Written from document 01, pseudo_opt.rs and, for the settings, docs/TAPE.md and include/puchkewa.h. The names are those of docs/MAP.md.
"""
import re
from typing import NamedTuple

from listing import ADDRESS, HIGH_BYTES, KEYWORD, NUMBER, PUNCT, REGISTER, SYMBOL, TEXT, Line, Token, family, family_of

VOLATILE = (frozenset(("rax", "rcx", "rdx")), frozenset(("rax", "rcx", "rdx", "rsi", "rdi", "r8", "r9", "r10", "r11")),
            frozenset(("rax", "rcx", "rdx", "r8", "r9", "r10", "r11")))


class Settings(NamedTuple):
    convention: int = 1
    parts: bool = False
    settle: bool = False
    edition: int = 0
    profile: bool = False


class Step(NamedTuple):
    """A join or a cut: the listing before it, the line, and of a join what was put where."""
    before: list
    at: int
    uses: tuple          # the lines that are rewritten; of a cut none
    family: str
    width: int
    target: str          # the register's name as the line assigns to it
    expression: tuple
    is_constant: bool    # a lone number that goes to all its uses
    after: list

    @property
    def is_cut(self):
        return not self.uses


# ---- lines

def names(line, fam):
    return any(family_of(t) == fam for t in line.tokens)


def has_keyword(line, word):
    return Token(KEYWORD, word) in line.tokens


def is_label(line):
    return len(line.tokens) == 2 and line.tokens[0].kind == SYMBOL and line.tokens[1].text == ":"


def has_brace(line):
    return any(t.kind == PUNCT and ("{" in t.text or "}" in t.text) for t in line.tokens)


def call_at(line):
    """The place of the first call mark, or None."""
    for place, (one, next_one) in enumerate(zip(line.tokens, line.tokens[1:])):
        if one.kind == SYMBOL and next_one.kind == PUNCT and next_one.text.startswith("(") or one.kind == KEYWORD and one.text.startswith("((void"):
            return place
    return None


def assignment(line):
    """The target and the expression of `register = expression;`, or None."""
    if len(line.tokens) < 2:
        return None
    target, equals = line.tokens[:2]
    if target.kind != REGISTER or equals.kind != PUNCT or not equals.text.startswith(" = "):
        return None
    expression = list(line.tokens[2:])
    if equals.text[3:]:
        expression.insert(0, Token(PUNCT, equals.text[3:]))
    if not expression or not expression[-1].text.endswith(";"):
        return None
    last = expression.pop()
    if last.text[:-1]:
        expression.append(Token(last.kind, last.text[:-1]))
    return (target, tuple(expression)) if expression else None


NONE, USE, KILL = range(3)


def touch(line, fam, volatile):
    """How a line touches a family, and how often it names it."""
    found = assignment(line)
    if found:
        known = family(found[0].text)
        if known and known[0] == fam and known[1] >= 32 and not any(family_of(t) == fam for t in found[1]):
            return KILL, 0
    count = sum(family_of(t) == fam for t in line.tokens)
    if count:
        return USE, count
    return (KILL if fam in volatile and call_at(line) is not None else NONE), 0


def is_killed_first(lines, fam, indent, volatile):
    for line in lines:
        how = touch(line, fam, volatile)[0]
        if how == USE:
            return False
        if how == KILL and line.indent <= indent:
            return True
    return False


def dead_after(lines, behind, fam, indent, labels, start, volatile):
    """Whether the Rust's scan takes the family's value for unread behind a line."""
    for at in range(behind + 1, len(lines)):
        line = lines[at]
        how = touch(line, fam, volatile)[0]
        if has_keyword(line, "while"):
            if how == USE:
                return False
            head = next((d for d in range(at - 1, -1, -1) if lines[d].indent == line.indent and has_keyword(lines[d], "do")), None)
            if head is None or head < start and not is_killed_first(lines[head + 1:start + 1], fam, line.indent + 1, volatile):
                return False
            continue
        if has_keyword(line, "goto"):
            place = line.tokens.index(Token(KEYWORD, "goto"))
            label = next((t.text for t in line.tokens[place + 1:] if t.kind == SYMBOL), None)
            target = labels.get(label)
            if target is None or target <= start and not is_killed_first(lines[target + 1:start + 1], fam, lines[target].indent + 1, volatile):
                return False
        if how == USE:
            return False
        if line.indent <= indent and (how == KILL or has_keyword(line, "return")):
            return True
    return True


# ---- numbers

def wrapped(value):
    value &= (1 << 64) - 1
    return value - (1 << 64) if value >> 63 else value


DIGITS = re.compile(r"[+-]?[0-9]+")
HEXADECIMAL = re.compile(r"\+?[0-9a-fA-F]+")
CONSTANT_2024 = re.compile(r"(?P<bin>0[bB][01](?:'?[01])*)|(?P<hex>0[xX][0-9a-fA-F](?:'?[0-9a-fA-F])*)|(?P<oct>0(?:'?[0-7])*)|(?P<dec>[1-9](?:'?[0-9])*)")


def number(text, edition):
    """The value that a Number is read to by the edition, or None."""
    minus = text.startswith("-")
    digits = text[1:] if minus else text
    if edition == 1:
        found = CONSTANT_2024.fullmatch(digits)
        if not found:
            return None
        plain = digits.replace("'", "")
        base = {"bin": 2, "hex": 16, "oct": 8, "dec": 10}[found.lastgroup]
        value = int(plain[2:] if base in (2, 16) else plain, base)
        if value >= 1 << (63 if base == 10 else 64):
            return None
    elif digits.startswith("0x"):
        if not HEXADECIMAL.fullmatch(digits[2:]):
            return None
        value = int(digits[2:].lstrip("+"), 16)
        if value >= 1 << 64:
            return None
    else:
        if not DIGITS.fullmatch(digits):
            return None
        value = int(digits)
        if not -(1 << 63) <= value < 1 << 63:
            return None
    return wrapped(-wrapped(value) if minus else value)


def printed(value):
    return str(value) if -9 <= value < 10 else f"-{-value:#x}" if value < 0 else f"{value:#x}"


# ---- texts of a rewritten line

def fold(tokens, edition):
    tokens, k = list(tokens), 0
    while k + 2 < len(tokens):
        one, sign, two = tokens[k:k + 3]
        if one.kind == two.kind == NUMBER and sign.text in (" + ", " - ") and (k == 0 or tokens[k - 1].text.endswith(("(", ", ", " = "))) and (
                k + 3 == len(tokens) or tokens[k + 3].text.startswith((")", ",", ";"))):
            a, b = number(one.text, edition), number(two.text, edition)
            if a is not None and b is not None:
                tokens[k:k + 3] = [Token(NUMBER, printed(wrapped(a + b if sign.text == " + " else a - b)))]
                continue
        k += 1
    return tuple(tokens)


def merged(tokens):
    out = []
    for token in tokens:
        if out and out[-1].kind == token.kind and token.kind in (PUNCT, TEXT):
            out[-1] = Token(token.kind, out[-1].text + token.text)
        else:
            out.append(token)
    return out


def is_operator_expression(tokens):
    return len(tokens) > 1 and any(t.kind == PUNCT and t.text != t.text.strip(" ") and t.text.strip(" ") != "," for t in tokens)


WRITTEN = (" += ", " -= ", " &= ", " |= ", " ^= ", " *= ", " /= ", " <<= ", " >>= ", "++", "--")


def is_written(tokens, place):
    if place + 1 >= len(tokens) or tokens[place + 1].kind != PUNCT:
        return False
    text = tokens[place + 1].text
    return text.startswith(" = ") and not text.startswith(" ==") or text.startswith(WRITTEN)


def around(tokens, place):
    """The texts before and behind a token."""
    return tokens[place - 1].text if place else "", tokens[place + 1].text if place + 1 < len(tokens) else ""


def is_standalone(before, behind):
    return before.endswith(("(", ", ", " = ")) and behind.startswith((")", ",", ";"))


# ---- an attempt

def constant_uses(lines, i, fam, labels, volatile):
    """The lines that a lone number goes to, or None."""
    uses, last = [], i
    for j in range(i + 1, len(lines)):
        line = lines[j]
        if is_label(line) or line.indent != lines[i].indent or has_keyword(line, "while") or has_keyword(line, "goto"):
            break
        how = touch(line, fam, volatile)[0]
        if how == USE:
            uses.append(j)
        if how != NONE:
            last = j
        if how == KILL or has_brace(line):
            break
    if not uses or not dead_after(lines, last, fam, lines[i].indent, labels, i, volatile) and touch(lines[last], fam, volatile)[0] != KILL:
        return None
    for j in uses:
        tokens = lines[j].tokens
        places = [p for p, t in enumerate(tokens) if family_of(t) == fam]
        if any(is_written(tokens, p) or family(tokens[p].text)[1] < 32 for p in places):
            return None
        if places[0] == 0 and len(tokens) > 1 and tokens[1].kind == PUNCT and not tokens[1].text.startswith((" = ", " ==")):
            return None
    return tuple(uses)


def single_use(lines, i, fam, expression, volatile):
    """The line of the single use, or None."""
    inputs = {family_of(t) for t in expression} - {None}
    is_call = call_at(lines[i]) is not None
    reads_memory = any(t.kind == KEYWORD and t.text.startswith("*(") or t.kind == REGISTER and t.text.startswith("var_")
                       or t.kind == SYMBOL and not (k and expression[k - 1].text.endswith("&")) for k, t in enumerate(expression))
    for j in range(i + 1, len(lines)):
        line = lines[j]
        if is_label(line):
            return None
        how, count = touch(line, fam, volatile)
        if how != NONE:
            return j if count == 1 else None
        if is_call or has_brace(line) or call_at(line) is not None or line.indent != lines[i].indent:
            return None
        passed = assignment(line)
        known = family(passed[0].text) if passed else None
        if known is None or known[0] in inputs or reads_memory and passed[0].text.startswith("var_"):
            return None
    return None


ASSIGNING = tuple("+-*/&|^<>=")


def low_bit(name):
    return 8 if name in HIGH_BYTES else 0


def attempt(lines, i, labels, addressed, volatile, settings):
    """The step that an attempt at line i makes, or None."""
    found = assignment(lines[i])
    known = family(found[0].text) if found else None
    if not known:
        return None
    (target, expression), (fam, width) = found, known
    if fam in addressed or any(family_of(t) == fam for t in expression):
        return None
    if len(expression) == 1 and expression[0].kind == NUMBER:
        uses = constant_uses(lines, i, fam, labels, volatile)
        if uses:
            after = list(lines)
            for j in uses:
                new = [expression[0] if family_of(t) == fam else t for t in lines[j].tokens]
                after[j] = Line(lines[j].indent, fold(merged(new), settings.edition))
            del after[i]
            return Step(lines, i, uses, fam, width, target.text, expression, True, after)
    j = single_use(lines, i, fam, expression, volatile)
    if j is None or has_keyword(lines[j], "while") or not dead_after(lines, j, fam, lines[i].indent, labels, i, volatile):
        return None
    tokens = lines[j].tokens
    place = next(p for p, t in enumerate(tokens) if family_of(t) == fam)
    use = tokens[place].text
    use_width = family(use)[1]
    if (use_width < 32 or width < 32) and use_width != width:
        return None
    if settings.parts and use_width < 32 and (use_width != width or low_bit(use) != low_bit(target.text)):
        return None
    if place == 0 and len(tokens) > 1 and tokens[1].kind == PUNCT and tokens[1].text.lstrip(" ").startswith(ASSIGNING) and not tokens[1].text.startswith(" = "):
        return None
    if is_written(tokens, place):
        return None
    put = list(expression)
    if (len(put) > 1 if settings.profile else is_operator_expression(put)) and not is_standalone(*around(tokens, place)):
        put = [Token(PUNCT, "("), *put, Token(PUNCT, ")")]
    after = list(lines)
    after[j] = Line(lines[j].indent, fold(merged([*tokens[:place], *put, *tokens[place + 1:]]), settings.edition))
    del after[i]
    return Step(lines, i, (j,), fam, width, target.text, expression, False, after)


# ---- a run

def labels_of(lines):
    return {line.tokens[0].text: k for k, line in enumerate(lines) if is_label(line)}


def addressed_of(lines):
    return {two.text for line in lines for one, two in zip(line.tokens, line.tokens[1:]) if one.text.endswith("&") and two.text.startswith("var_")}


def round_of(lines, volatile, settings, steps):
    """One round; answers the listing after it."""
    labels, addressed, i = labels_of(lines), addressed_of(lines), 0
    while i < len(lines):
        step = attempt(lines, i, labels, addressed, volatile, settings)
        if step is None:
            i += 1
            continue
        steps.append(step)
        lines = step.after
        labels = {name: at - (at > i) for name, at in labels.items()}
        i = max(0, i - 1)
    return lines


def cut_at(lines, i, labels, volatile):
    tokens = lines[i].tokens
    if call_at(lines[i]) != 2 or tokens[0].text not in ("rax", "eax") or tokens[1].text != " = ":
        return None
    if not dead_after(lines, i, "rax", lines[i].indent, labels, i, volatile):
        return None
    after = list(lines)
    after[i] = Line(lines[i].indent, tokens[2:])
    return Step(lines, i, (), "rax", family(tokens[0].text)[1], tokens[0].text, tokens[2:], False, after)


def run_of(lines, settings):
    """The steps of the run of a listing; the finished listing is the last one's `after`, or the listing itself."""
    volatile, steps, rounds = VOLATILE[settings.convention], [], 0
    while settings.settle or rounds < 3:
        count = len(steps)
        lines = round_of(lines, volatile, settings, steps)
        rounds += 1
        if len(steps) == count:
            break
    labels = labels_of(lines)
    for i in range(len(lines)):
        step = cut_at(lines, i, labels, volatile)
        if step:
            steps.append(step)
            lines = step.after
    return steps


def finished(lines, steps):
    return steps[-1].after if steps else lines
