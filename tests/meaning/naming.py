"""Which rows of docs/DIFFERENCES.md a step of the cleaning has: a test for each row, with the row's words. A row's name is the field's name there.

`rows_of` answers the names of all rows that a step has in a mode. The first is the one that a difference is counted under: rows are asked in the order in which they
stand here, and what is plainest stands first. Some rows need a mode: `stack_slot` is no difference where nobody looks at the slots.
"""
import re

from cleaning import fold, has_keyword, low_bit, merged
from listing import NUMBER, family, family_of
from meaning import ARGUMENTS, PRESERVED
from reading import EFFECTS
from sight import HIDDEN, HOLE, Sight, fam, is_acting_intrinsic, is_call, nodes, overwrites, parts_of, reads_memory, reads_of, stores, surely, writes_of

ROWS = []


def row(name, modes=None):
    """A test of the row `name`; it counts in these modes alone, or in all."""
    def put(test):
        ROWS.append((name, modes, test))
        return test
    return put


def rows_of(step, settings, raw, mode):
    sight = Sight(step, settings, raw)
    return [name for name, modes, test in ROWS if (modes is None or mode in modes) and test(sight)]


# ---- the listing is no C any more, or reads otherwise

ARITHMETIC = ("+", "-", "*", "/", "%", "&", "|", "^", "<<", ">>")


def expression_text(s):
    return "".join(t.text for t in s.step.expression)


def edges(s):
    """Of each use what stands before and behind it, and what is put there."""
    for j, p in s.places:
        before, behind = s.between(j, p)
        text = expression_text(s)
        yield before, f"({text})" if s.is_bracketed(j, p) else text, behind


@row("two_statements_moved")
def two_statements_moved(s):
    """All behind ` = ` up to the last `;` is the expression, also where a second statement stands in it."""
    return not s.step.is_cut and ";" in expression_text(s)


@row("unknown_write")
def unknown_write(s):
    """The line writes the register in a way that the Rust does not know: `%=`, `++rax`, `rax=1`, `var_8.f = 1`."""
    if s.step.is_cut:
        return False
    for j, p in s.places:
        before, behind = s.between(j, p)
        if before.endswith(("++", "--")) or re.match(r" ?(%|>>)= ?|=(?!=)|\.|\[|->|[-+*/&|^]=|<<=| (\+\+|--)", behind):
            return True
    return any(s.family in writes_of(e) and not s.family in s.inputs for trees in s.passed for e in trees)


@row("minus_minus_number")
def minus_minus_number(s):
    """`-` before a number that begins with a minus: `--5`."""
    return not s.step.is_cut and s.number is not None and any(b.endswith("-") and x.startswith("-") for b, x, _ in edges(s))


@row("minus_minus_register")
def minus_minus_register(s):
    """`-` before an expression that begins with a minus: `--rcx`."""
    return not s.step.is_cut and s.number is None and any(b.endswith("-") and x.startswith("-") for b, x, _ in edges(s))


GLUED = ("++", "--", "&&", "||", "/*", "//", "->", "<<", ">>")


@row("glued_punctuators")
def glued_punctuators(s):
    """What stands at the edge of the expression and what stands beside it are one token of C: `/*`, `&&`."""
    return not s.step.is_cut and any(b[-1:] + x[:1] in GLUED or x[-1:] + a[:1] in GLUED or b[-1:].isalnum() and (x[:1].isalnum() or x[:1] == "_") for b, x, a in edges(s))


def top(text):
    """The text outside brackets."""
    out, depth = "", 0
    for c in text:
        depth -= c == ")"
        if depth == 0:
            out += c
        depth += c == "("
    return out


@row("comma_to_argument")
def comma_to_argument(s):
    """A comma at the top of an expression becomes one between arguments, or belongs to it now: C assigns only what stands before it."""
    return not s.step.is_cut and "," in top(expression_text(s))


@row("address_in_a_sum")
def address_in_a_sum(s):
    """An address or a string stands in arithmetic: C counts its elements, or has no such operator for it."""
    if s.step.is_cut or s.expression is None or s.expression[0] not in ("address", "string"):
        return False
    return any(n[0] == "binary" and n[1] in ARITHMETIC or n[0] in ("update", "unary") for _, around_it, _ in s.beside for n in around_it)


@row("lost_brackets")
def lost_brackets(s):
    """The expression's brackets are needed, and none are put: it has a bracket of its own, or another operator than a sum."""
    return not s.step.is_cut and s.reads_otherwise and not re.search(r"\w[-+]\w", expression_text(s)) and re.search(r"\W", top(expression_text(s))) is not None


@row("unspaced_sum")
def unspaced_sum(s):
    """An operator written without blanks gets no brackets."""
    return not s.step.is_cut and s.reads_otherwise and re.search(r"\w[-+*/%&|^<>]\w", expression_text(s)) is not None


# ---- calls and actions in another order

@row("register_called")
def register_called(s):
    """A call through a bare register is no call to the Rust."""
    def calls_register(e):
        return any(n[0] == "call" and n[1][0] == "name" and fam(n[1][1]) for n in nodes(e))
    return not s.step.is_cut and (s.expression is not None and calls_register(s.expression) or any(calls_register(e) for trees in s.passed for e in trees)
                                  or s.is_read_beside(calls_register))


@row("call_under_condition")
def call_under_condition(s):
    """A call stands behind an `if` on one line now."""
    return s.has_call and any(is_sometimes for _, _, is_sometimes in s.beside) and any(b.startswith("if ") for b in (s.bodies[j] for j in s.uses)) and not call_skipped(s)


@row("call_skipped")
def call_skipped(s):
    """A call stands behind `&&`, `||` or `?` now."""
    return s.has_call and any(n[0] in ("and", "or", "choose") for _, around_it, _ in s.beside for n in around_it)


@row("for_head_call")
def for_head_call(s):
    """A call stands in the head of a `for` now and is made in each turn."""
    return s.has_call and any(s.bodies[j].startswith("for ") for j in s.uses)


@row("call_order")
def call_order(s):
    """Two calls in one line: their order is open."""
    return s.has_call and s.is_read_beside(lambda e: any(map(is_call, nodes(e))))


@row("call_behind_a_read")
def call_behind_a_read(s):
    """The rest of the use's line reads memory or a volatile register, and the call may come first or last now."""
    if not s.has_call:
        return False
    if s.is_read_beside(lambda e: reads_memory(e) or reads_of(e) & s.volatile or e[0] == "memory"):
        return True
    return any(n[0] == "update" for _, around_it, _ in s.beside for n in around_it)


@row("interlocked_passed")
def interlocked_passed(s):
    """A read of memory passes an interlocked operation, or stands beside one."""
    def is_interlocked(e):
        return any(n[0] == "call" and n[1][0] == "name" and n[1][1].startswith("_Interlocked") for n in nodes(e))
    if s.step.is_cut or s.expression is None:
        return False
    if not (reads_memory(s.expression) or s.inputs & s.volatile or is_interlocked(s.expression)):
        return False
    return any(is_interlocked(e) for trees in s.passed for e in trees) or s.is_read_beside(is_interlocked) or is_interlocked(s.expression)


@row("keyword_call")
def keyword_call(s):
    """A call by a Keyword's name (`__pop()`, `__cpuid(..)`) is no call to the Rust: it is exchanged with others, passed, skipped, and overwrites nothing."""
    def acts(e):
        return any(map(is_acting_intrinsic, nodes(e)))
    if s.step.is_cut:
        return False
    if s.expression is not None and acts(s.expression):
        return True
    return any(acts(e) for trees in s.passed for e in trees) or s.is_read_beside(acts) or len(s.uses) > 1 and any(acts(e) for j in s.uses for e in trees_of(s, j))


def trees_of(s, j):
    """The trees of a whole line."""
    return [e for k, i in enumerate(s.code or ()) if s.line_of(k) == j for e in parts_of(i)]


@row("increment_moved")
def increment_moved(s):
    """An expression that changes something is moved past lines that read it."""
    changed = writes_of(s.expression) if s.has_change else set()
    return s.has_change and any(reads_of(e, True) & changed or stores(s.expression) and reads_memory(e) for trees in s.passed for e in trees)


@row("increment_under_condition")
def increment_under_condition(s):
    """An expression that changes something stands behind a condition now."""
    return s.has_change and any(is_sometimes for _, _, is_sometimes in s.beside)


@row("two_changes")
def two_changes(s):
    """An expression that changes something stands in a line that reads it or acts itself."""
    if not s.has_change:
        return False
    changed = writes_of(s.expression)
    if s.is_read_beside(lambda e: bool(reads_of(e, True) & changed) or any(n[0] in EFFECTS for n in nodes(e)) or stores(s.expression) and reads_memory(e)):
        return True
    return any(n[0] in ("assign", "update") and (reads_of(n[-2], True) & changed) for _, around_it, _ in s.beside for n in around_it)


# ---- what the expression reads has changed

def has_two_statements(s, j):
    return s.code is not None and s.bodies[j].rstrip(";").count(";") > 0 and not s.bodies[j].startswith("for ")


@row("second_statement")
def second_statement(s):
    """A line holds two statements, and the first changes what the expression reads, or is not seen."""
    return not s.step.is_cut and any(has_two_statements(s, k) for k in range(s.at, s.last + 1))


@row("input_changed")
def input_changed(s):
    """A line passed over, or the use's own, changes an input of the expression on its right side: `rdx = rcx++;`."""
    if s.step.is_cut or s.number is not None:
        return False
    return any(right_writes(e) & s.inputs for trees in s.passed for e in trees) or s.is_read_beside(lambda e: bool(writes_of(e) & s.inputs))


def right_writes(e):
    """What a statement changes beside its plain target, which the Rust asks for."""
    return writes_of(e[2]) if e[0] == "assign" and e[1][0] == "register" else writes_of(e)


@row("volatile_read_beside_call")
def volatile_read_beside_call(s):
    """The expression reads a volatile register and stands beside a call of its line."""
    return not s.step.is_cut and bool(s.inputs & s.volatile or any(not fam(n) for n in s.inputs)) and s.is_read_beside(lambda e: any(map(is_call, nodes(e))))


@row("read_past_call")
def read_past_call(s):
    """A read of memory stands beside a call of its line, which may write it."""
    return not s.step.is_cut and s.expression is not None and reads_memory(s.expression) and s.is_read_beside(lambda e: any(map(is_call, nodes(e))))


@row("read_past_store")
def read_past_store(s):
    """A read of memory passes a store, or stands beside one."""
    return not s.step.is_cut and s.expression is not None and reads_memory(s.expression) and (
        any(stores(e) for trees in s.passed for e in trees) or s.is_read_beside(stores))


# ---- the register was set elsewhere too, or is overwritten on the way

@row("register_in_text")
def register_in_text(s):
    """An `__asm` line names the register in its Text."""
    if s.code is None:
        return False
    def names_it(k):
        return s.code[k][0] == "asm" and s.family in s.words_of_asm(s.code[k][1])
    return bool(s.stale) and names_it(s.stale[-1]) or any(names_it(k) for k in range(len(s.code)) if s.at < s.line_of(k) < s.last)


@row("hidden_registers")
def hidden_registers(s):
    """An instruction uses the register without naming it."""
    if s.code is None:
        return False
    def hides_it(k):
        i = s.code[k]
        if i[0] == "asm":
            return s.family in HIDDEN.get(i[1].split()[0], ()) and s.family not in s.words_of_asm(i[1])
        names = {n[1][1] for e in parts_of(i) for n in nodes(e) if n[0] == "call" and n[1][0] == "name"}
        return any(s.family in HIDDEN.get(name, ()) for name in names)

    def hides_input(k):
        i = s.code[k]
        names = {i[1].split()[0]} if i[0] == "asm" else {n[1][1] for e in parts_of(i) for n in nodes(e) if n[0] == "call" and n[1][0] == "name"}
        return any(s.inputs & set(HIDDEN.get(name, ())) for name in names)
    if s.stale and hides_it(s.stale[-1]):
        return True
    between = [k for k in range(len(s.code)) if s.at < s.line_of(k) < s.last]
    return any(map(hides_it, between)) or not s.step.is_cut and s.number is None and any(map(hides_input, between))


@row("volatile_named")
def volatile_named(s):
    """A call whose line names a volatile register does not overwrite it: what was assigned goes on behind the call, on later lines or on its own."""
    if s.step.is_cut or s.family not in s.volatile:
        return False
    return any(any(map(is_call, nodes(e))) for j in s.uses if j < s.last for e in trees_of(s, j)) or s.is_read_beside(lambda e: any(map(is_call, nodes(e))))


@row("case_entry")
def case_entry(s):
    """A `case` between the assignment and its use is entered from the head of the switch."""
    return not s.step.is_cut and any(s.bodies[b].startswith(("case ", "default")) or s.bodies[a].startswith("switch") for a, b in s.entered)


@row("for_head")
def for_head(s):
    """The head of a `for` is read again in each turn: what is moved into it is computed anew."""
    return not s.step.is_cut and any(s.bodies[j].startswith("for ") for j in s.uses)


@row("label_with_statement")
def label_with_statement(s):
    """A label with a statement on its line, between the assignment and its use."""
    return not s.step.is_cut and any(re.match(r"\w+: ?\S", s.bodies[k]) and not s.bodies[k].startswith(("case ", "default")) for k in range(s.at, s.last + 1))


@row("other_branch")
def other_branch(s):
    """The value of one branch moves to the head of the other: `} else if (rax) {`."""
    return not s.step.is_cut and any(s.bodies[j].startswith("} else") for j in s.uses)


@row("assigned_under_condition")
def assigned_under_condition(s):
    """Assigned under a condition that stands on the line above, and used outside it."""
    return not s.step.is_cut and s.is_conditional


@row("label_with_comment")
def label_with_comment(s):
    """A label with a comment on its line is no label to the Rust, and a jump to it is not seen."""
    return not s.step.is_cut and any(re.match(r"\w+: ?//", s.bodies[k]) for k in range(s.at, s.last + 1))


# ---- the register is still read

@row("cut_beside_a_reader")
def cut_beside_a_reader(s):
    """A call's result is cut, and a second statement of its line reads it."""
    return s.step.is_cut and has_two_statements(s, s.at)


@row("result_cut_and_read")
def result_cut_and_read(s):
    """The result of a call is cut, and a way leads to a reading of it: by a jump, past a condition, round a loop, into an instruction."""
    return s.step.is_cut and s.stale is not None and not is_straight(s)


def calls_sometimes(s, k):
    """Whether a line calls behind `&&`, `||` or `?`."""
    return any(is_call(n) and n not in set(surely(e)) for e in trees_of(s, k) for n in nodes(e))


def is_straight(s):
    """Whether the way goes from line to line, over statements without conditions, to a reading that is named: the Rust's scan sees such a one."""
    lines = s.lines_of_way
    plain = all(b == a + 1 for a, b in zip(lines, lines[1:])) and not any(calls_sometimes(s, k) for k in lines) and not any(
        re.match(r"(if|while|for|switch|case|default|do|else|\}|\w+:)", s.bodies[k]) for k in lines)
    return plain and s.code[s.stale[-1]][0] != "asm" and any(family_of(t) == s.family for t in s.lines[lines[-1]].tokens)


@row("jump_on_the_use_line")
def jump_on_the_use_line(s):
    """The use's own line jumps, and where it jumps to the register is read."""
    return any(a in s.uses and has_keyword(s.lines[a], "goto") for a, _ in s.jumps_of_way)


def scan_end(s):
    """The line at which the Rust's scan behind the last use stopped: a line that overwrites or returns, or none."""
    indent = s.lines[s.at].indent
    for k in range(s.last + 1, len(s.lines)):
        line = s.lines[k]
        if has_keyword(line, "while"):
            continue
        if line.indent <= indent and (has_keyword(line, "return") or not any(family_of(t) == s.family for t in line.tokens) and any(
                map(is_call, (n for e in trees_of(s, k) for n in nodes(e)))) and s.family in s.volatile or any(
                overwrites(i, s.family, frozenset()) for q, i in enumerate(s.code) if s.line_of(q) == k)):
            return k
    return None


def is_behind(s, end):
    """Whether the stale reading stands behind the line at which the scan stopped, or above the assignment, and the way does not lead over that line."""
    reading = s.lines_of_way[-1]
    return end is not None and end not in s.lines_of_way and (reading > end or reading <= s.at)


def takes(s, keyword):
    return any(has_keyword(s.lines[a], keyword) for a, _ in s.jumps_of_way) if s.stale else False


@row("break_past_overwrite")
def break_past_overwrite(s):
    """A `break` past the overwrite."""
    return takes(s, "break")


@row("continue_past_overwrite")
def continue_past_overwrite(s):
    """A `continue` past the overwrite."""
    return takes(s, "continue")


@row("conditional_return")
def conditional_return(s):
    """A `return` behind a condition on its line is taken for one."""
    return s.stale is not None and any(
        s.bodies[k].startswith("if ") and has_keyword(s.lines[k], "return") and s.lines[k].indent <= s.lines[s.at].indent for k in s.lines_of_way)


@row("conditional_call")
def conditional_call(s):
    """A call or an assignment behind a condition, on its line (`if`, `&&`, `?`) or on the line above, is taken for an overwrite."""
    if s.stale is None or s.code is None:
        return False
    for k in s.lines_of_way[1:]:
        kills = s.family in s.volatile and any(is_call(n) for e in trees_of(s, k) for n in nodes(e)) or any(s.family in writes_of(e) for e in trees_of(s, k))
        if k not in s.uses and kills and (s.bodies[k].startswith("if ") or calls_sometimes(s, k)):
            return True
    return any(s.bodies[k].startswith(("if ", "else")) and not s.bodies[k].endswith(("{", ";")) for k in s.lines_of_way)


@row("no_function")
def no_function(s):
    """`sizeof(x)` looks like a call, and overwrites nothing."""
    return s.stale is not None and s.family in s.volatile and any("sizeof(" in s.bodies[k] for k in s.lines_of_way)


@row("second_goto")
def second_goto(s):
    """Of two jumps on a line the second is not asked."""
    return any(sum(t.text == "goto" for t in s.lines[a].tokens) > 1 for a, _ in s.jumps_of_way)


def goes_back(s, line):
    """Whether the way goes back from a line of that kind."""
    return s.stale is not None and any(b <= a and line(s.bodies[a], s.bodies[b]) for a, b in s.jumps_of_way)


@row("while_loop")
def while_loop(s):
    """A `while` loop runs again."""
    return goes_back(s, lambda a, b: b.startswith("while "))


@row("for_loop")
def for_loop(s):
    """A `for` loop runs again."""
    if s.stale is None:
        return False
    return any(b <= a and (s.bodies[b].startswith("for ") or s.bodies[b - 1].startswith("for ")) for a, b in s.jumps_of_way)


def jumps_forward(s):
    return any(b > a and has_keyword(s.lines[a], "goto") for a, b in s.jumps_of_way)


@row("overwrite_one_step_deeper")
def overwrite_one_step_deeper(s):
    """The overwrite that the next turn begins with stands in a block, which the label's indent takes for code that is always run."""
    if not goes_back(s, lambda a, b: True) or jumps_forward(s):
        return False
    back = next(b for a, b in s.jumps_of_way if b <= a)
    return any(b > a and s.bodies[a].startswith("if ") and s.bodies[a].endswith("{") and back <= a <= s.at for a, b in s.jumps_of_way)


@row("overwrite_in_loop_jumped_past")
def overwrite_in_loop_jumped_past(s):
    """In a loop a jump goes past the overwrite that stands between its `do` and the assignment."""
    return goes_back(s, lambda a, b: True) and (jumps_forward(s) or any(b > a for a, b in s.jumps_of_way))


@row("back_and_back_again")
def back_and_back_again(s):
    """A jump back to a label above which another jump goes back, or a loop in a loop."""
    return sum(b <= a for a, b in s.jumps_of_way) > 1 if s.stale else False


@row("jump_past_overwrite")
def jump_past_overwrite(s):
    """A jump goes past the overwrite, or past a `return`."""
    return s.stale is not None and jumps_forward(s) and (is_behind(s, scan_end(s)) or s.lines_of_way[-1] <= s.at)


@row("switch_case")
def switch_case(s):
    """The overwrite stands in another `case` than the assignment."""
    return s.stale is not None and is_behind(s, scan_end(s)) and any(s.bodies[k].startswith(("case ", "default")) for k in range(s.at, scan_end(s)))


@row("case_passed_over")
def case_passed_over(s):
    """The overwrite stands in a `case` that may be passed over."""
    return s.stale is not None and is_behind(s, scan_end(s)) and any(s.bodies[k].startswith("switch") for k in range(s.at, scan_end(s)))


@row("return_in_another_block")
def return_in_another_block(s):
    """A `return` in another block is taken for one of this."""
    if s.stale is None:
        return False
    end = scan_end(s)
    return is_behind(s, end) and has_keyword(s.lines[end], "return")


@row("else_overwrite")
def else_overwrite(s):
    """The overwrite stands in the other branch of the same `if`."""
    if s.stale is None:
        return False
    end = scan_end(s)
    return is_behind(s, end) and any(s.bodies[k].startswith("} else") for k in range(s.at, end))


@row("overwrite_in_another_block")
def overwrite_in_another_block(s):
    """The overwrite stands in another block of the same indent, or of a smaller."""
    if s.stale is None:
        return False
    return is_behind(s, scan_end(s))


# ---- widths and signs

def widths(s):
    """Of each use: its width and the name."""
    return [(s.use_width(j, p), s.lines[j].tokens[p].text) for j, p in s.places]


def comparison_beside(s, operators):
    return any(n[0] in ("binary", "update") and n[1] in operators for _, around_it, _ in s.beside for n in around_it[-2:])


@row("ah_for_al")
def ah_for_al(s):
    """Another byte of the register is used than was assigned."""
    return not s.step.is_cut and any(low_bit(name) != low_bit(s.step.target) for _, name in widths(s))


@row("al_for_rax")
def al_for_rax(s):
    """A part of 8 or 16 bits was assigned, and a wider one is used."""
    return not s.step.is_cut and s.target_width < 32 and any(w > s.target_width for w, _ in widths(s))


COMPARING = ("<", ">", "<=", ">=")


@row("signed_comparison")
def signed_comparison(s):
    """A register has no sign; a `*(uintN_t *)`, a cast, or a number from 2^31 to 2^32 - 1 in its place has C's: a comparison, division or shift beside it."""
    if s.step.is_cut or s.expression is None:
        return False
    if s.number is not None:
        return 1 << 31 <= s.number < 1 << 32 and any(
            n[0] == "binary" and n[1] in COMPARING and any(0 < s.width_of(x) <= 32 for x in n[2:] if x != HOLE) for _, around_it, _ in s.beside for n in around_it[-1:])
    is_typed = s.expression[0] == "memory" and s.expression[3] or s.expression[0] == "cast"
    return is_typed and comparison_beside(s, ("<", ">", "<=", ">=", "/", "%", ">>"))


SIGNED = ("int8_t", "int16_t", "int32_t", "int64_t", "int", "__int64")


def is_negative(node):
    return node[0] == "unary" and node[1] == "-" and node[2][0] == "number"


def equals_narrower(s, w, n):
    """Whether a negative number is asked, by `==` or `!=`, to be what has fewer bits now than the register of w bits: it is read at the width of what stands beside it."""
    if n[0] != "binary" or n[1] not in ("==", "!="):
        return False
    other = n[3] if n[2] == HOLE else n[2]
    if is_negative(s.expression):
        return 0 < s.width_of(other) < w
    return is_negative(other) and 0 < s.width_of(s.expression) < w


@row("sign_extension")
def sign_extension(s):
    """A cast or a comparison that reads a sign at the register's width meets an expression of another width, or numbers alone: one of them was negative there."""
    if s.step.is_cut or s.expression is None:
        return False
    own = s.width_of(s.expression)
    for (w, _), (_, around_it, _) in zip(widths(s), s.beside):
        n = around_it[-1] if around_it else (None,)
        if equals_narrower(s, w, n):
            return True
        if n[0] == "binary" and n[1] in COMPARING and own == 0 and any(x[0] == "number" and 1 << w - 1 <= x[1] < 1 << w for x in n[2:]):
            return True
        if own == w or s.number is not None and 0 <= s.number < 1 << min(w, s.target_width) - 1:
            continue
        if n[0] == "cast" and n[1] in SIGNED or n[0] == "binary" and n[1] in COMPARING:
            return True
    return False


@row("eax_of_rax")
def eax_of_rax(s):
    """A number may be too wide for the register that it came through: a 64-bit one assigned, a part of 32 bits used."""
    return not s.step.is_cut and s.number is not None and any(not 0 <= s.number < 1 << w - 1 and s.target_width > w for w, _ in widths(s))


@row("upper_half_kept")
def upper_half_kept(s):
    """A value that was read through a 32-bit register may appear whole."""
    if s.step.is_cut or s.number is not None:
        return False
    own = s.width_of(s.expression) if s.expression else 64
    return any((own == 0 or own > w) and s.target_width > w for w, _ in widths(s))


@row("eax_minus_one")
def eax_minus_one(s):
    """A number that is negative in the register's width is not widened, compared or shifted as the machine does it."""
    return not s.step.is_cut and s.number is not None and s.target_width < 64 and not 0 <= s.number < 1 << s.target_width - 1


@row("byte_sum_widened")
def byte_sum_widened(s):
    """A sum of bytes or words is an int in C, and no longer ends where the register did."""
    return not s.step.is_cut and s.expression is not None and s.target_width < 32 and s.expression[0] in ("binary", "unary", "update") and s.width_of(s.expression) in (
        0, 32, 64) and s.number is None


@row("copy_of_32_bits")
def copy_of_32_bits(s):
    """A move through a narrower register no longer cuts the value."""
    if s.step.is_cut or s.expression is None or s.number is not None:
        return False
    return s.width_of(s.expression) > s.target_width


def operands_beside(s):
    """Of each use the nearest operator around it, and its other operands."""
    for (w, _), (_, around_it, _) in zip(widths(s), s.beside):
        n = around_it[-1] if around_it else None
        if n and (n[0] in ("binary", "update") and n[1] in ARITHMETIC or n[0] == "unary" and n[1] != "!"):
            yield w, n, [part for part in n[1:] if isinstance(part, tuple) and not any(x == HOLE for x in nodes(part))]


@row("sum_of_32_bits")
def sum_of_32_bits(s):
    """What was computed at the register's width is computed with numbers alone now: at 64 bits, or folded."""
    if s.step.is_cut or s.target_width > 32 and all(w > 32 for w, _ in widths(s)) or s.expression is None or s.width_of(s.expression) != 0:
        return False
    return any(all(s.width_of(x) == 0 for x in others) for _, _, others in operands_beside(s))


@row("sum_narrowed")
def sum_narrowed(s):
    """A sum of the register's width is one of fewer bits now. What is joined may be a number, which has no width, beside a narrower register."""
    if s.step.is_cut or s.expression is None:
        return False
    own = s.width_of(s.expression)

    def is_narrower(w, others):
        widths = [own, *map(s.width_of, others)]
        return max(widths) > 0 and max(32, *widths) < w
    return any(is_narrower(w, others) for w, _, others in operands_beside(s))


@row("octal")
def octal(s):
    """A leading 0 does not mean octal to the Rust: sums with such a number have another value than C's."""
    return not s.step.is_cut and s.settings.edition == 0 and any(
        t.kind == NUMBER and re.match(r"-?0\d", t.text) for j in (s.at, *s.uses) for t in s.lines[j].tokens)


@row("sum_of_unsigned_int")
def sum_of_unsigned_int(s):
    """A sum of numbers is folded at 64 signed bits: C's types of numbers make another of one beyond 31 bits."""
    if s.step.is_cut:
        return False
    for j in s.uses:
        put = [x for t in s.lines[j].tokens for x in (s.step.expression if family_of(t) == s.family else (t,))]
        if len(fold(merged(put), s.settings.edition)) < len(merged(put)):
            return any(t.kind == NUMBER and not -(1 << 31) <= int_of(t.text) < 1 << 31 for t in put)
    return False


def int_of(text):
    try:
        return int(text, 0)
    except ValueError:
        return 1 << 64


# ---- what a mode shows

@row("stack_slot", ("slots",))
def stack_slot(s):
    """A slot is memory, and its store goes."""
    return s.family.startswith("var_")


def store_between(s, test):
    return any(test(e) for k in range(s.at + 1, s.last + 1) for e in trees_of(s, k))


@row("slots_overlap", ("aliased",))
def slots_overlap(s):
    """Slots of different names are taken to lie apart."""
    return s.family.startswith("var_") and any(f.startswith("var_") and f != s.family for k in range(len(s.lines)) for e in trees_of(s, k) for f in writes_of(e))


@row("slot_width", ("aliased",))
def slot_width(s):
    """A slot is as wide as the access to it: what was stored in one width is read in another."""
    if not s.family.startswith("var_") or s.expression is None:
        return False
    wide = {s.width_of(s.expression)}
    for (j, p), code in zip(s.places, s.use_codes):
        for i in code or ():
            for e in parts_of(i):
                wide |= {s.width_of(n[1]) for n in nodes(e) if n[0] == "assign" and n[2] == ("register", "the_use") and n[1][0] == "register"}
    return len(wide) > 1 or wide != {s.word}


@row("frame_by_index", ("aliased",))
def frame_by_index(s):
    """The frame is reached by the stack pointer and an index, without any `&var_`."""
    return s.family.startswith("var_") and any(family_of(t) in ("rsp", "rbp") for line in s.lines for t in line.tokens)


@row("slot_past_pointer", ("aliased",))
def slot_past_pointer(s):
    """A slot is taken for a register: a pointer or a call that reaches it sees or changes another value."""
    return s.family.startswith("var_") or any(n.startswith(("var_", "arg_")) for n in s.inputs)


@row("this_pointer", ("implicit",))
def this_pointer(s):
    """ecx and edx are arguments that 32-bit listings do not spell out."""
    return s.convention == 0 and s.family in ARGUMENTS[0] and reaches_unspelt(s)


@row("argument_register", ("implicit",))
def argument_register(s):
    """A call takes an argument from a register that it does not spell out."""
    return s.convention != 0 and s.family in ARGUMENTS[s.convention] and reaches_unspelt(s)


def reaches_unspelt(s):
    """Whether a call that spells no argument is reached with the value, or moved past its change."""
    own = [k for k in range(len(s.code or ())) if s.line_of(k) == s.at]
    return any(is_call(n) and not n[2] for k in (*s.ways[2], *own) for e in parts_of(s.code[k]) for n in nodes(e))


def is_handed_back(s):
    return any(s.code[way[-1]][0] == "return" and s.code[way[-1]][1] is None for way in s.ways[1])


@row("return_value", ("exits",))
def return_value(s):
    """A bare `return;` is taken to return nothing."""
    return s.family == "rax" and is_handed_back(s)


@row("end_of_listing", ("exits",))
def end_of_listing(s):
    """Behind the last line every register is taken for unread."""
    return s.family == "rax" and any(s.code[way[-1]][0] != "return" for way in s.ways[1])


@row("stack_pointer_at_return", ("preserved",))
def stack_pointer_at_return(s):
    """The line that gives the stack back may be gone."""
    return s.family in ("rsp", "rbp") and is_handed_back(s)


@row("preserved_at_return", ("preserved",))
def preserved_at_return(s):
    """So may be the line that restores a register of the caller's."""
    return s.family in PRESERVED[s.convention] and is_handed_back(s)


@row("reads_change_places", ("reads",))
def reads_change_places(s):
    """A read passes other reads, or happens only sometimes, more often, or not at all."""
    return not s.step.is_cut and s.expression is not None and reads_memory(s.expression, False)
