"""Wrong cleanings, to see that this test can fail: each lets one rule of the Rust go. `run wrong COUNT SEED` cleans COUNT listings by each of them; one is told apart
if some difference of meaning is then seen that no row names. (The library is not asked: it would differ from every one of them.)
"""
import cleaning
from cleaning import NONE, USE, Line, Token
from listing import NUMBER, SYMBOL

RIGHT = {name: getattr(cleaning, name) for name in
         ("fold", "dead_after", "is_written", "is_operator_expression", "call_at", "is_label", "touch", "single_use", "cut_at", "printed", "assignment")}


def sum_one_off(value):
    return RIGHT["printed"](value + 1)


def always_dead(*_):
    return True


def never(*_):
    return False


def no_call(line):
    """No line is a call: calls are passed, joined at a distance, and overwrite nothing."""
    return None


def first_of_two(line, fam, volatile):
    """A line that names a register twice is taken to name it once, and one use is replaced."""
    how, count = RIGHT["touch"](line, fam, volatile)
    return how, min(count, 1)


def inputs_unasked(lines, i, fam, expression, volatile):
    """A line passed over may assign an input of the expression."""
    found = RIGHT["single_use"](lines, i, fam, expression, volatile)
    if found is not None:
        return found
    for j in range(i + 1, len(lines)):
        if RIGHT["is_label"](lines[j]):
            return None
        how, count = RIGHT["touch"](lines[j], fam, volatile)
        if how != NONE:
            return j if how == USE and count == 1 else None
        if RIGHT["call_at"](lines[i]) is not None or RIGHT["call_at"](lines[j]) is not None or RIGHT["assignment"](lines[j]) is None or lines[j].indent != lines[i].indent:
            return None
    return None


def cut_the_name(lines, i, labels, volatile):
    """A cut takes the callee with it: the call is gone."""
    step = RIGHT["cut_at"](lines, i, labels, volatile)
    if step is None or step.expression[0].kind != SYMBOL:
        return step
    after = list(step.after)
    after[i] = Line(after[i].indent, (Token(NUMBER, "0"), Token(cleaning.PUNCT, ";")))
    return step._replace(after=after)


WRONG = {
    "a sum is one too large": {"printed": sum_one_off},
    "every register is dead": {"dead_after": always_dead},
    "a register may be joined into its own +=": {"is_written": never},
    "no brackets are put": {"is_operator_expression": never},
    "no line is a call": {"call_at": no_call},
    "a label stops nothing": {"is_label": never},
    "the first of two uses": {"touch": first_of_two},
    "inputs are not asked for": {"single_use": inputs_unasked},
    "a cut takes the call": {"cut_at": cut_the_name},
}


def put(name):
    for function, wrong in WRONG[name].items():
        setattr(cleaning, function, wrong)


def put_back():
    for name, right in RIGHT.items():
        setattr(cleaning, name, right)
