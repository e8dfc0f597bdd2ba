"""Listings to compare on: realistic ones, and ones in which every detail of the Rust can show. Each is fixed by a seed and its number."""
import random
import re
from typing import NamedTuple, Optional

# the kinds, in the tape's order
TEXT, REGISTER, NUMBER, KEYWORD, SYMBOL, ADDRESS, PUNCT, PREFIX = range(8)
LETTERS = "TRNKSAPX"


class Token(NamedTuple):
    kind: int
    text: str


class Line(NamedTuple):
    address: Optional[int]
    indent: int
    tokens: tuple


def P(text):
    return Token(PUNCT, text)


def R(text):
    return Token(REGISTER, text)


def N(text):
    return Token(NUMBER, text)


def S(text):
    return Token(SYMBOL, text)


def K(text):
    return Token(KEYWORD, text)


# ---- writing lines as text

WORDS = {"return", "goto", "do", "while", "if"}
IS_REGISTER = re.compile(r"[re]?[abcd]x|[abcd][lh]|[re]?(si|di|bp|sp)|(si|di|bp|sp)l|r\d+[dwbl]?|var_\w*")
PIECE = re.compile(r"(?P<cast>\(\(void \(\*\)\(\)\)|\*\(int \*\))|(?P<word>\w+)|(?P<other>.)")


def kind_of(word):
    if word[0].isdigit():
        return NUMBER
    if word in WORDS:
        return KEYWORD
    return REGISTER if IS_REGISTER.fullmatch(word) else SYMBOL


def split(text):
    """The tokens of a text: registers, numbers, keywords, names, casts; everything between is one Punct."""
    out = []
    for m in PIECE.finditer(text):
        if m["cast"]:
            out.append(K(m["cast"]))
        elif m["word"]:
            out.append(Token(kind_of(m["word"]), m["word"]))
        elif out and out[-1].kind == PUNCT:
            out[-1] = P(out[-1].text + m["other"])
        else:
            out.append(P(m["other"]))
    return out


def lines_of(texts):
    return [Line(None, 0, split(t)) for t in texts]


def spelled(text):
    """Lines at `/`, tokens at `|`, each token with its kind's letter in front; a digit in front of a line is its indent."""
    def line(row):
        indent, row = (int(row[0]), row[1:]) if row[0].isdigit() else (0, row)
        return Line(None, indent, [Token(LETTERS.index(t[0]), t[1:]) for t in re.split(rf"\|(?=[{LETTERS}])", row)])
    return [line(row) for row in re.split(rf"/(?=\d?[{LETTERS}])", text)]


# ---- words

NUMBERS = """0 1 5 9 10 13 14 -1 -5 -9 -0xa 0xa 0x10 0xff 010 08 --5 --0x5 +5 -+5 +-5 0x+5 0x-5 -0x+5 0x - + 0x1g 0X1f 1e3 0xFF 0xAf
    0xffffffffffffffff 0x10000000000000000 0x8000000000000000 -0x8000000000000000 0x7fffffffffffffff -0xffffffffffffffff
    9223372036854775807 9223372036854775808 -9223372036854775807 -9223372036854775808 --9223372036854775808 --9223372036854775809
    000000000000000000000007 0x0000000000000000000001""".split()

FAMILIES = [f.split() for f in """rax eax ax al/rbx ebx bx bl/rcx ecx cx cl/rdx edx dx dl/rsi esi si sil/rdi edi di dil/rbp ebp bp bpl/
    rsp esp sp spl/r8 r8d r8w r8b/r9 r9d r9w r9l/r10 r10d r10w r10b/r11 r11d r11w r11b/r12 r12d r12w r12b/r99 r99d r99w r99l""".split("/")]

PAIRS = """rax = 5;|eax = 5;|ax = 5;|al = 5;|ah = 5;|rbx = rax;|rbx = rax + 4;|rbx = rax + rax;|rbx = eax;|bl = al;|bl = ah;|rax += 1;|rax++;
rax = f();|eax = f();|f(rax);|rbx = g(rax);|g();|L:|goto L;|if (rax == 0) goto L;|return;|return rax;|do {|} while (rax);|} while (rbx);|var_8 = 5;
var_8 = rax;|rbx = var_8;|f(&var_8);|rax = rcx - rdx;|rbx = rsi - rax;|rax = (rcx) - (rdx);|rax = *(int *)(rcx);|*(int *)(rax) = 1;
if (rax == 0) {|}|rcx = 1;|rcx = rax;|rax = rcx;|r8 = 1;|h(r8, rax);|rax = rax + 1;|rax == 1;|rax = ((void (*)())rbx)(rcx);|rax = M;""".replace("\n", "|").split("|")

SOUP = """ = / = / = / = / = (/ = ;/ = x;/ = -/ = &/ =/ == / = = /;/;/;/;/x;/);/();/(;/(/(/()/)/) - (/ + / + / - / - /+/-/ * /, /, /,/ , / ,/ /  / x/x /goto
goto/while/while/do/do/return/return/return;/if/((void (*)())/((void (*)())/((void/((voi/((void;/*(/*(int *)(/rax/rax/rax/eax/eax/ax/al/ah/bl/bh/rbx/rbx/ebx
rcx/ecx/rdx/rsi/edi/spl/rsp/r8/r8d/r8w/r8b/r8l/r8x/r08/r99/r/rx/var_8/var_8/var_/rax;/&/& /x&/ &/:/:/++/--/++;/ += / -= / &= / |= / ^= / *= / <<= / >>= / <
= / >= /{/} /f/g/L/M""".replace("\n", "/").split("/") + [" /= "]

# ---- small listings, each with one detail of the Rust that shows

QUIRKS = """
Rrbx|P = |SL|P;/Rrbx|P:/Rrbx|P = |N2|P;/Rrax|P = |N5|P;/Sf|P(|Rrax|P);/Kgoto|T |SL|P;
SL|P:/Rrbx|P = |SL|P;/Rrbx|K:/Rrbx|P = |N2|P;/Rrax|P = |Rrsi|P;/Sf|P(|Rrax|P);/Kgoto|T |SL|P;
Rrax|P = |Rvar_8|P;/Sg|P(&|Rrax|P);/Rvar_8|P = |N5|P;/Sh|P(|Rvar_8|P);
Tx&|Rvar_8|P;/Rvar_8|P = |N5|P;/Sh|P(|Rvar_8|P);
P&|Svar_8|P;/Rvar_8|P = |N5|P;/Sh|P(|Rvar_8|P);
Kf&|Tvar_8|P;/Rvar_8|P = |Rrbx|P;/Rrcx|P = |Rvar_8|P;
P & |Rvar_8|P;/Rvar_8|P = |Rrbx|P;/Rrcx|P = |Rvar_8|P;
P&|Rvar_8;/Rvar_8|P = |N5|P;/Sh|P(|Rvar_8|P);
Rrax|P = *(|Rrbx|P);/Rvar_10|P = |N1|P;/Sg|P(|Rrax|P);
Rrax|P = |K*(int *)|P(|Rrbx|P);/Rvar_10|P = |N1|P;/Sg|P(|Rrax|P);
Rrax|P = |T*(int *)|P(|Rrbx|P);/Rvar_10|P = |N1|P;/Sg|P(|Rrax|P);
Rrax|P = |SM|P;/Rvar_10|P = |N1|P;/Sg|P(|Rrax|P);
Rrax|P = &|SM|P;/Rvar_10|P = |N1|P;/Sg|P(|Rrax|P);
Rrax|P = |Tx&|SM|P;/Rvar_10|P = |N1|P;/Sg|P(|Rrax|P);
Rrax|P = |Rvar_8|P;/Rvar_10|P = |N1|P;/Sg|P(|Rrax|P);
Rrax|P = |Rvar_8|P;/Rvar_8|P = |N1|P;/Sg|P(|Rrax|P);
Rrax|P = |Rrbx|P;/Rvar_8|P = |N1|P;/Sg|P(|Rrax|P);
Rrax|P = |Rrbx|P;/Rebx|P = |N1|P;/Sg|P(|Rrax|P);
Rrax|P = |Rrbx|P;/Rrx|P = |N1|P;/Sg|P(|Rrax|P);
Rrax|P = |Rrbx|P;/Rrsi|P = {|N1|P;/Sg|P(|Rrax|P);
Rrax|P = |Rrbx|P;/Rrsi|P = |T{|P;/Sg|P(|Rrax|P);
Rrax|P = |Rrbx|P;/Rrsi|P = |Sf|P();/Rrdi|P = |Rrax|P;
Rrax|P = |Rrbx|P;/Rrsi|P = |K((void;/Rrdi|P = |Rrax|P;
Rrbx|P = |Rrcx|P;/K((void (*)())/Rrdi|P = |Rrbx|P;
Rrax|P = |N5|P;/K((void (*)())/Sg|P(|Rrax|P);
Rrax|P = |N5|P;/T((void (*)())|Rrsi/Sg|P(|Rrax|P);
Rrax|P = |N5|P;/Sf|T(|Rrsi/Sg|P(|Rrax|P);
Rrax|P = |N5|P;/Kf|P(|Rrsi/Sg|P(|Rrax|P);
Rrax|P = |Rrbx|P;/Rrax|P + |N4|P;
Rrax|P = |Rrbx|P;/Rrax|P - |N4|P;
Rrax|P = |Rrbx|P;/Rrax|P * |N4|P;
Rrax|P = |Rrbx|P;/Rrax|P / |N4|P;
Rrax|P = |Rrbx|P;/Rrax|P & |N4|P;
Rrax|P = |Rrbx|P;/Rrax|P | |N4|P;
Rrax|P = |Rrbx|P;/Rrax|P ^ |N4|P;
Rrax|P = |Rrbx|P;/Rrax|P < |N4|P;
Rrax|P = |Rrbx|P;/Rrax|P > |N4|P;
Rrax|P = |Rrbx|P;/Rrax|P == |N4|P;
Rrax|P = |Rrbx|P;/Rrax|P=|N4|P;
Rrax|P = |Rrbx|P;/Rrax|P   +|N4|P;
Rrax|P = |Rrbx|P;/Rrax|P.|N4|P;
Rrax|P = |Rrbx|P;/Rrax|P !|N4|P;
Rrax|P = |Rrbx|P;/Rrax|T + |N4|P;
Rrax|P = |N5|P;/Rrax|T + |N4|P;
Rrax|P = |N5|P;/Rrax|P(|Rrax|P);
Rrax|P = |N5|P;/Rrax|P();
Rrax|P = |N5|P;/Rrax|P == |N4|P;
Rrax|P = |N5|P;/Rrax|P == |Rrax|P;
Rrax|P = |N5|P;/Rrax
Rrax|P = |N5|P;/Rrax|P + |Rrax|P;
Rrax|P = |N5|P;/Rrax|T + |Rrax|P;
Rrax|P = |N5|P;/Rrax|P = |Rrax|P;
Rrax|P = |N5|P;/Rrax|P = |Rrax|P + |N1|P;
Rrax|P = |N5|P;/Kif|P (|Rrbx|P) |Rrax|P = |N4|P;
Rrax|P = |N5|P;/Kif|P (|Rrax|P) |Rrax|P += |N4|P;
Rrax|P = |Rrbx|P;/P(|Rrax|P /= |N4|P;
Rrax|P = |Rrbx|P;/P(|Rrax|P <<= |N4|P;
Rrax|P = |Rrbx|P;/P(|Rrax|P++;
Rrax|P = |Rrbx|P;/P(|Rrax|P--;
Rrax|P = |Rrbx|P;/P(|Rrax|T += |N4|P;
Rrax|P = |Rrbx|P;/P(|Rrax|P += |N4|P;
Rrax|P = |N5|P;/P(|Rrax|P >>= |N4|P;
Rrax|P = |N5|P;/P(|Rrax|P *= |N4|P;
Rrax|P = |Rrax;/Sg|P(|Rrax|P);
Rrax|P = |N5|P;/Rrbx|P = |Rrax;
Rrax|P = |N5|P;/Rrax|P = |Rrax;
Rrcx|P = |Rrbx;/Rrbx|P = |N1|P;/Sg|P(|Rrcx|P);
Rvar_8|P = |N5|P;/Rrbx|P = |Rvar_8;
Rvar_8|P = |N5|P;/Rrbx|P = |Rvar_8;|P;
Rrax|P = |Rrbx;/Sg|P(|Rrax|P);
Rrax|P = |Rrbx|P;/Rrcx|P = |Rrax|P + |Rrax;
Rrax|P = |Rrbx|P;/Rrax|P = |Rrcx|P + |Rrax;/Rrdx|P = |Rrax|P;
Rrax|P = |Xa|Xb|P;/Sg|P(|Rrax|Xc|P);
Rrax|P = |Ta|P;/T(|Rrax|T)|P;
Rrax|P = |Aa|P;/A(|Rrax|A)|P;
Rrax|P = |Ka|P;/K(|Rrax|K)|P;
Rrax|P = |N4|P;/N(|Rrax|N3|P;
Rrax|P = |Sa|P;/S(|Rrax|S)|P;
Rrax|P = |Rrbx|P;/Rrcx|Rrax|Rrdx|P;
Rrax|P = |P x ;/Sg|P(- |Rrax|P);
Rrax|P = |Rrbx|P, |Rrcx|P;/P- |Rrax|P.;
Rrax|P = |Rrbx|P , |Rrcx|P;/P- |Rrax|P.;
Rrax|P = |Rrbx|P ,|Rrcx|P;/P- |Rrax|P.;
Rrax|P = |Rrbx|P |Rrcx|P;/P- |Rrax|P.;
Rrax|P = |Rrbx|T + |Rrcx|P;/P- |Rrax|P.;
Rrax|P = |Rrbx|Px |Rrcx|P;/P- |Rrax|P.;
Rrax|P = |Rrbx|P x|Rrcx|P;/P- |Rrax|P.;
Rrax|P = |Rrbx|P + |Rrcx|P;/Rrax
Rrax|P = |Rrbx|P + |Rrcx|P;/Rrax|P;
Rrax|P = |Rrbx|P + |Rrcx|P;/T(|Rrax|T)
Rrax|P = |Rrbx|P + |Rrcx|P;/P, |Rrax|P,
Rrax|P = |Rrbx|P + |Rrcx|P;/P,|Rrax|P,
Rrax|P = |Rrbx|P + |Rrcx|P;/P = |Rrax|P)
Rrax|P = |Rrbx|P + |Rrcx|P;/P=|Rrax|P)
Rrax|P = |Rrbx|P + |Rrcx|P;/P(|Rrax|P ;
Rrax|P = (|Rrbx|P + |Rrcx|P);/P- |Rrax|P;
Rrax|P =  |Rrbx|P;/P- |Rrax|P;
Rrax|P = |N5|P;/N4|P + |Rrax|P;
Rrax|P = |N5|P;/N4|P + |Rrax
Rrax|P = |N5|P;/Rrbx|P = |N4|S + |Rrax|P;
Rrax|P = |N5|P;/Rrbx|P = |N4|K - |Rrax|P;
Rrax|P = |N5|P;/Rrbx|P = |S4|P - |Rrax|P;
Rrax|P = |S5|P;/Rrbx|P = |N4|P - |Rrax|P;
Rrax|P = |N4|P - |N14|P;/Rrbx|P = |Rrax|P;
Rrax|P = |N4|P - |N14|P;/Rrbx|P = (|Rrax|P);
Rrax|P = |N4|P - |N14|P;/Rrbx|P = 1 - |Rrax|P;
Rrax|P = |N5|P;/Tf(|N4|P + |Rrax|T)
Rrax|P = |N5|P;/Tf, |N4|P + |Rrax|K,
Rrax|P = |N5|P;/Rrbx|K = |N4|P + |Rrax|S;
Rrax|P = |N5|P;/Rrbx|P = |N4|P + |Rrax|P + |N1|P;
Rrax|P = |N5|P;/Sg|P(|N4|P + |Rrax|P, |N1|P - |Rrax|P);
Rrax|P = |N5|P;/Sg|P(|N4|P +  |Rrax|P);
Rrax|P = |N5|P + |N6|P;/Rrbx|P = |Rrax|P;
Rrax|P = |N5;/Rrbx|P = |Rrax|P + |N1|P;
Rrax|P = 5;/Rrbx|P = |Rrax|P + |N1|P;
Rrax|P = |Kdo|P;/Sg|P(|Rrax|P);/P} |Kwhile|P (|Rrbx|P);
Rrax|P = |Kdo|P;/Rrbx|P = |Rrax|P;/P} |Kwhile|P (|Rrbx|P);
Kdo|P {/Rrcx|P = |Rrbx|P;/Sg|P(|Rrcx|P);/Sh|P() |Kwhile|P (|Rrbx|P);/Sg|P(|Rrcx|P);
Kdo|P {/Rrcx|P = |Rrbx|P;/Rrdi|P = |Rrcx|P;/Rrcx|P = |N1|Kwhile|P;/Sg|P(|Rrcx|P);
Rrcx|P = |Rrbx|P;/Rrdi|P = |Rrcx|P;/Kreturn|P;/Sg|P(|Rrcx|P);
Rrcx|P = |Rrbx|P;/Rrdi|P = |Rrcx|P;/Treturn|P;/Sg|P(|Rrcx|P);
Rrcx|P = |Rrbx|P;/Rrdi|P = |Rrcx|Kreturn|P;/Sg|P(|Rrcx|P);
Rrcx|P = |Rrbx|P;/Rrdi|P = |Rrcx|P;/Kreturn|T |Rrcx|P;
SL|P:/Rrcx|P = |Rrbx|P;/SL|P:/Rrcx|P = |N1|P;/Sg|P(|Rrcx|P);/Kgoto|T |SL|P;
SL|P:/Sg|P(|Rrcx|P);/SL|P:/Rrcx|P = |N1|P;/Sg|P(|Rrcx|P);/Kgoto|T |SL|P;
SL|P:/Sg|P(|Rrcx|P);/Rrcx|P = |Rrbx|P;/Rrdi|P = |Rrcx|P;/Kgoto|T |SL|P;/SL|P:
SL|P:/Rrcx|P = |Rrbx|P;/Rrdi|P = |Rrcx|P;/SM|Kgoto|T |SL|P;
SL|P:/Rrcx|P = |Rrbx|P;/Rrdi|P = |Rrcx|P;/Kgoto|P *|Rrsi|P;
SL|P:/Rrcx|P = |Rrbx|P;/Rrdi|P = |Rrcx|P;/Kgoto|Kx|SM|SL|P;
SL|P:/Rrcx|P = |Rrbx|P;/Rrdi|P = |Rrcx|P;/Kgoto|T |Kgoto|SL|P;
Trax|T = |Sf|P(/Kreturn
Srax|P = |Sf|P()
Reax|K = |Sf|P(x
Rrax|P = |K((void (*)())|P)
Rrax|P = |K((void
Rrax|P = |Sf|P();/Rrbx|P = |Rrax|P + |Rrax|P;
Rrax|P = |Sf|P(|Sg|P());/Kreturn|P;
Rrax|P = (|Sf|P();/Kreturn|P;
Rrax|P =|Sf|P();/Kreturn|P;
Ral|P = |Sf|P();/Kreturn|P;
Rrax|P = |K(int)|Sf|P();/Kreturn|P;
SL|P:/Rrax|P = |Sf|P();/Kgoto|T |SL|P;/SL|P:
SL|P:/Sg|P(|Rrax|P);/SL|P:/Rrax|P = |Sf|P();/Kgoto|T |SL|P;
Rrax|P = |Sf|P() |Rrax|P;/Kreturn|P;
Rr8|P = |N5|P;/Sg|P(|Rr8x|P);/Sg|P(|Rr8|P);
Rr8|P = |N5|P;/Rrbx|P = |Rr08|P;/Rrcx|P = |Rr8|P;
Rrcx|P = |N5|P;/Sg|P(|Rrcx|P);/Rrcx|P = |Rrdx|P + |Rrcx;
Rrcx|P = |Rrbx|P;/Rrdi|P = |Rrcx|P;/K((void*)|Rrsi/Sh|P(|Rrcx|P);
SL|P:/Sg|P(|Rrcx|P);/Rrcx|P = |Rrbx|P;/Rrdi|P = |Rrcx|P;/Tgoto|T |SL|P;
Rrsi|P = |Rrdi|P;/Rrbx|P = |Rrsi|P;/SL|P:/Sg|P(|Rrcx|P);/Rrcx|P = |Rrdx|P;/Rrbp|P = |Rrcx|P;/Kgoto|T |SL|P;
Rrsi|P = |Rrdi|P;/Rrbx|P = |Rrsi|P;/SL|P:/Rrcx|P = |N1|P;/Sg|P(|Rrcx|P);/Rrcx|P = |Rrdx|P;/Rrbp|P = |Rrcx|P;/Kgoto|T |SL|P;
Rrax|P = |N+5|P;/Rrbx|P = |N1|P + |Rrax|P;
Rrax|P = |N0X1f|P;/Rrbx|P = |N1|P + |Rrax|P;
Rrax|P = |N010|P;/Rrbx|P = |N0x+5|P - |Rrax|P;
Rrax|P = |N--9223372036854775808|P;/Rrbx|P = |N1|P - |Rrax|P;
Rrcx|P = |Rrbx;/Rrbx|P = |N1|P;/Rrsi|P = |Rrcx|P;
Rrcx|P = |Rrbx|P;/Rrsi|P = }|N1|P;/Rrdi|P = |Rrcx|P;
Rrcx|P = |N1|P;/Sg|P(|Rrcx|P)}/Sg|P(|Rrcx|P);
Rrcx|P = |N1|P;/Sg|P(|Rrcx|T}|P)/Sg|P(|Rrcx|P);
SL|P:/1Rrcx|P = |Rrbx|P;/1Rrdi|P = |Rrcx|P;/1Kgoto|T |SL|P;
SL|P:/2Rrcx|P = |Rrbx|P;/2Rrdi|P = |Rrcx|P;/2Kgoto|T |SL|P;
Kdo|P {/1Rrcx|P = |Rrbx|P;/1Rrdi|P = |Rrcx|P;/P} |Kwhile|P (|Rrsi|P);
Kdo|P {/2Rrcx|P = |Rrbx|P;/2Rrdi|P = |Rrcx|P;/P} |Kwhile|P (|Rrsi|P);
1Kdo|P {/1Rrcx|P = |Rrbx|P;/1Rrdi|P = |Rrcx|P;/P} |Kwhile|P (|Rrsi|P);
Kdo|P {/1Sg|P(|Rrcx|P);/1Kdo|P {/1Rrcx|P = |Rrbx|P;/1Rrdi|P = |Rrcx|P;/P} |Kwhile|P (|Rrsi|P);
Kdo|P {/Kdo|P {/1Rrcx|P = |Rrbx|P;/1Rrdi|P = |Rrcx|P;/P} |Kwhile|P (|Rrsi|P);/1Kreturn|P;/1Sg|P(|Rrcx|P);
1Rrcx|P = |Rrbx|P;/1Rrdi|P = |Rrcx|P;/2Rrcx|P = |N1|P;/1Sg|P(|Rrcx|P);
1Rrcx|P = |Rrbx|P;/1Rrdi|P = |Rrcx|P;/2Kreturn|P;/1Sg|P(|Rrcx|P);
1Rrcx|P = |Rrbx|P;/1Rrdi|P = |Rrcx|P;/Kreturn|P;/1Sg|P(|Rrcx|P);
SL|K:/Rrcx|P = |N1|P;/Sh|P(|Rrcx|P);/Rrcx|P = |Rrbx|P;/Rrdi|P = |Rrcx|P;/Kgoto|T |SL|P;
SL|P:|Tx/Rrcx|P = |N1|P;/Sh|P(|Rrcx|P);/Rrcx|P = |Rrbx|P;/Rrdi|P = |Rrcx|P;/Kgoto|T |SL|P;
TL|P:/Rrcx|P = |N1|P;/Sh|P(|Rrcx|P);/Rrcx|P = |Rrbx|P;/Rrdi|P = |Rrcx|P;/Kgoto|T |SL|P;
Rrax|P = |N4|P;/Rrbx|P = |Rrax|P - |N12|P;/Rrcx|P = |Rrax|P - |N13|P;/Rrdx|P = |Rrax|P - |N14|P;/Rrsi|P = |Rrax|P + |N5|P;/Rrdi|P = |Rrax|P + |N6|P;
""".strip("\n").split("\n")


class Maker(random.Random):
    """The random choices of one listing."""

    def chance(self, percent):
        return self.randrange(100) < percent

    def number(self):
        """A number's text of 1 to 24 bytes."""
        match self.randrange(10):
            case 0 | 1 | 2 | 3:
                return str(self.randrange(10))
            case 4:
                return hex(self.randrange(4096))
            case 5:
                return f"-{self.randrange(64):#x}"
            case 6:
                return hex(self.getrandbits(64))
            case 7:
                return str((self.getrandbits(64) - 2**63) >> self.randrange(64))
            case _:
                return self.choice(NUMBERS)

    def odd(self, kind):
        """Mostly this kind, else any."""
        return kind if self.chance(90) else self.randrange(8)

    # ---- listings like the lifter's

    def realistic(self, size):
        writer = Writer(self)
        writer.block(size, 0)
        return writer.out

    def chain(self):
        """Straight lines on few registers: long chains and copied constants."""
        names = "rax rbx rcx rdx rsi var_8 eax ebx al bl ah r8d r8".split()
        names = names[:self.randint(2, len(names))]
        shapes = ["{a} = {b};", "{a} = {b} + {c};"] * 2 + ["{a} = {b} - 0x10;", "{a} = {b} - 1 - {c};"] + ["{a} = "] * 3
        if self.chance(40):
            shapes += ["{a} = f({b});", "{a} = g({b}, {c});", "f({a}, {b} + 4);", "rax = f(7);"]
        out = []
        for _ in range(self.randint(2, 14)):
            a, b, c = (self.choice(names) for _ in range(3))
            tokens = split(self.choice(shapes).format(a=a, b=b, c=c))
            if len(tokens) == 2:
                tokens.append(N(self.number()))
                if self.chance(40):
                    tokens += [P(self.choice([" + ", " - "])), self.choice([R(b), N(self.choice(NUMBERS))])]
                tokens.append(P(";"))
            out.append(Line(None, 1 if self.chance(4) else 0, tokens))
        return out

    def layers(self):
        """Each line is blocked by the next, which writes its input; every round frees one more."""
        names = "r8 r9 r10 r11 r12 r13 r14 rax rbx rcx rdx ebx ecx var_8".split()
        self.shuffle(names)
        depth = self.randint(1, 7)
        texts = []
        for i in range(depth):
            last = i + 1 == depth
            shape = self.choice(["{a} = {b} - 3;", "{a} = {b} + rsi;", "{a} = 7;" if last else "{a} = {b};", "{a} = f({b});" if last else "{a} = {b};"]
                                + ["{a} = {b};"] * 4)
            texts.append(shape.format(a=names[i], b=names[i + 1]))
            if self.chance(85):
                texts.append(self.choice(["rdi = rdi + 1;"] * 3 + ["rdi += 1;", "rbp = rdi;", "rbp = 4;"]))
        total = self.choice([" + ", " - ", ", "]).join(names[:depth])
        texts.append(self.choice(["g({});", "return ({});", "rbp = {};", "rbp = {};"]).format(total))
        if self.chance(30):
            texts.insert(self.randint(0, len(texts)), self.choice(PAIRS))
        if self.chance(20):
            texts.insert(0, "L:")
        return lines_of(texts)

    def long(self):
        """Many lines: moves to and fro, which take the most attempts of a round; many registers; or anything."""
        match self.randrange(4):
            case 0 | 1:
                return lines_of((["L:", "rbx = rsi;"] + ["rbp = rbx;", "rbx = rbp;"] * 40)[:self.randint(2, 80)])
            case 2:
                return lines_of(f"r{i} = {i:#x};" for i in range(self.randint(2, 20)))
            case _:
                return self.realistic(self.randint(60, 200))

    def pairs(self):
        return [Line(None, 1 if self.chance(10) else 0, split(self.choice(PAIRS))) for _ in range(self.randint(2, 7))]

    # ---- unusual shapes

    def site(self):
        """An assignment and lines that use it, with unusual neighbours of the use."""
        operators = [" + ", " - ", " + ", " - ", " * ", "+", " , ", ",", ", ", " ", " x", "x ", ") - (", " ("]
        name = self.choice("rax rax rax eax ax al ah var_8 r8 r8d r8w".split())
        tokens = [R(name), P(self.choice([" = "] * 4 + [" = (", " = -", " = x "]))]
        for k in range(self.choice([1, 1, 2, 2, 3])):
            if k > 0:
                tokens.append(Token(self.odd(PUNCT), self.choice(operators)))
            match self.randrange(9):
                case 0 | 1 | 2:
                    tokens.append(N(self.number()))
                case 3 | 4 | 5:
                    tokens.append(R(self.choice(["rbx", "rcx", "ecx", "var_10", "rdx"])))
                case 6:
                    tokens += [S("f"), Token(self.odd(PUNCT), self.choice(["()", "(", "()", ")", "("]))]
                case 7:
                    if self.chance(50):
                        tokens.append(Token(self.odd(PUNCT), self.choice(["&", "x&", "*"])))
                    tokens.append(S("M"))
                case _:
                    word = self.choice(["*(int *)(", "((void (*)())", "*(", "do", "while", "goto", "return", "((void"])
                    tokens.append(Token(self.odd(KEYWORD), word))
        match self.randrange(10):
            case 0:
                tokens[-1] = Token(tokens[-1].kind, tokens[-1].text + ";")
            case 1:
                tokens.append(Token(self.odd(PUNCT), ");"))
            case _:
                tokens.append(Token(self.odd(PUNCT), ";"))
        out = [Line(None, 0, tokens)]
        between = ["rsi = 1;", "rbx = 2;", "var_8 = 1;", "var_10 = rsi;", "rdi = rdi + 1;", "rcx++;", "h();", "L:", "rx = 3;", "}"]
        for _ in range(self.choice([0, 0, 0, 1, 2])):
            tokens = split(self.choice(between))
            if self.chance(10):
                self.other_kind(tokens)
            out.append(Line(None, 0, tokens))
        for _ in range(self.choice([1, 1, 1, 2, 3])):
            out.append(Line(None, 1 if self.chance(6) else 0, self.use(name, operators)))
        if self.chance(30):
            out.append(Line(None, 0, split(self.choice(PAIRS))))
        return out

    def use(self, name, operators):
        tokens = split(self.choice(["rbx = ", "rbx = ", "g(", "g(1, ", "return ", "*(int *)(", "if (rcx == 0) ", ""]))
        if self.chance(40):
            tokens += [N(self.number()), Token(self.odd(PUNCT), self.choice(operators))]
        if self.chance(25):
            tokens.append(Token(self.odd(PUNCT), self.choice(["(", ", ", " = ", ",", "=", "x(", " (", "&", "-", "}"])))
        same = {"rax": "rax rax eax ax al ah", "r8": "r8 r8d r8w r8b", "var_8": "var_8"}
        row = "var_8" if name == "var_8" else "r8" if name.startswith("r8") else "rax"
        name = self.choice(same[row].split() + [name])
        tokens.append(Token(REGISTER if self.chance(97) else SYMBOL, name))
        if self.chance(85):
            after = [";", ";", ";", ")", ");", ",", ", ", " ;", " + ", " - ", " + ", "++", "--", " += ", " -= ", " &= ", " |= ", " ^= ", " *= ", " /= ", " <<= ",
                     " >>= ", " = ", " == ", " < ", "*", "=", " =", "(", "()", "}", " / ", " ^ ", "-", "> "]
            tokens.append(Token(self.odd(PUNCT), self.choice(after)))
        if self.chance(60):
            tokens.append(Token(NUMBER if self.chance(90) else self.randrange(8), self.number()))
            if self.chance(25):
                tokens += [Token(self.odd(PUNCT), self.choice(operators)), N(self.number())]
            if self.chance(10):
                tokens += [Token(self.odd(PUNCT), self.choice(operators)), R(name)]
            if self.chance(80):
                tokens.append(Token(self.odd(PUNCT), self.choice([";", ";", ")", ", ", ",", ");", " ", "x"])))
        return tokens

    def sums(self):
        """A constant and sums that it completes, between all sorts of neighbours."""
        def near():
            match self.randrange(8):
                case 0 | 1 | 2:
                    return str(self.randint(-15, 15))
                case 3:
                    return hex(self.randrange(31))
                case 4:
                    return f"-{self.randrange(31):#x}"
                case 5:
                    return self.number()
                case _:
                    return self.choice(NUMBERS)
        name = self.choice("rax rax eax r8 r8d var_8 al".split())
        out = [Line(None, 0, [R(name), P(" = "), N(near()), P(";")])]
        for _ in range(self.choice([1, 1, 2, 3])):
            tokens = split(self.choice(["", "", "rbx = ", "rbx = ", "g(", "g(1, ", "return ", "x", "(", ",", "= ", " = "]))
            if tokens and self.chance(8):
                tokens[-1] = Token(self.randrange(8), tokens[-1].text)
            terms = self.randint(2, 3)
            mine = self.randrange(terms)
            for k in range(terms):
                if k > 0:
                    tokens.append(Token(self.odd(PUNCT), self.choice([" + ", " - "] * 4 + ["+", " * ", ", "])))
                if k == mine or self.chance(10):
                    tokens.append(R(name))
                else:
                    tokens.append(Token(NUMBER if self.chance(95) else self.randrange(8), near()))
            if self.chance(85):
                tokens.append(Token(self.odd(PUNCT), self.choice([";", ";", ")", ");", ",", ", 3);", " ;", " + 1;", "x", "(", "]"])))
            out.append(Line(None, 0, tokens))
        return out

    def life(self):
        """Few families, many labels, jumps and loops, at small indents."""
        plain = """rax = 5;|rax = 5;|rax = rbx;|rax = rbx + 1;|rax = f();|eax = f(rbx);|eax = 3;|al = 2;|ax = 2;|rbx = rax;|rbx = rax;|rbx = rax + 4;|g(rax);
g(rax);|g(rax, rax);|h();|rcx = rcx + 1;|rdx = 4;|rbx = 1;|rax = var_8;|var_8 = rax;|rsi = 1;|g(rsi);""".replace("\n", "|").split("|")
        flow = """goto L;|goto M;|goto N;|if (rbx) goto L;|if (rbx) goto M;|if (rax) goto L;|do {|do {|} while (rbx);|} while (rbx);|} while (rax);|while (rbx)
return;|return rbx;|return rax;|if (rbx) {|}|rax = do;|rax = 1 while;|rax = goto L;|M goto L;|goto x L;|M = goto L;|rbx = f() return;
h() while (rbx);""".replace("\n", "|").split("|")
        indent, top, share = self.randrange(2), self.randint(0, 3), self.randint(20, 60)
        out = []
        for _ in range(self.randint(2, 11)):
            if self.chance(30):
                indent = self.randint(0, top)
            if self.chance(15):
                tokens = [Token(self.odd(SYMBOL), self.choice("LLMN")), Token(self.odd(PUNCT), ":" if self.chance(95) else " :")]
                if self.chance(12):
                    tokens.append(Token(TEXT, self.choice([" //", ";", ":"])))
            else:
                tokens = split(self.choice(flow if self.chance(share) else plain))
            if self.chance(4):
                self.other_kind(tokens)
            out.append(Line(None, indent, tokens))
        return out

    def frame(self):
        """A definition and its use; before, between and behind them, lines that decide whether the two are joined."""
        row = self.choice(FAMILIES)
        name, wide = self.choice([row[0], row[0], row[1], self.choice(row)]), row[0]
        if self.chance(15):
            return lines_of([f"{wide} = r13;", f"r14 = {wide};", "h();", f"g({wide});"])
        if self.chance(15):
            name = wide = self.choice(["var_8", "r08", "r8x"])
        texts = []
        if self.chance(40):
            texts += [self.choice(["L:", "L:", "do {{", "M:"]),
                      self.choice(["h({w});", "{w} = 1;", "{n} = 2;", "h();", "rbp = 3;", "if (rbp) {{", "f(&var_8);"])]
        texts.append("{n} = " + self.choice(["7", "rbp", "rbp + 1", "f()", "*(int *)(rbp)", "var_10", "M", "&M", "f(rbp)"]) + ";")
        if self.chance(50):
            texts.append(self.choice(["rsi = 1;", "rbp = 1;", "ebp = 1;", "var_10 = 1;", "var_18 = rsi;", "rsi = h();", "rx = 1;", "rsi = {{;",
                                      "rsi = }};", "rsi += 1;", "h();", "L:", "rsi = 2", "rsi = {n};", "f({n}, {n});", "{w} = 3;"]))
        texts.append(self.choice(["rdi = {n};", "rdi = {n};", "g({n});", "g({n}, 4);", "rdi = {n} - 4;", "return {n};", "rdi = rdi - {n};",
                                  "rdi = {w};", "if ({n}) goto L;", "g({n}, {w});"]))
        if self.chance(60):
            texts.append(self.choice(["h();", "((void (*)())rsi)();", "return;", "goto L;", "if (rsi) goto L;", "goto M;", "}} while (rsi);",
                                      "}} while ({w});", "{n} = 1;", "{w} = 1;", "L:", "M:", "goto *rsi;", "}}"]))
        if self.chance(60):
            texts.append("h({w});")
        indent, outer, out = 1, self.randrange(2), []
        for text in texts:
            tokens = split(text.format(n=name, w=wide))
            if self.chance(4):
                self.other_kind(tokens)
            place = outer if re.match("L:|M:|do|}", text) else indent
            out.append(Line(None, self.randint(0, 2) if self.chance(10) else place, tokens))
        return out

    def quirk(self):
        lines = spelled(self.choice(QUIRKS))
        for _ in range(self.choice([0, 0, 0, 1, 1, 2])):
            lines.insert(self.randint(0, len(lines)), Line(None, 0, split(self.choice(PAIRS))))
        if self.chance(20):
            i = self.randrange(len(lines))
            lines[i] = lines[i]._replace(indent=1)
        if self.chance(15):
            lines = [l._replace(indent=l.indent + 1) for l in lines]
        if self.chance(15):
            self.spoil(lines)
        return lines

    # ---- any kind with any text

    def soup_text(self):
        if self.chance(18):
            return self.choice(NUMBERS)
        if self.chance(5):
            return "".join(chr(self.randint(0x20, 0x7E)) for _ in range(self.randint(1, 8)))
        return self.choice(SOUP) + (self.choice(SOUP) if self.chance(5) else "")

    def soup_token(self):
        text = self.soup_text()
        if self.chance(15):
            return Token(self.randrange(8), text)
        if re.match(r"[-+]?\d", text):
            return N(text)
        if re.match(r"[A-Za-z]", text):
            return Token(kind_of(text), text)
        return K(text) if re.match(r"\(\(v|\*\(", text) else P(text)

    def soup(self):
        targets = "rax rax eax al ah rbx ebx r8 r08 var_8 rcx rx".split()
        indents = [0, 0, 0, 1, 1, 2, 62, 63][:self.randint(1, 8)]
        out = []
        for _ in range(self.randrange(12)):
            tokens = []
            if self.chance(55):
                tokens += [R(self.choice(targets)), P(self.choice([" = "] * 4 + [" = (", " == ", " = -"]))]
            tokens += [self.soup_token() for _ in range(self.randrange(6))]
            if self.chance(60):
                tokens.append(Token(self.odd(PUNCT), self.choice([";", ";", ";", ");", "();"])))
            address = self.getrandbits(64) >> self.randrange(64) if self.chance(50) else None
            out.append(Line(address, self.choice(indents), tokens))
        return out

    def other_kind(self, tokens):
        k = self.randrange(len(tokens))
        tokens[k] = Token(self.randrange(8), tokens[k].text)

    def spoil(self, lines):
        """Changes some tokens and lines of a good listing."""
        for _ in range(self.randint(1, 6)):
            if not lines:
                return
            i = self.randrange(len(lines))
            tokens = lines[i].tokens
            n = len(tokens)
            k = self.randrange(n) if n else 0
            change = self.randrange(15)
            if change == 0:
                lines[i] = lines[i]._replace(indent=self.choice([0, 1, 2, 3, 63]))
            elif change == 1:
                lines.insert(self.randint(0, len(lines)), lines[i]._replace(tokens=list(tokens)))
            elif change == 2:
                del lines[i]
            elif change == 3:
                j = self.randrange(len(lines))
                lines[i], lines[j] = lines[j], lines[i]
            elif n == 0:
                tokens.append(self.soup_token())
            elif change <= 5:
                self.other_kind(tokens)
            elif change <= 7:
                tokens[k] = self.soup_token()
            elif change == 8:
                tokens.insert(self.randint(0, n), self.soup_token())
            elif change == 9:
                del tokens[k]
            elif change == 10:
                tokens[k] = Token(tokens[k].kind, self.soup_text())
            elif change == 11 and len(tokens[k].text) > 1:
                kind, text = tokens[k]
                at = self.randint(1, len(text) - 1)
                tokens[k:k + 1] = [Token(kind, text[:at]), Token(kind, text[at:])]
            elif change == 12 and k + 1 < n:
                tokens[k:k + 2] = [Token(tokens[k].kind, tokens[k].text + tokens[k + 1].text)]
            elif change == 13:
                kind = self.randrange(8)
                tokens[k:k + 2] = [Token(kind, t.text) for t in tokens[k:k + 2]]
            else:
                other = self.choice(lines).tokens
                tokens[k] = other[0] if other else R("rax")

    def spoilt(self):
        lines = self.choice([self.chain, self.layers, self.site, self.life, self.frame, self.pairs, lambda: self.realistic(self.randint(2, 14))])()
        self.spoil(lines)
        return lines

    def any(self):
        """A listing by one of the makers, each with its weight."""
        makers = [(15, lambda: self.realistic(self.choice([self.randint(1, 8), self.randint(4, 25), self.randint(1, 60)]))),
                  (10, self.site), (8, self.sums), (11, self.quirk), (10, self.life), (14, self.frame), (5, self.chain), (5, self.layers),
                  (4, self.pairs), (6, self.soup), (12, self.spoilt), (1, self.long)]
        return self.choices([m for _, m in makers], [w for w, _ in makers])[0]()


class Writer:
    """Writes a listing of the shapes that the lifter writes."""

    def __init__(self, maker):
        self.m = maker
        self.out = []
        self.tokens = []
        self.indent = 0
        self.address = 0x401000
        self.rows = [maker.randrange(4) if maker.chance(40) else maker.randrange(len(FAMILIES)) for _ in range(maker.randint(1, 6))]
        self.slots = maker.choices(["var_8", "var_10", "var_18", "var_"], k=maker.randint(1, 3))
        self.names = maker.choices(["f", "g", "sub_401000", "CloseHandle", "off_4020", "rax"], k=maker.randint(1, 3))
        self.labels = maker.choices(["loc_1", "loc_2", "loc_3", "f"], k=maker.randint(1, 3))
        self.narrow = maker.choice([0, 10, 30, 60])
        self.merged = maker.chance(85)
        self.reach = maker.choice([50, 58, 67, 100, 100, 100])

    def put(self, kind, text):
        if self.merged and kind in (PUNCT, TEXT) and self.tokens and self.tokens[-1].kind == kind:
            text = self.tokens.pop().text + text
        self.tokens.append(Token(kind, text))

    def write(self, *parts):
        """Texts are Puncts; a method writes itself."""
        for part in parts:
            if callable(part):
                part()
            else:
                self.put(PUNCT, part)

    def word(self, text):
        return lambda: self.put(KEYWORD, text)

    def end(self):
        self.address += self.m.randrange(8)
        self.out.append(Line(self.address if self.m.chance(80) else None, self.indent, self.tokens))
        self.tokens = []

    def register(self):
        if self.m.chance(12):
            return self.slot()
        row = self.m.choice(self.rows)
        width = self.m.randint(1, 3) if self.m.chance(self.narrow) else 0
        high = row < 4 and width == 3 and self.m.chance(30)
        self.put(REGISTER, "abcd"[row] + "h" if high else FAMILIES[row][width])

    def slot(self):
        self.put(REGISTER, self.m.choice(self.slots))

    def number(self):
        self.put(NUMBER, self.m.number())

    def name(self):
        self.put(SYMBOL, self.m.choice(self.names))

    def operand(self):
        self.m.choices([self.register, self.number, self.name, self.address_of], [5, 3, 1, 1])[0]()

    def address_of(self):
        self.write("&", self.m.choice([self.slot, self.name]))

    def call(self):
        if self.m.chance(20):
            self.write(self.word("((void (*)())"), self.register, ")")
        else:
            self.name()
        self.write("(")
        for k in range(self.m.randrange(4)):
            if k > 0:
                self.write(", ")
            if self.m.chance(15):
                self.write(self.operand, " + ")
            self.operand()
        self.write(")")

    def sum(self):
        self.write(self.operand, self.m.choice([" + ", " - ", " + ", " - ", " * ", " & ", " << ", " == "]), self.operand)
        if self.m.chance(20):
            self.write(self.m.choice([" + ", " - "]), self.operand)

    def load(self):
        self.write(self.word("*(uint32_t *)"), "(", self.register)
        if self.m.chance(60):
            self.write(" + ", self.number)
        self.write(")")

    def expression(self):
        shapes = [(3, [self.number]), (2, [self.register]), (3, [self.sum]), (1, ["(", self.operand, ") - (", self.operand, ")"]),
                  (1, [self.word("(uint64_t)"), self.register]), (1, [self.load]), (1, [self.m.choice("-~!"), self.register]), (1, [self.operand])]
        self.write(*self.m.choices([s for _, s in shapes], [w for w, _ in shapes])[0])

    def condition(self):
        self.write(self.operand, self.m.choice([" == ", " != ", " < "]), self.operand)

    def goto(self):
        self.put(KEYWORD, "goto")
        if self.m.chance(8):
            self.write(" *", self.register)
        else:
            self.put(TEXT, " ")
            self.put(SYMBOL, self.m.choice(self.labels) if self.m.chance(95) else "nowhere")

    def inner(self, depth):
        self.indent += 1
        self.block(self.m.randrange(5), depth + 1)
        self.indent -= 1

    def block(self, size, depth):
        stop = len(self.out) + size
        while len(self.out) < stop:
            self.statement(self.m.randrange(min(self.reach, 100 if depth < 3 else 88)), depth)
            self.end()

    def statement(self, which, depth):
        m = self.m
        if which < 45:
            self.write(self.register, " = ", self.expression, ";")
        elif which < 55:
            self.put(REGISTER, m.choice(["rax", "rax", "rax", "eax", "eax", "rbx"]))
            self.write(" = ", self.call, ";")
        elif which < 58:
            self.write(self.call, ";")
        elif which < 62:
            self.write(self.register, m.choice([" += ", " -= ", " &= ", " |= ", " ^= ", " *= ", " <<= ", " >>= "]), self.operand, ";")
        elif which < 64:
            self.write(self.register, m.choice(["++;", "--;"]))
        elif which < 67:
            self.write(self.word("*(uint64_t *)"), "(", self.register, ") = ", self.operand, ";")
        elif which < 71:
            self.put(SYMBOL, m.choice(self.labels))
            self.write(":")
        elif which < 75:
            if m.chance(70):
                self.write(self.word("if"), " (", self.condition, ") ")
            self.write(self.goto, ";")
        elif which < 78:
            self.write(self.word("if"), " (", self.condition, ") ", self.register, " = ", self.operand, ";")
        elif which < 84:
            self.put(KEYWORD, "return")
            if m.chance(60):
                self.put(TEXT, " ")
                self.write(self.call if m.chance(30) else self.operand)
            self.write(";")
        elif which < 86:
            self.write(self.word("__asm"), " { ")
            self.put(TEXT, "nop rax")
            self.write(" }")
        elif which < 88:
            self.write(self.register, " = ", self.word("_InterlockedExchange"), "(&", self.operand, ", ", self.register, ");")
        elif which < 94:
            self.write(self.word("do"), " {")
            self.end()
            self.inner(depth)
            self.write("} ", self.word("while"), " (", self.condition, ");")
        else:
            self.write(self.word("if"), " (", self.condition, ") {")
            self.end()
            self.inner(depth)
            self.write("}")


def accepted(lines):
    """The listing cut to document 01's limits: number texts of 24 bytes, 256 lines, 1,024 tokens. (All its text is far below 24,576 bytes.)"""
    lines = [Line(l.address, l.indent, tuple(Token(k, t[:24] if k == NUMBER else t) for k, t in l.tokens)) for l in lines[:256]]
    while sum(len(l.tokens) for l in lines) > 1024:
        lines.pop()
    return tuple(lines)


def case(seed, number):
    """The convention and the listing with this number. The first are QUIRKS, as they stand."""
    maker = Maker(f"{seed}:{number}")
    convention = maker.randrange(3)
    lines = spelled(QUIRKS[number]) if number < len(QUIRKS) else maker.any()
    return convention, accepted(lines)


def shown(listing):
    """The listing for a reader, a line to a row."""
    return "\n".join(
        f"    {'-' if l.address is None else l.address} {l.indent}  " + " ".join(f"{LETTERS[t.kind]}{t.text!r}" for t in l.tokens) for l in listing)
