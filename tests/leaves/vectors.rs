//! The vectors: what is asked is written here, what is answered comes from the Rust.

mod pseudo_opt;

use model::{Token, TokenKind};
use pseudo::PseudoLine;

include!("stand_ins.rs");

fn token(k: TokenKind, t: &str) -> Token {
    Token { t: t.to_string(), k }
}

// ---- the Rust's answers

fn family(name: &str) -> String {
    match pseudo_opt::family(name) {
        Some((family, width)) => format!("{family} {width}"),
        None => "none".to_string(),
    }
}

/// What `fold` makes of `a op b` alone on a line: one token, if it reads both.
fn folded(a: &str, op: &str, b: &str) -> String {
    let reads = pseudo_opt::parse_c_number(a).is_some() && pseudo_opt::parse_c_number(b).is_some();
    let v = pseudo_opt::folded(vec![token(TokenKind::Number, a), token(TokenKind::Punct, op), token(TokenKind::Number, b)]);
    assert_eq!(v.len(), if reads { 1 } else { 3 }, "fold and parse_c_number disagree on {a}{op}{b}");
    if reads { v[0].t.clone() } else { "unread".to_string() }
}

/// `name = x;` `use name` `f();` `use name`: `optimize` joins the first two lines where the call overwrites the register.
fn volatile(convention: usize, name: &str) -> String {
    let (bits, sysv) = [(32, false), (64, true), (64, false)][convention];
    let line = |tokens| PseudoLine { address: None, indent: 0, tokens };
    let reads = || line(vec![token(TokenKind::Text, "use "), token(TokenKind::Register, name)]);
    let mut lines = vec![
        line(vec![
            token(TokenKind::Register, name),
            token(TokenKind::Punct, " = "),
            token(TokenKind::Symbol, "x"),
            token(TokenKind::Punct, ";"),
        ]),
        reads(),
        line(vec![token(TokenKind::Symbol, "f"), token(TokenKind::Punct, "();")]),
        reads(),
    ];
    pseudo_opt::optimize(&Binary, &mut lines, sysv, bits);
    if lines.len() == 3 { "yes".to_string() } else { "no".to_string() }
}

// ---- what is asked

/// Document 01's sheet of examples.
const SHEET_NAMES: &str = "ah r8l r8x r99";
const SHEET_NUMBERS: &str = "0xffffffffffffffff 010 --5 0x 9223372036854775808";
const SHEET_PAIRS: &str = "4 13,4 14,9223372036854775807 1,5 4";

/// The table's names and the high bytes.
const TABLE: &str = "rax eax ax al rbx ebx bx bl rcx ecx cx cl rdx edx dx dl rsi esi si sil rdi edi di dil rbp ebp bp bpl rsp esp sp spl ah bh ch dh";

/// Names that are nearly in the table, or in another manual's.
const NEAR: &str = "RAX EAX AX AL AH Rax rAX raX eaX aL a ra ea h xh eh sih dih bph sph ahh aah rah raxx rax8 eaxd axl sill si8 spll rip eip ip \
    rflags cs fs st0 mm0 xmm0 ymm15 k1 cr0";

/// Names spelt like r8 to r15, which `main` adds with each suffix.
const NUMBERED: &str = "r0 r00 r08 r08d r1 r7l r16 r31b r100w r110 r18446744073709551616 r00000000000000000000000000000008b r r_ r- rd rw rb rl \
    rx rx8 rr8 r8D r8W r8B r8L r8h r8X r8_ r8- r8. r8/ r8: r8dd r8db r8ld r8d8 r8r8 r8d- r8d_ R8 R8d 8 8d d8 e8 r/ r: r/8 r:8";

const SLOTS: &str = "var_ var_8 var_10h var_rax var__ var_= var va v var8 var-8 VAR_ Var_8 vaR_8 xvar_8 _var_8 rvar_8 r8var_8 lvar_";

/// Signs and prefixes.
const SIGNS: &str = "0 -0 +0 --0 -+0 00 000 0x0 -0x0 0x00 5 -5 +5 --5 ---5 -+5 +-5 ++5 --+5 -+-5 - + -- -+ +- x 0x5 -0x5 +0x5 --0x5 -0x-5 0x+5 \
    0x-5 -0x+5 0x++5 0x+ 0x- -0x +0x 0X 0X1f -0X1f 0x0x5 x5 00x5 0b1 0o7 08 09 -010 0x010 -0x010";

/// Digits, their neighbours, and what C allows behind them.
const DIGITS: &str = "0123456789 0x0123456789abcdef 0xABCDEF 0xaBcDeF 1a a ff A 0xg 0xG 0x/ 0x: 0x@ 0x` 1/ 1: /1 :1 0x1g 0xfz 1_000 1,000 1.5 1e3 \
    5u 5L 0x5u 5- 5+ '5' 5;";

/// Where printing changes: 9 and 10, and where a digit is added.
const PRINTED: &str = "1 -1 8 9 10 11 15 16 17 255 256 4095 4096 -8 -9 -10 -11 -15 -16 -17 -255 -256 0xa 0x9 -0x9 -0xa 0x123456789abcdef0 \
    0xdeadbeef -0xdeadbeef";

/// Where reading ends: 2^63 and 2^64.
const LARGE: &str = "9223372036854775806 9223372036854775807 +9223372036854775807 +9223372036854775808 9223372036854775809 -9223372036854775807 \
    -9223372036854775808 --9223372036854775807 --9223372036854775808 --9223372036854775809 9223372036854775810 9999999999999999999 \
    10000000000000000000 18446744073709551615 18446744073709551616 27670116110564327424 99999999999999999999 0x7ffffffffffffffe \
    0x7fffffffffffffff 0x8000000000000000 0x8000000000000001 0xfffffffffffffffe 0xFFFFFFFFFFFFFFFF 0x10000000000000000 0x10000000000000001 \
    0x18000000000000000 0xfffffffffffffffff -0x7fffffffffffffff -0x8000000000000000 -0x8000000000000001 -0xffffffffffffffff -0x10000000000000000";

/// Operands whose sums and differences wrap either way, or are printed in either form: each with each.
const OPERANDS: &str = "0 1 -1 9 -10 9223372036854775807 0x8000000000000000";

/// Other sums and differences.
const PAIRS: &str = "13 4,14 4,9223372036854775807 2,-9223372036854775807 1,-9223372036854775807 2,0x7fffffffffffffff 0x7fffffffffffffff,\
    0xffffffffffffffff 1,0xfffffffffffffffe 1,0xffffffff 1,010 1,--5 5,+5 -+5,0x+5 0x5,0x 1,1 0x,0x 0x,9223372036854775808 1,\
    1 9223372036854775808,-9223372036854775808 0,--9223372036854775808 0,0X1f 1,5u 1, 1,1 , ";

/// Of each family, and of some that are on no list.
const CALLED: &str = "rax rbx rcx rdx rsi rdi rbp rsp r8 r9 r10 r11 r12 r13 r14 r15 eax ah al bl cx dil sil r8l r9d r11b r12w r0 r1 r08 r011 r99 \
    r110 r8x r11x RAX rip var_ var_8 var_rax";

/// What stands before and behind a hundred zeros.
const ZEROS: &str = " 12,-,- 12,+ 12,-- 12,0x ff,-0x ff,0x+ ff, 9223372036854775807, 9223372036854775808,0x ffffffffffffffff,0x 10000000000000000";

fn texts(row: &str) -> impl Iterator<Item = String> + '_ {
    row.split_whitespace().map(str::to_string)
}

fn pairs(row: &str) -> impl Iterator<Item = (String, String)> + '_ {
    row.split(',').map(|pair| {
        let (a, b) = pair.split_once(' ').unwrap_or((pair, ""));
        (a.to_string(), b.to_string())
    })
}

fn main() {
    let mut vectors = Vec::new();

    let names = [SHEET_NAMES, TABLE, NEAR, NUMBERED, SLOTS].into_iter().flat_map(texts);
    let suffixed = (8..16).flat_map(|n| ["", "d", "w", "b", "l"].map(|suffix| format!("r{n}{suffix}")));
    for name in names.chain(suffixed).chain([String::new()]) {
        vectors.push(format!("family {name} {}", family(&name)));
    }

    let numbers = [SHEET_NUMBERS, SIGNS, DIGITS, PRINTED, LARGE].into_iter().flat_map(texts);
    let padded = pairs(ZEROS).map(|(front, back)| front + &"0".repeat(100) + &back);
    for number in numbers.chain(padded).chain([String::new()]) {
        vectors.push(format!("number {number} {}", folded("0", " + ", &number)));
    }

    let crossed = texts(OPERANDS).flat_map(|a| texts(OPERANDS).map(move |b| (a.clone(), b)));
    for (a, b) in pairs(SHEET_PAIRS).chain(crossed).chain(pairs(PAIRS)) {
        vectors.push(format!("sum {a} {b} {}", folded(&a, " + ", &b)));
        vectors.push(format!("difference {a} {b} {}", folded(&a, " - ", &b)));
    }

    for name in texts(CALLED) {
        for convention in 0..3 {
            vectors.push(format!("volatile {convention} {name} {}", volatile(convention, &name)));
        }
    }

    for (i, vector) in vectors.iter().enumerate() {
        if !vectors[..i].contains(vector) {
            println!("{vector}");
        }
    }
}
