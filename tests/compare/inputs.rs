//! Inputs to compare on. Each is fixed by a seed and its number. Besides realistic and unusual listings there are those that put much text into the
//! work areas, which random listings do not: neighbours that are joined, sums that fold, long texts, names of addressed slots in parts.

use crate::door::{write_tape, KINDS, OUTPUT, WORK};
use crate::model::{Token, TokenKind};
use crate::pseudo::PseudoLine;
use TokenKind::*;

pub const ENOUGH: [usize; 3] = [WORK, WORK, OUTPUT];

pub struct Input {
    pub convention: u8,
    pub edition: u8,
    pub parts: bool,
    pub tape: Vec<u8>,
    /// how many bytes of the two work areas and of the output are lent
    pub lent: [usize; 3],
}

/// splitmix64
pub struct Rng(u64);

impl Rng {
    pub fn new(seed: u64, number: u64) -> Rng {
        let mut r = Rng(seed.wrapping_mul(0xa076_1d64_78bd_642f) ^ number.wrapping_mul(0xe703_7ed1_a0b4_28db));
        r.next();
        r
    }

    pub fn next(&mut self) -> u64 {
        self.0 = self.0.wrapping_add(0x9e37_79b9_7f4a_7c15);
        let mut z = self.0;
        z = (z ^ (z >> 30)).wrapping_mul(0xbf58_476d_1ce4_e5b9);
        z = (z ^ (z >> 27)).wrapping_mul(0x94d0_49bb_1331_11eb);
        z ^ (z >> 31)
    }

    fn below(&mut self, n: usize) -> usize {
        (self.next() % n as u64) as usize
    }

    /// From a to b, both included.
    fn range(&mut self, a: usize, b: usize) -> usize {
        a + self.below(b - a + 1)
    }

    fn chance(&mut self, percent: usize) -> bool {
        self.below(100) < percent
    }

    fn pick<'a>(&mut self, s: &[&'a str]) -> &'a str {
        s[self.below(s.len())]
    }
}

const FEW: &[&str] = &["rax", "eax", "al", "rbx", "ebx", "rcx", "var_8"];
const NAMES: &[&str] = &[
    "rax", "eax", "ax", "al", "ah", "rbx", "ebx", "bl", "bh", "rcx", "ecx", "cx", "rdx", "edx", "rsi", "esi", "rdi", "edi", "rbp", "rsp", "r8", "r8d",
    "r8b", "r8l", "r9", "r9w", "r10", "r11d", "r12", "r13", "r99", "r08", "var_4", "var_8", "var_c", "r8x", "xmm0", "rip",
];
const NUMBERS: &[&str] = &[
    "0", "1", "2", "5", "9", "10", "13", "14", "0x10", "0xff", "-1", "-9", "-0xa", "010", "--5", "+5", "0x+5", "0x", "0X1f", "1e3", "0x7fffffffffffffff",
    "0x8000000000000000", "-0x8000000000000000", "0xffffffffffffffff", "9223372036854775807", "9223372036854775808", "-9223372036854775808",
    "000000000000000000000007",
];
const SYMBOLS: &[&str] = &["f", "g", "h", "L1", "L2", "open_mould", "heater_set", "sub_401000"];
const OPERATORS: &[&str] = &[" + ", " - ", " + ", " - ", ", ", " & ", " * ", "*", " << ", " == "];
const WORDS: &[&str] = &["return", "goto", "do", "while", "if", "switch", "__asm", "((void (*)())", "*(int *)", "*("];
/// Texts with which the Rust's tests change their answer, for tokens of any kind.
const ODD: &[&str] = &[
    " = ", " = (", " = ;", " =", " == ", ";", ");", "();", "(", ")", "()", ", ", ",", " , ", " + ", " - ", "+", "-", "*(", "&", "x = &", "{", "}", "} ", ":", " ",
    "((void", "((void (*)())", "goto", "goto ", "do", "do {", "while", "return", "return ", "++", "--", " += ", " -= ", " &= ", " |= ", " ^= ", " *= ", " /= ",
    " <<= ", " >>= ", "f", "L1", "rax", "eax", "al", "rax;", "rbx", "r8", "var_", "var_8", "var_8;", "5", "-5", "0x5", "x",
];

pub fn tok(k: TokenKind, t: impl Into<String>) -> Token {
    Token { t: t.into(), k }
}

fn line(indent: u8, tokens: Vec<Token>) -> PseudoLine {
    PseudoLine { address: None, indent, tokens }
}

fn number(r: &mut Rng) -> Token {
    match r.below(4) {
        0 => tok(Number, r.below(20).to_string()),
        1 => tok(Number, format!("{:#x}", r.next() >> r.below(64))),
        _ => tok(Number, r.pick(NUMBERS)),
    }
}

// ---- lines of C

/// How a listing is made: which registers, and how long a free text may be.
struct Style<'a> {
    names: &'a [&'a str],
    long: usize,
}

fn filler(r: &mut Rng, most: usize) -> String {
    let n = r.range(1, most);
    (0..n).map(|_| b"abcxyz(), +-_"[r.below(13)] as char).collect()
}

fn term(r: &mut Rng, s: &Style) -> Vec<Token> {
    match r.below(10) {
        0..=3 => vec![tok(Register, r.pick(s.names))],
        4..=6 => vec![number(r)],
        7 => [vec![tok(Symbol, r.pick(SYMBOLS)), tok(Punct, "(")], term(r, s), vec![tok(Punct, ")")]].concat(),
        8 => vec![tok(Text, filler(r, s.long))],
        _ => [vec![tok(Punct, filler(r, s.long))], term(r, s)].concat(),
    }
}

fn expression(r: &mut Rng, s: &Style) -> Vec<Token> {
    let mut out = term(r, s);
    while r.chance(40) {
        out.push(tok(Punct, r.pick(OPERATORS)));
        out.extend(term(r, s));
    }
    out
}

fn statement(r: &mut Rng, s: &Style) -> Vec<Token> {
    match r.below(100) {
        0..=54 => [vec![tok(Register, r.pick(s.names)), tok(Punct, " = ")], expression(r, s), vec![tok(Punct, ";")]].concat(),
        55..=62 => {
            let call = [vec![tok(Symbol, r.pick(SYMBOLS)), tok(Punct, "(")], expression(r, s), vec![tok(Punct, ");")]].concat();
            [vec![tok(Register, r.pick(&["rax", "eax", "al", "rbx"])), tok(Punct, " = ")], call].concat()
        }
        63..=74 => [vec![tok(Symbol, r.pick(SYMBOLS)), tok(Punct, "(")], expression(r, s), vec![tok(Punct, ");")]].concat(),
        75..=79 => {
            let kind = [Text, Punct, Register, Number, Symbol][r.below(5)];
            vec![tok(Punct, r.pick(&["&", "x = &", "g(&"])), tok(kind, r.pick(&["var_4", "var_8", "var_c"])), tok(Punct, ";")]
        }
        80..=84 => vec![tok(Symbol, r.pick(&["L1", "L2", "f"])), tok(Punct, ":")],
        85..=89 => vec![tok(Keyword, "goto"), tok(Punct, " "), tok(Symbol, r.pick(&["L1", "L2"])), tok(Punct, ";")],
        90..=91 => vec![tok(Keyword, "do"), tok(Punct, " {")],
        92..=93 => [vec![tok(Punct, "} "), tok(Keyword, "while"), tok(Punct, " (")], expression(r, s), vec![tok(Punct, ");")]].concat(),
        94..=95 => [vec![tok(Keyword, "if"), tok(Punct, " (")], expression(r, s), vec![tok(Punct, ") {")]].concat(),
        96 => vec![tok(Punct, "}")],
        97 => [vec![tok(Register, r.pick(s.names)), tok(Punct, r.pick(&[" += ", " -= ", "++;", " ^= "]))], expression(r, s), vec![tok(Punct, ";")]].concat(),
        98 => [vec![tok(Keyword, r.pick(WORDS)), tok(Register, r.pick(s.names)), tok(Punct, ")")], expression(r, s)].concat(),
        _ => [vec![tok(Keyword, "return"), tok(Punct, " ")], expression(r, s), vec![tok(Punct, ";")]].concat(),
    }
}

/// The token, or several of its kind that join to it.
fn pieces(r: &mut Rng, t: Token, often: usize, out: &mut Vec<Token>) {
    if matches!(t.k, Text | Punct) && t.t.len() > 1 && r.chance(often) {
        let at = r.range(1, t.t.len() - 1);
        pieces(r, tok(t.k, &t.t[..at]), often, out);
        pieces(r, tok(t.k, &t.t[at..]), often, out);
    } else {
        out.push(t);
    }
}

fn c_lines(r: &mut Rng) -> Vec<PseudoLine> {
    let long = [4, 4, 4, 40, 400, 3000][r.below(6)];
    let style = Style { names: if r.chance(60) { FEW } else { NAMES }, long };
    let often = [0, 0, 30, 70][r.below(4)];
    let flat = r.chance(60);
    let mut indent = 0i32;
    let most = [4, 8, 16, 40, 120][r.below(5)];
    let n = r.range(1, most);
    (0..n)
        .map(|_| {
            let mut tokens = Vec::new();
            for t in statement(r, &style) {
                pieces(r, t, often, &mut tokens);
            }
            if !flat {
                indent = (indent + r.below(3) as i32 - 1).clamp(0, 4);
            }
            PseudoLine { address: r.chance(50).then(|| r.next() >> r.below(64)), indent: indent as u8, tokens }
        })
        .collect()
}

/// Tokens of any kind with any text.
fn soup(r: &mut Rng) -> Vec<PseudoLine> {
    let n = r.range(1, 10);
    (0..n)
        .map(|_| {
            let count = r.below(9);
            let tokens = (0..count).map(|_| tok(KINDS[r.below(8)], r.pick(ODD))).collect();
            line(if r.chance(80) { 0 } else { r.below(3) as u8 }, tokens)
        })
        .collect()
}

/// A listing with some tokens changed, lost or doubled.
fn spoilt(r: &mut Rng) -> Vec<PseudoLine> {
    let mut lines = c_lines(r);
    for _ in 0..r.range(1, 6) {
        let i = r.below(lines.len());
        let tokens = &mut lines[i].tokens;
        if tokens.is_empty() {
            continue;
        }
        let j = r.below(tokens.len());
        match r.below(5) {
            0 => tokens[j].k = KINDS[r.below(8)],
            1 => tokens[j].t = r.pick(ODD).to_string(),
            2 => {
                tokens.remove(j);
            }
            3 => {
                let t = tokens[j].clone();
                tokens.insert(j, t);
            }
            _ => {
                let other = lines[r.below(lines.len())].clone();
                lines.insert(i, other);
            }
        }
    }
    lines
}

// ---- much text in the areas

/// One line of many sums, which fold to long numbers, and as much Punct as fits, which is joined.
fn folded(r: &mut Rng) -> Vec<PseudoLine> {
    let mut tokens = vec![tok(Symbol, "f"), tok(Punct, "(")];
    for _ in 0..r.range(1, 253) {
        tokens.extend([tok(Register, "r8"), tok(Punct, r.pick(&[" + ", " - "])), tok(Number, r.pick(&["1", "2", "0x10"])), tok(Punct, ", ")]);
    }
    let head = line(0, vec![tok(Register, "r8"), tok(Punct, " = "), tok(Number, r.pick(&["0x7fffffffffffffff", "-0x8000000000000000", "5"])), tok(Punct, ";")]);
    let used: usize = head.tokens.iter().chain(&tokens).map(|t| t.t.len()).sum();
    let room = r.range(2, 24_576 - used - 1);
    let half = r.range(1, room - 1);
    tokens.extend([tok(Punct, "y".repeat(half)), tok(Punct, "z".repeat(room - half) + ";")]);
    vec![head, line(0, tokens)]
}

/// Addressed slots, some with long names in parts, and assignments to them.
fn slots(r: &mut Rng) -> Vec<PseudoLine> {
    let mut lines = Vec::new();
    for i in 0..r.range(2, 60) {
        let name = format!("var_{}{}", "s".repeat([1, 5, 90][r.below(3)]), i % 7);
        let kind = [Text, Text, Punct, Register, Symbol][r.below(5)];
        let at = r.range(1, name.len() - 1);
        let mut addressed = vec![tok(Keyword, "&")];
        if matches!(kind, Text | Punct) {
            addressed.extend([tok(kind, &name[..at]), tok(kind, &name[at..])]);
        } else {
            addressed.push(tok(kind, name.clone()));
        }
        addressed.push(tok(Punct, ";"));
        lines.push(line(0, addressed));
        lines.push(line(0, vec![tok(Register, name.clone()), tok(Punct, " = "), tok(Number, "3"), tok(Punct, ";")]));
        lines.push(line(0, vec![tok(Symbol, "f"), tok(Punct, "("), tok(Register, name), tok(Punct, ");")]));
        lines.push(line(0, vec![tok(Register, "rax"), tok(Punct, " = "), tok(Number, "4"), tok(Punct, ";")]));
    }
    for i in (1..lines.len()).rev() {
        lines.swap(i, r.below(i + 1));
    }
    lines
}

/// Sums of sums: each line adds to the register of the line before.
fn deep(r: &mut Rng) -> Vec<PseudoLine> {
    let names = ["rax", "rbx", "rcx", "rdx", "rsi", "rdi", "r8", "r9"];
    let n = r.range(2, 150);
    (0..n)
        .map(|i| {
            let mut tokens = vec![tok(Register, names[i % 8]), tok(Punct, " = ")];
            if i > 0 {
                tokens.extend([tok(Register, names[(i - 1) % 8]), tok(Punct, r.pick(&[" + ", " - "]))]);
            }
            tokens.extend([number(r), tok(Punct, ";")]);
            line(0, tokens)
        })
        .collect()
}

/// Calls in calls with text between, which is joined in each attempt.
fn nested(r: &mut Rng) -> Vec<PseudoLine> {
    let (n, long) = (r.range(2, 90), [1, 20, 100][r.below(3)]);
    (0..n)
        .map(|i| {
            let inner = if i == 0 { tok(Number, "7") } else { tok(Register, "rbx") };
            let open = format!("({}", "a".repeat(long));
            let close = format!("{});", "b".repeat(long));
            line(0, vec![tok(Register, "rbx"), tok(Punct, " = "), tok(Symbol, r.pick(&["f", "g", "h"])), tok(Punct, open), inner, tok(Punct, close)])
        })
        .collect()
}

/// A constant of up to 24 bytes that takes the place of many registers.
fn grown(r: &mut Rng) -> Vec<PseudoLine> {
    let n = r.range(1, 1015);
    let digits = r.range(1, 24);
    let mut tokens = vec![tok(Register, "r8"); n];
    let room = r.range(1, 24_576 - 2 * n - 40);
    tokens.push(tok(Punct, "y".repeat(room)));
    vec![line(0, vec![tok(Register, "r8"), tok(Punct, " = "), tok(Number, "7".repeat(digits)), tok(Punct, ";")]), line(0, tokens)]
}

/// Lines that take much work: moves to and fro behind a label, or registers that nothing reads.
fn laborious(r: &mut Rng) -> Vec<PseudoLine> {
    let n = if r.chance(10) { r.range(200, 257) } else { r.range(1, 40) };
    let moves = r.chance(80);
    (0..n)
        .map(|i| {
            let (to, from) = match i {
                0 if moves => return line(0, vec![tok(Symbol, "L"), tok(Punct, ":")]),
                1 if moves => ("rbx".to_string(), tok(Register, "rsi")),
                _ if moves && i % 2 == 0 => ("rbp".to_string(), tok(Register, "rbx")),
                _ if moves => ("rbx".to_string(), tok(Register, "rbp")),
                _ => (format!("r{i}"), tok(Number, i.to_string())),
            };
            line(0, vec![tok(Register, to), tok(Punct, " = "), from, tok(Punct, ";")])
        })
        .collect()
}

/// The lines from the left as far as the limits allow.
fn fitting(lines: Vec<PseudoLine>) -> Vec<PseudoLine> {
    let (mut tokens, mut text) = (0, 0);
    lines
        .into_iter()
        .filter_map(|mut l| {
            l.tokens.retain(|t| !t.t.is_empty() && (t.k != Number || t.t.len() <= 24));
            let (n, b) = (l.tokens.len(), l.tokens.iter().map(|t| t.t.len()).sum::<usize>());
            let fits = tokens + n <= 1024 && text + b <= 24_576;
            if fits {
                tokens += n;
                text += b;
            }
            fits.then_some(l)
        })
        .collect()
}

/// A tape that comes near the total of lines, tokens or text, and a few commands that may pass it, or another limit, or both (M-101).
fn totals(r: &mut Rng) -> Vec<u8> {
    let mut tape = vec![0x02, 0x00];
    let text = match r.below(3) {
        0 => {
            tape = [0x02, 0x00].repeat(r.range(255, 256));
            0
        }
        1 => {
            let n = [1, 24][r.below(2)];
            let token = [vec![0x10 + r.below(8) as u8, n, 0], vec![b'a'; n as usize]].concat();
            let times = r.range(1023, 1024);
            tape.extend(token.repeat(times));
            times * n as usize
        }
        _ => {
            let n = r.range(24_576 - 30, 24_576);
            tape.extend([0x10, n as u8, (n >> 8) as u8]);
            tape.extend(vec![b'a'; n]);
            n
        }
    };
    for _ in 0..r.range(1, 3) {
        if r.chance(30) {
            tape.extend([0x02, [0, 63, 64][r.below(3)]]);
        } else {
            let n = [0, 1, 24, 25, 24_576usize.saturating_sub(text).min(99)][r.below(5)];
            let at = tape.len() + 3;
            tape.extend([0x10 + r.below(8) as u8, n as u8, 0]);
            tape.extend(vec![b'5'; n]);
            if n > 0 && r.chance(30) {
                for _ in 0..2 {
                    tape[at + r.below(n)] = [0x07, 0x1F, 0x7F, 0xFF][r.below(4)];
                }
            }
        }
    }
    tape.push(0xFF);
    tape
}

/// A number by the rules of one of the editions, or nearly so: its base, digits, quotes between some; sometimes a quote elsewhere, a digit of another
/// base, a suffix.
fn number_by_editions(r: &mut Rng) -> String {
    const HEXADECIMAL: &str = "0123456789abcdefABCDEF";
    let (prefix, digits) =
        [("", "0123456789"), ("0", "01234567"), ("0x", HEXADECIMAL), ("0X", HEXADECIMAL), ("0b", "01"), ("0B", "01"), ("", "123456789")][r.below(7)];
    let mut s = prefix.to_string();
    let quotes = [0, 0, 20, 60][r.below(4)];
    for k in 0..if r.chance(15) { r.range(15, 24) } else { r.range(0, 5) } {
        if (k > 0 || r.chance(4)) && r.chance(quotes) {
            s.push('\'');
        }
        let d = digits.as_bytes()[r.below(digits.len())] as char;
        s.push(if r.chance(98) { d } else { "'28gu"[r.below(5)..].chars().next().unwrap() });
    }
    if r.chance(6) {
        s += r.pick(&["u", "L", "ull", "wb", "'", "''"]);
    }
    r.pick(&["", "", "", "", "", "-", "-", "--", "+", "-+"]).to_string() + &s
}

/// Small sums of such numbers: `rax = A;` `rbx = rax + B;`, a few times.
fn sums(r: &mut Rng) -> Vec<PseudoLine> {
    let one = |r: &mut Rng| if r.chance(70) { tok(Number, number_by_editions(r)) } else { number(r) };
    (0..r.range(1, 6))
        .flat_map(|_| {
            let (a, b) = (one(r), one(r));
            let sum = vec![tok(Register, "rbx"), tok(Punct, " = "), tok(Register, "rax"), tok(Punct, r.pick(&[" + ", " - "])), b, tok(Punct, ";")];
            [line(0, vec![tok(Register, "rax"), tok(Punct, " = "), a, tok(Punct, ";")]), line(0, sum)]
        })
        .collect()
}

fn by_editions(r: &mut Rng, lines: &mut [PseudoLine]) {
    for t in lines.iter_mut().flat_map(|l| &mut l.tokens).filter(|t| t.k == Number) {
        if r.chance(60) {
            t.t = number_by_editions(r);
        }
    }
}

/// Registers made bytes and words of a few families, so that parts meet.
fn by_parts(r: &mut Rng, lines: &mut [PseudoLine]) {
    for t in lines.iter_mut().flat_map(|l| &mut l.tokens).filter(|t| t.k == Register) {
        if r.chance(60) {
            t.t = r.pick(&["ah", "al", "ah", "al", "bh", "bl", "ch", "dl", "ax", "eax", "rax"]).to_string();
        }
    }
}

/// Some bytes changed, lost or added.
fn damage(r: &mut Rng, tape: &mut Vec<u8>) {
    for _ in 0..r.range(1, 3) {
        let at = r.below(tape.len() + 1);
        let byte = if r.chance(60) { [0, 1, 2, 3, 0x0F, 0x10, 0x12, 0x16, 0x17, 0x18, 0x1F, 0x20, 0x40, 0x7E, 0x7F, 0xFF][r.below(16)] } else { r.next() as u8 };
        match r.below(4) {
            0 => tape.truncate(at),
            1 => tape.insert(at, byte),
            2 if at < tape.len() => {
                tape.remove(at);
            }
            _ if at < tape.len() => tape[at] = byte,
            _ => tape.push(byte),
        }
    }
}

/// Input `number` of the set `seed`.
pub fn case(seed: u64, number: u64) -> Input {
    let r = &mut Rng::new(seed, number);
    let lines = match r.below(100) {
        0..=44 => c_lines(r),
        45..=54 => sums(r),
        55..=66 => soup(r),
        67..=81 => spoilt(r),
        82..=84 => folded(r),
        85..=87 => slots(r),
        88..=90 => deep(r),
        91..=93 => nested(r),
        94..=95 => grown(r),
        _ => laborious(r),
    };
    let mut lines = lines;
    if r.chance(40) {
        by_editions(r, &mut lines);
    }
    if r.chance(20) {
        by_parts(r, &mut lines);
    }
    let mut tape = if r.below(200) == 0 { totals(r) } else { write_tape(&if r.chance(98) { fitting(lines) } else { lines }) };
    if r.chance(6) {
        damage(r, &mut tape);
    }
    tape.truncate(crate::door::MOST_TAPE);
    let convention = if r.chance(99) { r.below(3) as u8 } else { r.next() as u8 };
    let edition = if r.chance(99) { r.below(2) as u8 } else { r.next() as u8 };
    let lent = match r.below(100) {
        0 => [WORK - 1 + r.below(2), WORK - 1 + r.below(2), OUTPUT - 1 + r.below(2)],
        1..=9 => [WORK + r.below(100), WORK + r.below(100), OUTPUT + r.below(100)],
        // around the figure of before request M-109
        10 => [65_536 - 1 + r.below(3), 65_536 - 1 + r.below(3), OUTPUT + r.below(2)],
        _ => ENOUGH,
    };
    Input { convention, edition, parts: r.chance(50), tape, lent }
}
