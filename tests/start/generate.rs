//! The list that the program `test_start` replays, with the test oracle's answers: generate > crates/test_start/stdin
//!
//! What is asked is made here, and some of it by the oracle's generator; every answer is the oracle's. The form of a frame is in
//! crates/test_start/src/main.rt. Build it with the oracle at hand:
//!
//!     rustc --edition 2021 -O --extern oracle=ORACLE_BUILD/liboracle.rlib -o OUT/generate tests/start/generate.rs
//!
//! where ORACLE_BUILD is the folder that the oracle was built in. It prints the number of calls of each answer on standard error, and
//! fails where one of the numbers that a call can answer is not reached.

use oracle::calls::{answer, Answer, Call, Reply};
use oracle::gen::{line, listing, tok};
use oracle::gen02::{self, deep, doubled};
use oracle::model::TokenKind::{Keyword, Number, Punct, Register};
use oracle::pseudo::PseudoLine;
use oracle::tape::{commands, write, Form};
use std::collections::BTreeMap;
use std::io::Write;

/// Each number that a call can answer, 0 being a start value.
const ANSWERS: [u64; 12] = [0, 3, 4, 5, 6, 7, 8, 10, 11, 14, 15, 16];

/// The longest tape of a generated call, so that the list stays short.
const SHORT: usize = 300;

/// Names that are no 64-bit registers, or stack slots.
const NO_REGISTERS: [&[u8]; 20] = [
    b"", b"eax", b"ax", b"al", b"ah", b"r8d", b"r8w", b"r8b", b"r8x", b"r", b"rx", b"rip", b"RAX", b" rax", b"rax ", b"rax\0", b"r\xff", b"r-1", b"var_8", b"var_",
];

/// Numbers of the profile and of its edge: some of them break it.
const NUMBERS: [&str; 20] = [
    "0", "-0", "5", "-5", "9223372036854775807", "-9223372036854775807", "9223372036854775808", "0x0010", "-0x1", "0xffffffffffffffff", "-0xffffffffffffffff", "0x8000000000000000",
    "0x10000000000000000", "00", "-010", "+5", "--5", "0X1f", "0b1", "1'0",
];

struct Asked(Vec<(Vec<u8>, Vec<u8>, Vec<u8>, u64)>);

impl Asked {
    fn call(&mut self, tape: &[u8], chosen: &[u8], values: &[u8], wanted: u64) {
        self.0.push((tape.to_vec(), chosen.to_vec(), values.to_vec(), wanted));
    }
    /// A formula of text lines.
    fn formula(&mut self, lines: &[&str], chosen: &str, values: &[u8], wanted: u64) {
        self.call(&tape(&listing(lines)), chosen.as_bytes(), values, wanted);
    }
}

fn tape(lines: &[PseudoLine]) -> Vec<u8> {
    write(commands(lines, &vec![None; lines.len()]), Form::Old)
}

fn entry(name: &[u8], value: u64) -> Vec<u8> {
    [&[name.len() as u8][..], name, &value.to_le_bytes()].concat()
}

fn list(entries: &[(&str, u64)]) -> Vec<u8> {
    entries.iter().flat_map(|(n, v)| entry(n.as_bytes(), *v)).collect()
}

/// Which value a register starts with: listed or not, first of equal names, the chosen one's own entry; names by their text.
fn names(a: &mut Asked) {
    let sum = ["return rax + rbx;"];
    for values in [
        &[][..],
        &[("rbx", 3)],
        &[("rbx", 3), ("rbx", 4)],
        &[("rcx", 9), ("rbx", 3), ("rdx", 8), ("rbx", 4), ("rbx", 5)],
        &[("rax", 99)],
        &[("rax", 99), ("rbx", 3)],
        &[("rbx", 3), ("rax", 99)],
        &[("rax", 99), ("rbx", 3), ("rax", 98), ("rbx", 4)],
        &[("rbx", u64::MAX)],
        &[("r77", 7), ("r08", 1), ("r0", 2)],
    ] {
        for wanted in [10, 1] {
            a.formula(&sum, "rax", &list(values), wanted);
        }
    }
    for (chosen, wanted) in [("r8", 100), ("r08", 100), ("r99", 100), ("r008", 100), ("r99", 3)] {
        a.formula(&["return r8 - r08 + r99 + r99;"], chosen, &list(&[("r08", 5), ("r8", 6), ("r99", 7)]), wanted);
    }
    let all = "return rax - rbx + rcx - rdx + rsi - rdi + rbp - rsp;";
    let eight = [("rax", 1), ("rbx", 20), ("rcx", 300), ("rdx", 4000), ("rsi", 50_000), ("rdi", 600_000), ("rbp", 7_000_000), ("rsp", 80_000_000)];
    for chosen in ["rax", "rsp"] {
        a.formula(&[all], chosen, &list(&eight), 0);
    }
    // long names: as long as an entry can hold, and longer, where no entry can name it
    let (long, same, longest, beyond) = (digits(250, '1'), format!("{}2", digits(249, '1')), digits(254, '3'), digits(299, '4'));
    let lines = [format!("{long} = {long} + {same};"), format!("return {long} + {longest} - {beyond};")];
    let lines: Vec<&str> = lines.iter().map(String::as_str).collect();
    let values = list(&[(&same, 40), (&longest, 2), (&long, 7)]);
    for chosen in [&long, &same, &longest, &beyond, &digits(250, '9')] {
        a.formula(&lines, chosen, &values, 1000);
    }
    a.formula(&["return rax;"], &digits(250, '7'), &[], 0);
}

/// `r` and so many digits.
fn digits(n: usize, digit: char) -> String {
    format!("r{}", digit.to_string().repeat(n))
}

/// One, none and many: multipliers that are odd, even, negative, 0.
fn multipliers(a: &mut Asked) {
    for (lines, wanted) in [
        (&["return rax + rax;"][..], &[10, 11, u64::MAX, u64::MAX - 1][..]),
        (&["return rax + rax + rax;"], &[9, 10, 1]),
        (&["rax = rax + rax + rax;", "rax = rax + rax + rax + rax + rax;", "return rax + 1;"], &[16, 17]),
        (&["rbx = rax + rax + rax;", "return rbx + rbx + 1;"], &[7, 8, 0]),
        (&["return 5 - rax;"], &[10, 5]),
        (&["return rbx - (rax - (rcx - rax));"], &[1, 12, 13]),
        (&["return 5 - (rax + (rax - rbx) - rcx) - (rbx - rax);"], &[0, 77]),
        (&["return rax - rax + 7;"], &[7, 8]),
        (&["return rbx;"], &[3, 4]),
        (&["return 6;"], &[6, 7]),
    ] {
        for w in wanted {
            a.formula(lines, "rax", &list(&[("rbx", 3), ("rcx", 4)]), *w);
        }
    }
    for (k, times) in [(1, 3), (7, 1), (31, 5), (62, 2), (63, 1), (64, 1)] {
        for wanted in [0, 1 << 63, 3 << 32] {
            a.call(&tape(&doubled(k, times)), b"rax", &[], wanted);
        }
    }
}

/// Registers that are overwritten before they are read, read and then overwritten, passed on.
fn overwritten(a: &mut Asked) {
    for (lines, chosen) in [
        (&["rax = 4;", "return rax;"][..], "rax"),
        (&["rax = rbx;", "rbx = 7;", "return rax + rbx;"], "rbx"),
        (&["rax = rbx;", "rbx = 7;", "return rax + rbx;"], "rax"),
        (&["rbx = rbx + 1;", "rax = rbx + rbx;", "return rax - rbx;"], "rbx"),
        (&["rcx = rax;", "rax = rbx;", "rbx = rcx;", "return rax - rbx - rbx;"], "rax"),
        (&["rcx = rax;", "rax = rbx;", "rbx = rcx;", "return rax - rbx - rbx;"], "rbx"),
        (&["rax = rax - rax;", "rbx = rbx + rax;", "return rbx;"], "rax"),
        (&["rax = 1;", "rax = rax + rcx;", "rcx = rax + rax;", "return rcx + rax;"], "rcx"),
    ] {
        for wanted in [4, 27] {
            a.formula(lines, chosen, &list(&[("rax", 5), ("rbx", 10), ("rcx", 20)]), wanted);
        }
    }
}

/// 16 by each of its causes, and its place in the order.
fn no_registers(a: &mut Asked) {
    let sum = tape(&listing(&["return rax + rbx;"]));
    for name in NO_REGISTERS {
        a.call(&sum, name, &[], 10);
        a.call(&sum, b"rax", &[&list(&[("rbx", 3)])[..], &entry(name, 3)].concat(), 10);
    }
    a.call(&sum, b"rax", &[&entry(b"eax", 3)[..], &list(&[("rbx", 3)])].concat(), 10);
    a.call(&sum, b"eax", &entry(b"eax", 3), 10);
    // a list of two entries cut at every byte: between them it is whole
    let two = list(&[("rbx", 3), ("rcx", 4)]);
    for n in 0..=two.len() {
        a.call(&sum, b"rax", &two[..n], 10);
    }
    // cut far from its end, and in an entry for the chosen register
    a.call(&sum, b"rax", &[&[255u8][..], &[b'r'; 100]].concat(), 10);
    a.call(&sum, b"rax", &[&[250u8, b'r'][..], &[b'1'; 249], &[9; 7]].concat(), 10);
    a.call(&sum, b"rax", &list(&[("rbx", 3), ("rax", 4)])[..23], 10);
    // before 15, after 14 and the tape's questions
    let twice = tape(&listing(&["return rax + rax;"]));
    a.call(&twice, b"rax", &[4], 11);
    a.call(&twice, b"al", &[], 11);
    a.call(&tape(&listing(&["rax = 5;"])), b"al", &[4], 11);
    a.call(&sum[..sum.len() - 1], b"al", &[4], 11);
}

/// Numbers, and lines that break the profile.
fn profile(a: &mut Asked) {
    for n in NUMBERS {
        let t = vec![tok(Keyword, "return"), tok(Punct, " "), tok(Register, "rax"), tok(Punct, " - "), tok(Number, n), tok(Punct, ";")];
        a.call(&tape(&[line(0, t)]), b"rax", &[], 100);
    }
    for lines in [
        &[][..],
        &["rax = 5;"],
        &["return rax;", "return rax;"],
        &["rax = rbx;", "rcx = f();", "eax = 5;", "return rax;"],
        &["rax = rbx;", "rcx = 5;", "return eax;"],
        &["rax = (rbx;", "return rax;"],
        &["return rax * 5;"],
        &["return;"],
    ] {
        a.formula(lines, "rax", &[], 100);
    }
    let mut l = listing(&["rax = rbx;", "rcx = 5;", "return rax;"]);
    l[2].indent = 1;
    a.call(&tape(&l), b"rax", &[], 100);
    l.iter_mut().for_each(|l| l.indent = 63);
    a.call(&tape(&l), b"rbx", &[], 100);
    for space in [&[" ", "("][..], &[" ("]] {
        let mut t = vec![tok(Keyword, "return")];
        t.extend(space.iter().map(|s| tok(Punct, s)));
        t.extend([tok(Register, "rax"), tok(Punct, ");")]);
        a.call(&tape(&[line(0, t)]), b"rax", &[], 100);
    }
}

/// The tape's questions, which come first; addresses and marks, which do not matter.
fn tapes(a: &mut Asked) {
    let whole = tape(&listing(&["return rax;"]));
    for n in [0, 1, 3, 9, whole.len() - 1] {
        a.call(&whole[..n], b"rax", &[], 1);
    }
    let text = |n: usize| [&[2, 0, 0x10][..], &(n as u16).to_le_bytes(), &vec![b'a'; n], &[0xFF]].concat();
    for t in [
        vec![0x18, 0xFF],
        vec![6, 0, 0, 0, 0, 0, 0, 0, 0, 0xFF],
        vec![0x11, 1, 0, b'r', 0xFF],
        vec![2, 64, 0xFF],
        vec![2, 0, 0x10, 2, 0, b'a', 7, 0xFF],
        vec![2, 0, 0xFF, 0],
        [[2u8, 0].repeat(257), vec![0xFF]].concat(),
        text(24_577),
    ] {
        a.call(&t, b"al", &[4], 1);
    }
    let marks = [&[3][..], &7u64.to_le_bytes(), &9u64.to_le_bytes()].concat();
    let addressed = [&[1][..], &0x401000u64.to_le_bytes(), &[0], &marks, &whole[2..]].concat();
    a.call(&addressed, b"rax", &[], 1);
    a.call(&[&whole[..2], &marks[..], &whole[2..]].concat(), b"rax", &[], 1);
}

/// Nested brackets, many terms, many lines.
fn large(a: &mut Asked) {
    a.call(&tape(&deep(1500)), b"rbx", &[], 5);
    let mut open = deep(1500);
    open[1].tokens[3] = tok(Punct, ";");
    a.call(&tape(&open), b"rbx", &[], 5);
    let nested = |n: usize| format!("return {}rax{};", "rax - (rbx - (".repeat(n), "))".repeat(n));
    a.formula(&[&nested(120)], "rax", &list(&[("rbx", 2)]), 7);
    a.formula(&[&nested(121)], "rbx", &list(&[("rax", 2)]), 7);
    let terms = format!("return rax{};", " + rax".repeat(510));
    a.formula(&[&terms], "rax", &[], 511 * 1234);
    a.formula(&[&terms], "rax", &[], 1);
    let mut lines = vec!["rax = rax + rbx;"; 255];
    lines.push("return rax;");
    a.formula(&lines, "rbx", &list(&[("rax", 1)]), 0);
}

/// Of the oracle's generated calls, the first ones of each answer that are short.
fn generated(a: &mut Asked) {
    let mut kept: BTreeMap<u64, usize> = BTreeMap::new();
    for k in 0..20_000 {
        let mut call = gen02::call("start_value", 107, k);
        let r = said(&mut call);
        let Call::StartValue { tape, chosen, values, wanted } = call else { unreachable!() };
        let most = match r.refusal {
            0 => 20,
            14..=16 => 6,
            _ => 1,
        };
        let n = kept.entry(r.refusal).or_default();
        if *n < most && tape.len() <= SHORT {
            *n += 1;
            a.call(&tape, &chosen, &values, wanted);
        }
    }
}

fn said(call: &mut Call) -> Answer {
    match answer(call) {
        Reply::Answer(a) => a,
        Reply::Report(_) => unreachable!("no cleaning"),
    }
}

fn main() {
    assert!(oracle::settings::stage::set_list("all"), "a list of requests");
    let mut asked = Asked(vec![]);
    for part in [names, multipliers, overwritten, no_registers, profile, tapes, large, generated] {
        part(&mut asked);
    }
    let (mut frames, mut counts) = (Vec::new(), BTreeMap::new());
    for (tape, chosen, values, wanted) in asked.0 {
        let r = said(&mut Call::StartValue { tape: tape.clone(), chosen: chosen.clone(), values: values.clone(), wanted });
        *counts.entry(r.refusal).or_insert(0) += 1;
        let lengths = [tape.len(), chosen.len(), values.len()].map(|n| n as u64);
        let size = 64 + lengths.iter().sum::<u64>();
        for number in [&[size, wanted, r.refusal, r.place, r.value][..], &lengths].concat() {
            frames.extend(number.to_le_bytes());
        }
        frames.extend([tape, chosen, values].concat());
    }
    for number in ANSWERS {
        assert!(counts.contains_key(&number), "no call answers {number}");
    }
    eprintln!("{counts:?}, {} in all, {} bytes", counts.values().sum::<u64>(), frames.len());
    std::io::stdout().lock().write_all(&frames).expect("standard output");
}
