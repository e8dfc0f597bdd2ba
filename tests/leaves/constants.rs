//! The vectors of edition 1, `constant TEXT`: what is asked is written here, what is answered comes from the test oracle's reading by the 2024 edition.
//! Build it with the oracle at hand, and append what it prints to the vectors of the Rust:
//!
//!     rustc --edition 2021 -O --extern oracle=ORACLE_BUILD/liboracle.rlib -o OUT/constants tests/leaves/constants.rs
//!     OUT/constants >> crates/test_leaves/stdin
//!
//! where ORACLE_BUILD is the folder that the oracle was built in.

use oracle::calls::{clean, Clean};
use oracle::numbers::read_2024;

/// The longest Number of a tape.
const LONGEST: usize = 24;

/// As the Rust's `fold` prints a value.
fn printed(r: i64) -> String {
    if (-9..10).contains(&r) {
        r.to_string()
    } else if r < 0 {
        format!("-{:#x}", r.unsigned_abs())
    } else {
        format!("{r:#x}")
    }
}

fn token(tape: &mut Vec<u8>, kind: u8, text: &str) {
    tape.push(0x10 + kind);
    tape.extend((text.len() as u16).to_le_bytes());
    tape.extend(text.bytes());
}

/// What the oracle's cleaning in edition 1 leaves of `rax = 0;` `rbx = rax + TEXT;`, behind `rbx = ` and before `;`.
fn cleaned(text: &str) -> String {
    let (register, number, punct) = (1, 2, 6);
    let mut tape = vec![2, 0];
    for (kind, t) in [(register, "rax"), (punct, " = "), (number, "0"), (punct, ";")] {
        token(&mut tape, kind, t);
    }
    tape.extend([2, 0]);
    for (kind, t) in [(register, "rbx"), (punct, " = "), (register, "rax"), (punct, " + "), (number, text), (punct, ";")] {
        token(&mut tape, kind, t);
    }
    tape.push(0xff);
    let areas = || vec![0; 65536];
    let mut call =
        Clean { convention: 1, settle: false, parts: false, profile: false, edition: 1, tape, work_a: areas(), work_b: areas(), out: areas() };
    let r = clean(&mut call);
    assert_eq!(r.refusal, 0, "{text}");
    let (mut at, mut texts) = (2, Vec::new());
    while call.out[at] != 0xff {
        let length = u16::from_le_bytes([call.out[at + 1], call.out[at + 2]]) as usize;
        texts.push(String::from_utf8(call.out[at + 3..at + 3 + length].to_vec()).unwrap());
        at += 3 + length;
    }
    texts[2..texts.len() - 1].concat()
}

/// The oracle's value, as folding prints it. Where a tape takes the text, its cleaning prints the same, or leaves the sum.
fn answer(text: &str) -> String {
    let value = read_2024(text).map(printed);
    if (1..=LONGEST).contains(&text.len()) {
        assert_eq!(cleaned(text), value.clone().unwrap_or(format!("0 + {text}")), "{text}");
    }
    value.unwrap_or("unread".to_string())
}

// ---- what is asked

/// M-100's examples and those of its bar.
const REQUEST: &str = "010 08 0 00 0'7 0'8 0x'1 0'x1 0b'1 1' '1 1''0 0x 0b 0b2 --5 +5 -+5 0x+5 1u 0x1L 1wb 0x00000000000000000000ff \
    -0xffffffffffffffff -0x8000000000000000";

/// The standard's own examples of quotes (6.4.4.2).
const BOOK: &str = "0b11'10'11'01 '1'2 11'22 0x'FFFF'FFFF 0x1'2'3'4AB'C'D";

/// The numbers that edition 0 is asked (vectors.rs).
const EDITION_0: &str = "-0 +0 --0 -+0 000 0x0 -0x0 0x00 5 -5 ---5 +-5 ++5 --+5 -+-5 - + -- -+ +- x 0x5 -0x5 +0x5 --0x5 -0x-5 0x-5 -0x+5 0x++5 0x+ \
    0x- -0x +0x 0X 0X1f -0X1f 0x0x5 x5 00x5 0b1 0o7 09 -010 0x010 -0x010 0123456789 0x0123456789abcdef 0xABCDEF 0xaBcDeF 1a a ff A 0xg 0xG 0x/ 0x: \
    0x@ 0x` 1/ 1: /1 :1 0x1g 0xfz 1_000 1,000 1.5 1e3 5u 5L 0x5u 5- 5+ '5' 5; 1 -1 8 9 10 11 15 16 17 255 256 4095 4096 -8 -9 -10 -11 -15 -16 -17 \
    -255 -256 0xa 0x9 -0x9 -0xa 0x123456789abcdef0 0xdeadbeef -0xdeadbeef";

/// Prefixes and digits of each base, and their neighbours.
const BASES: &str = "0B1 -0B1 0b0 0B00 0b01 0b10 0b1010 -0b1010 0b12 0b1a 0bb1 0b0b1 0x0b1 0b0x1 00b1 01b 0b1. 0b/ 0b: 0b1/ 01 07 -07 017 0777 018 \
    0178 0781 00010 -00010 0'0 0'1'0 01'0 0'10 -0'10 0a 01. 01/ 0/ 0: 07: 08' 0X 0XF 0xF 0xf' 0X'f 0x0'0 0x0' 0XaB'Cd 0Xg 0x1.8p1 1'000'000 9'9 -9'9 \
    1'2'3 1'23 12'3 -'1 -1' '' ' 1'''1 1'' ''1 1'a 1'u 1'0u";

/// Where reading ends, 2^63 and 2^64, in each base.
const LARGE: &str = "9223372036854775806 9223372036854775807 9223372036854775808 -9223372036854775807 -9223372036854775808 --9223372036854775808 \
    9'223'372'036'854'775'807 9'223'372'036'854'775'808 9223372036854775810 18446744073709551615 18446744073709551616 99999999999999999999 \
    0777777777777777777777 01000000000000000000000 01777777777777777777777 02000000000000000000000 -01000000000000000000000 \
    -01777777777777777777777 07777777777777777777777 0x7fffffffffffffff 0x8000000000000000 0xffffffffffffffff 0XFFFFFFFFFFFFFFFF \
    0x10000000000000000 -0x7fffffffffffffff -0x10000000000000000 0xffff'ffff'ffff'ffff 0x1'0000'0000'0000'0000";

/// Numbers of each base, into which quotes are put at each place, and behind which each suffix.
const QUOTED: &str = "123 0123 0x12f 0b101";

/// The standard's suffixes in both cases, and what is none.
const SUFFIXES: &str = "u U l L ll LL wb WB ul UL uL Ul ull ULL uLL Ull uwb UWB uWB Uwb lu LU llu LLU wbu WBU lL Wb wB f F z";

/// What stands before and behind a hundred zeros.
const ZEROS: &str = "0 12,0 18,-0 12,0x ff,-0x ff,0b 101,0b 2,0 1777777777777777777777,0 2000000000000000000000,0x ffffffffffffffff,0x 10000000000000000,1 ,";

fn texts(row: &str) -> impl Iterator<Item = String> + '_ {
    row.split_whitespace().map(str::to_string)
}

fn with_quotes(s: &str) -> Vec<String> {
    let put = |s: &str, i: usize| format!("{}'{}", &s[..i], &s[i..]);
    let once: Vec<String> = (0..=s.len()).map(|i| put(s, i)).collect();
    let twice = once.iter().flat_map(|t| (0..=t.len()).map(|i| put(t, i)).collect::<Vec<_>>());
    once.iter().cloned().chain(twice).collect()
}

fn main() {
    assert!(oracle::settings::stage::set_list("100"), "the oracle knows the request");
    let mut asked: Vec<String> = [REQUEST, BOOK, EDITION_0, BASES, LARGE].into_iter().flat_map(texts).collect();
    for n in [62, 63, 64, 65] {
        asked.extend([format!("0b{}", "1".repeat(n)), format!("-0b1{}", "0".repeat(n - 1))]);
    }
    for s in texts(QUOTED) {
        asked.extend(with_quotes(&s));
        asked.extend(texts(SUFFIXES).map(|suffix| s.clone() + &suffix));
    }
    for pair in ZEROS.split(',') {
        let (front, back) = pair.split_once(' ').unwrap_or((pair, ""));
        asked.push(front.to_string() + &"0".repeat(100) + back);
    }
    asked.push(String::new());
    for (i, text) in asked.iter().enumerate() {
        if !asked[..i].contains(text) {
            println!("constant {text} {}", answer(text));
        }
    }
}
