//! Time of one call, the Rust and the static library in one process on the same inputs: bench SAMPLE [NAME]
//!
//! SAMPLE is a file with a convention byte and a tape (samples/press.tape). With a NAME only that listing is called, by the library alone, for five
//! seconds: for a profiler. A benchmark, not a test: it passes no verdict.

include!("copies.rs");
mod door;
mod library;

use door::{OUTPUT, WORK};
use std::hint::black_box;
use std::time::{Duration, Instant};

#[repr(C)]
struct Timespec {
    seconds: i64,
    nanoseconds: i64,
}

extern "C" {
    fn clock_gettime(clock: i32, t: *mut Timespec) -> i32;
}

/// Processor time of this thread in microseconds, so that other work on the machine does little harm.
fn processor_time() -> f64 {
    let mut t = Timespec { seconds: 0, nanoseconds: 0 };
    // SAFETY: 3 is Linux's CLOCK_THREAD_CPUTIME_ID, and t is a timespec of 64-bit Linux.
    unsafe { clock_gettime(3, &mut t) };
    t.seconds as f64 * 1e6 + t.nanoseconds as f64 / 1e3
}

/// Microseconds of one run of `f`: the least mean of forty spells of 10 milliseconds.
fn time(mut f: impl FnMut()) -> f64 {
    let mut best = f64::MAX;
    for _ in 0..40 {
        let (began, mut n) = (processor_time(), 0u32);
        while processor_time() - began < 10_000.0 {
            f();
            n += 1;
        }
        best = best.min((processor_time() - began) / n as f64);
    }
    best
}

/// A tape of lines without addresses; a token is its kind's number and its text.
fn tape(lines: &[Vec<(u8, String)>]) -> Vec<u8> {
    let mut out = Vec::new();
    for tokens in lines {
        out.extend([0x02, 0]);
        for (kind, text) in tokens {
            out.push(0x10 + kind);
            out.extend((text.len() as u16).to_le_bytes());
            out.extend(text.as_bytes());
        }
    }
    out.push(0xFF);
    out
}

const R: u8 = 1;
const N: u8 = 2;
const S: u8 = 4;
const P: u8 = 6;

fn line(tokens: &[(u8, &str)]) -> Vec<(u8, String)> {
    tokens.iter().map(|(k, t)| (*k, t.to_string())).collect()
}

fn moved(to: &str, from: (u8, &str)) -> Vec<(u8, String)> {
    line(&[(R, to), (P, " = "), from, (P, ";")])
}

/// 256 short lines, eight at a time: constants, moves, sums, calls, labels.
fn short() -> Vec<u8> {
    let mut lines = Vec::new();
    for i in 0..32 {
        lines.push(line(&[(S, &format!("L{i}")), (P, ":")]));
        lines.push(moved("rax", (N, "5")));
        lines.push(line(&[(R, "rbx"), (P, " = "), (R, "rax"), (P, " + "), (N, "4"), (P, ";")]));
        lines.push(line(&[(S, "f"), (P, "("), (R, "rbx"), (P, ");")]));
        lines.push(moved("rcx", (R, "rsi")));
        lines.push(moved("rdx", (R, "rcx")));
        lines.push(line(&[(S, "g"), (P, "("), (R, "rdx"), (P, ");")]));
        lines.push(line(&[(R, "rsi"), (P, " = "), (S, "h"), (P, "();")]));
    }
    tape(&lines)
}

/// The most laborious listing of 256 lines, as the library writes it (request M-108).
fn laborious() -> Vec<u8> {
    let mut out = vec![0; OUTPUT];
    let answer = library::laborious(256, &mut out);
    assert_eq!(answer.refusal, 0, "the most laborious listing is refused");
    out.truncate(answer.value as usize);
    out
}

/// Every attempt reads to the end of the listing.
fn distinct() -> Vec<u8> {
    let lines: Vec<_> = (0..256).map(|i| moved(&format!("r{i}"), (N, &format!("{i:#x}")))).collect();
    tape(&lines)
}

struct Lent(Vec<u8>, Vec<u8>, Vec<u8>);

impl Lent {
    fn call(&mut self, convention: u8, tape: &[u8]) -> door::Report {
        library::clean(settings(convention), tape, &mut self.0, &mut self.1, &mut self.2)
    }

    fn cautions(&mut self, convention: u8, tape: &[u8]) -> library::Answer {
        library::cautions(settings(convention), tape, &mut self.0, &mut self.1, &mut self.2)
    }
}

fn settings(convention: u8) -> library::Settings {
    library::Settings { convention, settle: false, edition: 0, parts: false, profile: false }
}

fn one(name: &str, convention: u8, tape: &[u8]) {
    let mut lent = Lent(vec![0; WORK], vec![0; WORK], vec![0; OUTPUT]);
    let (want, output) = door::answer(convention, false, 0, false, tape, [WORK, WORK, OUTPUT]);
    let got = lent.call(convention, tape);
    let (plain, marks) = door::unmarked(&lent.2[..got.length as usize]);
    assert_eq!(got, door::Report { length: want.length + 17 * marks, ..want }, "{name}: another reply");
    assert_eq!(plain, output, "{name}: another output, marks left out");
    let lines = door::read_tape(tape).expect("an accepted tape");
    let (bits, sysv) = door::settings(convention);
    let copy = time(|| {
        black_box(black_box(&lines).to_vec());
    });
    let with_copy = time(|| {
        let mut l = black_box(&lines).to_vec();
        reference::optimize(&Binary, &mut l, sysv, bits);
        black_box(l);
    });
    let alone = with_copy - copy;
    let rust = time(|| {
        black_box(door::clean_unchanged(convention, black_box(tape)));
    });
    let ours = time(|| {
        black_box(lent.call(convention, black_box(tape)));
    });
    println!("{name}: {} lines, {} bytes, attempts {:?}, {} removed, {} cut", lines.len(), tape.len(), want.attempts, want.removed, want.cut);
    println!(
        "  the Rust {rust:.1} us tape to tape ({alone:.1} us its `optimize` alone), the library {ours:.1} us tape to tape: {:.1} times as fast ({:.1})",
        rust / ours,
        alone / ours
    );
    assert_eq!(lent.cautions(convention, tape).refusal, 0, "{name}: no cautions");
    let cautions = time(|| {
        black_box(lent.cautions(convention, black_box(tape)));
    });
    println!("  its cautions {cautions:.1} us: {:.2} times a cleaning", cautions / ours);
}

fn main() {
    let args: Vec<String> = std::env::args().skip(1).collect();
    let sample = std::fs::read(args.first().expect("usage: bench SAMPLE [NAME]")).expect("the sample");
    let listings = [
        ("sample", sample[0], sample[1..].to_vec()),
        ("short", 1, short()),
        ("laborious", 1, laborious()),
        ("distinct", 1, distinct()),
    ];
    for (name, convention, tape) in &listings {
        match args.get(1) {
            None => one(name, *convention, tape),
            Some(only) if only == name => {
                let mut lent = Lent(vec![0; WORK], vec![0; WORK], vec![0; OUTPUT]);
                let began = Instant::now();
                while began.elapsed() < Duration::from_secs(5) {
                    black_box(lent.call(*convention, black_box(tape)));
                }
            }
            Some(_) => {}
        }
    }
}
