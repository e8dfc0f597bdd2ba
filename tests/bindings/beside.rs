//! Compares the Rust package with the real Rust, and writes lists of the real Rust's answers for the packages' own tests.
//!
//!     beside run SEED COUNT        COUNT inputs of a set through the package, and the accepted ones, and as many spoilt listings, in place of the module
//!     beside list SEED COUNT MOST  COUNT inputs of at most MOST bytes, a line each, with the real Rust's answer (bindings/answers.txt says the form)
//!     beside file FILE             the same of one file, a convention byte and a tape, with at most three rounds and until it settles
//!
//! The inputs, the tape and the questions around the Rust are those of tests/compare.

include!("copies.rs");
mod door;
mod inputs;
/// The example of the package, as it stands.
#[path = "proved.rs"]
mod proved;
/// The Rust with one line more, which calls it.
#[path = "replaced.rs"]
mod replaced;

use door::{unmarked, Report};
use inputs::Input;
use model::{Token, TokenKind};
use pseudo::PseudoLine;
use puchkewa::{Cleaner, Convention, Counts, Edition, Refusal, Settings, Tally};
use std::collections::BTreeMap;

/// The settings of an input, where the package has them.
fn settings(input: &Input, settle: bool) -> Option<Settings> {
    let convention = match input.convention {
        0 => Convention::Bits32,
        1 => Convention::SystemV64,
        2 => Convention::Windows64,
        _ => return None,
    };
    let edition = match input.edition {
        0 => Edition::C2018,
        1 => Edition::C2024,
        _ => return None,
    };
    Some(Settings { convention, settle, edition, parts: input.parts, profile: false })
}

/// The counts that the package must tell.
fn counts(want: &Report, settle: bool) -> Counts {
    let tally = if settle {
        Tally::Settled { rounds: want.rounds, attempts: want.all }
    } else {
        Tally::Three { attempts: want.attempts }
    };
    Counts { tally, removed: want.removed, cut: want.cut }
}

/// What the package did otherwise than the Rust, from tape to tape and from listing to listing; marks left out.
fn difference(cleaner: &mut Cleaner, input: &Input, settings: Settings) -> Option<&'static str> {
    let (want, tape) = door::answer(input.convention, settings.settle, input.edition, input.parts, &input.tape, inputs::ENOUGH);
    let told = |r: &Refusal| (r.number().map(u64::from), r.place()) == (Some(want.refusal), Some(want.place));
    match cleaner.clean_tape(&input.tape, settings) {
        Err(r) if !told(&r) => return Some("the refusal of a tape"),
        Err(_) => {}
        Ok(_) if want.refusal != 0 => return Some("a tape that is to be refused"),
        Ok(c) if c.counts != counts(&want, settings.settle) => return Some("the counts of a tape"),
        Ok(c) if unmarked(c.tape).0 != tape => return Some("the tape"),
        Ok(_) => {}
    }
    let Ok(listing) = puchkewa::tape::read(&input.tape) else { return (want.refusal == 0).then_some("an accepted tape is not read") };
    match (cleaner.clean(&listing, settings), cleaner.clean_on_thread(&listing, settings)) {
        (a, b) if a != b => Some("the thread"),
        (Err(r), _) if !told(&r) => Some("the refusal of a listing"),
        (Err(_), _) => None,
        (Ok(_), _) if want.refusal != 0 => Some("a listing that is to be refused"),
        (Ok(c), _) if c.counts != counts(&want, settings.settle) => Some("the counts of a listing"),
        (Ok(c), _) => {
            let written = puchkewa::tape::write(&c.listing).expect("a cleaned listing has a tape");
            (unmarked(&written).0 != tape).then_some("the listing")
        }
    }
}

/// What the module's replacement did otherwise, called by itself and by the one line.
fn difference_in_place(convention: u8, lines: &[PseudoLine], is_refused: bool) -> Option<&'static str> {
    let (bits, sysv) = door::settings(convention);
    let mut want = lines.to_vec();
    reference::optimize(&Binary, &mut want, sysv, bits);
    let mut by_line = lines.to_vec();
    replaced::optimize(&Binary, &mut by_line, sysv, bits);
    if by_line != want {
        return Some("the module with the one line");
    }
    let mut got = lines.to_vec();
    match (proved::optimize(&mut got, sysv, bits), is_refused) {
        (Ok(()), false) if got == want => None,
        (Err(_), true) if got == lines => None,
        (Ok(()), false) => Some("the module's replacement"),
        (Err(_), _) => Some("the lines of a refused listing, or a refusal"),
        (Ok(()), true) => Some("a spoilt listing is not refused"),
    }
}

/// A listing that no call takes, made of one that a call takes.
fn spoilt(lines: &[PseudoLine], number: u64) -> Vec<PseudoLine> {
    let mut lines = lines.to_vec();
    let token = |t: &str, k| Token { t: t.into(), k };
    let extra = match number % 8 {
        0 => vec![token("\"shortened\u{2026}\"", TokenKind::Address)],
        1 => vec![token("", TokenKind::Punct)],
        2 => vec![token("a\tb", TokenKind::Text)],
        3 => vec![token(&format!("0x{:023}", 1), TokenKind::Number)],
        4 => vec![token(&"x".repeat(70_000), TokenKind::Text)],
        5 => vec![token("x", TokenKind::Text); 1_025],
        _ => Vec::new(),
    };
    let indent = if number % 8 == 6 { 64 } else { 0 };
    let more = if number % 8 == 7 { 257 } else { 1 };
    lines.extend((0..more).map(|_| PseudoLine { address: None, indent, tokens: extra.clone() }));
    lines
}

fn run(seed: u64, count: u64) -> bool {
    let mut cleaner = Cleaner::new();
    let mut differences: BTreeMap<&str, u64> = BTreeMap::new();
    let (mut without, mut accepted, mut refused) = (0u64, 0u64, 0u64);
    for number in 0..count {
        let input = inputs::case(seed, number);
        for settle in [false, true] {
            match settings(&input, settle) {
                Some(s) => {
                    if let Some(what) = difference(&mut cleaner, &input, s) {
                        *differences.entry(what).or_default() += 1;
                    }
                }
                None => without += 1,
            }
        }
        let Ok(lines) = door::read_tape(&input.tape) else { continue };
        let convention = (number % 3) as u8;
        accepted += 1;
        refused += 1;
        for what in [difference_in_place(convention, &lines, false), difference_in_place(convention, &spoilt(&lines, number), true)].into_iter().flatten() {
            *differences.entry(what).or_default() += 1;
        }
    }
    let different: u64 = differences.values().sum();
    println!("calls of the package: {}, of inputs with a convention or edition that it lacks (left out): {without}", 2 * count - without);
    println!("in place of the module: {accepted} listings cleaned, {refused} spoilt ones refused");
    for (what, times) in &differences {
        println!("different: {what}, {times} times");
    }
    println!("{different} different");
    different == 0
}

fn hex(bytes: &[u8]) -> String {
    bytes.iter().map(|b| format!("{b:02x}")).collect()
}

/// One line: an input and the real Rust's answer.
fn print(input: &Input, settle: bool) {
    let (want, out) = door::answer(input.convention, settle, input.edition, input.parts, &input.tape, inputs::ENOUGH);
    let [a, b, c] = want.attempts;
    let front = format!("{} {} {} {} {}", input.convention, settle as u8, input.edition, input.parts as u8, hex(&input.tape));
    match want.refusal {
        0 => println!("{front} {a} {b} {c} {} {} {} {} {}", want.removed, want.cut, want.rounds, want.all, hex(&out)),
        refusal => println!("{front} {refusal} {}", want.place),
    }
}

fn list(seed: u64, count: u64, most: usize) {
    let long_enough = |input: &Input| input.lent.iter().zip(inputs::ENOUGH).all(|(a, b)| *a >= b);
    let fitting = (0..).map(|number| (number, inputs::case(seed, number))).filter(|(_, i)| i.tape.len() <= most && long_enough(i));
    for (number, input) in fitting.take(count as usize) {
        print(&input, number % 2 == 1);
    }
}

fn file(name: &str) {
    let bytes = std::fs::read(name).expect("a file");
    let input = Input { convention: bytes[0], edition: 0, parts: false, tape: bytes[1..].to_vec(), lent: inputs::ENOUGH };
    print(&input, false);
    print(&input, true);
}

fn main() {
    let args: Vec<String> = std::env::args().skip(1).collect();
    let number = |i: usize| args.get(i).and_then(|s| s.parse::<u64>().ok()).expect("a number");
    match args.first().map(String::as_str) {
        Some("run") if run(number(1), number(2)) => {}
        Some("run") => std::process::exit(1),
        Some("list") => list(number(1), number(2), number(3) as usize),
        Some("file") => file(&args[1]),
        _ => {
            eprintln!("usage: beside run SEED COUNT | beside list SEED COUNT MOST | beside file FILE");
            std::process::exit(2)
        }
    }
}
