//! Runs the Rust on the listings of standard input and writes every listing of each run.
//!
//! A listing is the lines `listing CONVENTION`, then `line ADDRESS INDENT` (the address `-` where there is none) before the
//! tokens of each line, a token being one digit for its kind and then its text, and `end`.
//! The answer is `run ATTEMPTS ATTEMPTS ATTEMPTS REMOVED CUTS`, then for each step `same`, or the listing that it left in the
//! same form, and `done`.

mod instrumented;
mod unchanged;

include!("stand_ins.rs");

/// What the instrumented copy calls.
pub mod probe {
    use crate::pseudo::PseudoLine;
    use std::cell::RefCell;

    #[derive(Default)]
    pub struct Trace {
        pub rounds: usize,
        pub attempts: [usize; 3],
        pub removed: usize,
        pub cuts: usize,
        pub steps: Vec<Vec<PseudoLine>>,
    }

    thread_local! {
        static TRACE: RefCell<Trace> = RefCell::default();
    }

    /// A round begins.
    pub fn round() {
        TRACE.with_borrow_mut(|t| t.rounds += 1);
    }

    /// After a call of `try_at`: its answer, which is handed on, and the listing that it left.
    pub fn attempt(removed: bool, lines: &[PseudoLine]) -> bool {
        TRACE.with_borrow_mut(|t| {
            t.attempts[t.rounds - 1] += 1;
            t.removed += removed as usize;
            t.steps.push(lines.to_vec());
        });
        removed
    }

    /// After a result is cut.
    pub fn cut(lines: &[PseudoLine]) {
        TRACE.with_borrow_mut(|t| {
            t.cuts += 1;
            t.steps.push(lines.to_vec());
        });
    }

    /// What was traced since the last call.
    pub fn take() -> Trace {
        TRACE.take()
    }
}

use model::{Token, KINDS};
use pseudo::PseudoLine;
use std::io::{BufWriter, Read, Write};

fn write_listing(out: &mut impl Write, convention: u8, lines: &[PseudoLine]) -> std::io::Result<()> {
    writeln!(out, "listing {convention}")?;
    for l in lines {
        match l.address {
            Some(a) => writeln!(out, "line {a} {}", l.indent)?,
            None => writeln!(out, "line - {}", l.indent)?,
        }
        for t in &l.tokens {
            writeln!(out, "{}{}", KINDS.iter().position(|k| *k == t.k).unwrap(), t.t)?;
        }
    }
    writeln!(out, "end")
}

fn answer(out: &mut impl Write, convention: u8, input: &[PseudoLine]) -> std::io::Result<()> {
    let (bits, sysv) = [(32, false), (64, true), (64, false)][convention as usize];
    let mut lines = input.to_vec();
    instrumented::optimize(&Binary, &mut lines, sysv, bits);
    let trace = probe::take();
    let mut plain = input.to_vec();
    unchanged::optimize(&Binary, &mut plain, sysv, bits);
    assert!(lines == plain, "the instrumented copy and the Rust differ");
    assert!(lines == *trace.steps.last().map_or(input, |l| l), "the last step did not leave the finished listing");
    let [a, b, c] = trace.attempts;
    writeln!(out, "run {a} {b} {c} {} {}", trace.removed, trace.cuts)?;
    let mut before = input;
    for after in &trace.steps {
        if after == before {
            writeln!(out, "same")?;
        } else {
            write_listing(out, convention, after)?;
        }
        before = after;
    }
    writeln!(out, "done")
}

fn main() -> std::io::Result<()> {
    let mut text = String::new();
    std::io::stdin().lock().read_to_string(&mut text)?;
    let mut out = BufWriter::new(std::io::stdout().lock());
    let mut convention = 0;
    let mut lines: Vec<PseudoLine> = Vec::new();
    for row in text.lines() {
        if let Some(c) = row.strip_prefix("listing ") {
            convention = c.parse().expect("a convention");
            lines.clear();
        } else if let Some(rest) = row.strip_prefix("line ") {
            let (address, indent) = rest.split_once(' ').expect("an address and an indent");
            let address = (address != "-").then(|| address.parse().expect("an address"));
            lines.push(PseudoLine { address, indent: indent.parse().expect("an indent"), tokens: Vec::new() });
        } else if row == "end" {
            answer(&mut out, convention, &lines)?;
        } else {
            let kind: usize = row[..1].parse().expect("a kind");
            lines.last_mut().expect("a line").tokens.push(Token { t: row[1..].to_string(), k: KINDS[kind] });
        }
    }
    out.flush()
}
