//! Compares the static library with the Rust: reply, counts, output and every lent byte.
//!
//!     compare run SEED COUNT      COUNT inputs of a set, each with at most three rounds and until it settles; prints the figures and the shortest inputs that differ
//!     compare answer              one input, a convention byte and a tape, from standard input: the Rust's whole answer
//!     compare input SEED NUMBER   writes one input of a set, a convention byte and a tape, to standard output

include!("copies.rs");
mod door;
#[cfg(more)]
mod gen;
mod inputs;
mod library;

use door::{unmarked, Report, MOST_TAPE, WORK};
use inputs::Input;
use std::collections::BTreeMap;
use std::io::{Read, Write};
use std::time::Instant;

/// Every lent byte has this value before a call, and the buffers are longer than any lent length.
const MARK: u8 = 170;
const LONG: usize = 65_700;

struct Lent {
    work_a: Vec<u8>,
    work_b: Vec<u8>,
    out: Vec<u8>,
}

impl Lent {
    fn new() -> Lent {
        Lent { work_a: vec![MARK; LONG], work_b: vec![MARK; LONG], out: vec![MARK; LONG] }
    }
}

fn all(s: &[u8], b: u8) -> bool {
    s.iter().fold(0, |differ, x| differ | (x ^ b)) == 0
}

/// What the library did otherwise than the Rust and document 01, marks left out. The buffers hold the mark before and after.
fn difference(input: &Input, settle: bool, want: &Report, tape: &[u8], lent: &mut Lent) -> Option<String> {
    let [a, b, o] = input.lent;
    let settings = library::Settings { convention: input.convention, settle, edition: input.edition, parts: input.parts, profile: false };
    let got = library::clean(settings, &input.tape, &mut lent.work_a[..a], &mut lent.work_b[..b], &mut lent.out[..o]);
    let wiped = if want.refusal == 0 { WORK } else { 0 };
    let n = (got.length as usize).min(o);
    let (plain, marks) = unmarked(&lent.out[..n]);
    let want = &Report { length: want.length + 17 * marks, ..*want };
    let said = if got != *want {
        Some(format!("the reply {got:?} for {want:?}"))
    } else if plain != *tape {
        Some("the output".into())
    } else if !all(&lent.out[n..], MARK) {
        Some("the output past its length".into())
    } else if !all(&lent.work_a[..wiped], 0) || !all(&lent.work_a[wiped..], MARK) {
        Some("the first work area".into())
    } else if !all(&lent.work_b[..wiped], 0) || !all(&lent.work_b[wiped..], MARK) {
        Some("the second work area".into())
    } else {
        None
    };
    if said.is_some() {
        *lent = Lent::new();
    } else {
        lent.out[..n].fill(MARK);
        lent.work_a[..wiped].fill(MARK);
        lent.work_b[..wiped].fill(MARK);
    }
    said
}

fn hex(b: &[u8]) -> String {
    b.iter().map(|x| format!("{x:02x}")).collect()
}

#[cfg(more)]
fn input(seed: u64, number: u64) -> Input {
    if number % 2 == 0 {
        return inputs::case(seed, number / 2);
    }
    let made = gen::case(seed, number / 2);
    let Some((&convention, tape)) = made.split_first() else {
        return Input { convention: 255, edition: 0, parts: false, tape: Vec::new(), lent: inputs::ENOUGH };
    };
    let edition = (number / 2 % 4 == 3) as u8;
    let parts = number / 8 % 2 == 1;
    Input { convention, edition, parts, tape: tape[..tape.len().min(MOST_TAPE)].to_vec(), lent: inputs::ENOUGH }
}

#[cfg(not(more))]
fn input(seed: u64, number: u64) -> Input {
    inputs::case(seed, number)
}

fn run(seed: u64, count: u64) -> bool {
    let began = Instant::now();
    let mut lent = Lent::new();
    let mut refusals: BTreeMap<u64, u64> = BTreeMap::new();
    let (mut conventions, mut removed, mut cut, mut rounds) = ([0u64; 3], 0, 0, [0u64; 3]);
    let (mut with_removals, mut with_cuts, mut bytes, mut longest) = (0u64, 0u64, 0u64, 0u64);
    let (mut fourth, mut changed_later, mut most_rounds) = (0u64, 0u64, 0u64);
    let (mut editions, mut by_edition) = ([0u64; 2], 0u64);
    let (mut parts, mut by_parts) = (0u64, 0u64);
    let mut wrong: Vec<(Input, String)> = Vec::new();
    for number in 0..count {
        let one = input(seed, number);
        let (want, tape) = door::answer(one.convention, false, one.edition, one.parts, &one.tape, one.lent);
        let (settled, settled_tape) = door::answer(one.convention, true, one.edition, one.parts, &one.tape, one.lent);
        *refusals.entry(want.refusal).or_default() += 1;
        if want.refusal == 0 {
            conventions[one.convention as usize] += 1;
            editions[one.edition as usize] += 1;
            if one.edition == 1 {
                by_edition += (door::answer(one.convention, false, 0, one.parts, &one.tape, one.lent).1 != tape) as u64;
            }
            if one.parts {
                parts += 1;
                by_parts += (door::answer(one.convention, false, one.edition, false, &one.tape, one.lent).1 != tape) as u64;
            }
            for (sum, attempts) in rounds.iter_mut().zip(want.attempts) {
                *sum += attempts;
            }
            removed += want.removed;
            cut += want.cut;
            with_removals += (want.removed > 0) as u64;
            with_cuts += (want.cut > 0) as u64;
            longest = longest.max(want.length);
        }
        most_rounds = most_rounds.max(settled.rounds);
        fourth += (settled.rounds > 3) as u64;
        changed_later += (settled_tape != tape) as u64;
        bytes += one.tape.len() as u64;
        let said = difference(&one, false, &want, &tape, &mut lent)
            .or_else(|| difference(&one, true, &settled, &settled_tape, &mut lent).map(|what| format!("settling: {what}")));
        if let Some(what) = said {
            wrong.push((one, what));
        }
    }
    let passed = refusals.remove(&0).unwrap_or(0);
    println!("inputs: {count}, {bytes} bytes");
    println!("accepted: {passed}, under convention 0, 1, 2: {} {} {}", conventions[0], conventions[1], conventions[2]);
    println!("refused by question: {}", refusals.iter().map(|(k, n)| format!("{k}: {n}")).collect::<Vec<_>>().join(", "));
    println!("attempts in round 1, 2, 3: {} {} {}", rounds[0], rounds[1], rounds[2]);
    println!("lines removed: {removed}, in {with_removals} listings; results cut: {cut}, in {with_cuts}");
    println!("settling: {fourth} made a fourth round, {changed_later} have another output than after three, at most {most_rounds} rounds");
    println!("accepted in edition 0, 1: {} {}; in edition 1 {by_edition} have another output than in edition 0", editions[0], editions[1]);
    println!("accepted with parts told apart: {parts}; {by_parts} of them have another output than without");
    println!("longest output: {longest} bytes");
    println!("seconds: {:.0}", began.elapsed().as_secs_f64());
    wrong.sort_by_key(|w| w.0.tape.len());
    for (one, what) in wrong.iter().take(10) {
        println!("{what}\n  convention {}, edition {}, parts {}, lent {:?}, tape {}", one.convention, one.edition, one.parts, one.lent, hex(&one.tape));
    }
    println!("{} same, {} different", count - wrong.len() as u64, wrong.len());
    wrong.is_empty()
}

fn answer() {
    let mut data = Vec::new();
    std::io::stdin().lock().read_to_end(&mut data).expect("standard input");
    let (convention, tape) = data.split_first().map_or((255, &[][..]), |(c, t)| (*c, t));
    let (r, out) = door::answer(convention, false, 0, false, &tape[..tape.len().min(MOST_TAPE)], inputs::ENOUGH);
    if r.refusal != 0 {
        println!("refused {} {}", r.refusal, r.place);
    } else {
        let [a, b, c] = r.attempts;
        println!("ok {} {a} {b} {c} {} {} {}", r.length, r.removed, r.cut, hex(&out));
    }
}

fn main() {
    let args: Vec<String> = std::env::args().skip(1).collect();
    let number = |i: usize| args.get(i).and_then(|s| s.parse::<u64>().ok()).expect("a number");
    let right = match args.first().map(String::as_str) {
        Some("run") => run(number(1), number(2)),
        Some("answer") => {
            answer();
            true
        }
        Some("input") => {
            let one = input(number(1), number(2));
            let mut out = std::io::stdout().lock();
            out.write_all(&[one.convention]).and_then(|()| out.write_all(&one.tape)).expect("standard output");
            true
        }
        _ => {
            eprintln!("usage: compare run SEED COUNT | compare answer | compare input SEED NUMBER");
            std::process::exit(2)
        }
    };
    if !right {
        std::process::exit(1);
    }
}
