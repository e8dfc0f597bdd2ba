//! Formulas in the profile of request M-106 through the static library: formulas SEED COUNT
//!
//! Each is cleaned with the profile, the other settings taking turns; the reply and the output are compared with the test oracle's, and what the formula
//! returns before and after is compared for ten random sets of start values, by the oracle's evaluator. Build it with the oracle at hand:
//!
//!     rustc --edition 2021 -O --extern oracle=ORACLE_BUILD/liboracle.rlib -L native=target/staticlib -l static=puchkewa -o OUT/formulas \
//!         tests/formulas/formulas.rs
//!
//! where ORACLE_BUILD is the folder that the oracle was built in, and `bin/archive` made the library.

use oracle::calls::{clean, Clean, Report};
use oracle::gen::Rng;
use oracle::profile::{evaluate, formula, registers, Values};
use oracle::tape::{commands, listing, read, write, Form};

/// `struct puchkewa_settings` of include/puchkewa.h.
#[repr(C)]
#[derive(Clone, Copy)]
struct Settings {
    convention: u8,
    settle: bool,
    edition: u8,
    parts: bool,
    profile: bool,
}

extern "C" {
    fn puchkewa_clean(
        settings: Settings,
        tape: *const u8,
        tape_length: usize,
        work_a: *mut u8,
        work_a_length: usize,
        work_b: *mut u8,
        work_b_length: usize,
        out: *mut u8,
        out_length: usize,
    ) -> Report;
}

const WORK: usize = 49_152;
const OUTPUT: usize = 59_137;
const STORES: usize = 10;

fn main() {
    let numbers: Vec<u64> = std::env::args().skip(1).map(|a| a.parse().expect("a number")).collect();
    let [seed, count] = numbers[..] else { panic!("formulas SEED COUNT") };
    assert!(oracle::settings::stage::set_list("all"), "all requests");
    let (mut work_a, mut work_b, mut out) = (vec![0; WORK], vec![0; WORK], vec![0; OUTPUT]);
    let (mut refused, mut removing, mut lines_gone, mut values, mut wrong) = (0u64, 0u64, 0u64, 0u64, 0u64);
    for number in 0..count {
        let r = &mut Rng::new(seed, number);
        let lines = if number % 2 == 0 { oracle::gen02::formula(r) } else { oracle::gen02::tree(r) };
        let tape = write(commands(&lines, &vec![None; lines.len()]), Form::Old);
        let bit = |n: u64| number / 2 / n % 2 == 1;
        let s = Settings { convention: (number % 3) as u8, settle: bit(1), edition: bit(2) as u8, parts: bit(4), profile: true };
        // SAFETY: each pointer and length is of a slice, and the slices that are written to do not overlap.
        let got = unsafe {
            puchkewa_clean(s, tape.as_ptr(), tape.len(), work_a.as_mut_ptr(), WORK, work_b.as_mut_ptr(), WORK, out.as_mut_ptr(), OUTPUT)
        };
        let mut call = Clean {
            convention: s.convention,
            settle: s.settle,
            parts: s.parts,
            profile: true,
            edition: s.edition,
            tape: tape.clone(),
            work_a: vec![0; WORK],
            work_b: vec![0; WORK],
            out: vec![0; OUTPUT],
        };
        let want = clean(&mut call);
        let n = got.length as usize;
        let mut same = got == want && out[..n] == call.out[..n];
        if got.refusal != 0 {
            refused += 1;
        } else {
            removing += (got.removed > 0) as u64;
            lines_gone += got.removed;
            let after = listing(&read(&out[..n], Form::Old).expect("an accepted tape")).0;
            let (f, g) = (formula(&lines).expect("in the profile"), formula(&after).expect("in the profile"));
            for k in 0..STORES {
                let start: Values = registers(&f).into_iter().map(|x| (x, if k == 0 { r.next() % 5 } else { r.next() })).collect();
                same &= evaluate(&f, &start) == evaluate(&g, &start);
                values += 1;
            }
        }
        if !same {
            wrong += 1;
            println!("formula {number} of seed {seed} differs");
        }
    }
    println!("formulas: {count}, refused {refused}, with lines removed {removing} ({lines_gone} lines); values compared: {values}; {wrong} different");
    if wrong > 0 {
        std::process::exit(1);
    }
}
