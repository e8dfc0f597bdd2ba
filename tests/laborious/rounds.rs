//! The library's tape for every n from 0 to 256 on the real Rust: rounds
//!
//! Each must be accepted, have n lines, and make 0, 1 or 2n - 2 attempts in the Rust's first round under conventions 0, 1, 2. Prints the sums; the exit
//! status is 1 if anything differs. Build it with the oracle at hand, after `bin/archive`:
//!
//!     rustc --edition 2021 -O --extern oracle=ORACLE_BUILD/liboracle.rlib -L native=target/staticlib -l static=puchkewa -o OUT/rounds
//!         tests/laborious/rounds.rs
//!
//! (one line) where ORACLE_BUILD is the folder that the oracle was built in.

use oracle::calls::Answer;
use oracle::run::clean;
use oracle::tape::{listing, read, Form};

extern "C" {
    fn puchkewa_laborious(lines: u64, out: *mut u8, out_length: usize) -> Answer;
}

fn main() {
    assert!(oracle::settings::stage::set_list("100,101,102,105,108,109,111,112"), "a list of requests");
    let (mut runs, mut different) = (0, 0);
    for n in 0..=256usize {
        let mut out = vec![0u8; 59_137];
        let a = unsafe { puchkewa_laborious(n as u64, out.as_mut_ptr(), out.len()) };
        let Ok(commands) = read(&out[..a.value as usize], Form::Old) else { panic!("{n}: refused") };
        let (lines, _) = listing(&commands);
        assert!(a.refusal == 0 && lines.len() == n, "{n}: {a:?}, {} lines", lines.len());
        let most = [0, 1].get(n).copied().unwrap_or_else(|| 2 * n as u32 - 2);
        for convention in 0..3 {
            let attempts = clean(&mut lines.clone(), convention, None).attempts[0];
            runs += 1;
            if attempts != most {
                different += 1;
                println!("{n} lines, convention {convention}: {attempts} attempts, not {most}");
            }
        }
    }
    println!("257 listings, {runs} runs, {different} different");
    std::process::exit((different > 0) as i32);
}
