//! What the program `test_laborious` must print, by the test oracle and the real Rust: list > EXPECTED
//!
//! The tape is the oracle's own (M-108's hint, as the library's is); the attempts are those that the real Rust's first round makes on it, counted in
//! the oracle's instrumented copy. Build it with the oracle at hand:
//!
//!     rustc --edition 2021 -O --extern oracle=ORACLE_BUILD/liboracle.rlib -o OUT/list tests/laborious/list.rs
//!     OUT/list > crates/test_laborious/stdout
//!
//! where ORACLE_BUILD is the folder that the oracle was built in.

use oracle::calls::laborious;
use oracle::run::clean;
use oracle::tape::{listing, read, Form};

/// A sum over every byte and its place.
fn sum(bytes: &[u8]) -> u64 {
    bytes.iter().fold(1, |h, b| (h * 65_599 + *b as u64) % 4_294_967_291)
}

/// One call, the output having so many bytes of 59,200.
fn call(n: u64, length: usize) {
    let mut out = vec![170u8; 59_200];
    let a = laborious(n, &mut out[..length]);
    if a.refusal != 0 {
        println!("{n}: refused {} {}, bytes {}", a.refusal, a.place, sum(&out));
        return;
    }
    let Ok(commands) = read(&out[..a.value as usize], Form::Old) else { panic!("{n}: the oracle's tape is refused") };
    let (lines, _) = listing(&commands);
    let attempts: Vec<String> = (0..3).map(|c| clean(&mut lines.clone(), c, None).attempts[0].to_string()).collect();
    println!("{n}: length {}, bytes {}, attempts {}", a.value, sum(&out), attempts.join(" "));
}

fn main() {
    assert!(oracle::settings::stage::set_list("100,101,102,105,108,109,111,112"), "a list of requests");
    for n in 0..300 {
        call(n, 59_137);
    }
    for n in [512, 65_536, u32::MAX as u64, 1 << 32, (1 << 32) + 256, u64::MAX] {
        call(n, 59_137);
    }
    for (n, length) in [(0, 59_136), (0, 0), (1, 1), (256, 59_136), (257, 59_136), (257, 0), (0, 59_200), (256, 59_200)] {
        call(n, length);
    }
}
