//! The list that the program `test_offsets` replays, with the test oracle's answers: generate > crates/test_offsets/stdin
//!
//! Of the oracle's generated calls, the first ones of each answer, each way, that are short: up to 60 that are not refused and 20 of each number, the
//! tape at most 200 bytes, for 10 at most 5,000; of 11, whose tapes have more than 24,576 bytes, one each way. The form of a frame is in
//! crates/test_offsets/src/main.rt. Build it with the oracle at hand:
//!
//!     rustc --edition 2021 -O --extern oracle=ORACLE_BUILD/liboracle.rlib -o OUT/generate tests/offsets/generate.rs
//!
//! where ORACLE_BUILD is the folder that the oracle was built in. It prints the number of calls of each answer on standard error.

use oracle::calls::{answer, Call, Reply};
use oracle::gen02;
use std::collections::BTreeMap;
use std::io::Write;

const LONGEST_OUT: usize = 59_200;

fn main() {
    assert!(oracle::settings::stage::set_list("all"), "a list of requests");
    let mut list = Vec::new();
    for (way, function) in [(0u64, "to_offsets"), (1, "from_offsets")] {
        let mut kept: BTreeMap<u64, usize> = BTreeMap::new();
        for k in 0..60_000 {
            let mut call = gen02::call(function, 110, k);
            let (base, tape, lent) = match &call {
                Call::ToOffsets { base, tape, out } => (*base, tape.clone(), out.len()),
                Call::FromOffsets { tape, out } => (0, tape.clone(), out.len()),
                _ => unreachable!(),
            };
            let Reply::Answer(a) = answer(&mut call) else { unreachable!() };
            let (most, longest) = match a.refusal {
                0 => (60, 200),
                10 => (4, 5_000),
                11 => (1, 30_000),
                _ => (20, 200),
            };
            let n = kept.entry(a.refusal).or_default();
            if *n == most || tape.len() > longest || lent > LONGEST_OUT {
                continue;
            }
            *n += 1;
            let wanted = match &call {
                Call::ToOffsets { out, .. } | Call::FromOffsets { out, .. } => &out[..a.value as usize],
                _ => unreachable!(),
            };
            for number in [way, base, lent as u64, a.refusal, a.place, a.value, tape.len() as u64, wanted.len() as u64] {
                list.extend(number.to_le_bytes());
            }
            list.extend(&tape);
            list.extend(wanted);
        }
        eprintln!("{function}: {kept:?}, {} in all", kept.values().sum::<usize>());
    }
    std::io::stdout().lock().write_all(&list).expect("standard output");
}
