//! The answers of the test oracle to the calls that `generate` asks: answers LANDED < calls > answers
//!
//! LANDED is the oracle's list of requests that have landed (`none`, `109,112`, .., `all`). A call is five numbers of four bytes, the lowest first: the
//! settings, as crates/test_replay/src/frames.rt has them; the lengths of both work areas and of the output; the length of the tape; then the tape. Its
//! answer: the ten numbers of the report, four bytes each, then the output up to the report's length. Build it with the oracle at hand:
//!
//!     rustc --edition 2021 -O --extern oracle=ORACLE_BUILD/liboracle.rlib -o OUT/answers tests/replay/answers.rs
//!
//! where ORACLE_BUILD is the folder that the oracle was built in.

use oracle::calls::{clean, Clean};
use std::io::{Read, Write};

fn number(data: &mut &[u8]) -> usize {
    let (front, rest) = data.split_at(4);
    *data = rest;
    u32::from_le_bytes(front.try_into().unwrap()) as usize
}

fn main() {
    let landed = std::env::args().nth(1).expect("which requests have landed");
    assert!(oracle::settings::stage::set_list(&landed), "a list of requests");
    let mut data = Vec::new();
    std::io::stdin().lock().read_to_end(&mut data).expect("standard input");
    let (mut rest, mut said) = (&data[..], Vec::new());
    while !rest.is_empty() {
        let settings = number(&mut rest);
        let lent = [(); 3].map(|()| vec![0; number(&mut rest)]);
        let length = number(&mut rest);
        let (tape, more) = rest.split_at(length);
        rest = more;
        let [work_a, work_b, out] = lent;
        let mut call = Clean {
            convention: settings as u8,
            settle: settings >> 8 & 1 == 1,
            parts: settings >> 9 & 1 == 1,
            profile: settings >> 10 & 1 == 1,
            edition: (settings >> 16) as u8,
            tape: tape.to_vec(),
            work_a,
            work_b,
            out,
        };
        let r = clean(&mut call);
        for n in [r.refusal, r.place, r.length, r.attempts_1, r.attempts_2, r.attempts_3, r.removed, r.cut, r.rounds, r.attempts] {
            said.extend((n as u32).to_le_bytes());
        }
        said.extend(&call.out[..r.length as usize]);
    }
    std::io::stdout().lock().write_all(&said).expect("standard output");
}
