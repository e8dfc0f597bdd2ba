//! The test oracle's answers to the calls of request M-103 that `generate` asks: answers < calls > answers
//!
//! A call is three numbers of four bytes, the lowest first: the way (0 down, 1 up), the lengths of the output and of the tape; then the tape. Its answer: refusal, place
//! and length, four bytes each, then the output up to the length. Build it with the oracle at hand:
//!
//!     rustc --edition 2021 -O --extern oracle=ORACLE_BUILD/liboracle.rlib -o OUT/answers tests/editions/answers.rs
//!
//! where ORACLE_BUILD is the folder that the oracle was built in.

use oracle::calls::{answer, Call, Reply};
use std::io::{Read, Write};

fn number(data: &mut &[u8]) -> usize {
    let (front, rest) = data.split_at(4);
    *data = rest;
    u32::from_le_bytes(front.try_into().unwrap()) as usize
}

fn main() {
    let mut data = Vec::new();
    std::io::stdin().lock().read_to_end(&mut data).expect("standard input");
    let (mut rest, mut said) = (&data[..], Vec::new());
    while !rest.is_empty() {
        let (up, output, length) = (number(&mut rest), number(&mut rest), number(&mut rest));
        let (tape, more) = rest.split_at(length);
        rest = more;
        let (tape, out) = (tape.to_vec(), vec![0; output]);
        let mut call = if up == 1 { Call::To2024 { tape, out } } else { Call::To2018 { tape, out } };
        let Reply::Answer(r) = answer(&mut call) else { unreachable!("a conversion") };
        for n in [r.refusal, r.place, r.value] {
            said.extend((n as u32).to_le_bytes());
        }
        match call {
            Call::To2018 { out, .. } | Call::To2024 { out, .. } => said.extend(&out[..r.value as usize]),
            _ => unreachable!("a conversion"),
        }
    }
    std::io::stdout().lock().write_all(&said).expect("standard output");
}
