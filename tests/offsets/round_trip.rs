//! There and back on the oracle's generated calls, by the library alone: round_trip SEED COUNT
//!
//! For each call that is not refused, the way back of what it wrote must give the identical tape: the way there at the call's base, the way back at the
//! tape's own. Build it with the oracle and the library at hand:
//!
//!     rustc --edition 2021 -O --extern oracle=ORACLE_BUILD/liboracle.rlib -L target/staticlib -l static=puchkewa -o OUT/round_trip tests/offsets/round_trip.rs

use oracle::calls::Call;
use oracle::gen02;

#[repr(C)]
struct Answer {
    refusal: u64,
    place: u64,
    value: u64,
}

extern "C" {
    fn puchkewa_to_offsets(base: u64, tape: *const u8, tape_len: usize, out: *mut u8, out_len: usize) -> Answer;
    fn puchkewa_from_offsets(tape: *const u8, tape_len: usize, out: *mut u8, out_len: usize) -> Answer;
}

const ROOM: usize = 59_146;

fn there(base: u64, tape: &[u8]) -> Result<Vec<u8>, (u64, u64)> {
    let mut out = vec![0; ROOM];
    let a = unsafe { puchkewa_to_offsets(base, tape.as_ptr(), tape.len(), out.as_mut_ptr(), out.len()) };
    out.truncate(a.value as usize);
    if a.refusal == 0 { Ok(out) } else { Err((a.refusal, a.place)) }
}

fn back(tape: &[u8]) -> Result<Vec<u8>, (u64, u64)> {
    let mut out = vec![0; ROOM];
    let a = unsafe { puchkewa_from_offsets(tape.as_ptr(), tape.len(), out.as_mut_ptr(), out.len()) };
    out.truncate(a.value as usize);
    if a.refusal == 0 { Ok(out) } else { Err((a.refusal, a.place)) }
}

fn main() {
    let mut words = std::env::args().skip(1).map(|w| w.parse::<u64>().expect("a number"));
    let (seed, count) = (words.next().expect("a seed"), words.next().expect("a count"));
    assert!(oracle::settings::stage::set_list("all"), "a list of requests");
    let mut differ = 0;
    for function in ["to_offsets", "from_offsets"] {
        let (mut passed, mut same) = (0, 0);
        for k in 0..count {
            let (first, tape, base) = match gen02::call(function, seed, k) {
                Call::ToOffsets { base, tape, .. } => (there(base, &tape), tape, base),
                Call::FromOffsets { tape, .. } => (back(&tape), tape, 0),
                _ => unreachable!(),
            };
            let Ok(new) = first else { continue };
            let again = if function == "to_offsets" { back(&new) } else { there(u64::from_le_bytes(tape[1..9].try_into().unwrap()), &new) };
            assert!(function != "to_offsets" || new[1..9] == base.to_le_bytes(), "the base that was given");
            passed += 1;
            same += (again == Ok(tape)) as u64;
        }
        differ += passed - same;
        println!("{function}: {passed} of {count} not refused, {same} of them the identical tape there and back");
    }
    std::process::exit((differ != 0) as i32);
}
