//! Random sequences of M-111's calls on one store, the static library beside the test oracle: sequences SEED COUNT
//!
//! A sequence has 1 to 40 calls, and now and then the store is damaged between two of them. After each call the answer is compared, every byte of the
//! store and of the output, and 64 guard bytes on either side of each. Prints how often each number was answered, and the sums; the exit status is 1
//! if anything differs. Build it with the oracle at hand, after `bin/archive`:
//!
//!     rustc --edition 2021 -O --extern oracle=ORACLE_BUILD/liboracle.rlib -L native=target/staticlib -l static=puchkewa -o OUT/sequences
//!         tests/states/sequences.rs
//!
//! (one line) where ORACLE_BUILD is the folder that the oracle was built in.

mod scenes;

use oracle::calls::{answer, Answer, Call, Reply};
use scenes::{damage, names, some_call, some_store, Rng};
use std::collections::BTreeMap;

extern "C" {
    fn puchkewa_save(store: *mut u8, store_length: usize, name: *const u8, tape: *const u8, tape_length: usize) -> Answer;
    fn puchkewa_restore(store: *const u8, store_length: usize, name: *const u8, out: *mut u8, out_length: usize) -> Answer;
    fn puchkewa_delete(store: *mut u8, store_length: usize, name: *const u8) -> Answer;
}

const GUARD: usize = 64;

/// A lent part between guard bytes.
struct Lent(Vec<u8>);

impl Lent {
    fn new(bytes: &[u8]) -> Lent {
        let mut all = vec![0xA5; GUARD];
        all.extend(bytes);
        all.extend([0x5A; GUARD]);
        Lent(all)
    }
    fn length(&self) -> usize {
        self.0.len() - 2 * GUARD
    }
    fn inner(&mut self) -> &mut [u8] {
        let n = self.length();
        &mut self.0[GUARD..GUARD + n]
    }
    fn is(&self, wanted: &[u8]) -> bool {
        let n = self.length();
        self.0[..GUARD].iter().all(|b| *b == 0xA5) && &self.0[GUARD..GUARD + n] == wanted && self.0[GUARD + n..].iter().all(|b| *b == 0x5A)
    }
}

/// The oracle's answer; the store of a call that writes it is taken back.
fn oracle(call: &mut Call) -> Answer {
    match answer(call) {
        Reply::Answer(a) => a,
        Reply::Report(_) => unreachable!("a call on a store"),
    }
}

fn main() {
    let all: Vec<u64> = std::env::args().skip(1).map(|a| a.parse().expect("a number")).collect();
    let [seed, count] = all[..] else { panic!("sequences SEED COUNT") };
    assert!(oracle::settings::stage::set_list("100,101,102,105,109,111,112"), "a list of requests");
    let mut reached: BTreeMap<(&str, u64), u64> = BTreeMap::new();
    let (mut calls, mut different) = (0u64, 0u64);
    for number in 0..count {
        let r = &mut Rng::new(seed, number);
        let mut wanted = some_store(r);
        let mut store = Lent::new(&wanted);
        let pool = names(r);
        for step in 0..r.range(1, 41) {
            if r.chance(3) {
                let (at, bytes) = damage(r, &wanted, &pool);
                let end = (at + bytes.len()).min(wanted.len());
                if at < end {
                    wanted[at..end].copy_from_slice(&bytes[..end - at]);
                    store.inner()[at..end].copy_from_slice(&bytes[..end - at]);
                }
            }
            let mut call = some_call(r, wanted, &pool);
            let (what, said, right);
            match &call {
                Call::Save { name, tape, .. } => {
                    let n = store.length();
                    let t = Lent::new(tape);
                    what = "save";
                    said = unsafe { puchkewa_save(store.inner().as_mut_ptr(), n, name.as_ptr(), t.0[GUARD..].as_ptr(), tape.len()) };
                    right = t.is(tape);
                }
                Call::Restore { name, out, .. } => {
                    let n = store.length();
                    let mut o = Lent::new(out);
                    what = "restore";
                    said = unsafe { puchkewa_restore(store.inner().as_ptr(), n, name.as_ptr(), o.inner().as_mut_ptr(), out.len()) };
                    let mut same = call.clone();
                    oracle(&mut same);
                    let Call::Restore { out: after, .. } = same else { unreachable!() };
                    right = o.is(&after);
                }
                Call::Delete { name, .. } => {
                    let n = store.length();
                    what = "delete";
                    said = unsafe { puchkewa_delete(store.inner().as_mut_ptr(), n, name.as_ptr()) };
                    right = true;
                }
                _ => unreachable!("a call on a store"),
            }
            let answered = oracle(&mut call);
            wanted = match call {
                Call::Save { store, .. } | Call::Restore { store, .. } | Call::Delete { store, .. } => store,
                _ => unreachable!("a call on a store"),
            };
            calls += 1;
            *reached.entry((what, answered.refusal)).or_default() += 1;
            if said != answered || !right || !store.is(&wanted) {
                different += 1;
                if different <= 20 {
                    println!("sequence {number}, call {step}: {what} answered {said:?}, wanted {answered:?}; bytes {}", right && store.is(&wanted));
                }
                store = Lent::new(&wanted);
            }
        }
    }
    println!("{reached:?}");
    println!("{count} sequences, {calls} calls, {different} different");
    std::process::exit((different > 0) as i32);
}
