//! The list of calls that the program `test_states` makes, and what it must print, by the test oracle: list LIST EXPECTED
//!
//! The form of a frame is in crates/test_states/src/main.rt. Build it with the oracle at hand:
//!
//!     rustc --edition 2021 -O --extern oracle=ORACLE_BUILD/liboracle.rlib -o OUT/list tests/states/list.rs
//!     OUT/list crates/test_states/stdin crates/test_states/stdout
//!
//! where ORACLE_BUILD is the folder that the oracle was built in.

#[allow(dead_code)]
mod scenes;

use oracle::calls::{answer, Call, Reply};
use oracle::states::{CELL, CELLS, LONGEST};
use scenes::{longest, Rng};
use std::fmt::Write;

const STORE: usize = 524_352;
const OUT: usize = 65_600;
const WHOLE: usize = CELL * CELLS;

/// A sum over every byte and its place.
fn sum(bytes: &[u8]) -> u64 {
    bytes.iter().fold(1, |h, b| (h * 65_599 + *b as u64) % 4_294_967_291)
}

/// The list, what is to be printed, and the store as it is now.
struct Scene {
    list: Vec<u8>,
    said: String,
    store: Vec<u8>,
    lent: usize,
    calls: usize,
}

type Name = [u8; 8];

impl Scene {
    fn frame(&mut self, kind: u32, number: usize, name: &Name, bytes: &[u8]) {
        for n in [kind, number as u32, bytes.len() as u32] {
            self.list.extend(n.to_le_bytes());
        }
        self.list.extend(name);
        self.list.extend(bytes);
    }
    /// A store of one byte, of which so many are lent.
    fn begin(&mut self, lent: usize, byte: u8) {
        self.frame(0, lent, &[byte, 0, 0, 0, 0, 0, 0, 0], &[]);
        self.store = vec![byte; STORE];
        self.lent = lent;
        writeln!(self.said, "begin {lent}").unwrap();
    }
    /// The same with every cell free.
    fn fresh(&mut self, byte: u8) {
        self.begin(WHOLE, byte);
        (0..CELLS).for_each(|i| self.damage(i, 0, &[0]));
    }
    fn damage(&mut self, cell: usize, at: usize, bytes: &[u8]) {
        let at = cell * CELL + at;
        self.frame(1, at, &[0; 8], bytes);
        self.store[at..at + bytes.len()].copy_from_slice(bytes);
        writeln!(self.said, "damage {at}").unwrap();
    }
    fn asked(&mut self, what: &str, mut call: Call) {
        let Reply::Answer(a) = answer(&mut call) else { unreachable!("a call on a store") };
        let sum = match call {
            Call::Save { store, .. } | Call::Delete { store, .. } => {
                self.store[..self.lent].copy_from_slice(&store);
                sum(&self.store)
            }
            Call::Restore { mut out, .. } => {
                out.resize(OUT, 170);
                sum(&out)
            }
            _ => unreachable!("a call on a store"),
        };
        writeln!(self.said, "{what} {} {} {} {sum}", a.refusal, a.place, a.value).unwrap();
        self.calls += 1;
    }
    fn save(&mut self, name: &Name, tape: &[u8]) {
        self.frame(2, 0, name, tape);
        let store = self.store[..self.lent].to_vec();
        self.asked("save", Call::Save { store, name: *name, tape: tape.to_vec() });
    }
    fn restore(&mut self, name: &Name, length: usize) {
        self.frame(3, length, name, &[]);
        let store = self.store[..self.lent].to_vec();
        self.asked("restore", Call::Restore { store, name: *name, out: vec![170; length] });
    }
    fn delete(&mut self, name: &Name) {
        self.frame(4, 0, name, &[]);
        let store = self.store[..self.lent].to_vec();
        self.asked("delete", Call::Delete { store, name: *name });
    }
    /// Each of the three, under a name.
    fn each(&mut self, name: &Name, tape: &[u8]) {
        self.restore(name, LONGEST);
        self.save(name, tape);
        self.restore(name, LONGEST);
        self.delete(name);
    }
}

fn name(n: usize) -> Name {
    *[b"before\0\0", b"after \0\0", b"\0\0\0\0\0\0\0\0", b"\xff\xff\xff\xff\xff\xff\xff\xff", b"12345678", b"12345679", b"02345678", b"a name  ", b"another ", b"the last"][n]
}

/// An accepted tape: a line for each byte of the text.
fn tape(text: &[u8]) -> Vec<u8> {
    let mut t = Vec::new();
    for b in text {
        t.extend([2, 0, 0x10, 1, 0, *b]);
    }
    t.push(0xFF);
    t
}

/// Tapes that are refused, one for each number of the tape questions.
fn refused() -> Vec<Vec<u8>> {
    vec![
        vec![2, 0],
        vec![0x18, 0xFF],
        vec![2, 0, 0x10, 9, 0, b'a'],
        vec![0x10, 1, 0, b'a', 0xFF],
        vec![2, 64, 0xFF],
        vec![2, 0, 0x10, 2, 0, b'a', 7, 0xFF],
        vec![2, 0, 0xFF, 0],
        [[2u8, 0].repeat(257), vec![0xFF]].concat(),
        [&[2, 0, 0x10, 1, 0x60][..], &[b'a'; 24_577], &[0xFF]].concat(),
    ]
}

fn main() {
    let paths: Vec<String> = std::env::args().skip(1).collect();
    let [list, expected] = &paths[..] else { panic!("list LIST EXPECTED") };
    assert!(oracle::settings::stage::set_list("100,101,102,105,109,111,112"), "a list of requests");
    let s = &mut Scene { list: vec![], said: String::new(), store: vec![], lent: 0, calls: 0 };
    let (short, long) = (tape(b"xy"), tape(b"a longer tape"));

    // a fresh store, filled, then full
    s.begin(WHOLE, 0);
    s.each(&name(0), &short);
    for n in 0..8 {
        s.save(&name(n), &tape(&b"abcdefgh"[..n]));
    }
    s.save(&name(8), &short);
    for t in refused() {
        s.save(&name(8), &t);
    }
    // a state that is replaced, by a longer tape and by a shorter one, whose rest stays
    for t in [&long, &short, &long, &vec![0xFF]] {
        s.save(&name(4), t);
        s.restore(&name(4), LONGEST);
    }
    s.save(&name(4), &refused()[2]);
    s.restore(&name(4), LONGEST);
    // two free cells, of which the first is taken
    s.delete(&name(5));
    s.delete(&name(2));
    s.delete(&name(2));
    s.restore(&name(2), LONGEST);
    s.save(&name(8), &long);
    s.save(&name(2), &short);
    s.save(&name(5), &short);
    for n in 0..10 {
        s.restore(&name(n), LONGEST);
    }
    // the longest tape
    s.delete(&name(0));
    s.save(&name(9), &longest());
    s.restore(&name(9), LONGEST);
    for n in 0..10 {
        s.delete(&name(n));
    }

    // what is lent
    for lent in [0, 1, CELL, WHOLE - 1, WHOLE, WHOLE + 1, STORE] {
        s.begin(lent, 0);
        s.each(&name(1), &short);
    }
    s.begin(WHOLE - 1, 2);
    s.each(&name(1), &refused()[0]);
    s.fresh(0x5A);
    s.save(&name(3), &long);
    for length in [0, 1, LONGEST - 1, LONGEST, LONGEST + 1, OUT] {
        s.restore(&name(3), length);
        s.restore(&name(4), length);
    }

    // a store of bytes above 1; of 1s, whose length is too much; of 0s behind a first byte
    for byte in [1, 2, 255] {
        s.begin(WHOLE, byte);
        s.each(&name(0), &refused()[1]);
        s.restore(&name(0), LONGEST - 1);
    }
    s.begin(WHOLE, 0);
    for i in 0..CELLS {
        s.damage(i, 0, &[1, i as u8]);
    }
    s.save(&name(0), &short);
    s.save(&name(0), &refused()[0]);
    s.restore(&[7, 0, 0, 0, 0, 0, 0, 0], LONGEST);
    s.delete(&[7, 0, 0, 0, 0, 0, 0, 0]);

    // a cell that is damaged: its first byte, its length, its name that of an earlier one; and two of them
    for i in 0..CELLS {
        s.fresh(0x33);
        for n in 0..=i {
            s.save(&name(n), &short);
        }
        s.damage(i, 0, &[2 + i as u8]);
        s.each(&name(0), &long);
        s.damage(i, 0, &[1]);
        for length in [LONGEST + 1, LONGEST, 1 << 31, LONGEST - 1, 0] {
            s.damage(i, 9, &(length as u32).to_le_bytes());
            s.restore(&name(i), LONGEST);
        }
        s.damage(i, 1, &name(i / 2));
        s.each(&name(7), &refused()[3]);
        s.damage(i / 2, 0, &[0]);
        s.each(&name(i / 2), &long);
        s.damage(i / 2, 0, &[9]);
        s.save(&name(9), &short);
    }
    // a held tape that the questions would refuse
    s.fresh(0);
    s.save(&name(6), &long);
    s.damage(0, 13, &[0xEE, 0xEE, 0xEE]);
    s.restore(&name(6), LONGEST);
    s.save(&name(6), &s.store[13..13 + long.len()].to_vec());

    // any calls
    for k in 0..12 {
        let r = &mut Rng::new(111, k);
        s.fresh([0, 0xFF, 0x41][k as usize % 3]);
        for _ in 0..25 {
            let n = &name(r.below(10));
            match r.below(8) {
                0..=3 => {
                    let t = if r.chance(15) { refused()[r.below(7)].clone() } else { tape(&b"0123456789"[r.below(10)..]) };
                    s.save(n, &t)
                }
                4 | 5 => s.restore(n, LONGEST),
                6 => s.delete(n),
                _ if r.chance(30) => {
                    let cell = r.below(CELLS);
                    let to = [r.below(3) as u8];
                    s.damage(cell, *r.pick(&[&0usize, &1, &9, &12, &13]), &to)
                }
                _ => s.delete(n),
            }
        }
    }
    std::fs::write(list, &s.list).expect("the list");
    std::fs::write(expected, &s.said).expect("what is printed");
    eprintln!("{} calls, {} bytes", s.calls, s.list.len());
}
