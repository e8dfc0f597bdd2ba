//! Stores, names, damage and calls for the programs here, each fixed by seed and number.

pub use oracle::gen::Rng;
use oracle::calls::Call;
use oracle::gen02::{noise, small_tape, some_name, store};
use oracle::states::{CELL, CELLS, LONGEST};

/// Names that a sequence uses: more than there are cells, some of them alike but for one byte.
pub fn names(r: &mut Rng) -> Vec<[u8; 8]> {
    let mut all: Vec<[u8; 8]> = [b"before\0\0", b"after \0\0", b"\0\0\0\0\0\0\0\0", b"\xff\xff\xff\xff\xff\xff\xff\xff", b"12345678", b"12345679", b"02345678"]
        .map(|n| *n)
        .to_vec();
    let theirs: Vec<[u8; 8]> = (0..r.below(12)).map(|_| some_name(r)).collect();
    all.truncate(*r.pick(&[&2usize, &4, &7]));
    all.extend(theirs);
    all
}

/// A lent store: mostly of the size that is asked for; fresh, of noise with some cells held, or damaged.
pub fn some_store(r: &mut Rng) -> Vec<u8> {
    let mut s = match r.below(10) {
        0..=4 => {
            let mut s = noise(r, CELLS * CELL);
            (0..CELLS).for_each(|i| s[i * CELL] = 0);
            s
        }
        5..=8 => store(r, false),
        _ => store(r, true),
    };
    match r.below(30) {
        0 => s.truncate(CELLS * CELL - 1),
        1 => {
            let n = r.below(s.len());
            s.truncate(n)
        }
        2 => s.clear(),
        3..=6 => {
            let n = r.range(1, 100);
            s.extend(noise(r, n))
        }
        _ => {}
    }
    s
}

/// Bytes written into the store by somebody else: a first byte, a length, the name of another cell, a byte anywhere.
pub fn damage(r: &mut Rng, store: &[u8], names: &[[u8; 8]]) -> (usize, Vec<u8>) {
    let cell = CELL * r.below(CELLS);
    match r.below(5) {
        0 => (cell, vec![*r.pick(&[&0u8, &1, &2, &255])]),
        1 => (cell + 9, (*r.pick(&[&0usize, &1, &(LONGEST - 1), &LONGEST, &(LONGEST + 1), &65_536, &(1 << 31)]) as u32).to_le_bytes().to_vec()),
        2 => (cell + 1, names[r.below(names.len())].to_vec()),
        3 => (cell + 13 + r.below(40), vec![r.next() as u8]),
        _ => (r.below(store.len().max(1)), vec![r.next() as u8]),
    }
}

/// A tape: good, or spoilt at its end, in a byte or by its length; now and then the longest.
fn some_tape(r: &mut Rng) -> Vec<u8> {
    let mut t = if r.chance(1) { longest() } else { small_tape(r) };
    match r.below(16) {
        0 => t.push(r.next() as u8),
        1 => {
            let n = r.below(t.len() + 1);
            t.truncate(n)
        }
        2 => {
            let i = r.below(t.len().max(1));
            if i < t.len() {
                t[i] = r.next() as u8;
            }
        }
        3 if r.chance(20) => t = [[2u8, 0].repeat(257), vec![0xFF]].concat(),
        4 if r.chance(20) => {
            let n = r.range(24_576, 24_579);
            t = [&[2, 0, 0x10][..], &(n as u16).to_le_bytes(), &vec![b'a'; n], &[0xFF]].concat()
        }
        _ => {}
    }
    t
}

/// 34,561 bytes: 256 lines with addresses and marks, 1,024 tokens, 24,576 bytes of text.
pub fn longest() -> Vec<u8> {
    let mut t = Vec::new();
    for n in 0..256u64 {
        t.push(1);
        t.extend((0x401000 + n).to_le_bytes());
        t.push((n % 64) as u8);
        t.push(3);
        t.extend(n.to_le_bytes());
        t.extend((n + 7).to_le_bytes());
        for k in 0..4 {
            t.extend([0x10, 24, 0]);
            t.extend([b'a' + (n + k) as u8 % 26; 24]);
        }
    }
    t.push(0xFF);
    t
}

/// A call on the store, under one of the names or a new one.
pub fn some_call(r: &mut Rng, store: Vec<u8>, names: &[[u8; 8]]) -> Call {
    let name = if r.chance(4) { r.next().to_le_bytes() } else { names[r.below(names.len())] };
    match r.below(20) {
        0..=9 => Call::Save { store, name, tape: some_tape(r) },
        10..=14 => {
            let n = *r.pick(&[&LONGEST, &LONGEST, &LONGEST, &LONGEST, &(LONGEST + 100), &(LONGEST + 1), &(LONGEST - 1), &0]);
            Call::Restore { store, name, out: noise(r, n) }
        }
        _ => Call::Delete { store, name },
    }
}
