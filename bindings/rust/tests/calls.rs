//! The calls beside the cleaning, on the examples of docs/TAPE.md.
mod common;

use common::{bytes, listing};
use puchkewa::{Caution, Cleaner, Line, Listing, Settings, Store, Tally};

#[test]
fn between_the_two_editions() {
    let newer = listing(&["n:0b1010\tn:0b0\tn:-0B0001'010\tn:1'000\tn:0'10\tn:0X1'F\tn:08\tn:10u"]);
    let older = listing(&["n:0xa\tn:0x0\tn:-0xa\tn:1000\tn:010\tn:0X1F\tn:08\tn:10u"]);
    assert_eq!(puchkewa::to_2018(&newer), Ok(older.clone()));
    assert_eq!(puchkewa::to_2024(&older), Ok(older));
}

#[test]
fn by_offset_and_back() {
    let lines = vec![Line::new(2).at(0x1010)];
    let based = bytes("06 00 10 00 00 00 00 00 00 04 10 00 00 00 02 FF");
    assert_eq!(puchkewa::to_offsets(&Listing { lines: lines.clone() }, 0x1000), Ok(based.clone()));
    assert_eq!(puchkewa::from_offsets(&based), Ok(Listing { lines }));
}

#[test]
fn named_states() {
    let (one, two) = (listing(&["t:one"]), listing(&["t:two"]));
    let mut store = Store::new();
    store.save(b"first   ", &one).expect("a free cell");
    store.save(b"second  ", &two).expect("a free cell");
    assert_eq!(store.restore(b"first   "), Ok(one.clone()));
    store.save(b"first   ", &two).expect("its own cell");
    assert_eq!(store.restore(b"first   "), Ok(two.clone()));
    let mut kept = Store::from_bytes(store.as_bytes().to_vec());
    assert_eq!(kept, store);
    kept.delete(b"first   ").expect("it is held");
    assert_eq!(kept.restore(b"first   ").map_err(|r| r.number()), Err(Some(20)));
    assert_eq!(kept.restore(b"second  "), Ok(two));
}

#[test]
fn the_most_laborious_listing() {
    let mut cleaner = Cleaner::new();
    for (lines, attempts) in [(0, 0), (1, 1), (2, 2), (256, 510)] {
        let made = puchkewa::laborious(lines).expect("at most 256 lines");
        assert_eq!(made.lines.len() as u64, lines);
        let cleaned = cleaner.clean(&made, Settings::default()).expect("an accepted listing");
        assert!(matches!(cleaned.counts.tally, Tally::Three { attempts: [first, _, _] } if first == attempts), "{:?}", cleaned.counts);
    }
    assert_eq!(puchkewa::tape::laborious(256).expect("a tape").len(), 6_131);
}

#[test]
fn start_values() {
    let sum = listing(&["k:return\tp: \tr:rax\tp: + \tr:rbx\tp:;"]);
    let start = |chosen, values: &[(&str, u64)], wanted| puchkewa::start_value(&sum, chosen, values, wanted);
    assert_eq!(start("rax", &[("rbx", 3)], 10), Ok(7));
    assert_eq!(start("rax", &[], 10), Ok(10));
    assert_eq!(start("rax", &[("rax", 99), ("rbx", 3), ("rbx", 4)], 10), Ok(7));
    assert_eq!(start("rax", &[("rbx", 3)], 1), Ok(u64::MAX - 1));
    assert_eq!(start("r77", &[("rbx", 3)], 3), Ok(0));
}

#[test]
fn cautions() {
    let of = |raw: &Listing| puchkewa::cautions(raw, Settings::default()).expect("an accepted listing");
    // f() comes to be called behind the read of counter
    let moved = listing(&["r:rax\tp: = \ts:f\tp:();", "r:rbx\tp: = \ts:counter\tp: + \tr:rax\tp:;", "k:return\tp: \tr:rbx\tp:;"]);
    let finished = puchkewa::clean(&moved, Settings::default()).expect("an accepted listing").listing;
    assert_eq!(finished.to_string().trim(), "return (counter + f());");
    assert!(of(&moved)[0].contains(&Caution::CallMoved), "{:?}", of(&moved));
    // nothing comes to be otherwise
    let constant = listing(&["r:rax\tp: = \tn:5\tp:;", "r:rbx\tp: = \tr:rax\tp: + \tn:4\tp:;", "k:return\tp: \tr:rbx\tp:;"]);
    assert_eq!(of(&constant), [[]]);
    assert_eq!(of(&Listing::default()), Vec::<Vec<Caution>>::new());
    let bits: u16 = Caution::ALL.iter().map(|kind| kind.bit()).sum();
    assert_eq!(bits, 1023);
    assert!(Caution::ALL.iter().all(|kind| kind.sentence().ends_with('.')));
}
