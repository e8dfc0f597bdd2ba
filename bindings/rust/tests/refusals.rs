//! Each refusal, with its number, place, line and token. 1 and 9 have no case: no value of `Convention` or `Edition` earns them.
mod common;

use common::{bytes, line, listing};
use puchkewa::{clean, tape, Cleaner, Fault, Kind, Line, Listing, Question, Refusal, Settings, Store, Token};
use std::collections::BTreeSet;

/// What a refusal says: number, place, line, token.
type Said = (u8, u64, Option<usize>, Option<usize>);

fn said<T: std::fmt::Debug>(answer: Result<T, Refusal>) -> Said {
    let refusal = answer.expect_err("a refusal");
    (refusal.number().expect("a number"), refusal.place().expect("a place"), refusal.line(), refusal.token())
}

fn tape_said(tape: &[u8]) -> Said {
    let cleaned = said(Cleaner::new().clean_tape(tape, Settings::default()));
    // every other call that takes a tape says the same
    for call in [tape::to_2018, tape::to_2024] {
        assert_eq!(said(call(tape)), cleaned);
    }
    assert_eq!(said(tape::to_offsets(tape, 0)), cleaned);
    assert_eq!(said(tape::cautions(tape, Settings::default())), cleaned);
    assert_eq!(said(tape::start_value(tape, "rax", &[], 0)), cleaned);
    assert_eq!(said(Store::new().save_tape(b"12345678", tape)), cleaned);
    if cleaned.0 != 10 && cleaned.0 != 11 {
        assert_eq!(said(tape::read(tape)), cleaned);
    }
    cleaned
}

fn profile() -> Settings {
    Settings { profile: true, ..Settings::default() }
}

#[test]
fn every_number_is_provoked() {
    let mut cases: Vec<(Said, Said)> = Vec::new();
    let mut case = |got: Said, want: Said| cases.push((got, want));

    // the tapes of docs/TAPE.md's table, and some more
    case(tape_said(&[]), (3, 0, None, None));
    case(tape_said(&bytes("02 00")), (3, 2, Some(0), None));
    case(tape_said(&bytes("02 00 04")), (3, 2, Some(0), None));
    case(tape_said(&bytes("10 02 00 66")), (4, 0, None, None));
    case(tape_said(&bytes("02 00 11 01 00 66 10 02 00 66")), (4, 6, Some(0), Some(1)));
    case(tape_said(&bytes("10 00 00 FF")), (5, 0, None, None));
    case(tape_said(&bytes("02 00 02 40 FF")), (6, 2, Some(1), None));
    case(tape_said(&bytes("02 00 10 02 00 41 09 FF")), (7, 6, Some(0), Some(0)));
    case(tape_said(&bytes("FF 00")), (8, 0, None, None));

    let store = |bytes: &[u8]| Store::from_bytes(bytes.to_vec());
    case(said(store(&[0; 1000]).restore(b"12345678")), (2, 0, None, None));
    let marks = Listing { lines: vec![Line::new(0), Line { marks: Some((2, 1)), ..Line::new(0) }] };
    case(said(clean(&marks, Settings::default())), (5, 4, Some(1), None));
    let number = Listing { lines: vec![Line::new(0).with(Kind::Text, "x").with(Kind::Number, "1".repeat(25))] };
    case(said(clean(&number, Settings::default())), (6, 6, Some(0), Some(1)));
    let lines = Listing { lines: vec![Line::new(0); 257] };
    case(said(clean(&lines, Settings::default())), (10, 512, Some(256), None));
    let tokens = Listing { lines: vec![Line { tokens: vec![Token::new(Kind::Text, "x"); 1025], ..Line::new(0) }] };
    case(said(clean(&tokens, Settings::default())), (10, 2 + 4 * 1024, Some(0), Some(1024)));
    let text = Listing { lines: vec![Line::new(0), Line::new(0).with(Kind::Text, "x".repeat(24_576)).with(Kind::Text, "y")] };
    case(said(clean(&text, Settings::default())), (11, 4 + 3 + 24_576, Some(1), Some(1)));
    case(said(puchkewa::to_2024(&listing(&["s:f", "k:bool\ts:typeof"]))), (12, 6 + 2 + 7, Some(1), Some(1)));
    case(said(puchkewa::to_2018(&listing(&["n:0b1\tn:0b2"]))), (13, 8, Some(0), Some(1)));
    let crooked = listing(&["r:rax\tp: = \tn:5\tp:;", "r:eax\tp: = \tn:5\tp:;", "k:return\tp: \tr:rax\tp:;"]);
    case(said(clean(&crooked, profile())), (14, 1, Some(1), None));
    case(said(puchkewa::cautions(&crooked, profile())), (14, 1, Some(1), None));
    let even = listing(&["k:return\tp: \tr:rax\tp: + \tr:rax\tp:;"]);
    case(said(puchkewa::start_value(&even, "rax", &[], 11)), (15, 0, None, None));
    case(said(puchkewa::start_value(&even, "eax", &[], 10)), (16, 0, None, None));
    case(said(puchkewa::start_value(&even, "rax", &[("var_8", 1)], 10)), (16, 0, None, None));
    case(said(puchkewa::laborious(257)), (17, 0, None, None));
    let low = Listing { lines: vec![Line::new(0).at(0x1000), Line::new(0).at(0xfff)] };
    case(said(puchkewa::to_offsets(&low, 0x1000)), (18, 10, Some(1), None));
    case(said(puchkewa::from_offsets(&bytes("06 FF FF FF FF FF FF FF FF 04 01 00 00 00 00 FF"))), (18, 9, Some(0), None));
    case(said(puchkewa::from_offsets(&bytes("06 00 00"))), (4, 0, None, None));
    case(said(puchkewa::from_offsets(&bytes("FF"))), (19, 0, None, None));
    case(said(Store::new().restore(b"12345678")), (20, 0, None, None));
    case(said(Store::new().delete(b"12345678")), (20, 0, None, None));
    let mut full = Store::new();
    for name in 0..8u64 {
        full.save(&name.to_le_bytes(), &low).expect("a free cell");
    }
    case(said(full.save(b"ninth   ", &low)), (21, 0, None, None));
    let mut damaged = full.as_bytes().to_vec();
    damaged[3 * 65_536] = 2;
    case(said(store(&damaged).restore(&[0; 8])), (22, 3, None, None));

    for (number, (got, want)) in cases.iter().enumerate() {
        assert_eq!(got, want, "case {number}");
    }
    let provoked: BTreeSet<u8> = cases.iter().map(|(got, _)| got.0).collect();
    let all: BTreeSet<u8> = Question::ALL.iter().map(|q| q.number()).filter(|n| ![1, 9].contains(n)).collect();
    assert_eq!(provoked, all);
}

#[test]
fn texts_that_no_tape_takes_are_told_before_the_call() {
    let with = |text: &str| Listing { lines: vec![Line::new(0), Line::new(0).with(Kind::Text, "x").with(Kind::Address, text)] };
    let fault = |text: &str| match clean(&with(text), Settings::default()) {
        Err(Refusal::Text { fault, line: 1, token: 1 }) => fault,
        other => panic!("{other:?}"),
    };
    assert_eq!(fault(""), Fault::Empty);
    assert_eq!(fault("\"long\u{2026}\""), Fault::Character { character: '\u{2026}', offset: 5 });
    assert_eq!(fault("a\tb"), Fault::Character { character: '\t', offset: 1 });
    assert_eq!(fault("\u{7f}"), Fault::Character { character: '\u{7f}', offset: 0 });
    assert_eq!(fault(&"x".repeat(65_536)), Fault::Long { length: 65_536 });
    assert!(clean(&with(" ~"), Settings::default()).is_ok());
}

#[test]
fn a_name_too_long_for_a_list_is_told_before_the_call() {
    let formula = listing(&["k:return\tp: \tr:rax\tp:;"]);
    let name = format!("r{}", "1".repeat(255));
    let answer = puchkewa::start_value(&formula, "rax", &[("rbx", 1), (&name, 2)], 0);
    assert_eq!(answer, Err(Refusal::LongName { entry: 1 }));
}

#[test]
fn refusals_are_told_in_words() {
    let said = |answer: Result<_, Refusal>| answer.map(|_: puchkewa::Cleaned| ()).expect_err("a refusal").to_string();
    let refused = said(clean(&Listing { lines: vec![line("t:x"), Line::new(64)] }, Settings::default()));
    assert_eq!(refused, "refused 6 at 6: an indent above 63, an empty text, or a Number of more than 24 bytes (lines[1])");
    let text = said(clean(&Listing { lines: vec![Line::new(0).with(Kind::Text, "\u{2026}")] }, Settings::default()));
    assert_eq!(text, "no tape takes this text: '\u{2026}' at offset 0 is outside 20 to 7E (lines[0].tokens[0])");
    let boxed: Box<dyn std::error::Error + Send + Sync> = Box::new(Refusal::LongName { entry: 2 });
    assert_eq!(boxed.to_string(), "the name of entry 2 has more than 255 bytes");
    assert_eq!(Question::TooManyLines.to_string(), "more than 256 lines were asked for");
}
