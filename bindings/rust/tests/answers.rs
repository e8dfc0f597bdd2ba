//! The real Rust's answers: the sample and 500 random tapes, from tape to tape and from listing to listing. And the listings with their
//! cautions of tests/cautions, which another implementation made.
mod common;

use puchkewa::{tape, Caution, Cleaner, Convention, Counts, Edition, Settings, Tally};

#[test]
fn the_package_answers_as_the_real_rust() {
    let mut cleaner = Cleaner::new();
    let (mut cleaned, mut refused) = (0, 0);
    for (number, one) in common::answers().into_iter().enumerate() {
        let Some(settings) = one.settings else { continue };
        match (cleaner.clean_tape(&one.tape, settings), one.answer) {
            (Ok(got), Ok(([a, b, c, removed, cut, rounds, attempts], want))) => {
                let tally = if settings.settle { Tally::Settled { rounds, attempts } } else { Tally::Three { attempts: [a, b, c] } };
                assert_eq!(got.counts, Counts { tally, removed, cut }, "counts of answer {number}");
                let got = got.read();
                let unmarked = common::unmarked(got.listing.clone());
                assert_eq!(tape::write(&unmarked).expect("a tape"), want, "tape of answer {number}");
                let listing = tape::read(&one.tape).expect("an accepted tape");
                assert_eq!(cleaner.clean(&listing, settings).expect("an accepted listing"), got, "listing of answer {number}");
                cleaned += 1;
            }
            (Err(refusal), Err((number, place))) => {
                assert_eq!((refusal.number().map(u64::from), refusal.place()), (Some(number), Some(place)));
                refused += 1;
            }
            (got, want) => panic!("answer {number}: {got:?} for {want:?}"),
        }
    }
    assert!(cleaned > 400 && refused > 30, "{cleaned} cleaned, {refused} refused");
}

#[test]
fn the_cautions_are_those_of_another_implementation() {
    let text = std::fs::read_to_string(common::file("tests/cautions/list.txt")).expect("tests/cautions/list.txt");
    for (at, line) in text.lines().enumerate() {
        let fields: Vec<&str> = line.split(' ').collect();
        let [_, convention, bits, raw, want] = fields[..] else { panic!("line {at}: {line}") };
        let bits: u8 = bits.parse().expect("a number");
        let settings = Settings {
            convention: [Convention::Bits32, Convention::SystemV64, Convention::Windows64][convention.parse::<usize>().expect("a number")],
            settle: bits & 1 != 0,
            edition: if bits & 2 != 0 { Edition::C2024 } else { Edition::C2018 },
            parts: bits & 4 != 0,
            profile: bits & 8 != 0,
        };
        let raw = common::bytes(raw);
        let want: Vec<u16> = common::bytes(want.trim_matches('-')).chunks(2).map(|set| u16::from_le_bytes([set[0], set[1]])).collect();
        assert_eq!(tape::cautions(&raw, settings), Ok(want.clone()), "line {at}");
        let kinds = puchkewa::cautions(&tape::read(&raw).expect("an accepted tape"), settings).expect("an accepted listing");
        let sums: Vec<u16> = kinds.iter().map(|kinds| kinds.iter().map(|kind: &Caution| kind.bit()).sum()).collect();
        assert_eq!(sums, want, "line {at}");
    }
    assert!(text.lines().count() > 200);
}
