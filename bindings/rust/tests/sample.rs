//! The sample of the repository, and the example of docs/TAPE.md.
mod common;

use puchkewa::{clean, tape, Kind, Line, Listing, Settings};

#[test]
fn the_sample_is_read_printed_and_written() {
    let listing = tape::read(&common::sample()).expect("the sample");
    let text = std::fs::read_to_string(common::file("samples/press.txt")).expect("the sample's text");
    assert_eq!(listing.to_string(), text);
    assert_eq!(tape::write(&listing).expect("a tape"), common::sample());
}

#[test]
fn the_sample_is_cleaned() {
    let raw = tape::read(&common::sample()).expect("the sample");
    let cleaned = clean(&raw, Settings::default()).expect("the sample");
    let answers = common::answers();
    let (counts, want) = answers[0].answer.as_ref().expect("the real Rust cleans the sample");
    assert_eq!(answers[0].tape, common::sample());
    assert_eq!([cleaned.counts.removed, cleaned.counts.cut], [counts[3], counts[4]]);
    assert_eq!(cleaned.counts.attempts(), counts[..3].iter().sum::<u64>());
    assert_eq!(common::unmarked(cleaned.listing), tape::read(want).expect("its tape"));
}

#[test]
fn the_example_of_the_tape_page() {
    let raw = common::bytes(
        "01 00 10 40 00 00 00 00 00 01  11 03 00 72 61 78  16 03 00 20 3D 20  12 01 00 35  16 01 00 3B
         02 01  11 03 00 72 62 78  16 03 00 20 3D 20  11 03 00 72 61 78  16 03 00 20 2B 20  12 01 00 34  16 01 00 3B  FF",
    );
    let lines = vec![
        Line::new(1).at(0x401000).with(Kind::Register, "rax").with(Kind::Punct, " = ").with(Kind::Number, "5").with(Kind::Punct, ";"),
        Line::new(1)
            .with(Kind::Register, "rbx")
            .with(Kind::Punct, " = ")
            .with(Kind::Register, "rax")
            .with(Kind::Punct, " + ")
            .with(Kind::Number, "4")
            .with(Kind::Punct, ";"),
    ];
    assert_eq!(tape::write(&Listing { lines: lines.clone() }), Ok(raw));
    let cleaned = clean(&Listing { lines }, Settings::default()).expect("the example");
    let want =
        "02 01  03 00 10 40 00 00 00 00 00 00 10 40 00 00 00 00 00  11 03 00 72 62 78  16 03 00 20 3D 20  12 01 00 39  16 01 00 3B  FF";
    assert_eq!(tape::write(&cleaned.listing), Ok(common::bytes(want)));
    assert_eq!(cleaned.listing.lines[0].marks, Some((0x401000, 0x401000)));
    assert_eq!((cleaned.counts.attempts(), cleaned.counts.removed, cleaned.counts.cut), (3, 1, 0));
}
