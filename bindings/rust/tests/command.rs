//! 10,000 random listings through the package and through the command, where that is built (`bin/program command`) or named by
//! PUCHKEWA_COMMAND. Without it this says so; the fixed answers of the real Rust are tested in any case (answers.rs).
mod common;

use common::{random_listing, random_settings, Random};
use puchkewa::{tape, Cleaner, Convention, Edition, Listing, Settings};
use std::path::{Path, PathBuf};
use std::process::Command;

const COUNT: usize = 10_000;
/// How many files a call of the command gets.
const BATCH: usize = 250;

fn command() -> Option<PathBuf> {
    if let Some(named) = std::env::var_os("PUCHKEWA_COMMAND") {
        return Some(named.into());
    }
    // of the repository, of a prefix
    let built = common::file("target/bin/command").is_file().then(|| common::file("bin/puchkewa"));
    built.or_else(|| Some(common::file("../../bin/puchkewa")).filter(|p| p.is_file()))
}

/// The words of the command for some settings.
fn words(s: Settings) -> Vec<&'static str> {
    let convention = match s.convention {
        Convention::Bits32 => "32",
        Convention::SystemV64 => "sysv",
        Convention::Windows64 => "windows",
    };
    let edition = match s.edition {
        Edition::C2018 => "2018",
        Edition::C2024 => "2024",
    };
    let mut words = vec!["-c", convention, "-e", edition];
    words.extend(s.settle.then_some("--settle"));
    words.extend(s.parts.then_some("--parts"));
    words
}

/// What the command makes of each tape: the cleaned tape, or the number and the place of the refusal.
fn cleaned_by(command: &Path, settings: Settings, tapes: &[Vec<u8>], folder: &Path) -> Vec<Result<Vec<u8>, (u64, u64)>> {
    let (raw, out) = (folder.join("raw"), folder.join("out"));
    for made in [&raw, &out] {
        let _ = std::fs::remove_dir_all(made);
        std::fs::create_dir_all(made).expect("a folder");
    }
    let name = |number: usize| format!("{number}.tape");
    for (number, tape) in tapes.iter().enumerate() {
        std::fs::write(raw.join(name(number)), tape).expect("a tape is written");
    }
    let files = (0..tapes.len()).map(|n| raw.join(name(n)));
    let done = Command::new(command).arg("clean").args(words(settings)).args(files).arg("-d").arg(&out).output().expect("the command");
    let told = String::from_utf8(done.stderr).expect("words");
    let refusal = |number: usize| {
        let front = format!("/{}: refused ", name(number));
        let said = told.lines().find_map(|l| l.split_once(&front)).unwrap_or_else(|| panic!("no word of {number}: {told}")).1;
        let (number, rest) = said.split_once(" at ").expect("a place");
        let place = rest.split(|c: char| !c.is_ascii_digit()).next().expect("a place"); // a line and a token may follow
        (number.parse().expect("a number"), place.parse().expect("a place"))
    };
    (0..tapes.len()).map(|n| std::fs::read(out.join(name(n))).map_err(|_| refusal(n))).collect()
}

#[test]
fn the_package_does_what_the_command_does() {
    let Some(command) = command() else {
        eprintln!("not run: the command is not built (bin/program command)");
        return;
    };
    let folder = std::env::temp_dir().join(format!("puchkewa-{}", std::process::id()));
    let mut random = Random(41);
    let mut cleaner = Cleaner::new();
    let (mut cleaned, mut refused) = (0, 0);
    for _ in 0..COUNT / BATCH {
        let settings = random_settings(&mut random);
        let listings: Vec<Listing> = (0..BATCH).map(|_| random_listing(&mut random)).collect();
        let tapes: Vec<Vec<u8>> = listings.iter().map(|l| tape::write(l).expect("a tape")).collect();
        for (listing, want) in listings.iter().zip(cleaned_by(&command, settings, &tapes, &folder)) {
            match (cleaner.clean(listing, settings), want) {
                (Ok(got), Ok(want)) => {
                    assert_eq!(tape::write(&got.listing).expect("a tape"), want, "of:\n{listing}");
                    cleaned += 1;
                }
                (Err(got), Err(want)) => {
                    assert_eq!((got.number().map(u64::from), got.place()), (Some(want.0), Some(want.1)), "of:\n{listing}");
                    refused += 1;
                }
                (got, want) => panic!("{got:?} for {want:?}, of:\n{listing}"),
            }
        }
    }
    std::fs::remove_dir_all(&folder).expect("the folder is removed");
    println!("{cleaned} cleaned, {refused} refused, all as the command does it");
    assert!(cleaned > COUNT * 9 / 10 && refused > COUNT / 50, "{cleaned} cleaned, {refused} refused");
}
