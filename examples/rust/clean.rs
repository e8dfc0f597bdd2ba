//! Cleans the scope paper's filter example, `rax = f();` `return;`, and prints the counts and the new listing. From the repository's root,
//! after `bin/archive`:
//!
//!     cargo run -q --manifest-path examples/rust/Cargo.toml
use puchkewa::{clean, Kind, Line, Listing, Refusal, Settings};

fn main() -> Result<(), Refusal> {
    let raw = Listing {
        lines: vec![
            Line::new(0).with(Kind::Register, "rax").with(Kind::Punct, " = ").with(Kind::Symbol, "f").with(Kind::Punct, "();"),
            Line::new(0).with(Kind::Keyword, "return").with(Kind::Punct, ";"),
        ],
    };
    let cleaned = clean(&raw, Settings::default())?;
    println!("attempts {}, removed {}, cut {}", cleaned.counts.attempts(), cleaned.counts.removed, cleaned.counts.cut);
    for line in &cleaned.listing.lines {
        println!("{}", line.text());
    }
    Ok(())
}
