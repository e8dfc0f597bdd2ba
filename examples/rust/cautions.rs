//! Cleans `rax = f();` `rbx = counter + rax;` `return rbx;` and prints each line of the cleaned listing with the reasons why it may mean
//! something else: f is called once counter has been read. From the repository's root, after `bin/archive`:
//!
//!     cargo run -q --manifest-path examples/rust/Cargo.toml --bin cautions
use puchkewa::{cautions, clean, Kind, Line, Listing, Refusal, Settings};

fn main() -> Result<(), Refusal> {
    let raw = Listing {
        lines: vec![
            Line::new(0).with(Kind::Register, "rax").with(Kind::Punct, " = ").with(Kind::Symbol, "f").with(Kind::Punct, "();"),
            Line::new(0)
                .with(Kind::Register, "rbx")
                .with(Kind::Punct, " = ")
                .with(Kind::Symbol, "counter")
                .with(Kind::Punct, " + ")
                .with(Kind::Register, "rax")
                .with(Kind::Punct, ";"),
            Line::new(0).with(Kind::Keyword, "return").with(Kind::Punct, " ").with(Kind::Register, "rbx").with(Kind::Punct, ";"),
        ],
    };
    let cleaned = clean(&raw, Settings::default())?;
    for (line, kinds) in cleaned.listing.lines.iter().zip(cautions(&raw, Settings::default())?) {
        println!("{}", line.text());
        for kind in kinds {
            println!("  {kind}");
        }
    }
    Ok(())
}
