//! The cleaner in the place of the original's own module: types of the same names and fields as the original repository's, and
//! `proved::optimize`, which is called as its `optimize` is. From the repository's root:
//!
//!     cargo run --manifest-path bindings/rust/Cargo.toml --example original
//!
//! proved.rs can be put into the original repository as it stands: README.md of this package says how.
mod model;
mod proved;
mod pseudo;

use model::{Token, TokenKind};
use pseudo::PseudoLine;

fn line(tokens: &[(&str, TokenKind)]) -> PseudoLine {
    PseudoLine { address: None, indent: 1, tokens: tokens.iter().map(|&(t, k)| Token { t: t.to_string(), k }).collect() }
}

fn print(lines: &[PseudoLine]) {
    for l in lines {
        println!("{}", l.tokens.iter().map(|t| t.t.as_str()).collect::<String>());
    }
}

fn main() {
    use TokenKind::{Keyword, Number, Punct, Register, Symbol};
    let mut lines = vec![
        line(&[("ecx", Register), (" = ", Punct), ("40", Number), (";", Punct)]),
        line(&[("esi", Register), (" = ", Punct), ("ecx", Register), (" - ", Punct), ("4", Number), (";", Punct)]),
        line(&[("eax", Register), (" = ", Punct), ("heater_set", Symbol), ("(2, ", Punct), ("esi", Register), (");", Punct)]),
        line(&[("return", Keyword), (";", Punct)]),
    ];
    if let Err(refusal) = proved::optimize(&mut lines, true, 64) {
        println!("not cleaned: {refusal}");
    }
    print(&lines);

    // A string of the original's generator that was shortened: no tape takes its last character. The lines are as they were.
    let mut long = vec![line(&[("f", Symbol), ("(", Punct), ("\"Mould close\u{2026}\"", TokenKind::Address), (");", Punct)])];
    if let Err(refusal) = proved::optimize(&mut long, true, 64) {
        println!("not cleaned: {refusal}");
    }
    print(&long);
}
