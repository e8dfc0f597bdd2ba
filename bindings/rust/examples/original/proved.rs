//! The cleaning of the original, without its last call `symbolize_args`, done by the proved library. It is called as the original's
//! `optimize` is, and needs of the crate that it stands in only `model::{Token, TokenKind}` and `pseudo::PseudoLine`.
use crate::model::{Token, TokenKind};
use crate::pseudo::PseudoLine;
use puchkewa::{Convention, Kind, Line, Listing, Refusal, Settings};

/// Cleans the lines. Where they are refused, they are as they were: they may be shown uncleaned, or given to the original's own passes.
pub fn optimize(lines: &mut Vec<PseudoLine>, sysv: bool, bits: u32) -> Result<(), Refusal> {
    let convention = match (bits, sysv) {
        (32, _) => Convention::Bits32,
        (_, true) => Convention::SystemV64,
        (_, false) => Convention::Windows64,
    };
    let raw = Listing { lines: lines.iter().map(raw_line).collect() };
    let cleaned = puchkewa::clean(&raw, Settings { convention, ..Settings::default() })?;
    *lines = cleaned.listing.lines.into_iter().map(cleaned_line).collect();
    Ok(())
}

fn raw_line(line: &PseudoLine) -> Line {
    let tokens = line.tokens.iter().map(|t| puchkewa::Token::new(kind(t.k), t.t.as_str())).collect();
    Line { address: line.address, indent: line.indent, marks: None, tokens }
}

/// The marks have no place in the original's lines.
fn cleaned_line(line: Line) -> PseudoLine {
    let tokens = line.tokens.into_iter().map(|t| Token { t: t.text, k: original_kind(t.kind) }).collect();
    PseudoLine { address: line.address, indent: line.indent, tokens }
}

fn kind(k: TokenKind) -> Kind {
    match k {
        TokenKind::Text => Kind::Text,
        TokenKind::Register => Kind::Register,
        TokenKind::Number => Kind::Number,
        TokenKind::Keyword => Kind::Keyword,
        TokenKind::Symbol => Kind::Symbol,
        TokenKind::Address => Kind::Address,
        TokenKind::Punct => Kind::Punct,
        TokenKind::Prefix => Kind::Prefix,
    }
}

fn original_kind(kind: Kind) -> TokenKind {
    match kind {
        Kind::Text => TokenKind::Text,
        Kind::Register => TokenKind::Register,
        Kind::Number => TokenKind::Number,
        Kind::Keyword => TokenKind::Keyword,
        Kind::Symbol => TokenKind::Symbol,
        Kind::Address => TokenKind::Address,
        Kind::Punct => TokenKind::Punct,
        Kind::Prefix => TokenKind::Prefix,
    }
}
