//! The original's tokens, as far as the cleaning needs them.

/// The kinds of a token.
#[derive(Debug, Clone, Copy, PartialEq, Eq)]
#[allow(dead_code)]
pub enum TokenKind {
    Text,
    Register,
    Number,
    Keyword,
    Symbol,
    Address,
    Punct,
    Prefix,
}

/// A token: its text and its kind.
#[derive(Debug, Clone, PartialEq, Eq)]
pub struct Token {
    pub t: String,
    pub k: TokenKind,
}
