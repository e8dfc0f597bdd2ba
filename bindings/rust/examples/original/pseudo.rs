//! The original's lines.
use crate::model::Token;

/// A line of pseudocode.
#[derive(Debug, Clone, PartialEq, Eq)]
pub struct PseudoLine {
    pub address: Option<u64>,
    pub indent: u8,
    pub tokens: Vec<Token>,
}
