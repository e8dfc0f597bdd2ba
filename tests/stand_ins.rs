// Stand-ins for what pseudo_opt.rs names of its own crate, included at the root of each program of the tests.

pub mod model {
    #[derive(Debug, Clone, Copy, PartialEq, Eq)]
    pub enum TokenKind {
        Text,
        Register,
        Number,
        Keyword,
        Symbol,
        Address,
        Punct,
        Prefix,
    }

    /// In the order of the tape's commands.
    pub const KINDS: [TokenKind; 8] = [
        TokenKind::Text,
        TokenKind::Register,
        TokenKind::Number,
        TokenKind::Keyword,
        TokenKind::Symbol,
        TokenKind::Address,
        TokenKind::Punct,
        TokenKind::Prefix,
    ];

    #[derive(Debug, Clone, PartialEq, Eq)]
    pub struct Token {
        pub t: String,
        pub k: TokenKind,
    }
}

pub mod pseudo {
    #[derive(Debug, Clone, PartialEq, Eq)]
    pub struct PseudoLine {
        pub address: Option<u64>,
        pub indent: u8,
        pub tokens: Vec<crate::model::Token>,
    }
}

/// No prototype is known, so `symbolize_args` changes nothing.
pub mod protos {
    pub struct Proto {
        pub params: &'static [&'static str],
    }

    pub fn lookup(_name: &str) -> Option<&'static Proto> {
        None
    }

    pub fn param_name(p: &str) -> &str {
        p
    }
}

pub mod operands {
    pub fn param_enum(_function: &str, _param: &str) -> Option<&'static str> {
        None
    }
}

pub struct Binary;

impl Binary {
    pub fn enum_text(&self, _e: &str, _v: i64, _bits: u32) -> Option<String> {
        None
    }
}
