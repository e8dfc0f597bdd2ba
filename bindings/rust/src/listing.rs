//! What a listing is: lines of tokens. `Display` prints one as `puchkewa show` does, without marks.
use std::fmt;

/// A listing of pseudocode.
#[derive(Debug, Clone, PartialEq, Eq, Default)]
pub struct Listing {
    /// The lines, at most 256 of them.
    pub lines: Vec<Line>,
}

/// A line of a listing.
#[derive(Debug, Clone, PartialEq, Eq, Default)]
pub struct Line {
    /// The address of the code that the line was lifted from, where it has one.
    pub address: Option<u64>,
    /// The indent, at most 63.
    pub indent: u8,
    /// The lowest and the highest address of the code that came into the line. A raw listing has none as a rule; cleaning fills them in.
    pub marks: Option<(u64, u64)>,
    /// The tokens. A listing has at most 1,024.
    pub tokens: Vec<Token>,
}

/// A token of a line.
#[derive(Debug, Clone, PartialEq, Eq)]
pub struct Token {
    /// What it is.
    pub kind: Kind,
    /// Its text: at least one byte, all of them 20 to 7E (hexadecimal); of a Number at most 24. All texts of a listing have at most 24,576
    /// bytes.
    pub text: String,
}

/// The kinds of tokens, in the order of the tape's commands. docs/TAPE.md says what the cleaner makes of each.
#[derive(Debug, Clone, Copy, PartialEq, Eq, Hash, PartialOrd, Ord)]
pub enum Kind {
    /// Comments and free text.
    Text,
    /// `rax`, `r8d`, and stack slots such as `var_8`.
    Register,
    /// `5`, `0x10`.
    Number,
    /// `return`, `goto`, `do`, `while`, `((void (*)())`.
    Keyword,
    /// Names of functions and labels.
    Symbol,
    /// Addresses in the text.
    Address,
    /// All between: ` = `, `(`, `, `, `;`, `{`.
    Punct,
    /// Instruction prefixes.
    Prefix,
}

impl Kind {
    /// All of them, in the tape's order.
    pub const ALL: [Kind; 8] =
        [Kind::Text, Kind::Register, Kind::Number, Kind::Keyword, Kind::Symbol, Kind::Address, Kind::Punct, Kind::Prefix];
}

impl Token {
    /// A token.
    pub fn new(kind: Kind, text: impl Into<String>) -> Token {
        Token { kind, text: text.into() }
    }
}

impl Line {
    /// A line without address, marks and tokens.
    pub fn new(indent: u8) -> Line {
        Line { indent, ..Line::default() }
    }

    /// The line with this address.
    pub fn at(mut self, address: u64) -> Line {
        self.address = Some(address);
        self
    }

    /// The line with one token more, at its end.
    pub fn with(mut self, kind: Kind, text: impl Into<String>) -> Line {
        self.tokens.push(Token::new(kind, text));
        self
    }

    /// The texts of its tokens, one after the other.
    pub fn text(&self) -> String {
        self.tokens.iter().map(|t| t.text.as_str()).collect()
    }
}

impl fmt::Display for Token {
    fn fmt(&self, f: &mut fmt::Formatter<'_>) -> fmt::Result {
        f.pad(&self.text)
    }
}

/// The address in hexadecimal, at least eight digits, or eight blanks; two blanks, two more for each indent; the texts.
impl fmt::Display for Line {
    fn fmt(&self, f: &mut fmt::Formatter<'_>) -> fmt::Result {
        match self.address {
            Some(address) => write!(f, "{address:08x}")?,
            None => write!(f, "{:8}", "")?,
        }
        write!(f, "  {:1$}", "", 2 * usize::from(self.indent))?;
        self.tokens.iter().try_for_each(|t| write!(f, "{t}"))
    }
}

/// Its lines, each ended by a line feed.
impl fmt::Display for Listing {
    fn fmt(&self, f: &mut fmt::Formatter<'_>) -> fmt::Result {
        self.lines.iter().try_for_each(|l| writeln!(f, "{l}"))
    }
}
