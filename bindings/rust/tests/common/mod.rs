//! What the tests share: random listings, and the real Rust's answers of bindings/answers.txt.
#![allow(dead_code)]
use puchkewa::{Convention, Edition, Kind, Line, Listing, Settings, Token};
use std::path::PathBuf;

/// A file of the tree that the package stands in.
pub fn file(name: &str) -> PathBuf {
    PathBuf::from(env!("CARGO_MANIFEST_DIR")).join("../..").join(name)
}

/// The tape of the sample, without its convention byte.
pub fn sample() -> Vec<u8> {
    std::fs::read(file("samples/press.tape")).expect("the sample")[1..].to_vec()
}

pub fn bytes(hex: &str) -> Vec<u8> {
    let digits: Vec<u8> =
        hex.bytes().filter(|b| !b.is_ascii_whitespace()).map(|b| (b as char).to_digit(16).expect("a digit") as u8).collect();
    digits.chunks(2).map(|pair| pair[0] * 16 + pair[1]).collect()
}

/// A line of tokens: `r:rax p: = n:5`, by the letters of `puchkewa show --exact`, with tabs between the tokens.
pub fn line(tokens: &str) -> Line {
    tokens.split('\t').fold(Line::new(0), |line, token| {
        let (letter, text) = token.split_once(':').expect("a letter and a text");
        let kind = match letter {
            "t" => Kind::Text,
            "r" => Kind::Register,
            "n" => Kind::Number,
            "k" => Kind::Keyword,
            "s" => Kind::Symbol,
            "a" => Kind::Address,
            "p" => Kind::Punct,
            "x" => Kind::Prefix,
            _ => panic!("no letter of a kind: {letter}"),
        };
        line.with(kind, text)
    })
}

pub fn listing(lines: &[&str]) -> Listing {
    Listing { lines: lines.iter().map(|l| line(l)).collect() }
}

/// Random numbers by splitmix64, fixed by a seed.
pub struct Random(pub u64);

impl Random {
    pub fn next(&mut self) -> u64 {
        self.0 = self.0.wrapping_add(0x9e37_79b9_7f4a_7c15);
        let z = (self.0 ^ (self.0 >> 30)).wrapping_mul(0xbf58_476d_1ce4_e5b9);
        let z = (z ^ (z >> 27)).wrapping_mul(0x94d0_49bb_1331_11eb);
        z ^ (z >> 31)
    }

    pub fn below(&mut self, n: usize) -> usize {
        (self.next() % n as u64) as usize
    }

    fn pick<'a>(&mut self, words: &[&'a str]) -> &'a str {
        words[self.below(words.len())]
    }
}

const REGISTERS: &[&str] = &["rax", "eax", "al", "ah", "rbx", "ebx", "rcx", "rdx", "r8", "r8d", "var_8", "var_10"];
const NUMBERS: &[&str] = &["0", "1", "5", "010", "0x10", "-1", "9223372036854775807", "0xffffffffffffffff", "--5", "0b101"];

/// A statement as lifters write them.
fn statement(random: &mut Random) -> Vec<Token> {
    let register = |r: &mut Random| Token::new(Kind::Register, r.pick(REGISTERS));
    let punct = |text: &str| Token::new(Kind::Punct, text);
    let operand = |r: &mut Random| match r.below(3) {
        0 => Token::new(Kind::Number, r.pick(NUMBERS)),
        _ => Token::new(Kind::Register, r.pick(REGISTERS)),
    };
    let assigned = register(random);
    match random.below(10) {
        0..=3 => vec![assigned, punct(" = "), operand(random), punct(";")],
        4 | 5 => vec![assigned, punct(" = "), operand(random), punct(random.pick(&[" + ", " - ", " & "])), operand(random), punct(";")],
        6 => vec![assigned, punct(" = "), Token::new(Kind::Symbol, "f"), punct("("), operand(random), punct(");")],
        7 => {
            vec![Token::new(Kind::Symbol, random.pick(&["f", "g"])), punct("("), operand(random), punct(", "), operand(random), punct(");")]
        }
        8 => vec![Token::new(Kind::Symbol, random.pick(&["L1", "L2"])), punct(":")],
        _ => vec![Token::new(Kind::Keyword, random.pick(&["return", "goto", "do", "while"])), punct(random.pick(&[" ", ";", " {", "}"]))],
    }
}

/// A random listing; one of about twenty has something that no call takes.
pub fn random_listing(random: &mut Random) -> Listing {
    let mut listing = Listing::default();
    for _ in 0..random.below(24) {
        let address = (random.below(2) == 0).then(|| random.next() >> random.below(60));
        let marks = (random.below(8) == 0).then(|| (address.unwrap_or(7), u64::MAX - random.next() % 9)).filter(|(low, high)| low <= high);
        listing.lines.push(Line { address, indent: random.below(4) as u8, marks, tokens: statement(random) });
    }
    if random.below(20) == 0 && !listing.lines.is_empty() {
        let line = random.below(listing.lines.len());
        match random.below(4) {
            0 => listing.lines[line].indent = 64,
            1 => listing.lines[line].marks = Some((2, 1)),
            2 => listing.lines[line].tokens.push(Token::new(Kind::Number, "1".repeat(25))),
            _ => listing.lines.resize(257, Line::new(0)),
        }
    }
    listing
}

pub fn random_settings(random: &mut Random) -> Settings {
    Settings {
        convention: [Convention::Bits32, Convention::SystemV64, Convention::Windows64][random.below(3)],
        settle: random.below(2) == 1,
        edition: [Edition::C2018, Edition::C2024][random.below(2)],
        parts: random.below(2) == 1,
        profile: false,
    }
}

/// A line of bindings/answers.txt.
pub struct Answered {
    /// None where a convention or an edition has no value here.
    pub settings: Option<Settings>,
    pub tape: Vec<u8>,
    /// number and place, or the counts and the cleaned tape without marks
    pub answer: Result<([u64; 7], Vec<u8>), (u64, u64)>,
}

pub fn answers() -> Vec<Answered> {
    let text = std::fs::read_to_string(file("bindings/answers.txt")).expect("bindings/answers.txt");
    text.lines().filter(|l| !l.starts_with('#')).map(answered).collect()
}

fn answered(line: &str) -> Answered {
    let fields: Vec<&str> = line.split(' ').collect();
    let number = |at: usize| fields[at].parse::<u64>().expect("a number");
    let convention = [Convention::Bits32, Convention::SystemV64, Convention::Windows64].get(number(0) as usize).copied();
    let edition = [Edition::C2018, Edition::C2024].get(number(2) as usize).copied();
    let settings = convention.zip(edition).map(|(convention, edition)| Settings {
        convention,
        settle: number(1) == 1,
        edition,
        parts: number(3) == 1,
        profile: false,
    });
    let answer = match fields.len() {
        7 => Err((number(5), number(6))),
        13 => Ok(([5, 6, 7, 8, 9, 10, 11].map(number), bytes(fields[12]))),
        n => panic!("a line of {n} fields"),
    };
    Answered { settings, tape: bytes(fields[4]), answer }
}

/// The listing without its marks.
pub fn unmarked(mut listing: Listing) -> Listing {
    for line in &mut listing.lines {
        line.marks = None;
    }
    listing
}
