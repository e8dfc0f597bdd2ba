//! Document 01 around the Rust: the tape, the questions in their order, and one call with its counts.

pub use crate::model::KINDS;
use crate::model::{Token, TokenKind};
use crate::probe;
use crate::pseudo::PseudoLine;

pub const MOST_TAPE: usize = 65_536;
pub const WORK: usize = 49_152;
pub const OUTPUT: usize = 59_137;

/// The reply in ten numbers, as the library gives it.
#[repr(C)]
#[derive(Debug, Clone, Copy, Default, PartialEq, Eq)]
pub struct Report {
    pub refusal: u64,
    pub place: u64,
    pub length: u64,
    pub attempts: [u64; 3],
    pub removed: u64,
    pub cut: u64,
    pub rounds: u64,
    pub all: u64,
}

type Refusal = (u64, usize);

/// The listing of an accepted tape: the questions of each command, in the order 3, 4, 5, 6, 10, 11, 7, 8. An 03 (request M-105) is asked its questions and left
/// out.
pub fn read_tape(tape: &[u8]) -> Result<Vec<PseudoLine>, Refusal> {
    let mut lines: Vec<PseudoLine> = Vec::new();
    let (mut tokens, mut text, mut at) = (0, 0, 0);
    // whether the command just before is a line's
    let mut fresh = false;
    loop {
        let Some(&command) = tape.get(at) else { return Err((3, at)) };
        let operand = match command {
            0x01 => 9,
            0x02 => 1,
            0x03 => 16,
            0x10..=0x17 => 2,
            0xFF => 0,
            _ => return Err((3, at)),
        };
        let rest = &tape[at + 1..];
        if rest.len() < operand {
            return Err((4, at));
        }
        match command {
            0x01 | 0x02 => {
                let indent = rest[operand - 1];
                if indent > 63 {
                    return Err((6, at));
                }
                if lines.len() == 256 {
                    return Err((10, at));
                }
                let address = (command == 0x01).then(|| u64::from_le_bytes(rest[..8].try_into().unwrap()));
                lines.push(PseudoLine { address, indent, tokens: Vec::new() });
                at += 1 + operand;
                fresh = true;
                continue;
            }
            0x03 => {
                let [low, high] = [0, 8].map(|k| u64::from_le_bytes(rest[k..k + 8].try_into().unwrap()));
                if !fresh || low > high {
                    return Err((5, at));
                }
                at += 1 + operand;
            }
            0xFF if rest.is_empty() => return Ok(lines),
            0xFF => return Err((8, at)),
            _ => {
                let n = u16::from_le_bytes([rest[0], rest[1]]) as usize;
                if rest.len() < 2 + n {
                    return Err((4, at));
                }
                let Some(last) = lines.last_mut() else { return Err((5, at)) };
                let k = KINDS[(command - 0x10) as usize];
                tokens += 1;
                text += n;
                if n == 0 || k == TokenKind::Number && n > 24 {
                    return Err((6, at));
                }
                if tokens > 1024 {
                    return Err((10, at));
                }
                if text > 24_576 {
                    return Err((11, at));
                }
                let bytes = &rest[2..2 + n];
                if let Some(i) = bytes.iter().position(|b| !(0x20..=0x7E).contains(b)) {
                    return Err((7, at + 3 + i));
                }
                last.tokens.push(Token { t: String::from_utf8(bytes.to_vec()).unwrap(), k });
                at += 3 + n;
            }
        }
        fresh = false;
    }
}

pub fn write_tape(lines: &[PseudoLine]) -> Vec<u8> {
    let mut out = Vec::new();
    for l in lines {
        if let Some(a) = l.address {
            out.push(0x01);
            out.extend(a.to_le_bytes());
        } else {
            out.push(0x02);
        }
        out.push(l.indent);
        for t in &l.tokens {
            out.push(0x10 + KINDS.iter().position(|k| *k == t.k).unwrap() as u8);
            out.extend((t.t.len() as u16).to_le_bytes());
            out.extend(t.t.as_bytes());
        }
    }
    out.push(0xFF);
    out
}

/// The tape without its 03s (request M-105), which the Rust does not know, and how many there are.
pub fn unmarked(tape: &[u8]) -> (Vec<u8>, u64) {
    let (mut out, mut marks, mut at) = (Vec::new(), 0, 0);
    while at < tape.len() {
        let size = match tape[at] {
            0x01 => 10,
            0x02 => 2,
            0x03 => 17,
            0xFF => 1,
            _ if at + 2 < tape.len() => 3 + u16::from_le_bytes([tape[at + 1], tape[at + 2]]) as usize,
            _ => 1,
        };
        let end = (at + size).min(tape.len());
        if tape[at] == 0x03 {
            marks += 1;
        } else {
            out.extend(&tape[at..end]);
        }
        at = end;
    }
    (out, marks)
}

/// `bits` and `sysv` of a convention.
pub fn settings(convention: u8) -> (u32, bool) {
    match convention {
        0 => (32, false),
        1 => (64, true),
        _ => (64, false),
    }
}

/// One call, with what is lent given by its lengths: the report and the output.
pub fn answer(convention: u8, settle: bool, edition: u8, parts: bool, tape: &[u8], lent: [usize; 3]) -> (Report, Vec<u8>) {
    let refused = |refusal, place| (Report { refusal, place, ..Report::default() }, Vec::new());
    if convention > 2 {
        return refused(1, 0);
    }
    if edition > 1 {
        return refused(9, 0);
    }
    if lent[0] < WORK || lent[1] < WORK || lent[2] < OUTPUT {
        return refused(2, 0);
    }
    match read_tape(tape) {
        Err((number, place)) => refused(number, place as u64),
        Ok(mut lines) => {
            let (bits, sysv) = settings(convention);
            probe::take();
            probe::settle(settle);
            probe::read_by(edition);
            probe::tell_parts(parts);
            crate::counting::optimize(&crate::Binary, &mut lines, sysv, bits);
            let c = probe::take();
            let out = write_tape(&lines);
            let report = Report { length: out.len() as u64, removed: c.removed, cut: c.cuts, ..Report::default() };
            if settle {
                (Report { rounds: c.rounds as u64, all: c.all, ..report }, out)
            } else {
                (Report { attempts: c.attempts, ..report }, out)
            }
        }
    }
}

/// The unchanged Rust, tape to tape, of an accepted tape.
pub fn clean_unchanged(convention: u8, tape: &[u8]) -> Vec<u8> {
    let mut lines = read_tape(tape).expect("an accepted tape");
    let (bits, sysv) = settings(convention);
    crate::reference::optimize(&crate::Binary, &mut lines, sysv, bits);
    write_tape(&lines)
}
