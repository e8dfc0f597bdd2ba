//! Listings as tapes, the library's own form (docs/TAPE.md), and its calls from tape to tape. They run on the caller's stack.
use crate::ffi;
use crate::listing::{Kind, Line, Listing, Token};
use crate::question::Question;
use crate::refusal::{Fault, Refusal};
use crate::settings::Settings;

const LINE_AT: u8 = 0x01;
const LINE: u8 = 0x02;
const MARKS: u8 = 0x03;
const TOKEN: u8 = 0x10;
// the form by offset: a line, marks, the base
const LINE_OFFSET: u8 = 0x04;
const MARKS_OFFSET: u8 = 0x05;
const BASE: u8 = 0x06;
const END: u8 = 0xFF;

/// The tape of a listing.
///
/// # Errors
///
/// [`Refusal::Text`] where a text is empty, has a character outside 20 to 7E or more than 65,535 bytes. All other limits are asked by the
/// calls.
pub fn write(listing: &Listing) -> Result<Vec<u8>, Refusal> {
    let mut tape = Vec::new();
    write_to(listing, &mut tape)?;
    Ok(tape)
}

/// Puts the tape of a listing in the place of what a buffer holds.
pub(crate) fn write_to(listing: &Listing, tape: &mut Vec<u8>) -> Result<(), Refusal> {
    tape.clear();
    for (number, line) in listing.lines.iter().enumerate() {
        match line.address {
            Some(address) => {
                tape.push(LINE_AT);
                tape.extend(address.to_le_bytes());
            }
            None => tape.push(LINE),
        }
        tape.push(line.indent);
        if let Some((low, high)) = line.marks {
            tape.push(MARKS);
            tape.extend(low.to_le_bytes());
            tape.extend(high.to_le_bytes());
        }
        for (at, token) in line.tokens.iter().enumerate() {
            let length = length_of(&token.text).map_err(|fault| Refusal::Text { fault, line: number, token: at })?;
            tape.push(TOKEN + token.kind as u8);
            tape.extend(length.to_le_bytes());
            tape.extend(token.text.as_bytes());
        }
    }
    tape.push(END);
    Ok(())
}

/// The length of a text, or why no tape takes it.
fn length_of(text: &str) -> Result<u16, Fault> {
    if text.is_empty() {
        return Err(Fault::Empty);
    }
    if let Some((offset, character)) = text.char_indices().find(|(_, c)| !(' '..='~').contains(c)) {
        return Err(Fault::Character { character, offset });
    }
    u16::try_from(text.len()).map_err(|_| Fault::Long { length: text.len() })
}

/// The listing of a tape.
///
/// # Errors
///
/// The first of questions 3 to 8 that is answered "no", with its place. 10 and 11, the limits of a whole listing, are not asked here: a
/// cleaned listing may have more text than a call takes.
pub fn read(tape: &[u8]) -> Result<Listing, Refusal> {
    let mut listing = Listing::default();
    let mut at = 0;
    // whether the command just before is a line's
    let mut is_fresh = false;
    loop {
        let refuse = |question, place| Err(Refusal::answered(question as u64, place as u64, tape));
        let rest = &tape[at..];
        let width = match rest.first() {
            Some(&(LINE_AT | LINE | MARKS | TOKEN..=0x17 | END)) => width(rest),
            _ => return refuse(Question::NoCommand, at),
        };
        let Some(command) = width.and_then(|w| rest.get(..w)) else { return refuse(Question::CutOff, at) };
        match command[0] {
            LINE_AT | LINE => {
                let (indent, address) = (command[command.len() - 1], (command[0] == LINE_AT).then(|| number(&command[1..9])));
                if indent > 63 {
                    return refuse(Question::BeyondLimits, at);
                }
                listing.lines.push(Line { address, indent, ..Line::default() });
            }
            MARKS => {
                let (low, high) = (number(&command[1..9]), number(&command[9..17]));
                match listing.lines.last_mut() {
                    Some(line) if is_fresh && low <= high => line.marks = Some((low, high)),
                    _ => return refuse(Question::TokenBeforeLine, at),
                }
            }
            END if at + 1 == tape.len() => return Ok(listing),
            END => return refuse(Question::AfterEnd, at),
            byte => {
                let (kind, text) = (Kind::ALL[usize::from(byte - TOKEN)], &command[3..]);
                let Some(line) = listing.lines.last_mut() else { return refuse(Question::TokenBeforeLine, at) };
                if text.is_empty() || kind == Kind::Number && text.len() > 24 {
                    return refuse(Question::BeyondLimits, at);
                }
                if let Some(offset) = text.iter().position(|b| !(0x20..=0x7E).contains(b)) {
                    return refuse(Question::NotPrintable, at + 3 + offset);
                }
                line.tokens.push(Token { kind, text: text.iter().map(|&b| char::from(b)).collect() });
            }
        }
        is_fresh = matches!(command[0], LINE_AT | LINE);
        at += command.len();
    }
}

/// The number that some bytes are, the lowest first.
fn number(bytes: &[u8]) -> u64 {
    bytes.iter().rev().fold(0, |sum, &b| sum << 8 | u64::from(b))
}

/// How many bytes the command has that begins here, in either form of the tape; none where no command begins or its length is cut off.
fn width(rest: &[u8]) -> Option<usize> {
    Some(match *rest.first()? {
        LINE_AT => 10,
        LINE => 2,
        MARKS => 17,
        LINE_OFFSET => 6,
        MARKS_OFFSET | BASE => 9,
        TOKEN..=0x17 => 3 + usize::from(u16::from_le_bytes([*rest.get(1)?, *rest.get(2)?])),
        END => 1,
        _ => return None,
    })
}

/// The numbers of the line and of the token that an offset of a tape lies in.
pub(crate) fn locate(tape: &[u8], place: usize) -> (Option<usize>, Option<usize>) {
    let is_based = tape.first() == Some(&BASE);
    let (mut line, mut token) = (None, None);
    let mut at = 0;
    while at <= place && at < tape.len() {
        match (tape[at], is_based) {
            (LINE, _) | (LINE_AT, false) | (LINE_OFFSET, true) => (line, token) = (Some(line.map_or(0, |n| n + 1)), None),
            (TOKEN..=0x17, _) => token = line.and(Some(token.map_or(0, |n: usize| n + 1))),
            (MARKS, false) | (MARKS_OFFSET, true) => {}
            (BASE, true) if at == 0 => {}
            (END, _) => return (None, None),
            // no command: its place is no token's
            _ => return (line, None),
        }
        match width(&tape[at..]) {
            Some(width) if at + width <= place => at += width,
            _ => return (line, token),
        }
    }
    (line, None)
}

/// What a call left at the front of its output, or the refusal.
fn told(answer: ffi::Answer, tape: &[u8], mut out: Vec<u8>) -> Result<Vec<u8>, Refusal> {
    if answer.refusal != 0 {
        return Err(Refusal::answered(answer.refusal, answer.place, tape));
    }
    out.truncate(answer.value as usize);
    Ok(out)
}

/// The tape for C's edition of 2018 of one for that of 2024: [`crate::to_2018`].
///
/// # Errors
///
/// The tape's questions, and 13.
pub fn to_2018(tape: &[u8]) -> Result<Vec<u8>, Refusal> {
    let mut out = vec![0; tape.len()];
    told(ffi::to_2018(tape, &mut out), tape, out)
}

/// The tape for C's edition of 2024 of one for that of 2018: [`crate::to_2024`].
///
/// # Errors
///
/// The tape's questions, and 12.
pub fn to_2024(tape: &[u8]) -> Result<Vec<u8>, Refusal> {
    let mut out = vec![0; tape.len()];
    told(ffi::to_2024(tape, &mut out), tape, out)
}

/// The tape by offset from a load address: [`crate::to_offsets`].
///
/// # Errors
///
/// The tape's questions, and 18.
pub fn to_offsets(tape: &[u8], base: u64) -> Result<Vec<u8>, Refusal> {
    let mut out = vec![0; ffi::OFFSETS_OUTPUT];
    told(ffi::to_offsets(base, tape, &mut out), tape, out)
}

/// The tape of a tape by offset: [`crate::from_offsets`].
///
/// # Errors
///
/// 19, 4 of the base, the tape's questions, and 18.
pub fn from_offsets(tape: &[u8]) -> Result<Vec<u8>, Refusal> {
    let mut out = vec![0; ffi::OFFSETS_OUTPUT];
    told(ffi::from_offsets(tape, &mut out), tape, out)
}

/// The tape of the most laborious listing of so many lines: [`crate::laborious`].
///
/// # Errors
///
/// 17: more than 256 lines.
pub fn laborious(lines: u64) -> Result<Vec<u8>, Refusal> {
    let mut out = vec![0; ffi::OUTPUT];
    told(ffi::laborious(lines, &mut out), &[], out)
}

/// The smallest start value of a register with which a formula returns the wanted value: [`crate::start_value`], but on the caller's stack.
///
/// # Errors
///
/// The tape's questions, then 14, 16, 15; [`Refusal::LongName`] before the call.
pub fn start_value(tape: &[u8], chosen: &str, values: &[(&str, u64)], wanted: u64) -> Result<u64, Refusal> {
    let mut list = Vec::new();
    for (entry, (name, value)) in values.iter().enumerate() {
        list.push(u8::try_from(name.len()).map_err(|_| Refusal::LongName { entry })?);
        list.extend(name.as_bytes());
        list.extend(value.to_le_bytes());
    }
    let answer = ffi::start_value(tape, chosen.as_bytes(), &list, wanted);
    if answer.refusal != 0 {
        return Err(Refusal::answered(answer.refusal, answer.place, tape));
    }
    Ok(answer.value)
}

/// The set of the cautions of each line of the cleaned listing, a bit for each kind ([`crate::Caution::bit`]): [`crate::cautions`], but on
/// the caller's stack.
///
/// # Errors
///
/// As [`crate::Cleaner::clean_tape`].
pub fn cautions(tape: &[u8], settings: Settings) -> Result<Vec<u16>, Refusal> {
    let (mut work_a, mut work_b) = (vec![0; ffi::WORK], vec![0; ffi::WORK]);
    let mut out = vec![0; ffi::CAUTIONS_OUTPUT];
    let answer = ffi::cautions(settings.lent(), tape, &mut work_a, &mut work_b, &mut out);
    let sets = told(answer, tape, out)?;
    Ok(sets.chunks_exact(2).map(|set| u16::from_le_bytes([set[0], set[1]])).collect())
}
