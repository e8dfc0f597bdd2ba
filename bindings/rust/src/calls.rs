//! The calls beside the cleaning, from listing to listing.
use crate::caution::Caution;
use crate::listing::Listing;
use crate::refusal::Refusal;
use crate::settings::Settings;
use crate::stack::with_stack;
use crate::tape;

/// A listing for C's edition of 2024 brought down to that of 2018: Numbers lose their quotes, and binary ones become hexadecimal.
///
/// # Errors
///
/// The tape's questions, and 13: a Number that is binary or has quotes, and is not read by the edition of 2024.
pub fn to_2018(listing: &Listing) -> Result<Listing, Refusal> {
    tape::read(&tape::to_2018(&tape::write(listing)?)?)
}

/// A listing for C's edition of 2018 as one for that of 2024: nothing changes.
///
/// # Errors
///
/// The tape's questions, and 12: a Symbol that is a new keyword.
pub fn to_2024(listing: &Listing) -> Result<Listing, Refusal> {
    tape::read(&tape::to_2024(&tape::write(listing)?)?)
}

/// The tape of a listing in the form by offset from a load address.
///
/// # Errors
///
/// The tape's questions, and 18: an address below the base, or 2^32 or more above it.
pub fn to_offsets(listing: &Listing, base: u64) -> Result<Vec<u8>, Refusal> {
    tape::to_offsets(&tape::write(listing)?, base)
}

/// The listing of a tape in the form by offset.
///
/// # Errors
///
/// 19: the tape is of the other form; 4 of a base that is cut off; the tape's questions; 18: base and offset are together above 2^64 - 1.
pub fn from_offsets(tape: &[u8]) -> Result<Listing, Refusal> {
    tape::read(&tape::from_offsets(tape)?)
}

/// The most laborious listing of so many lines: no listing of as many lines needs more attempts in its first round.
///
/// # Errors
///
/// 17: more than 256 lines.
pub fn laborious(lines: u64) -> Result<Listing, Refusal> {
    tape::read(&tape::laborious(lines)?)
}

/// The smallest value that the chosen register can start with so that a formula returns the wanted value, modulo 2^64.
///
/// `formula` is a straight piece, as for the profile. `values` says what other registers start with: one that is not named starts with 0,
/// of equal names the first decides, and one for the chosen register is ignored. It runs on a thread of its own that has enough stack.
///
/// # Errors
///
/// The tape's questions; 14: no straight piece; 16: a name that is no 64-bit register; 15: no start value does it. [`Refusal::LongName`]
/// before the call.
///
/// # Panics
///
/// Where the system makes no thread.
pub fn start_value(formula: &Listing, chosen: &str, values: &[(&str, u64)], wanted: u64) -> Result<u64, Refusal> {
    let tape = tape::write(formula)?;
    with_stack(|| tape::start_value(&tape, chosen, values, wanted))
}

/// The cautions of each line of the cleaned listing: the ways in which it may mean something else than the raw lines that it came from. It
/// cleans the listing under these settings, on a thread of its own that has enough stack. What a line without a caution means, [`Caution`]
/// says.
///
/// # Errors
///
/// As [`crate::clean`].
///
/// # Panics
///
/// Where the system makes no thread.
pub fn cautions(listing: &Listing, settings: Settings) -> Result<Vec<Vec<Caution>>, Refusal> {
    let tape = tape::write(listing)?;
    let sets = with_stack(|| tape::cautions(&tape, settings))?;
    Ok(sets.into_iter().map(Caution::of).collect())
}
