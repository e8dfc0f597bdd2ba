//! Cleans listings of pseudocode (C-like lines lifted from machine code) with Puchkewa's static library, every function of which is proved
//! to meet its contract. This package is not proved: it puts listings on tapes, calls the library and reads its answers.
//!
//! ```
//! use puchkewa::{clean, Kind, Line, Listing, Settings};
//!
//! // rax = 5;
//! // rbx = rax + 4;
//! let raw = Listing { lines: vec![
//!     Line::new(1).with(Kind::Register, "rax").with(Kind::Punct, " = ").with(Kind::Number, "5").with(Kind::Punct, ";"),
//!     Line::new(1).with(Kind::Register, "rbx").with(Kind::Punct, " = ").with(Kind::Register, "rax").with(Kind::Punct, " + ")
//!         .with(Kind::Number, "4").with(Kind::Punct, ";"),
//! ] };
//! let cleaned = clean(&raw, Settings::default())?;
//! assert_eq!(cleaned.listing.lines[0].text(), "rbx = 9;");
//! assert_eq!(cleaned.counts.removed, 1);
//! # Ok::<(), puchkewa::Refusal>(())
//! ```
//!
//! # What to do with a refusal
//!
//! The library takes at most 256 lines, 1,024 tokens, 24,576 bytes of text, and texts of the bytes 20 to 7E (hexadecimal). A refused
//! listing is left as it was: show it, or go on with it, uncleaned. [`Refusal`] says why, and which line and token earned it. Never clean a
//! listing in pieces: whether a value is read again is told by all lines to the listing's end, and the end of a piece would count as the
//! end of every value.
//!
//! # Stack
//!
//! A cleaning takes about 118,000 bytes of stack (measured). With [`Settings::profile`], and in a search for a start value, it takes 144
//! bytes more for each level of nested brackets: up to 3.7 million. [`clean`], [`cautions`] and [`start_value`] run on a thread of their own
//! that has enough ([`STACK`]). The calls of [`Cleaner`] and of [`tape`] run on the caller's stack. The main thread has enough as a rule (8 MiB), a
//! thread that Rust makes (2 MiB) has enough without the profile. Where less may be left, use [`Cleaner::clean_on_thread`] or
//! [`with_stack`].
//!
//! # Threads
//!
//! The library keeps no state. Threads may call it at the same time, each with a [`Cleaner`] of its own, which is `Send`.
#![deny(missing_docs)]
#![deny(unsafe_code)]

mod calls;
mod caution;
mod cleaner;
#[allow(unsafe_code)]
mod ffi;
mod listing;
mod question;
mod refusal;
mod settings;
mod stack;
mod store;
pub mod tape;

pub use calls::{cautions, from_offsets, laborious, start_value, to_2018, to_2024, to_offsets};
pub use caution::Caution;
pub use cleaner::{clean, Cleaned, CleanedTape, Cleaner, Counts, Tally};
pub use listing::{Kind, Line, Listing, Token};
pub use question::Question;
pub use refusal::{Fault, Refusal};
pub use settings::{Convention, Edition, Settings};
pub use stack::{with_stack, STACK};
pub use store::{Name, Store};

/// The version of the library that this package is for.
pub const VERSION: &str = env!("CARGO_PKG_VERSION");
