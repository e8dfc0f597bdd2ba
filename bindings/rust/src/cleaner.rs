//! The cleaning, with buffers that are made once.
use crate::ffi;
use crate::listing::Listing;
use crate::refusal::Refusal;
use crate::settings::Settings;
use crate::stack::with_stack;
use crate::tape;

/// A cleaned listing and what was done to it.
#[derive(Debug, Clone, PartialEq, Eq)]
pub struct Cleaned {
    /// The cleaned listing. Each of its lines has marks where any of the lines that came into it has an address or marks.
    pub listing: Listing,
    /// What was done.
    pub counts: Counts,
}

/// The tape of a cleaned listing and what was done to it.
#[derive(Debug, Clone, Copy, PartialEq, Eq)]
pub struct CleanedTape<'a> {
    /// The tape, in the cleaner's own buffer.
    pub tape: &'a [u8],
    /// What was done.
    pub counts: Counts,
}

/// What a cleaning did.
#[derive(Debug, Clone, Copy, PartialEq, Eq)]
pub struct Counts {
    /// Rounds and attempts.
    pub tally: Tally,
    /// Lines removed: the attempts that succeeded.
    pub removed: u64,
    /// Results of calls that were cut because nothing reads them.
    pub cut: u64,
}

/// The attempts of a cleaning, to join a line into a later one.
#[derive(Debug, Clone, Copy, PartialEq, Eq)]
pub enum Tally {
    /// At most three rounds were asked for.
    Three {
        /// The attempts of each round, 0 of one that was not made.
        attempts: [u64; 3],
    },
    /// Rounds were made until one changed nothing ([`Settings::settle`]).
    Settled {
        /// How many, the last included.
        rounds: u64,
        /// The attempts of all of them.
        attempts: u64,
    },
}

impl Counts {
    /// The attempts of all rounds.
    pub fn attempts(&self) -> u64 {
        match self.tally {
            Tally::Three { attempts } => attempts.iter().sum(),
            Tally::Settled { attempts, .. } => attempts,
        }
    }
}

/// Cleans a listing, with buffers and on a thread of its own, which has enough stack. To make these takes longer than to clean a short listing:
/// whoever cleans many makes one [`Cleaner`] on a thread that has enough.
///
/// # Errors
///
/// [`Refusal`]: why the listing is not cleaned.
///
/// # Panics
///
/// Where the system makes no thread.
pub fn clean(listing: &Listing, settings: Settings) -> Result<Cleaned, Refusal> {
    Cleaner::new().clean_on_thread(listing, settings)
}

/// The buffers of a cleaning, about 190,000 bytes, for one call after the other. It is `Send`: a thread has its own.
#[derive(Debug, Clone)]
pub struct Cleaner {
    tape: Vec<u8>,
    work_a: Box<[u8]>,
    work_b: Box<[u8]>,
    out: Box<[u8]>,
}

impl Default for Cleaner {
    fn default() -> Cleaner {
        Cleaner::new()
    }
}

impl Cleaner {
    /// The longest tape of an accepted listing, in bytes.
    const MOST: usize = 34_561;

    /// Makes the buffers.
    pub fn new() -> Cleaner {
        let zeros = |length: usize| vec![0; length].into_boxed_slice();
        Cleaner { tape: Vec::with_capacity(Cleaner::MOST), work_a: zeros(ffi::WORK), work_b: zeros(ffi::WORK), out: zeros(ffi::OUTPUT) }
    }

    /// Cleans a listing on the caller's stack. It takes about 118,000 bytes of it, with the profile up to 3.7 million.
    ///
    /// # Errors
    ///
    /// [`Refusal`]: why the listing is not cleaned.
    pub fn clean(&mut self, listing: &Listing, settings: Settings) -> Result<Cleaned, Refusal> {
        let mut tape = std::mem::take(&mut self.tape);
        let cleaned = tape::write_to(listing, &mut tape).and_then(|()| self.clean_tape(&tape, settings).map(CleanedTape::read));
        self.tape = tape;
        cleaned
    }

    /// Cleans a listing on a thread of its own that has enough stack ([`crate::STACK`]), for threads on which less may be left.
    ///
    /// # Errors
    ///
    /// [`Refusal`]: why the listing is not cleaned.
    ///
    /// # Panics
    ///
    /// Where the system makes no thread.
    pub fn clean_on_thread(&mut self, listing: &Listing, settings: Settings) -> Result<Cleaned, Refusal> {
        with_stack(|| self.clean(listing, settings))
    }

    /// Cleans the listing of a tape, as [`Cleaner::clean`]. The new tape stands in a buffer of the cleaner until its next call.
    ///
    /// # Errors
    ///
    /// [`Refusal`]: why the tape is not cleaned.
    pub fn clean_tape(&mut self, tape: &[u8], settings: Settings) -> Result<CleanedTape<'_>, Refusal> {
        let report = ffi::clean(settings.lent(), tape, &mut self.work_a, &mut self.work_b, &mut self.out);
        if report.refusal != 0 {
            return Err(Refusal::answered(report.refusal, report.place, tape));
        }
        let tally = if settings.settle {
            Tally::Settled { rounds: report.rounds, attempts: report.all_attempts }
        } else {
            Tally::Three { attempts: report.attempts }
        };
        Ok(CleanedTape { tape: &self.out[..report.length as usize], counts: Counts { tally, removed: report.removed, cut: report.cut } })
    }
}

impl CleanedTape<'_> {
    /// The listing of the tape.
    pub fn read(self) -> Cleaned {
        let listing = tape::read(self.tape).expect("the library writes the tape of a listing");
        Cleaned { listing, counts: self.counts }
    }
}
