//! The settings of a cleaning.
use crate::ffi;

/// The calling convention of the listed code: which registers a call overwrites.
#[derive(Debug, Clone, Copy, PartialEq, Eq, Hash, Default)]
pub enum Convention {
    /// 32 bits: rax rcx rdx and their parts.
    Bits32 = 0,
    /// 64 bits, System V: rax rcx rdx rsi rdi r8 r9 r10 r11.
    #[default]
    SystemV64 = 1,
    /// 64 bits, Windows: rax rcx rdx r8 r9 r10 r11.
    Windows64 = 2,
}

/// How numbers are read.
#[derive(Debug, Clone, Copy, PartialEq, Eq, Hash, Default)]
pub enum Edition {
    /// By C's edition of 2018, as far as the Rust that is followed reads it.
    #[default]
    C2018 = 0,
    /// By C's edition of 2024.
    C2024 = 1,
}

/// The settings of a cleaning. Name those that you set and add `..Settings::default()`: a later version may have more.
///
/// By default: System V, at most three rounds, numbers by the edition of 2018, parts not told apart, no profile. These are the command's,
/// too.
#[derive(Debug, Clone, Copy, PartialEq, Eq, Hash, Default)]
pub struct Settings {
    /// The calling convention.
    pub convention: Convention,
    /// Whether rounds are made until one changes nothing; otherwise at most three.
    pub settle: bool,
    /// How numbers are read.
    pub edition: Edition,
    /// Whether a value assigned to a part of a register is joined into a use below 32 bits only if that is the same part: ah is not al.
    pub parts: bool,
    /// Whether the listing must be a straight piece (assignments of sums and differences to 64-bit registers, and a return), whose returned
    /// value is kept. Such a cleaning can take much stack: see the package's page.
    pub profile: bool,
}

impl Settings {
    pub(crate) fn lent(self) -> ffi::Settings {
        ffi::Settings {
            convention: self.convention as u8,
            settle: self.settle,
            edition: self.edition as u8,
            parts: self.parts,
            profile: self.profile,
        }
    }
}
