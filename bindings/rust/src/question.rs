//! The questions that the library asks, by their numbers (docs/TAPE.md), and what a "no" means.
use std::fmt;

macro_rules! questions {
    ($($name:ident = $number:literal, $meaning:literal;)*) => {
        /// A question of the library that was answered "no".
        #[derive(Debug, Clone, Copy, PartialEq, Eq, Hash)]
        #[non_exhaustive]
        pub enum Question {
            $(#[doc = concat!("Number ", stringify!($number), ": ", $meaning, ".")] $name = $number,)*
        }

        impl Question {
            /// All of them, by number.
            pub const ALL: &'static [Question] = &[$(Question::$name),*];

            /// What was wrong, in words.
            pub fn meaning(self) -> &'static str {
                match self { $(Question::$name => $meaning,)* }
            }
        }
    };
}

questions! {
    BadConvention = 1, "the convention is not 0, 1 or 2";
    TooLittleRoom = 2, "what was lent to write to is too short";
    NoCommand = 3, "the tape ends where a command must begin, or the byte there begins none";
    CutOff = 4, "the command runs past the end of the tape";
    TokenBeforeLine = 5, "a token before any line, or marks not directly after a line's command or with their lowest above their highest";
    BeyondLimits = 6, "an indent above 63, an empty text, or a Number of more than 24 bytes";
    NotPrintable = 7, "a byte of a text is outside 20 to 7E (hexadecimal)";
    AfterEnd = 8, "bytes follow the end of the tape";
    BadEdition = 9, "the number edition is not 0 or 1";
    TooMany = 10, "more than 256 lines or 1,024 tokens";
    TooMuchText = 11, "more than 24,576 bytes of text";
    NewKeyword = 12, "a Symbol is a keyword of C's edition of 2024";
    NewNumber = 13, "a Number is binary or has quotes, and C's edition of 2024 does not read it";
    NotStraight = 14, "the listing is no straight piece: this line is not as the profile wants it, or there is no line";
    NoStartValue = 15, "no start value makes the formula return the wanted value";
    BadNames = 16, "the chosen or a listed name is no 64-bit register, or the list of names ends inside an entry";
    TooManyLines = 17, "more than 256 lines were asked for";
    OutOfReach = 18, "an address is below the base or 2^32 or more above it, or base and offset are together above 2^64 - 1";
    NoBase = 19, "the tape does not begin with 06 and a base";
    NotHeld = 20, "no state is held under this name";
    StoreFull = 21, "the name is new, and eight states are held";
    StoreDamaged = 22, "the store is damaged in this cell";
}

impl Question {
    /// Its number.
    pub fn number(self) -> u8 {
        self as u8
    }

    /// Whether its place is an offset in the tape.
    pub(crate) fn is_of_the_tape(self) -> bool {
        matches!(self.number(), 3..=8 | 10..=13 | 18)
    }

    /// The question of a number that the library answered.
    pub(crate) fn answered(number: u64) -> Question {
        *Question::ALL
            .iter()
            .find(|q| u64::from(q.number()) == number)
            .unwrap_or_else(|| panic!("the library answered number {number}, which version {} does not have", crate::VERSION))
    }
}

impl fmt::Display for Question {
    fn fmt(&self, f: &mut fmt::Formatter<'_>) -> fmt::Result {
        f.pad(self.meaning())
    }
}
