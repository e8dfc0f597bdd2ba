//! Why a finished line may mean something else than the raw lines that it came from.
use std::fmt;

macro_rules! kinds {
    ($($name:ident = $bit:literal, $sentence:literal;)*) => {
        /// A known way in which a finished line may mean something else than the raw lines that it came from. A line without one is one in
        /// which none of these ways was found; it is no proof that the line means the same.
        #[derive(Debug, Clone, Copy, PartialEq, Eq, Hash, PartialOrd, Ord)]
        #[non_exhaustive]
        pub enum Caution {
            $(#[doc = $sentence] $name = $bit,)*
        }

        impl Caution {
            /// All of them, by their bits.
            pub const ALL: &'static [Caution] = &[$(Caution::$name),*];

            /// What to mind, in words.
            pub fn sentence(self) -> &'static str {
                match self { $(Caution::$name => $sentence,)* }
            }
        }
    };
}

kinds! {
    OddForm = 1, "A line here, or one that the value may reach, is not looked into (inline assembly, an instruction by name, two statements, `&&`, a loop other than do .. while, a line entered from elsewhere): compare with the raw lines yourself.";
    StillRead = 2, "The register was read elsewhere too, on this line or another: there it now holds an older value.";
    Overwritten = 4, "A call stands between the value's assignment and its use here, which may have overwritten the register.";
    CallMoved = 8, "A call is now made in another order, after other reads, or only under a condition.";
    ReadMoved = 16, "A value is now read later, in another order, or only under a condition: mind what calls change, and device registers.";
    OtherWidth = 32, "The value went through a part of a register, or is now computed or compared at another width or sign.";
    OtherText = 64, "Read as C, the line's text groups otherwise than the joined expression, or writes what was only read, or counts elements for bytes.";
    OddNumber = 128, "A number is large, or not spelt plainly: C may read it, or add it up, otherwise.";
    Slot = 256, "A stack slot was taken for a register; it is memory, and pointers and calls may reach it.";
    HandedOver = 512, "The value may be handed over unseen: to a call that does not spell its arguments, or back to the caller (the result, and the registers that calls preserve).";
}

impl Caution {
    /// Its bit in a set.
    pub fn bit(self) -> u16 {
        self as u16
    }

    /// The kinds of a set.
    pub(crate) fn of(set: u16) -> Vec<Caution> {
        Caution::ALL.iter().copied().filter(|kind| set & kind.bit() != 0).collect()
    }
}

impl fmt::Display for Caution {
    fn fmt(&self, f: &mut fmt::Formatter<'_>) -> fmt::Result {
        f.pad(self.sentence())
    }
}
