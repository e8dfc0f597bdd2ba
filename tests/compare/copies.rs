// The two copies of pseudo_opt.rs, what they lean on, and the counters; included at the root of each program.

mod counting;
mod edition;
mod reference;

include!("stand_ins.rs");

/// What the counting copy calls.
pub mod probe {
    use crate::pseudo::PseudoLine;
    use std::cell::Cell;

    #[derive(Debug, Clone, Copy, Default, PartialEq, Eq)]
    pub struct Counts {
        pub rounds: usize,
        /// of each of the first three rounds, and of all
        pub attempts: [u64; 3],
        pub all: u64,
        pub removed: u64,
        pub cuts: u64,
    }

    thread_local! {
        static COUNTS: Cell<Counts> = const { Cell::new(Counts { rounds: 0, attempts: [0; 3], all: 0, removed: 0, cuts: 0 }) };
        static LIMIT: Cell<usize> = const { Cell::new(3) };
        static EDITION: Cell<u8> = const { Cell::new(0) };
        static PARTS: Cell<bool> = const { Cell::new(false) };
    }

    fn change(f: impl FnOnce(&mut Counts)) {
        COUNTS.with(|c| {
            let mut n = c.get();
            f(&mut n);
            c.set(n);
        });
    }

    pub fn round() {
        change(|c| c.rounds += 1);
    }

    pub fn attempt(removed: bool, _lines: &[PseudoLine]) -> bool {
        change(|c| {
            if let Some(n) = c.attempts.get_mut(c.rounds - 1) {
                *n += 1;
            }
            c.all += 1;
            c.removed += removed as u64;
        });
        removed
    }

    pub fn cut(_lines: &[PseudoLine]) {
        change(|c| c.cuts += 1);
    }

    /// How many rounds the counting copy makes at most.
    pub fn limit() -> usize {
        LIMIT.get()
    }

    /// From now on it makes as many as it takes, or three.
    pub fn settle(yes: bool) {
        LIMIT.set(if yes { usize::MAX } else { 3 });
    }

    /// The edition by which the counting copy reads numbers.
    pub fn edition() -> u8 {
        EDITION.get()
    }

    /// From now on it reads by this one.
    pub fn read_by(edition: u8) {
        EDITION.set(edition);
    }

    /// From now on it tells parts apart, or does not.
    pub fn tell_parts(yes: bool) {
        PARTS.set(yes);
    }

    /// Request M-104: whether the used name, of less than 32 bits, is another part than the assigned one; each with its width.
    pub fn other_part(used: (&str, u32), assigned: (&str, u32)) -> bool {
        let part = |(name, width): (&str, u32)| (width, ["ah", "bh", "ch", "dh"].contains(&name));
        PARTS.get() && used.1 < 32 && part(used) != part(assigned)
    }

    /// What was counted since the last call.
    pub fn take() -> Counts {
        COUNTS.take()
    }
}
