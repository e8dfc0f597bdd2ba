//! The library's functions, as include/puchkewa.h declares them, and a safe function around each. All unsafe code of the package is here.
//!
//! What each needs of its caller: pointers that are not null, each with so many bytes behind it as its length says, and no overlap of what
//! is written with anything else that is lent. Slices give all of that.

/// `struct puchkewa_settings`.
#[repr(C)]
#[derive(Clone, Copy)]
pub struct Settings {
    pub convention: u8,
    pub settle: bool,
    pub edition: u8,
    pub parts: bool,
    pub profile: bool,
}

/// `struct puchkewa_report`.
#[repr(C)]
#[derive(Clone, Copy)]
pub struct Report {
    pub refusal: u64,
    pub place: u64,
    pub length: u64,
    pub attempts: [u64; 3],
    pub removed: u64,
    pub cut: u64,
    pub rounds: u64,
    pub all_attempts: u64,
}

/// `struct puchkewa_answer`.
#[repr(C)]
#[derive(Clone, Copy)]
pub struct Answer {
    pub refusal: u64,
    pub place: u64,
    pub value: u64,
}

/// `PUCHKEWA_WORK`.
pub const WORK: usize = 49_152;
/// `PUCHKEWA_OUTPUT`.
pub const OUTPUT: usize = 59_137;
/// `PUCHKEWA_CAUTIONS_OUTPUT`.
pub const CAUTIONS_OUTPUT: usize = 512;
/// `PUCHKEWA_OFFSETS_OUTPUT`.
pub const OFFSETS_OUTPUT: usize = 59_146;
/// `PUCHKEWA_STORE`.
pub const STORE: usize = 524_288;
/// `PUCHKEWA_RESTORED`.
pub const RESTORED: usize = 65_523;

extern "C" {
    fn puchkewa_clean(
        settings: Settings,
        tape: *const u8,
        tape_length: usize,
        work_a: *mut u8,
        work_a_length: usize,
        work_b: *mut u8,
        work_b_length: usize,
        out: *mut u8,
        out_length: usize,
    ) -> Report;
    fn puchkewa_to_2018(tape: *const u8, tape_length: usize, out: *mut u8, out_length: usize) -> Answer;
    fn puchkewa_to_2024(tape: *const u8, tape_length: usize, out: *mut u8, out_length: usize) -> Answer;
    fn puchkewa_save(store: *mut u8, store_length: usize, name: *const u8, tape: *const u8, tape_length: usize) -> Answer;
    fn puchkewa_restore(store: *const u8, store_length: usize, name: *const u8, out: *mut u8, out_length: usize) -> Answer;
    fn puchkewa_delete(store: *mut u8, store_length: usize, name: *const u8) -> Answer;
    fn puchkewa_laborious(lines: u64, out: *mut u8, out_length: usize) -> Answer;
    fn puchkewa_start_value(
        tape: *const u8,
        tape_length: usize,
        chosen: *const u8,
        chosen_length: usize,
        values: *const u8,
        values_length: usize,
        wanted: u64,
    ) -> Answer;
    fn puchkewa_to_offsets(base: u64, tape: *const u8, tape_length: usize, out: *mut u8, out_length: usize) -> Answer;
    fn puchkewa_from_offsets(tape: *const u8, tape_length: usize, out: *mut u8, out_length: usize) -> Answer;
    fn puchkewa_cautions(
        settings: Settings,
        tape: *const u8,
        tape_length: usize,
        work_a: *mut u8,
        work_a_length: usize,
        work_b: *mut u8,
        work_b_length: usize,
        out: *mut u8,
        out_length: usize,
    ) -> Answer;
}

// SAFETY, of each call below: every pointer is a slice's or an array's and comes with its length; what is written is behind a `&mut`, so
// that it overlaps nothing else.

pub fn clean(settings: Settings, tape: &[u8], work_a: &mut [u8], work_b: &mut [u8], out: &mut [u8]) -> Report {
    let (a, b) = (work_a.as_mut_ptr(), work_b.as_mut_ptr());
    unsafe { puchkewa_clean(settings, tape.as_ptr(), tape.len(), a, work_a.len(), b, work_b.len(), out.as_mut_ptr(), out.len()) }
}

pub fn to_2018(tape: &[u8], out: &mut [u8]) -> Answer {
    unsafe { puchkewa_to_2018(tape.as_ptr(), tape.len(), out.as_mut_ptr(), out.len()) }
}

pub fn to_2024(tape: &[u8], out: &mut [u8]) -> Answer {
    unsafe { puchkewa_to_2024(tape.as_ptr(), tape.len(), out.as_mut_ptr(), out.len()) }
}

pub fn save(store: &mut [u8], name: &[u8; 8], tape: &[u8]) -> Answer {
    unsafe { puchkewa_save(store.as_mut_ptr(), store.len(), name.as_ptr(), tape.as_ptr(), tape.len()) }
}

pub fn restore(store: &[u8], name: &[u8; 8], out: &mut [u8]) -> Answer {
    unsafe { puchkewa_restore(store.as_ptr(), store.len(), name.as_ptr(), out.as_mut_ptr(), out.len()) }
}

pub fn delete(store: &mut [u8], name: &[u8; 8]) -> Answer {
    unsafe { puchkewa_delete(store.as_mut_ptr(), store.len(), name.as_ptr()) }
}

pub fn laborious(lines: u64, out: &mut [u8]) -> Answer {
    unsafe { puchkewa_laborious(lines, out.as_mut_ptr(), out.len()) }
}

pub fn start_value(tape: &[u8], chosen: &[u8], values: &[u8], wanted: u64) -> Answer {
    let (c, v) = (chosen.as_ptr(), values.as_ptr());
    unsafe { puchkewa_start_value(tape.as_ptr(), tape.len(), c, chosen.len(), v, values.len(), wanted) }
}

pub fn to_offsets(base: u64, tape: &[u8], out: &mut [u8]) -> Answer {
    unsafe { puchkewa_to_offsets(base, tape.as_ptr(), tape.len(), out.as_mut_ptr(), out.len()) }
}

pub fn from_offsets(tape: &[u8], out: &mut [u8]) -> Answer {
    unsafe { puchkewa_from_offsets(tape.as_ptr(), tape.len(), out.as_mut_ptr(), out.len()) }
}

pub fn cautions(settings: Settings, tape: &[u8], work_a: &mut [u8], work_b: &mut [u8], out: &mut [u8]) -> Answer {
    let (a, b) = (work_a.as_mut_ptr(), work_b.as_mut_ptr());
    unsafe { puchkewa_cautions(settings, tape.as_ptr(), tape.len(), a, work_a.len(), b, work_b.len(), out.as_mut_ptr(), out.len()) }
}
