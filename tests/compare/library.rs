//! The static library's entries.

use crate::door::Report;

/// `struct puchkewa_settings` of include/puchkewa.h.
#[repr(C)]
#[derive(Clone, Copy)]
pub struct Settings {
    pub convention: u8,
    pub settle: bool,
    pub edition: u8,
    pub parts: bool,
    pub profile: bool,
}

/// `struct puchkewa_answer`.
#[repr(C)]
#[derive(Clone, Copy)]
pub struct Answer {
    pub refusal: u64,
    pub place: u64,
    pub value: u64,
}

extern "C" {
    fn puchkewa_laborious(lines: u64, out: *mut u8, out_length: usize) -> Answer;
    fn puchkewa_clean(
        settings: Settings,
        tape: *const u8,
        tape_length: usize,
        work_a: *mut u8,
        work_a_length: usize,
        work_b: *mut u8,
        work_b_length: usize,
        out: *mut u8,
        out_length: usize,
    ) -> Report;
    fn puchkewa_cautions(
        settings: Settings,
        tape: *const u8,
        tape_length: usize,
        work_a: *mut u8,
        work_a_length: usize,
        work_b: *mut u8,
        work_b_length: usize,
        out: *mut u8,
        out_length: usize,
    ) -> Answer;
}

pub fn clean(settings: Settings, tape: &[u8], work_a: &mut [u8], work_b: &mut [u8], out: &mut [u8]) -> Report {
    // SAFETY: each pointer and length is of a slice, and the slices that are written to do not overlap.
    unsafe {
        puchkewa_clean(
            settings,
            tape.as_ptr(),
            tape.len(),
            work_a.as_mut_ptr(),
            work_a.len(),
            work_b.as_mut_ptr(),
            work_b.len(),
            out.as_mut_ptr(),
            out.len(),
        )
    }
}

pub fn laborious(lines: u64, out: &mut [u8]) -> Answer {
    // SAFETY: pointer and length are of a slice.
    unsafe { puchkewa_laborious(lines, out.as_mut_ptr(), out.len()) }
}

#[allow(dead_code)] // of bench
pub fn cautions(settings: Settings, tape: &[u8], work_a: &mut [u8], work_b: &mut [u8], out: &mut [u8]) -> Answer {
    // SAFETY: each pointer and length is of a slice, and the slices that are written to do not overlap.
    unsafe {
        puchkewa_cautions(
            settings,
            tape.as_ptr(),
            tape.len(),
            work_a.as_mut_ptr(),
            work_a.len(),
            work_b.as_mut_ptr(),
            work_b.len(),
            out.as_mut_ptr(),
            out.len(),
        )
    }
}
