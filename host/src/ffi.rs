//! The library's calls as Rust sees them, and safe functions over them; host/include/honduvi.h says more of each. This file needs
//! no other of host/, and is of Rust's edition 2021. The functions are made where they are called, so that a program that calls
//! none needs no library.
#![allow(dead_code)]

/// What best increases, slacks and judging return: number 0 with the gate count (0 where a list is judged) and the saving (0 with
/// slacks), or a refusal with its place; all else is 0.
#[derive(Clone, Copy, Debug, Default, PartialEq, Eq)]
#[repr(C)]
pub struct Answer {
    pub number: u32,
    pub place: u32,
    pub saving: u64,
}

/// What the curve returns: number 0 with start, saving at start and the count of pairs, or a refusal with its place; all else is 0.
#[derive(Clone, Copy, Debug, Default, PartialEq, Eq)]
#[repr(C)]
pub struct CurveAnswer {
    pub number: u32,
    pub place: u32,
    pub start: u32,
    pub pairs: u32,
    pub at_start: u64,
}

/// What the fewest ticks return: number 0 with the ticks, or a refusal with its place; all else is 0.
#[derive(Clone, Copy, Debug, Default, PartialEq, Eq)]
#[repr(C)]
pub struct TicksAnswer {
    pub number: u32,
    pub place: u32,
    pub ticks: u64,
}

extern "C" {
    fn honduvi_best_increases(file: *const u8, file_len: usize, increases: *mut u8, increases_len: usize) -> Answer;
    fn honduvi_slacks(file: *const u8, file_len: usize, slacks: *mut i32, slacks_len: usize) -> Answer;
    fn honduvi_curve(
        file: *const u8,
        file_len: usize,
        widths: *mut u32,
        widths_len: usize,
        gains: *mut u64,
        gains_len: usize,
    ) -> CurveAnswer;
    fn honduvi_judge(file: *const u8, file_len: usize, increases: *const u32, increases_len: usize) -> Answer;
    fn honduvi_fewest_ticks(file: *const u8, file_len: usize, wanted: u64) -> TicksAnswer;
}

// SAFETY of every call: it reads the file's bytes, reads or writes the lent slices, all within the lengths handed over, and keeps
// none of them.

/// The best increases of a block file, four bytes each, high byte first.
#[inline]
pub fn best_increases(file: &[u8], increases: &mut [u8]) -> Answer {
    // SAFETY: as above.
    unsafe { honduvi_best_increases(file.as_ptr(), file.len(), increases.as_mut_ptr(), increases.len()) }
}

/// The slacks of its gates.
#[inline]
pub fn slacks(file: &[u8], slacks: &mut [i32]) -> Answer {
    // SAFETY: as above.
    unsafe { honduvi_slacks(file.as_ptr(), file.len(), slacks.as_mut_ptr(), slacks.len()) }
}

/// Its curve, the pairs to two slices.
#[inline]
pub fn curve(file: &[u8], widths: &mut [u32], gains: &mut [u64]) -> CurveAnswer {
    let (widths_len, gains_len) = (widths.len(), gains.len());
    // SAFETY: as above.
    unsafe { honduvi_curve(file.as_ptr(), file.len(), widths.as_mut_ptr(), widths_len, gains.as_mut_ptr(), gains_len) }
}

/// The verdict on a list of increases.
#[inline]
pub fn judge(file: &[u8], increases: &[u32]) -> Answer {
    // SAFETY: as above.
    unsafe { honduvi_judge(file.as_ptr(), file.len(), increases.as_ptr(), increases.len()) }
}

/// The fewest ticks for a wanted saving.
#[inline]
pub fn fewest_ticks(file: &[u8], wanted: u64) -> TicksAnswer {
    // SAFETY: as above.
    unsafe { honduvi_fewest_ticks(file.as_ptr(), file.len(), wanted) }
}
