//! A stand-in for liblayout.a, made from the reference: header, examples and comparisons are tried with it, so that a difference
//! found with the library itself lies in the library.

use reference::compare::calls;
use reference::ffi::{Answer, CurveAnswer, TicksAnswer};

/// The lent elements; the pointer may be null where there are none.
unsafe fn lent<'a, T>(from: *const T, count: usize) -> &'a [T] {
    if count == 0 {
        &[]
    } else {
        std::slice::from_raw_parts(from, count)
    }
}

/// Writes the elements to the front of lent memory.
unsafe fn write<T>(to: *mut T, elements: Vec<T>) {
    for (i, element) in elements.into_iter().enumerate() {
        to.add(i).write(element);
    }
}

/// # Safety
/// As host/include/honduvi.h asks.
#[no_mangle]
pub unsafe extern "C" fn honduvi_best_increases(
    file: *const u8,
    file_len: usize,
    increases: *mut u8,
    increases_len: usize,
) -> Answer {
    let (answer, bytes) = calls::best_increases(lent(file, file_len), increases_len);
    write(increases, bytes);
    answer
}

/// # Safety
/// As host/include/honduvi.h asks.
#[no_mangle]
pub unsafe extern "C" fn honduvi_slacks(
    file: *const u8,
    file_len: usize,
    slacks: *mut i32,
    slacks_len: usize,
) -> Answer {
    let (answer, elements) = calls::slacks(lent(file, file_len), slacks_len);
    write(slacks, elements);
    answer
}

/// # Safety
/// As host/include/honduvi.h asks.
#[no_mangle]
pub unsafe extern "C" fn honduvi_curve(
    file: *const u8,
    file_len: usize,
    widths: *mut u32,
    widths_len: usize,
    gains: *mut u64,
    gains_len: usize,
) -> CurveAnswer {
    let (answer, right_widths, right_gains) = calls::curve(lent(file, file_len), widths_len, gains_len);
    write(widths, right_widths);
    write(gains, right_gains);
    answer
}

/// # Safety
/// As host/include/honduvi.h asks.
#[no_mangle]
pub unsafe extern "C" fn honduvi_judge(
    file: *const u8,
    file_len: usize,
    increases: *const u32,
    increases_len: usize,
) -> Answer {
    calls::judge(lent(file, file_len), lent(increases, increases_len))
}

/// # Safety
/// As host/include/honduvi.h asks.
#[no_mangle]
pub unsafe extern "C" fn honduvi_fewest_ticks(file: *const u8, file_len: usize, wanted: u64) -> TicksAnswer {
    calls::fewest_ticks(lent(file, file_len), wanted)
}
