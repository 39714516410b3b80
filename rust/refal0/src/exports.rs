//! The engine's exports, each behind a function that takes slices and gives the answer's words as they are.
//!
//! They are inlined, so that a program needs only those exports that it uses.

use crate::FUNCTIONS;

unsafe extern "C" {
    fn refal0_read(table: *const u8, table_length: usize, answer: *mut u64);
    fn refal0_list(table: *const u8, table_length: usize, listing: *mut u8, listing_length: usize, answer: *mut u64);
    fn refal0_translate(table: *const u8, table_length: usize, code: *mut u32, code_length: usize, answer: *mut u64);
    fn refal0_flat(table: *const u8, table_length: usize, answer: *mut u64);
}

/// The exports that run code: they differ in what they answer besides.
macro_rules! running {
    ($($export:ident($($besides:ident: $pointer:ty)?);)*) => {
        unsafe extern "C" {
            $(fn $export(
                code: *const u32,
                code_length: usize,
                start: usize,
                text: *const u8,
                text_length: usize,
                stack_in: *mut u8,
                stack_in_length: usize,
                stack_out: *mut u8,
                stack_out_length: usize,
                record: *mut u8,
                record_length: usize,
                allowance: u32,
                answer: *mut u64,
                $($besides: $pointer)?
            );)*
        }
    };
}

running! {
    refal0_run();
    refal0_profile(counts: *mut u64);
}

/// Calls one of them with slices.
macro_rules! call_running {
    ($export:ident($code:ident, $start:ident, $text:ident, $cells:ident, $allowance:ident, $answer:ident
        $(, $besides:ident)?)) => {
        // SAFETY: pointers and lengths are those of the slices, for the time of the call
        unsafe {
            $export(
                $code.as_ptr(),
                $code.len(),
                $start,
                $text.as_ptr(),
                $text.len(),
                $cells.stack_in.as_mut_ptr(),
                $cells.stack_in.len(),
                $cells.stack_out.as_mut_ptr(),
                $cells.stack_out.len(),
                $cells.record.as_mut_ptr(),
                $cells.record.len(),
                $allowance,
                $answer.as_mut_ptr(),
                $($besides.as_mut_ptr())?
            );
        }
    };
}

/// Answers number, place, functions.
#[inline]
pub fn read(table: &[u8], answer: &mut [u64; 3]) {
    // SAFETY: pointers and lengths are those of the slices, for the time of the call
    unsafe { refal0_read(table.as_ptr(), table.len(), answer.as_mut_ptr()) }
}

/// Answers number, place, length of the listing.
#[inline]
pub fn list(table: &[u8], listing: &mut [u8], answer: &mut [u64; 3]) {
    // SAFETY: pointers and lengths are those of the slices, for the time of the call
    unsafe {
        refal0_list(table.as_ptr(), table.len(), listing.as_mut_ptr(), listing.len(), answer.as_mut_ptr());
    }
}

/// Answers number, place, functions.
#[inline]
pub fn flat(table: &[u8], answer: &mut [u64; 3]) {
    // SAFETY: pointers and lengths are those of the slices, for the time of the call
    unsafe { refal0_flat(table.as_ptr(), table.len(), answer.as_mut_ptr()) }
}

/// Answers number, place, words of code.
#[inline]
pub fn translate(table: &[u8], code: &mut [u32], answer: &mut [u64; 3]) {
    // SAFETY: pointers and lengths are those of the slices, for the time of the call
    unsafe { refal0_translate(table.as_ptr(), table.len(), code.as_mut_ptr(), code.len(), answer.as_mut_ptr()) }
}

/// The cells and bytes lent for a run.
pub struct Cells<'c> {
    pub stack_in: &'c mut [u8],
    pub stack_out: &'c mut [u8],
    pub record: &'c mut [u8],
}

/// Answers answer, function, steps, length of the text, length of the emissions.
#[inline]
pub fn run(code: &[u32], start: usize, text: &[u8], cells: Cells, allowance: u32, answer: &mut [u64; 5]) {
    call_running!(refal0_run(code, start, text, cells, allowance, answer));
}

/// A run that answers the functions' applications besides.
#[inline]
pub fn profile(
    code: &[u32],
    start: usize,
    text: &[u8],
    cells: Cells,
    allowance: u32,
    answer: &mut [u64; 5],
    counts: &mut [u64; FUNCTIONS],
) {
    call_running!(refal0_profile(code, start, text, cells, allowance, answer, counts));
}
