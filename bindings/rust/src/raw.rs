//! The library's functions as bindings/c/strip.h declares them, and the parts of their answers.
use crate::{Refusal, Refused};

#[rustfmt::skip]
unsafe extern "C" {
    pub(crate) fn strip_read(text: *const u8, text_length: usize, scratch: *mut u16, scratch_length: usize, sheet: *mut u8,
        sheet_length: usize) -> u64;
    pub(crate) fn strip_check(text: *const u8, text_length: usize, sheet: *const u8, sheet_length: usize, list: u32) -> u64;
    pub(crate) fn strip_color(string: *const u8, length: usize) -> u64;
    pub(crate) fn strip_convert(text: *const u8, text_length: usize, sheet: *mut u8, sheet_length: usize) -> u64;
    pub(crate) fn strip_line(text: *const u8, text_length: usize, sheet: *const u8, sheet_length: usize, ordinal: u32, output: *mut u8,
        output_length: usize) -> u64;
    pub(crate) fn strip_write(text: *const u8, text_length: usize, sheet: *const u8, sheet_length: usize, out: *mut u8, out_length: usize,
        list: u32) -> u64;
    pub(crate) fn strip_plane(text: *const u8, text_length: usize, sheet: *const u8, sheet_length: usize, out: *mut u8,
        out_length: usize) -> u64;
    pub(crate) fn strip_unplane(text: *const u8, text_length: usize, planed: *const u8, planed_length: usize, out: *mut u8,
        out_length: usize) -> u64;
    pub(crate) fn strip_print(text: *const u8, text_length: usize, scratch: *mut u16, scratch_length: usize, sheet: *mut u8,
        sheet_length: usize, page: *mut u8, page_length: usize, list: u32) -> u64;
    pub(crate) fn strip_feed(totals: *mut u32, text: *const u8, text_length: usize, scratch: *mut u16, scratch_length: usize,
        sheet: *mut u8, sheet_length: usize, list: u32) -> u64;
    pub(crate) fn strip_mean(totals: *const u32, which: u32, out: *mut u32) -> u64;
    pub(crate) fn strip_lookup(store: *const u8, store_length: usize, chain: *const u8, chain_length: usize, name: *const u8,
        name_length: usize) -> u64;
    pub(crate) fn strip_order(book: *const u8, book_length: usize, out: *mut u8, out_length: usize) -> u64;
    pub(crate) fn strip_wave(kind: u32, phase: u32, heights: *mut i16, height_count: usize) -> u64;
}

/// An accepted answer as it is, or its refusal: the number times 2^56, plus the place.
pub(crate) fn accepted(answer: u64) -> Result<u64, Refused> {
    match (answer >> 56) as u8 {
        0 => Ok(answer),
        number => Err(refused(number, answer)),
    }
}

/// A refusal by its number, with the place that an answer has.
pub(crate) fn refused(number: u8, answer: u64) -> Refused {
    Refused { refusal: Refusal::of(number).expect("a refusal of the library"), place: value(answer) }
}

/// The value of an accepted answer, a length or a count.
pub(crate) fn accepted_value(answer: u64) -> Result<usize, Refused> {
    accepted(answer).map(value)
}

/// The value of an answer, below 2^32.
pub(crate) fn value(answer: u64) -> usize {
    (answer & 0xFFFF_FFFF) as usize
}

/// So many bits of an answer from a bit on.
pub(crate) fn bits(answer: u64, from: u32, count: u32) -> usize {
    (answer >> from & ((1 << count) - 1)) as usize
}
