//! The functions of the archive as they are, each with slices in place of pointers and lengths: a refusal's number comes back, 0 for none, and an answer goes
//! over the front of what is lent for it. Slices may be too short here, which is refused with 7. All `unsafe` of the crate stands here.
//!
//! What the functions ask of a caller (client/include/caydubeesh.h) holds of every call below: a slice's pointer is never null, is aligned and reaches over
//! its length, and what is lent with `&mut` overlaps nothing else. They ask nothing of the numbers.

use std::ffi::{c_char, CStr};

mod archive {
    use std::ffi::c_char;

    extern "C" {
        pub fn caydubeesh_words(number: u64) -> *const c_char;
        pub fn caydubeesh_version() -> *const c_char;
        pub fn caydubeesh_read(
            file: *const u8,
            file_length: usize,
            record: *mut i64,
            record_length: usize,
            columns: *mut i64,
            columns_length: usize,
            rows: *mut i64,
            rows_length: usize,
            slots: *mut i64,
            slots_length: usize,
            block: *mut usize,
        ) -> u64;
        pub fn caydubeesh_check(
            record: *const i64,
            record_length: usize,
            columns: *const i64,
            columns_length: usize,
            rows: *const i64,
            rows_length: usize,
            slots: *const i64,
            slots_length: usize,
            block: *mut usize,
        ) -> u64;
        pub fn caydubeesh_verdict(
            record: *const i64,
            record_length: usize,
            columns: *const i64,
            columns_length: usize,
            rows: *const i64,
            rows_length: usize,
            slots: *const i64,
            slots_length: usize,
            verdict: *mut i64,
            verdict_length: usize,
            block: *mut usize,
        ) -> u64;
        pub fn caydubeesh_zone_table(
            record: *const i64,
            record_length: usize,
            columns: *const i64,
            columns_length: usize,
            rows: *const i64,
            rows_length: usize,
            slots: *const i64,
            slots_length: usize,
            marks: *const i64,
            marks_length: usize,
            lines: *mut i64,
            lines_length: usize,
            block: *mut usize,
        ) -> u64;
        pub fn caydubeesh_report(
            record: *const i64,
            record_length: usize,
            columns: *const i64,
            columns_length: usize,
            rows: *const i64,
            rows_length: usize,
            slots: *const i64,
            slots_length: usize,
            number: usize,
            metres: *mut f64,
            metres_length: usize,
            block: *mut usize,
        ) -> u64;
        pub fn caydubeesh_tick(metres: f64, tick: *mut i64) -> u64;
        pub fn caydubeesh_floor_tick(metres: f64, tick: *mut i64) -> u64;
        pub fn caydubeesh_metres(tick: i64, metres: *mut f64) -> u64;
    }
}

/// Reads a case file.
pub fn read(file: &[u8], record: &mut [i64], columns: &mut [i64], rows: &mut [i64], slots: &mut [i64], block: &mut usize) -> u64 {
    // SAFETY: each pointer and length are those of one slice, and the five that are written are lent with `&mut`.
    unsafe {
        archive::caydubeesh_read(
            file.as_ptr(),
            file.len(),
            record.as_mut_ptr(),
            record.len(),
            columns.as_mut_ptr(),
            columns.len(),
            rows.as_mut_ptr(),
            rows.len(),
            slots.as_mut_ptr(),
            slots.len(),
            block,
        )
    }
}

/// Judges a case.
pub fn check(record: &[i64], columns: &[i64], rows: &[i64], slots: &[i64], block: &mut usize) -> u64 {
    // SAFETY: each pointer and length are those of one slice, and `block`, which is written, is lent with `&mut`.
    unsafe {
        archive::caydubeesh_check(
            record.as_ptr(),
            record.len(),
            columns.as_ptr(),
            columns.len(),
            rows.as_ptr(),
            rows.len(),
            slots.as_ptr(),
            slots.len(),
            block,
        )
    }
}

/// The verdict on the new heads of a case.
pub fn verdict(record: &[i64], columns: &[i64], rows: &[i64], slots: &[i64], verdict: &mut [i64], block: &mut usize) -> u64 {
    // SAFETY: each pointer and length are those of one slice, and the two that are written are lent with `&mut`.
    unsafe {
        archive::caydubeesh_verdict(
            record.as_ptr(),
            record.len(),
            columns.as_ptr(),
            columns.len(),
            rows.as_ptr(),
            rows.len(),
            slots.as_ptr(),
            slots.len(),
            verdict.as_mut_ptr(),
            verdict.len(),
            block,
        )
    }
}

/// The water account of a zone.
pub fn zone_table(
    record: &[i64],
    columns: &[i64],
    rows: &[i64],
    slots: &[i64],
    marks: &[i64],
    lines: &mut [i64],
    block: &mut usize,
) -> u64 {
    // SAFETY: each pointer and length are those of one slice, and the two that are written are lent with `&mut`.
    unsafe {
        archive::caydubeesh_zone_table(
            record.as_ptr(),
            record.len(),
            columns.as_ptr(),
            columns.len(),
            rows.as_ptr(),
            rows.len(),
            slots.as_ptr(),
            slots.len(),
            marks.as_ptr(),
            marks.len(),
            lines.as_mut_ptr(),
            lines.len(),
            block,
        )
    }
}

/// The report of one block.
pub fn report(record: &[i64], columns: &[i64], rows: &[i64], slots: &[i64], number: usize, metres: &mut [f64], block: &mut usize) -> u64 {
    // SAFETY: each pointer and length are those of one slice, and the two that are written are lent with `&mut`.
    unsafe {
        archive::caydubeesh_report(
            record.as_ptr(),
            record.len(),
            columns.as_ptr(),
            columns.len(),
            rows.as_ptr(),
            rows.len(),
            slots.as_ptr(),
            slots.len(),
            number,
            metres.as_mut_ptr(),
            metres.len(),
            block,
        )
    }
}

/// The tick nearest to a level in metres.
pub fn tick(metres: f64, tick: &mut i64) -> u64 {
    // SAFETY: `tick` is lent with `&mut`.
    unsafe { archive::caydubeesh_tick(metres, tick) }
}

/// The tick nearest to a sea floor in metres.
pub fn floor_tick(metres: f64, tick: &mut i64) -> u64 {
    // SAFETY: `tick` is lent with `&mut`.
    unsafe { archive::caydubeesh_floor_tick(metres, tick) }
}

/// A tick in metres.
pub fn metres(tick: i64, metres: &mut f64) -> u64 {
    // SAFETY: `metres` is lent with `&mut`.
    unsafe { archive::caydubeesh_metres(tick, metres) }
}

/// A text of the archive's.
///
/// # Safety
/// The pointer is one that `caydubeesh_words` or `caydubeesh_version` answers: never null, to a text in UTF-8 that ends with a zero and is never changed.
unsafe fn text(start: *const c_char) -> &'static str {
    // SAFETY: as above.
    unsafe { CStr::from_ptr(start) }.to_str().unwrap_or("")
}

/// What a refusal's number or a verdict's code means.
pub fn words(number: u64) -> &'static str {
    // SAFETY: the function takes any number, and its answer is what `text` asks for.
    unsafe { text(archive::caydubeesh_words(number)) }
}

/// The version of the archive.
pub fn version() -> &'static str {
    // SAFETY: the answer is what `text` asks for.
    unsafe { text(archive::caydubeesh_version()) }
}
