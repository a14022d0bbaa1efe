//! The functions of libplanner.a and what crosses to them, as include/danivomel.h has it.

use crate::{Deviation, Limits, Pairs, Range, Refusal, Spread};

/// What levelling answers; here and below a refusal's number 0 says that there is none.
#[repr(C)]
pub struct ForeignLevelled {
    pub refusal: Refusal,
    pub level: u64,
    pub deviation: Deviation,
    pub spread: Spread,
    pub pairs: Pairs,
}

/// What reading answers.
#[repr(C)]
pub struct ForeignCounts {
    pub refusal: Refusal,
    pub units: usize,
    pub groups: usize,
}

/// What settling answers.
#[repr(C)]
pub struct ForeignSettled {
    pub refusal: Refusal,
    pub passes: u64,
}

/// What reporting answers.
#[repr(C)]
pub struct ForeignReported {
    pub refusal: Refusal,
    pub passes: u64,
    pub length: usize,
}

/// What writing answers.
#[repr(C)]
pub struct ForeignWritten {
    pub refusal: Refusal,
    pub length: usize,
}

extern "C" {
    pub fn danivomel_level(
        lows: *const u64,
        lows_count: usize,
        highs: *const u64,
        highs_count: usize,
        marks: *const u64,
        marks_count: usize,
        total: u64,
        plan: *mut u64,
        plan_count: usize,
    ) -> ForeignLevelled;

    pub fn danivomel_narrow(
        lows: *mut u64,
        lows_count: usize,
        highs: *mut u64,
        highs_count: usize,
        marks: *const u64,
        marks_count: usize,
        total: u64,
        limits: Limits,
    ) -> Refusal;

    pub fn danivomel_read(text: *const u8, text_count: usize, table: *mut Range, table_count: usize) -> ForeignCounts;

    pub fn danivomel_settle(
        text: *const u8,
        text_count: usize,
        table: *mut Range,
        table_count: usize,
        scratch: *mut u64,
        scratch_count: usize,
    ) -> ForeignSettled;

    pub fn danivomel_report(
        text: *const u8,
        text_count: usize,
        table: *mut Range,
        table_count: usize,
        scratch: *mut u64,
        scratch_count: usize,
        buffer: *mut u8,
        buffer_count: usize,
    ) -> ForeignReported;

    pub fn danivomel_write(
        text: *const u8,
        text_count: usize,
        table: *const Range,
        table_count: usize,
        buffer: *mut u8,
        buffer_count: usize,
    ) -> ForeignWritten;
}
