//! The archive's operations, under names that no other library has. A slice is a pointer and a length; nothing checks these declarations against the archive
//! but the tests.

use crate::Refusal;

extern "C" {
    #[link_name = "keshmirun_check"]
    pub fn check(table: *const u8, table_len: usize) -> u64;

    #[link_name = "keshmirun_start"]
    pub fn start(table: *const u8, table_len: usize, values: *const u8, values_len: usize, out: *mut u8, out_len: usize) -> u64;

    #[link_name = "keshmirun_sheet"]
    pub fn sheet(
        table: *const u8,
        table_len: usize,
        marking: *const u8,
        marking_len: usize,
        guards: *const u8,
        guards_len: usize,
        bounds: *const u8,
        bounds_len: usize,
        out: *mut u8,
        out_len: usize,
    ) -> u64;

    #[link_name = "keshmirun_pick"]
    pub fn pick(
        table: *const u8,
        table_len: usize,
        marking: *const u8,
        marking_len: usize,
        guards: *const u8,
        guards_len: usize,
        bounds: *const u8,
        bounds_len: usize,
        node: u8,
        out: *mut u8,
        out_len: usize,
    ) -> u64;

    #[link_name = "keshmirun_why"]
    pub fn why(
        table: *const u8,
        table_len: usize,
        marking: *const u8,
        marking_len: usize,
        guards: *const u8,
        guards_len: usize,
        bounds: *const u8,
        bounds_len: usize,
        node: u8,
        out: *mut u8,
        out_len: usize,
    ) -> u64;

    #[link_name = "keshmirun_step"]
    pub fn step(
        table: *const u8,
        table_len: usize,
        marking: *const u8,
        marking_len: usize,
        guards: *const u8,
        guards_len: usize,
        bounds: *const u8,
        bounds_len: usize,
        choice: *const u8,
        choice_len: usize,
        out: *mut u8,
        out_len: usize,
    ) -> u64;

    #[link_name = "keshmirun_finish"]
    pub fn finish(
        table: *const u8,
        table_len: usize,
        marking: *const u8,
        marking_len: usize,
        action: u8,
        values: *const u8,
        values_len: usize,
        out: *mut u8,
        out_len: usize,
    ) -> u64;
}

/// The answer word: `refusal * 2^48 + place * 2^32 + length`.
pub(crate) fn unpacked(word: u64) -> Result<usize, Refusal> {
    match (word >> 48) as u8 {
        0 => Ok((word & 0xffff_ffff) as usize),
        number => Err(Refusal { number, place: (word >> 32) as u8 }),
    }
}
