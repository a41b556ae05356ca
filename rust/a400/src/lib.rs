//! Safe Rust over the proved library.
//!
//! Here are the five calls as the library has them, over slices. `record` says
//! what the words of a record are, `words` what instructions are; `Reply` has
//! the paper's numbers by name, and `Machine` owns its memory, page registers
//! and record.

mod machine;
pub mod record;
mod reply;
pub mod words;

pub use machine::Machine;
pub use record::{Registers, RECORD_WORDS};
pub use reply::Reply;

/// The number of page registers: 32 maps of 32.
pub const PAGE_REGISTERS: usize = 1024;
/// The number of words in a page.
pub const PAGE_WORDS: usize = 1024;
/// The most pages that may be lent.
pub const MOST_PAGES: usize = 16_384;
/// The largest budget of a run.
pub const MOST_STEPS: u32 = 1_000_000;

mod raw {
    extern "C" {
        pub fn a400_fresh(record: *mut u16, record_len: usize) -> u32;
        pub fn a400_step(
            record: *mut u16,
            record_len: usize,
            pages: *mut u16,
            pages_len: usize,
            memory: *mut u16,
            memory_len: usize,
        ) -> u32;
        pub fn a400_run(
            record: *mut u16,
            record_len: usize,
            pages: *mut u16,
            pages_len: usize,
            memory: *mut u16,
            memory_len: usize,
            budget: u32,
            count: *mut u32,
            count_len: usize,
        ) -> u32;
        pub fn a400_read(word: u16, fields: *mut u16, fields_len: usize) -> u32;
        pub fn a400_write(fields: *const u16, fields_len: usize, word: *mut u16, word_len: usize) -> u32;
    }
}

/// Makes the record fresh: zero throughout except that P is 2.
pub fn fresh(record: &mut [u16]) -> u32 {
    // SAFETY: the pointer and the length are those of one slice.
    unsafe { raw::a400_fresh(record.as_mut_ptr(), record.len()) }
}

/// Carries out one instruction.
pub fn step(record: &mut [u16], pages: &mut [u16], memory: &mut [u16]) -> u32 {
    // SAFETY: each pointer and length are those of one slice, and the slices
    // do not overlap, as they are borrowed for writing.
    unsafe {
        raw::a400_step(
            record.as_mut_ptr(),
            record.len(),
            pages.as_mut_ptr(),
            pages.len(),
            memory.as_mut_ptr(),
            memory.len(),
        )
    }
}

/// Carries out up to `budget` instructions. `count` has one number, which is
/// set to the number of steps that replied 0 or 1.
pub fn run(record: &mut [u16], pages: &mut [u16], memory: &mut [u16], budget: u32, count: &mut [u32]) -> u32 {
    // SAFETY: as in `step`.
    unsafe {
        raw::a400_run(
            record.as_mut_ptr(),
            record.len(),
            pages.as_mut_ptr(),
            pages.len(),
            memory.as_mut_ptr(),
            memory.len(),
            budget,
            count.as_mut_ptr(),
            count.len(),
        )
    }
}

/// Reads a word as an instruction, into its fields.
pub fn read(word: u16, fields: &mut [u16]) -> u32 {
    // SAFETY: the pointer and the length are those of one slice.
    unsafe { raw::a400_read(word, fields.as_mut_ptr(), fields.len()) }
}

/// Writes the word of an instruction from its fields. `word` has one word.
pub fn write(fields: &[u16], word: &mut [u16]) -> u32 {
    // SAFETY: each pointer and length are those of one slice, and the slices
    // do not overlap, as one is borrowed for writing.
    unsafe { raw::a400_write(fields.as_ptr(), fields.len(), word.as_mut_ptr(), word.len()) }
}
