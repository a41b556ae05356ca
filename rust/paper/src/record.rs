//! The order of a record's words.

pub const RECORD_WORDS: usize = 14;

pub const A: usize = 0;
pub const B: usize = 1;
pub const X: usize = 2;
pub const Y: usize = 3;
pub const P: usize = 4;
pub const E: usize = 5;
pub const O: usize = 6;
pub const WMAP: usize = 7;
pub const IMAP: usize = 8;
pub const VIOLATION: usize = 9;
pub const INTERRUPT: usize = 10;
pub const TRAP: usize = 11;
pub const SWITCHES: usize = 12;
pub const LIGHTS: usize = 13;
