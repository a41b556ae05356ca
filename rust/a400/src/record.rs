//! The record: its length, the order of its words and their names. All that
//! is Rust here takes them from this module, but for `paper`, which depends on
//! nothing; C takes them from `a400.h`, and a test holds the two together.

/// The number of words in a record.
pub const RECORD_WORDS: usize = 14;

// The place of each register.
pub const A: usize = 0;
pub const B: usize = 1;
pub const X: usize = 2;
pub const Y: usize = 3;
pub const P: usize = 4;
pub const E: usize = 5;
pub const O: usize = 6;
pub const WMAP: usize = 7;
pub const IMAP: usize = 8;
pub const VIOLATION: usize = 9;
pub const INTERRUPT: usize = 10;
pub const TRAP: usize = 11;
pub const SWITCHES: usize = 12;
pub const LIGHTS: usize = 13;

/// The name of each register, by its place.
pub const NAMES: [&str; RECORD_WORDS] =
    ["A", "B", "X", "Y", "P", "E", "O", "WMAP", "IMAP", "violation", "interrupt", "trap", "switches", "lights"];

/// The registers by name.
#[derive(Clone, Copy, Debug, PartialEq, Eq)]
pub struct Registers {
    pub a: u16,
    pub b: u16,
    pub x: u16,
    pub y: u16,
    pub p: u16,
    pub e: u16,
    pub o: u16,
    pub wmap: u16,
    pub imap: u16,
    pub violation: u16,
    pub interrupt: u16,
    pub trap: u16,
    pub switches: u16,
    pub lights: u16,
}

impl Registers {
    /// The registers of a record.
    pub fn of_record(record: &[u16; RECORD_WORDS]) -> Registers {
        Registers {
            a: record[A],
            b: record[B],
            x: record[X],
            y: record[Y],
            p: record[P],
            e: record[E],
            o: record[O],
            wmap: record[WMAP],
            imap: record[IMAP],
            violation: record[VIOLATION],
            interrupt: record[INTERRUPT],
            trap: record[TRAP],
            switches: record[SWITCHES],
            lights: record[LIGHTS],
        }
    }

    /// The record of the registers.
    pub fn record(&self) -> [u16; RECORD_WORDS] {
        let mut record = [0; RECORD_WORDS];
        record[A] = self.a;
        record[B] = self.b;
        record[X] = self.x;
        record[Y] = self.y;
        record[P] = self.p;
        record[E] = self.e;
        record[O] = self.o;
        record[WMAP] = self.wmap;
        record[IMAP] = self.imap;
        record[VIOLATION] = self.violation;
        record[INTERRUPT] = self.interrupt;
        record[TRAP] = self.trap;
        record[SWITCHES] = self.switches;
        record[LIGHTS] = self.lights;
        record
    }
}
