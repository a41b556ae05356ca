//! The rules of the paper (01), carried out directly.
//!
//! In this file: the lent machine, a step and a run, the calls over plain words.
//! What a word reads as is in `instruction.rs`, accesses are in `access.rs`, and
//! what instructions do in `basic.rs`, `extended.rs` and `blocks.rs`. Random
//! machines for tests are in `scenes.rs`.

mod access;
mod basic;
mod blocks;
mod extended;
pub mod instruction;
mod record;
pub mod scenes;

use instruction::{Instruction, Operation};
use record::*;

pub const PAGE_REGISTERS: usize = 1024;
pub const PAGE_WORDS: usize = 1024;
pub const MOST_PAGES: usize = 16_384;
pub const MOST_STEPS: u32 = 1_000_000;

const SIGN: u16 = 0o100000;
const ADDRESS: u16 = 0o77777;
const PROTECTION: u16 = 0o100000;

// What can keep a step from being completed, with the paper's number.
#[derive(Clone, Copy, Debug, PartialEq, Eq)]
#[repr(u8)]
pub enum Trouble {
    Violation = 1,
    InputOutput = 2,
    Endless = 3,
    Absent = 4,
    InRegisters = 5,
    NotBuilt = 6,
    TrapCell = 7,
}

type Met<T> = Result<T, Trouble>;

pub struct Machine<'m> {
    pub a: u16,
    pub b: u16,
    pub x: u16,
    pub y: u16,
    pub p: u16,
    pub e: bool,
    pub o: bool,
    pub wmap: u16,
    pub imap: u16,
    pub violation: u16,
    pub interrupt: u16,
    pub trap: u16,
    pub switches: u16,
    pub lights: u16,
    pub pages: &'m [u16; PAGE_REGISTERS],
    pub memory: &'m mut [u16],
}

// ---------------------------------------------------------------------------
// A step and a run.

impl<'m> Machine<'m> {
    #[inline]
    pub fn step(&mut self) -> u32 {
        match self.carry_out() {
            Ok(()) => 0,
            Err(trouble) => {
                if trouble == Trouble::Violation {
                    self.violated();
                }
                trouble as u32
            }
        }
    }

    // The reply and the number of steps that replied 0 or 1.
    pub fn run(&mut self, budget: u32) -> (u32, u32) {
        for count in 0..budget {
            match self.step() {
                0 => {}
                1 => return (1, count + 1),
                reply => return (reply, count),
            }
        }
        (0, budget)
    }

    // The word that the next step carries out, if it can be read.
    pub fn next_word(&self) -> Option<u16> {
        self.read(if self.trap != 0 { 7 } else { self.p }).ok()
    }

    fn violated(&mut self) {
        self.violation = self.p;
        self.interrupt = 7;
        self.imap = self.wmap;
        self.wmap = self.wmap & 0o76000 | (self.wmap & 31) << 5;
        self.trap = 7;
    }

    // No register or memory word changes before the last test has passed.
    fn carry_out(&mut self) -> Met<()> {
        if self.trap != 0 {
            return self.trap_cell();
        }
        let word = self.read(self.p)?;
        match instruction::read(word) {
            Instruction::Memory { operation, indirect, current, offset } => {
                let page = if current { self.p & 0o76000 } else { 0 };
                self.memory_reference(operation, indirect, page | offset)
            }
            Instruction::Shift(shift) => {
                self.shift_rotate(shift);
                Ok(())
            }
            Instruction::Alter(alter) => {
                self.alter_skip(alter);
                Ok(())
            }
            Instruction::InputOutput { operation, bit_11, bit_9, select } => {
                self.input_output(operation, bit_11, bit_9, select)
            }
            Instruction::Long { kind, places } => {
                self.long_shift(kind, u32::from(places));
                Ok(())
            }
            Instruction::Extended(code) => self.extended(code),
            Instruction::NotBuilt(word) => {
                if instruction::privileged(word) && self.wmap & PROTECTION != 0 {
                    Err(Trouble::Violation)
                } else {
                    Err(Trouble::NotBuilt)
                }
            }
        }
    }

    fn trap_cell(&mut self) -> Met<()> {
        let word = self.read(7)?;
        let Instruction::Memory { operation, indirect, offset, .. } = instruction::read(word) else {
            return Err(Trouble::TrapCell);
        };
        let start = if indirect { offset | SIGN } else { offset };
        match operation {
            Operation::Jmp => self.p = self.follow(start)?,
            Operation::Jsb => {
                let address = self.follow(start)?;
                self.store(address, self.p)?;
                self.p = address.wrapping_add(1) & ADDRESS;
            }
            _ => return Err(Trouble::TrapCell),
        }
        self.trap = 0;
        Ok(())
    }
}

// ---------------------------------------------------------------------------
// The calls over plain words.

impl<'m> Machine<'m> {
    // None for a bad call.
    #[inline]
    pub fn lend(record: &[u16], pages: &'m [u16], memory: &'m mut [u16]) -> Option<Machine<'m>> {
        // A copy: all words are then read at once, which short runs gain by.
        let record: [u16; RECORD_WORDS] = record.try_into().ok()?;
        let pages: &[u16; PAGE_REGISTERS] = pages.try_into().ok()?;
        let whole = memory.len().is_multiple_of(PAGE_WORDS);
        if !whole || memory.is_empty() || memory.len() > MOST_PAGES * PAGE_WORDS {
            return None;
        }
        let good = record[P] <= ADDRESS
            && record[E] <= 1
            && record[O] <= 1
            && record[VIOLATION] <= ADDRESS
            && (record[INTERRUPT] == 0 || record[INTERRUPT] == 7)
            && (record[TRAP] == 0 || record[TRAP] == 7)
            && record[SWITCHES] <= 255
            && record[LIGHTS] <= 255
            && !(record[TRAP] != 0 && record[WMAP] & PROTECTION != 0);
        if !good {
            return None;
        }
        Some(Machine {
            a: record[A],
            b: record[B],
            x: record[X],
            y: record[Y],
            p: record[P],
            e: record[E] != 0,
            o: record[O] != 0,
            wmap: record[WMAP],
            imap: record[IMAP],
            violation: record[VIOLATION],
            interrupt: record[INTERRUPT],
            trap: record[TRAP],
            switches: record[SWITCHES],
            lights: record[LIGHTS],
            pages,
            memory,
        })
    }

    #[inline]
    pub fn record(&self) -> [u16; RECORD_WORDS] {
        let mut record = [0; RECORD_WORDS];
        record[A] = self.a;
        record[B] = self.b;
        record[X] = self.x;
        record[Y] = self.y;
        record[P] = self.p;
        record[E] = self.e.into();
        record[O] = self.o.into();
        record[WMAP] = self.wmap;
        record[IMAP] = self.imap;
        record[VIOLATION] = self.violation;
        record[INTERRUPT] = self.interrupt;
        record[TRAP] = self.trap;
        record[SWITCHES] = self.switches;
        record[LIGHTS] = self.lights;
        record
    }
}

pub fn fresh(record: &mut [u16]) -> u32 {
    if record.len() != RECORD_WORDS {
        return 8;
    }
    record.fill(0);
    record[P] = 2;
    0
}

pub fn step(record: &mut [u16], pages: &mut [u16], memory: &mut [u16]) -> u32 {
    let Some(mut machine) = Machine::lend(record, pages, memory) else {
        return 8;
    };
    let reply = machine.step();
    record.copy_from_slice(&machine.record());
    reply
}

pub fn run(record: &mut [u16], pages: &mut [u16], memory: &mut [u16], budget: u32, count: &mut [u32]) -> u32 {
    let [count] = count else {
        return 8;
    };
    *count = 0;
    if budget > MOST_STEPS {
        return 8;
    }
    let Some(mut machine) = Machine::lend(record, pages, memory) else {
        return 8;
    };
    let (reply, steps) = machine.run(budget);
    record.copy_from_slice(&machine.record());
    *count = steps;
    reply
}
