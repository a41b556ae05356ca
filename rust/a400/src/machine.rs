//! `Machine`, which owns what the library is lent.

use crate::{fresh, run, step, Registers, Reply, PAGE_REGISTERS, PAGE_WORDS, RECORD_WORDS};

/// A machine that owns its memory, page registers and record.
pub struct Machine {
    record: [u16; RECORD_WORDS],
    pages: Vec<u16>,
    memory: Vec<u16>,
}

impl Machine {
    /// A fresh machine over this memory. Every map names page n for page n,
    /// unprotected. A memory of a wrong length is refused at the first step.
    pub fn new(memory: Vec<u16>) -> Machine {
        let mut record = [0; RECORD_WORDS];
        fresh(&mut record);
        let pages = (0..PAGE_REGISTERS).map(|register| (register % 32) as u16).collect();
        Machine { record, pages, memory }
    }

    /// Carries out one instruction.
    pub fn step(&mut self) -> Reply {
        Reply::of(step(&mut self.record, &mut self.pages, &mut self.memory))
    }

    /// Carries out up to `budget` instructions. The number is that of the
    /// steps that were completed or met a violation.
    pub fn run(&mut self, budget: u32) -> (Reply, u32) {
        let mut count = [0];
        let reply = run(&mut self.record, &mut self.pages, &mut self.memory, budget, &mut count);
        (Reply::of(reply), count[0])
    }

    /// The registers as they are.
    pub fn registers(&self) -> Registers {
        Registers::of_record(&self.record)
    }

    /// Values out of range are refused at the next step.
    pub fn set_registers(&mut self, registers: Registers) {
        self.record = registers.record();
    }

    /// The words of memory, by physical index.
    pub fn memory(&self) -> &[u16] {
        &self.memory
    }

    /// The words of memory, to be changed.
    pub fn memory_mut(&mut self) -> &mut [u16] {
        &mut self.memory
    }

    /// The page registers: that of page n of map m at 32 m + n.
    pub fn pages(&self) -> &[u16] {
        &self.pages
    }

    /// The page registers, to be changed.
    pub fn pages_mut(&mut self) -> &mut [u16] {
        &mut self.pages
    }

    /// The word at an address of the Execute map, for showing: A and B at 0
    /// and 1, and none where the page is absent. Protection is not looked at.
    pub fn word_at(&self, address: u16) -> Option<u16> {
        let registers = self.registers();
        match address & 0o77777 {
            0 => Some(registers.a),
            1 => Some(registers.b),
            address => {
                let map = usize::from(registers.wmap & 31);
                let page = self.pages[map * 32 + usize::from(address >> 10)] & 0o37777;
                let index = usize::from(page) * PAGE_WORDS + usize::from(address & 0o1777);
                self.memory.get(index).copied()
            }
        }
    }
}
