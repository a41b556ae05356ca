// Accesses to memory and registers. Each tests protection before presence.

use super::instruction::{Data, Index, Register};
use super::{Machine, Met, Trouble, ADDRESS, PAGE_REGISTERS, PROTECTION, SIGN};

// What must be clear in a page register for each kind of access.
pub(super) const TO_READ: u16 = 0o100000;
pub(super) const TO_STORE: u16 = 0o040000;
pub(super) const TO_CHANGE_A_BYTE: u16 = TO_READ | TO_STORE;

// Where an access in the Execute map ends.
#[derive(Clone, Copy)]
pub(super) enum Place {
    A,
    B,
    Word(usize),
}

impl<'m> Machine<'m> {
    pub(super) fn execute_map(&self) -> u16 {
        self.wmap & 31
    }

    pub(super) fn data_map(&self, data: Data) -> u16 {
        match data {
            Data::One => self.wmap >> 5 & 31,
            Data::Two => self.wmap >> 10 & 31,
        }
    }

    #[inline(always)]
    pub(super) fn page_register(&self, map: u16, page: u16) -> u16 {
        self.pages[usize::from(map << 5 | page) & (PAGE_REGISTERS - 1)]
    }

    #[inline(always)]
    pub(super) fn closed(&self, register: u16, rights: u16) -> bool {
        self.wmap & PROTECTION != 0 && register & rights != 0
    }

    // The index in memory of an address, whatever its protection.
    #[inline(always)]
    pub(super) fn index(register: u16, address: u16) -> usize {
        usize::from(register & 0o37777) << 10 | usize::from(address & 0o1777)
    }

    #[inline(always)]
    pub(super) fn reach(&self, map: u16, address: u16, rights: u16) -> Met<usize> {
        let register = self.page_register(map, address >> 10);
        if self.closed(register, rights) {
            return Err(Trouble::Violation);
        }
        let index = Self::index(register, address);
        if index < self.memory.len() {
            Ok(index)
        } else {
            Err(Trouble::Absent)
        }
    }

    // A word of the Execute map. Words 0 and 1 are A and B.
    #[inline(always)]
    pub(super) fn read(&self, address: u16) -> Met<u16> {
        match address {
            0 => Ok(self.a),
            1 => Ok(self.b),
            _ => Ok(self.memory[self.reach(self.execute_map(), address, TO_READ)?]),
        }
    }

    #[inline(always)]
    pub(super) fn place_to_store(&self, address: u16) -> Met<Place> {
        Ok(match address {
            0 => Place::A,
            1 => Place::B,
            _ => Place::Word(self.reach(self.execute_map(), address, TO_STORE)?),
        })
    }

    #[inline(always)]
    pub(super) fn put(&mut self, place: Place, value: u16) {
        match place {
            Place::A => self.a = value,
            Place::B => self.b = value,
            Place::Word(index) => self.memory[index] = value,
        }
    }

    #[inline(always)]
    pub(super) fn store(&mut self, address: u16, value: u16) -> Met<()> {
        let place = self.place_to_store(address)?;
        self.put(place, value);
        Ok(())
    }

    // Follows a chain. `word` is an address with bit 15 asking for a level.
    #[inline(always)]
    pub(super) fn follow(&self, word: u16) -> Met<u16> {
        if word & SIGN == 0 {
            return Ok(word);
        }
        self.follow_levels(word & ADDRESS)
    }

    pub(super) fn follow_levels(&self, first: u16) -> Met<u16> {
        let mut address = first;
        for _ in 0..32_768 {
            let word = self.read(address)?;
            address = word & ADDRESS;
            if word & SIGN == 0 {
                return Ok(address);
            }
        }
        Err(Trouble::Endless)
    }

    // The address that the second (1) or third (2) word of an instruction
    // comes to.
    pub(super) fn address_word(&self, which: u16) -> Met<u16> {
        let word = self.read(self.p.wrapping_add(which) & ADDRESS)?;
        self.follow(word)
    }

    pub(super) fn operand(&self) -> Met<u16> {
        let address = self.address_word(1)?;
        self.read(address)
    }

    #[inline(always)]
    pub(super) fn get(&self, register: Register) -> u16 {
        match register {
            Register::A => self.a,
            Register::B => self.b,
        }
    }

    #[inline(always)]
    pub(super) fn set(&mut self, register: Register, value: u16) {
        match register {
            Register::A => self.a = value,
            Register::B => self.b = value,
        }
    }

    pub(super) fn get_index(&self, index: Index) -> u16 {
        match index {
            Index::X => self.x,
            Index::Y => self.y,
        }
    }

    pub(super) fn set_index(&mut self, index: Index, value: u16) {
        match index {
            Index::X => self.x = value,
            Index::Y => self.y = value,
        }
    }

    #[inline(always)]
    pub(super) fn advance(&mut self, words: u16) {
        self.p = self.p.wrapping_add(words) & ADDRESS;
    }

    // Moves P past `words` words, and one more for a skip.
    #[inline(always)]
    pub(super) fn advance_or_skip(&mut self, words: u16, skip: bool) {
        self.advance(words + u16::from(skip));
    }

    // A sum that sets E on a carry and O on signed overflow.
    #[inline(always)]
    pub(super) fn sum(&mut self, left: u16, right: u16) -> u16 {
        let (sum, carry) = left.overflowing_add(right);
        let overflow = (left ^ sum) & (right ^ sum) & SIGN != 0;
        self.e |= carry;
        self.o |= overflow;
        sum
    }
}
