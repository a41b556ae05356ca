// Memory reference, shift/rotate, alter/skip, long shifts, input/output.

use super::instruction::{Alter, Long, Operation, Register, Shift};
use super::{Machine, Met, Trouble, ADDRESS, PROTECTION, SIGN};

impl<'m> Machine<'m> {
    #[inline(always)]
    pub(super) fn memory_reference(&mut self, operation: Operation, indirect: bool, first: u16) -> Met<()> {
        let address = if indirect { self.follow_levels(first)? } else { first };
        let mut skip = false;
        match operation {
            Operation::And => self.a &= self.read(address)?,
            Operation::Xor => self.a ^= self.read(address)?,
            Operation::Ior => self.a |= self.read(address)?,
            Operation::Jmp => {
                self.p = address;
                return Ok(());
            }
            Operation::Jsb => {
                self.store(address, self.p.wrapping_add(1) & ADDRESS)?;
                self.p = address.wrapping_add(1) & ADDRESS;
                return Ok(());
            }
            Operation::Isz => {
                let value = self.read(address)?.wrapping_add(1);
                self.store(address, value)?;
                skip = value == 0;
            }
            Operation::Ada => {
                let value = self.read(address)?;
                self.a = self.sum(self.a, value);
            }
            Operation::Adb => {
                let value = self.read(address)?;
                self.b = self.sum(self.b, value);
            }
            Operation::Cpa => skip = self.a != self.read(address)?,
            Operation::Cpb => skip = self.b != self.read(address)?,
            Operation::Lda => self.a = self.read(address)?,
            Operation::Ldb => self.b = self.read(address)?,
            Operation::Sta => self.store(address, self.a)?,
            Operation::Stb => self.store(address, self.b)?,
        }
        self.advance_or_skip(1, skip);
        Ok(())
    }

    #[inline(always)]
    pub(super) fn shift_rotate(&mut self, shift: Shift) {
        let mut word = self.get(shift.register);
        word = self.shift_once(shift.first_enabled, shift.first, word);
        if shift.clear_e {
            self.e = false;
        }
        let skip = shift.skip_low && word & 1 == 0;
        word = self.shift_once(shift.second_enabled, shift.second, word);
        self.set(shift.register, word);
        self.advance_or_skip(1, skip);
    }

    // A disabled ERA or ELA gives E its bit and keeps the word.
    #[inline(always)]
    fn shift_once(&mut self, enabled: bool, code: u16, word: u16) -> u16 {
        let e = u16::from(self.e);
        let shifted = match code {
            0 => word & SIGN | word << 1 & ADDRESS,
            1 => word & SIGN | word >> 1,
            2 => word.rotate_left(1),
            3 => word.rotate_right(1),
            4 => word << 1 & ADDRESS,
            5 => {
                self.e = word & 1 != 0;
                word >> 1 | e << 15
            }
            6 => {
                self.e = word & SIGN != 0;
                word << 1 | e
            }
            _ => word.rotate_left(4),
        };
        if enabled {
            shifted
        } else {
            word
        }
    }

    #[inline(always)]
    pub(super) fn alter_skip(&mut self, alter: Alter) {
        let mut word = self.get(alter.register);
        let mut skip = false;
        match alter.word {
            0 => {}
            1 => word = 0,
            2 => word = !word,
            _ => word = 0o177777,
        }
        if alter.skip_e {
            skip |= self.e == alter.reverse;
        }
        match alter.e {
            0 => {}
            1 => self.e = false,
            2 => self.e = !self.e,
            _ => self.e = true,
        }
        let (sign, low) = (word & SIGN != 0, word & 1 != 0);
        if alter.skip_sign && alter.skip_low && alter.reverse {
            skip |= sign && low;
        } else {
            if alter.skip_sign {
                skip |= sign == alter.reverse;
            }
            if alter.skip_low {
                skip |= low == alter.reverse;
            }
        }
        if alter.increment {
            word = self.sum(word, 1);
        }
        if alter.skip_zero {
            skip |= (word != 0) == alter.reverse;
        }
        let no_skip_named = !(alter.skip_e | alter.skip_sign | alter.skip_low | alter.skip_zero);
        if alter.reverse && no_skip_named {
            skip = true;
        }
        self.set(alter.register, word);
        self.advance_or_skip(1, skip);
    }

    pub(super) fn long_shift(&mut self, kind: Long, n: u32) {
        let double = self.double();
        let signed = double as i32;
        let shifted = match kind {
            Long::Asl => {
                let top = signed >> (31 - n);
                self.o = top != 0 && top != -1;
                double & 0x8000_0000 | double << n & 0x7fff_ffff
            }
            Long::Asr => {
                self.o = false;
                (signed >> n) as u32
            }
            Long::Lsl => double << n,
            Long::Lsr => double >> n,
            Long::Rrl => double.rotate_left(n),
            Long::Rrr => double.rotate_right(n),
        };
        self.set_double(shifted);
        self.advance(1);
    }

    // B holds the high half, A the low half.
    pub(super) fn double(&self) -> u32 {
        u32::from(self.b) << 16 | u32::from(self.a)
    }

    pub(super) fn set_double(&mut self, double: u32) {
        self.b = (double >> 16) as u16;
        self.a = double as u16;
    }

    pub(super) fn input_output(&mut self, operation: u16, bit_11: bool, bit_9: bool, select: u16) -> Met<()> {
        const HLT: u16 = 0;
        if self.wmap & PROTECTION != 0 && (operation == HLT || select != 1) {
            return Err(Trouble::Violation);
        }
        if select != 1 {
            return Err(Trouble::InputOutput);
        }
        let register = if bit_11 { Register::B } else { Register::A };
        let mut skip = false;
        match operation {
            1 => self.o = !bit_9,
            2 | 3 => {
                skip = self.o == (operation == 3);
                if bit_9 {
                    self.o = false;
                }
            }
            5 if !bit_9 => self.set(register, self.switches << 8),
            6 if !bit_9 => self.lights = self.get(register) & 0o377,
            _ => return Err(Trouble::InputOutput),
        }
        self.advance_or_skip(1, skip);
        Ok(())
    }
}
