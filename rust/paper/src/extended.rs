// Extended codes, moves and compares aside.

use super::access::{TO_CHANGE_A_BYTE, TO_READ, TO_STORE};
use super::blocks::{with_byte, Bytes, Words};
use super::instruction::{Extended, Index};
use super::{Machine, Met, Trouble, ADDRESS};

impl<'m> Machine<'m> {
    pub(super) fn extended(&mut self, code: Extended) -> Met<()> {
        match code {
            Extended::Mpy => {
                let value = self.operand()?;
                let product = i32::from(self.a as i16) * i32::from(value as i16);
                self.set_double(product as u32);
                self.o = false;
                self.advance(2);
            }
            Extended::Div => {
                let divisor = i64::from(self.operand()? as i16);
                self.divide(divisor);
                self.advance(2);
            }
            Extended::Dld => {
                let address = self.address_word(1)?;
                let first = self.read(address)?;
                let second = self.read(address.wrapping_add(1) & ADDRESS)?;
                self.a = first;
                self.b = second;
                self.advance(2);
            }
            Extended::Dst => {
                let address = self.address_word(1)?;
                let first = self.place_to_store(address)?;
                let second = self.place_to_store(address.wrapping_add(1) & ADDRESS)?;
                let (a, b) = (self.a, self.b);
                self.put(first, a);
                self.put(second, b);
                self.advance(2);
            }
            Extended::CrossLoad(register, data) => {
                let address = self.address_word(1)?;
                let index = self.reach(self.data_map(data), address, TO_READ)?;
                self.set(register, self.memory[index]);
                self.advance(2);
            }
            Extended::CrossStore(register, data) => {
                let address = self.address_word(1)?;
                let index = self.reach(self.data_map(data), address, TO_STORE)?;
                self.memory[index] = self.get(register);
                self.advance(2);
            }
            Extended::CrossCompare(register, data) => {
                let address = self.address_word(1)?;
                let index = self.reach(self.data_map(data), address, TO_READ)?;
                let skip = self.get(register) != self.memory[index];
                self.advance_or_skip(2, skip);
            }
            Extended::StoreIndexed(register, index) => {
                let address = self.indexed(index)?;
                self.store(address, self.get(register))?;
                self.advance(2);
            }
            Extended::LoadIndexed(register, index) => {
                let address = self.indexed(index)?;
                let value = self.read(address)?;
                self.set(register, value);
                self.advance(2);
            }
            Extended::CopyTo(register, index) => {
                self.set_index(index, self.get(register));
                self.advance(1);
            }
            Extended::CopyFrom(register, index) => {
                self.set(register, self.get_index(index));
                self.advance(1);
            }
            Extended::Exchange(register, index) => {
                let (word, held) = (self.get(register), self.get_index(index));
                self.set(register, held);
                self.set_index(index, word);
                self.advance(1);
            }
            Extended::StoreIndex(index) => {
                let address = self.address_word(1)?;
                self.store(address, self.get_index(index))?;
                self.advance(2);
            }
            Extended::LoadIndex(index) => {
                let value = self.operand()?;
                self.set_index(index, value);
                self.advance(2);
            }
            Extended::AddIndex(index) => {
                let value = self.operand()?;
                let sum = self.sum(self.get_index(index), value);
                self.set_index(index, sum);
                self.advance(2);
            }
            Extended::IncrementIndex(index) => self.count_index(index, 1),
            Extended::DecrementIndex(index) => self.count_index(index, 0o177777),
            Extended::Lbt => {
                let byte = self.element::<Bytes>(self.b)?;
                self.a = byte;
                self.b = self.b.wrapping_add(1);
                self.advance(1);
            }
            Extended::Sbt => {
                let address = self.b >> 1;
                if address < 2 {
                    return Err(Trouble::InRegisters);
                }
                let index = self.reach(self.execute_map(), address, TO_CHANGE_A_BYTE)?;
                self.memory[index] = with_byte(self.memory[index], self.b & 1 != 0, self.a);
                self.b = self.b.wrapping_add(1);
                self.advance(1);
            }
            Extended::Mbt => return self.move_block::<Bytes>(),
            Extended::Mvw => return self.move_block::<Words>(),
            Extended::Cbt => return self.compare_block::<Bytes>(),
            Extended::Cmw => return self.compare_block::<Words>(),
            Extended::Sbs => self.change_bits(|target, mask| target | mask)?,
            Extended::Cbs => self.change_bits(|target, mask| target & !mask)?,
            Extended::Tbs => {
                let (mask, target, _) = self.mask_and_target()?;
                self.advance_or_skip(3, target & mask != mask);
            }
        }
        Ok(())
    }

    fn divide(&mut self, divisor: i64) {
        let dividend = i64::from(self.double() as i32);
        if divisor == 0 {
            self.o = true;
            return;
        }
        let (quotient, remainder) = (dividend / divisor, dividend % divisor);
        self.o = !(-32_768..=32_767).contains(&quotient);
        if !self.o {
            self.a = quotient as u16;
            self.b = remainder as u16;
        }
    }

    // The index is added after the chain.
    fn indexed(&self, index: Index) -> Met<u16> {
        let address = self.address_word(1)?;
        Ok(address.wrapping_add(self.get_index(index)) & ADDRESS)
    }

    fn count_index(&mut self, index: Index, by: u16) {
        let value = self.get_index(index).wrapping_add(by);
        self.set_index(index, value);
        self.advance_or_skip(1, value == 0);
    }

    // Both chains come before both operands.
    fn mask_and_target(&self) -> Met<(u16, u16, u16)> {
        let mask = self.address_word(1)?;
        let target = self.address_word(2)?;
        Ok((self.read(mask)?, self.read(target)?, target))
    }

    fn change_bits(&mut self, change: impl Fn(u16, u16) -> u16) -> Met<()> {
        let (mask, target, address) = self.mask_and_target()?;
        self.store(address, change(target, mask))?;
        self.advance(3);
        Ok(())
    }
}
