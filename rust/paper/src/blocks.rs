// Moves and compares, of words or of bytes.

use super::access::{TO_CHANGE_A_BYTE, TO_READ, TO_STORE};
use super::{Machine, Met, Trouble, PAGE_WORDS, SIGN};

fn byte(word: u16, odd: bool) -> u16 {
    if odd {
        word & 0o377
    } else {
        word >> 8
    }
}

pub(super) fn with_byte(word: u16, odd: bool, value: u16) -> u16 {
    if odd {
        word & 0o177400 | value & 0o377
    } else {
        word & 0o377 | value << 8
    }
}

// What the elements of a block are, and how they are addressed.
pub(super) trait Elements {
    // The bits that an element's address keeps.
    const KEPT: u16;
    // How many elements a word has, as a shift count.
    const PER_WORD: u32;
    // What a page must be open to, to be moved to.
    const TO_MOVE: u16;
    fn get(word: u16, address: u16) -> u16;
    fn less(left: u16, right: u16) -> bool;
    // Moves elements upward between places that lie on one page each.
    fn copy(memory: &mut [u16], from: usize, to: usize, count: usize);
}

pub(super) struct Words;
pub(super) struct Bytes;

impl Elements for Words {
    const KEPT: u16 = 0o77777;
    const PER_WORD: u32 = 0;
    const TO_MOVE: u16 = TO_STORE;

    fn get(word: u16, _: u16) -> u16 {
        word
    }

    fn less(left: u16, right: u16) -> bool {
        (left as i16) < right as i16
    }

    fn copy(memory: &mut [u16], from: usize, to: usize, count: usize) {
        if from < to && to < from + count {
            for place in 0..count {
                memory[to + place] = memory[from + place];
            }
        } else {
            memory.copy_within(from..from + count, to);
        }
    }
}

impl Elements for Bytes {
    const KEPT: u16 = 0o177777;
    const PER_WORD: u32 = 1;
    const TO_MOVE: u16 = TO_CHANGE_A_BYTE;

    fn get(word: u16, address: u16) -> u16 {
        byte(word, address & 1 != 0)
    }

    fn less(left: u16, right: u16) -> bool {
        left < right
    }

    // Bytes that lie in the same halves are copied by whole words, but for a
    // half word at either end.
    fn copy(memory: &mut [u16], from: usize, to: usize, count: usize) {
        let first = from & 1;
        if from & 1 != to & 1 || count < 4 {
            copy_bytes(memory, from, to, count);
            return;
        }
        let words = (count - first) / 2;
        copy_bytes(memory, from, to, first);
        Words::copy(memory, (from + first) / 2, (to + first) / 2, words);
        let done = first + 2 * words;
        copy_bytes(memory, from + done, to + done, count - done);
    }
}

fn copy_bytes(memory: &mut [u16], from: usize, to: usize, count: usize) {
    for place in 0..count {
        let (source, target) = (from + place, to + place);
        let value = byte(memory[source >> 1], source & 1 != 0);
        memory[target >> 1] = with_byte(memory[target >> 1], target & 1 != 0, value);
    }
}

impl<'m> Machine<'m> {
    // One element in the Execute map, read: 5, then 1, then 4.
    pub(super) fn element<K: Elements>(&self, address: u16) -> Met<u16> {
        let word = (address & K::KEPT) >> K::PER_WORD;
        if word < 2 {
            return Err(Trouble::InRegisters);
        }
        let index = self.reach(self.execute_map(), word, TO_READ)?;
        Ok(K::get(self.memory[index], address))
    }

    // The count that word two addresses, or none if only P moves.
    fn block_count(&self) -> Met<Option<u16>> {
        let count = self.operand()?;
        Ok(if count == 0 || count & SIGN != 0 { None } else { Some(count) })
    }

    pub(super) fn move_block<K: Elements>(&mut self) -> Met<()> {
        let Some(count) = self.block_count()? else {
            self.advance(3);
            return Ok(());
        };
        let (from, to) = (self.a & K::KEPT, self.b & K::KEPT);
        if touches_registers::<K>(from, count) || touches_registers::<K>(to, count) {
            return Err(Trouble::InRegisters);
        }
        let (sources, targets) = (pages_of::<K>(from, count), pages_of::<K>(to, count));
        let map = self.execute_map();
        if sources.clone().any(|page| self.closed(self.page_register(map, page), TO_READ))
            || targets.clone().any(|page| self.closed(self.page_register(map, page), K::TO_MOVE))
        {
            return Err(Trouble::Violation);
        }
        let there = |page| Self::index(self.page_register(map, page), 0) < self.memory.len();
        if !sources.clone().all(there) || !targets.clone().all(there) {
            return Err(Trouble::Absent);
        }
        self.copy_block::<K>(map, from, to, count);
        self.a = from.wrapping_add(count) & K::KEPT;
        self.b = to.wrapping_add(count) & K::KEPT;
        self.advance(3);
        Ok(())
    }

    // Copies in pieces that lie on one page of each range.
    fn copy_block<K: Elements>(&mut self, map: u16, from: u16, to: u16, count: u16) {
        let whole = PAGE_WORDS << K::PER_WORD;
        let (mut from, mut to, mut left) = (usize::from(from), usize::from(to), usize::from(count));
        while left > 0 {
            let piece = left.min(whole - from % whole).min(whole - to % whole);
            let place = |at: usize| {
                let register = self.page_register(map, (at / whole) as u16);
                Self::index(register, 0) * (whole / PAGE_WORDS) + at % whole
            };
            let (source, target) = (place(from), place(to));
            K::copy(self.memory, source, target, piece);
            from += piece;
            to += piece;
            left -= piece;
        }
    }

    pub(super) fn compare_block<K: Elements>(&mut self) -> Met<()> {
        let Some(count) = self.block_count()? else {
            self.advance(3);
            return Ok(());
        };
        let past = self.b.wrapping_add(count) & K::KEPT;
        for place in 0..count {
            let address = self.a.wrapping_add(place) & K::KEPT;
            let first = self.element::<K>(address)?;
            let second = self.element::<K>(self.b.wrapping_add(place))?;
            if first != second {
                self.a = address;
                self.b = past;
                self.advance(if K::less(first, second) { 4 } else { 5 });
                return Ok(());
            }
        }
        self.a = self.a.wrapping_add(count) & K::KEPT;
        self.b = past;
        self.advance(3);
        Ok(())
    }
}

// A range that goes over the top goes on at 0.
fn touches_registers<K: Elements>(start: u16, count: u16) -> bool {
    let first_words = 2u32 << K::PER_WORD;
    let size = u32::from(K::KEPT) + 1;
    u32::from(start) < first_words || u32::from(start) + u32::from(count) > size
}

// The logical pages of a range that does not go over the top.
fn pages_of<K: Elements>(start: u16, count: u16) -> std::ops::RangeInclusive<u16> {
    let last = (u32::from(start) + u32::from(count) - 1) as u16;
    start >> K::PER_WORD >> 10..=last >> K::PER_WORD >> 10
}
