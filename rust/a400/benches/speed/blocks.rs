// MVW and MBT by whole pieces of memory. What meets trouble is left alone.

use super::{Lent, Machine, Registers, ADDRESS, SIGN, TO_READ, TO_STORE};
use a400::{PAGE_REGISTERS, PAGE_WORDS};

const MVW: u16 = 0o105777;
const MBT: u16 = 0o105765;

// Carries out the next step if it is a move that meets no trouble.
pub fn moved(machine: &mut Machine) -> bool {
    if machine.trap != 0 {
        return false;
    }
    let now = Registers::of(machine);
    let mut lent = Lent::by(machine);
    let word = now.read(&lent, now.p);
    let ends = match word {
        Some(MVW) => block(&now, &mut lent, now.a & ADDRESS, now.b & ADDRESS, 0),
        Some(MBT) => block(&now, &mut lent, now.a, now.b, 1),
        _ => return false,
    };
    let Some((a, b)) = ends else {
        return false;
    };
    machine.a = a;
    machine.b = b;
    machine.p = now.p.wrapping_add(3) & ADDRESS;
    true
}

// A and B after a move of elements of which a word has 1 << `per`.
fn block(now: &Registers, lent: &mut Lent, from: u16, to: u16, per: u32) -> Option<(u16, u16)> {
    let count = now.read(lent, now.second(lent)?)?;
    if count == 0 || count & SIGN != 0 {
        return None;
    }
    let (low, size) = (2u32 << per, 1u32 << 15 << per);
    let within = |start: u16| u32::from(start) >= low && u32::from(start) + u32::from(count) <= size;
    if !within(from) || !within(to) {
        return None;
    }
    let to_move = if per == 0 { TO_STORE } else { TO_READ | TO_STORE };
    open(lent, from, count, per, TO_READ)?;
    open(lent, to, count, per, to_move)?;
    let whole = PAGE_WORDS << per;
    let (mut source, mut target, mut left) = (usize::from(from), usize::from(to), usize::from(count));
    while left > 0 {
        let piece = left.min(whole - source % whole).min(whole - target % whole);
        let place = |lent: &Lent, at: usize| {
            let register = lent.pages[(lent.map | (at / whole)) & (PAGE_REGISTERS - 1)];
            usize::from(register & 0o37777) * whole + at % whole
        };
        let (first, second) = (place(lent, source), place(lent, target));
        if per == 0 {
            copy_words(lent.memory, first, second, piece);
        } else {
            copy_bytes(lent.memory, first, second, piece);
        }
        source += piece;
        target += piece;
        left -= piece;
    }
    let kept = (size - 1) as u16;
    Some((from.wrapping_add(count) & kept, to.wrapping_add(count) & kept))
}

// Whether every page of a range is open and there.
fn open(lent: &Lent, start: u16, count: u16, per: u32, rights: u16) -> Option<()> {
    let last = (u32::from(start) + u32::from(count) - 1) as u16;
    for page in start >> per >> 10..=last >> per >> 10 {
        lent.reach(page << 10, rights)?;
    }
    Some(())
}

// One word after another, each seeing the earlier stores.
fn copy_words(memory: &mut [u16], from: usize, to: usize, count: usize) {
    if to == from + 1 {
        let word = memory[from];
        memory[to..to + count].fill(word);
    } else if from < to && to < from + count {
        for place in 0..count {
            memory[to + place] = memory[from + place];
        }
    } else {
        memory.copy_within(from..from + count, to);
    }
}

fn copy_bytes(memory: &mut [u16], from: usize, to: usize, count: usize) {
    let first = (to & 1).min(count);
    let words = (count - first) / 2;
    let done = first + 2 * words;
    single_bytes(memory, from, to, first);
    let (source, target) = (from + first, (to + first) / 2);
    if source % 2 == 0 {
        copy_words(memory, source / 2, target, words);
    } else {
        copy_across(memory, source / 2, target, words);
    }
    single_bytes(memory, from + done, to + done, count - done);
}

// Words of which each is the low half of one and the high half of the next.
fn copy_across(memory: &mut [u16], from: usize, to: usize, count: usize) {
    if to > from + count {
        let (lower, upper) = memory.split_at_mut(to);
        join_halves(&lower[from..=from + count], &mut upper[..count]);
    } else if to + count <= from {
        let (lower, upper) = memory.split_at_mut(from);
        join_halves(&upper[..=count], &mut lower[to..to + count]);
    } else {
        single_bytes(memory, 2 * from + 1, 2 * to, 2 * count);
    }
}

fn join_halves(from: &[u16], to: &mut [u16]) {
    for (target, pair) in to.iter_mut().zip(from.windows(2)) {
        *target = pair[0] << 8 | pair[1] >> 8;
    }
}

fn single_bytes(memory: &mut [u16], from: usize, to: usize, count: usize) {
    for place in 0..count {
        let (source, target) = (from + place, to + place);
        let byte = if source & 1 != 0 { memory[source / 2] & 0o377 } else { memory[source / 2] >> 8 };
        let word = &mut memory[target / 2];
        *word = if target & 1 != 0 { *word & 0o177400 | byte } else { *word & 0o377 | byte << 8 };
    }
}
