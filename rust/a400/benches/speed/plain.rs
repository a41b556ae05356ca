// Plain Rust at its best: the paper's rules once more, for speed. A loop holds
// the registers apart from the machine and carries out the frequent
// instructions; moves go by whole pieces of memory; any other step, and every
// step that meets trouble, is that of package `paper`.

use a400::record::{A, B, E, O, P, X, Y};
use a400::PAGE_REGISTERS;
use paper::{Machine, MOST_STEPS};

type Pages = [u16; PAGE_REGISTERS];

const SIGN: u16 = 0o100000;
const ADDRESS: u16 = 0o77777;
const TO_READ: u16 = 0o100000;
const TO_STORE: u16 = 0o040000;

pub fn step(record: &mut [u16], pages: &mut [u16], memory: &mut [u16]) -> u32 {
    run(record, pages, memory, 1, &mut [0])
}

#[inline(always)]
pub fn run(record: &mut [u16], pages: &mut [u16], memory: &mut [u16], budget: u32, count: &mut [u32]) -> u32 {
    let [count] = count else {
        return 8;
    };
    *count = 0;
    if budget > MOST_STEPS {
        return 8;
    }
    let Some(mut machine) = Machine::lend(record, pages, memory) else {
        return 8;
    };
    let mut now = Registers::of(&machine);
    let left = if machine.trap == 0 { quick(&mut now, &mut Lent::by(&mut machine), budget) } else { budget };
    if left == 0 {
        // Of a record whose frequent registers alone have changed.
        let Registers { a, b, x, y, p, e, o } = now;
        for (place, word) in [(A, a), (B, b), (X, x), (Y, y), (P, p), (E, e.into()), (O, o.into())] {
            record[place] = word;
        }
        *count = budget;
        return 0;
    }
    now.give_back(&mut machine);
    let (reply, steps) = go(&mut machine, left);
    record.copy_from_slice(&machine.record());
    *count = budget - left + steps;
    reply
}

// Steps of which the first is not a frequent one: the reply, and the number of
// steps that replied 0 or 1.
#[inline(never)]
fn go(machine: &mut Machine, budget: u32) -> (u32, u32) {
    let mut left = budget;
    while left > 0 {
        if !blocks::moved(machine) {
            match machine.step() {
                0 => {}
                1 => return (1, budget - left + 1),
                reply => return (reply, budget - left),
            }
        }
        left -= 1;
        if machine.trap == 0 {
            let mut now = Registers::of(machine);
            left = quick(&mut now, &mut Lent::by(machine), left);
            now.give_back(machine);
        }
    }
    (0, budget)
}

// ---------------------------------------------------------------------------
// Accesses.

// What an access needs besides the address.
struct Lent<'m> {
    map: usize,
    // The bits of a page register that close a page: none without protection.
    guard: u16,
    pages: &'m Pages,
    memory: &'m mut [u16],
}

impl<'m> Lent<'m> {
    #[inline(always)]
    fn by(machine: &'m mut Machine) -> Lent<'m> {
        Lent {
            map: usize::from(machine.wmap & 31) << 5,
            guard: if machine.wmap & SIGN != 0 { 0o140000 } else { 0 },
            pages: machine.pages,
            memory: machine.memory,
        }
    }

    #[inline(always)]
    fn reach(&self, address: u16, rights: u16) -> Option<usize> {
        reach(self.map, self.guard, self.pages, self.memory.len(), address, rights)
    }
}

// The index in memory of an address, if the page is open and there.
#[inline(always)]
fn reach(map: usize, guard: u16, pages: &Pages, length: usize, address: u16, rights: u16) -> Option<usize> {
    let register = pages[(map | usize::from(address >> 10)) & (PAGE_REGISTERS - 1)];
    let index = usize::from(register & 0o37777) << 10 | usize::from(address & 0o1777);
    (register & rights & guard == 0 && index < length).then_some(index)
}

#[derive(Clone, Copy)]
struct Registers {
    a: u16,
    b: u16,
    x: u16,
    y: u16,
    p: u16,
    e: bool,
    o: bool,
}

impl Registers {
    #[inline(always)]
    fn of(machine: &Machine) -> Registers {
        let Machine { a, b, x, y, p, e, o, .. } = *machine;
        Registers { a, b, x, y, p, e, o }
    }

    #[inline(always)]
    fn give_back(&self, machine: &mut Machine) {
        machine.a = self.a;
        machine.b = self.b;
        machine.x = self.x;
        machine.y = self.y;
        machine.p = self.p;
        machine.e = self.e;
        machine.o = self.o;
    }

    #[inline(always)]
    fn read(&self, lent: &Lent, address: u16) -> Option<u16> {
        if address < 2 {
            return Some(if address == 0 { self.a } else { self.b });
        }
        Some(lent.memory[lent.reach(address, TO_READ)?])
    }

    // The address that a word leads to.
    #[inline(always)]
    fn lead(&self, lent: &Lent, word: u16) -> Option<u16> {
        if word & SIGN == 0 {
            return Some(word);
        }
        let next = self.read(lent, word & ADDRESS)?;
        if next & SIGN == 0 {
            return Some(next);
        }
        follow(lent.map, lent.guard, lent.pages, lent.memory, [self.a, self.b], next)
    }

    #[inline(always)]
    fn second(&self, lent: &Lent) -> Option<u16> {
        let word = self.read(lent, self.p.wrapping_add(1) & ADDRESS)?;
        self.lead(lent, word)
    }

    // Stores to A and B are left to the paper's step.
    #[inline(always)]
    fn store(&self, lent: &mut Lent, address: u16, value: u16) -> Option<()> {
        if address < 2 {
            return None;
        }
        let index = lent.reach(address, TO_STORE)?;
        lent.memory[index] = value;
        Some(())
    }

    #[inline(always)]
    fn sum(&mut self, left: u16, right: u16) -> u16 {
        let (sum, carry) = left.overflowing_add(right);
        self.e |= carry;
        self.o |= (left ^ sum) & (right ^ sum) & SIGN != 0;
        sum
    }

    #[inline(always)]
    fn advance(&mut self, words: u16) {
        self.p = self.p.wrapping_add(words) & ADDRESS;
    }

    // A skip is made to stay a branch, so that the next fetch need not wait for
    // the operand.
    #[inline(always)]
    fn skip_if(&mut self, skip: bool) {
        if skip {
            self.advance(std::hint::black_box(2));
        } else {
            self.advance(1);
        }
    }
}

// The end of a chain from its second level on. One that has no end is left to
// the paper's step.
#[inline(never)]
fn follow(map: usize, guard: u16, pages: &Pages, memory: &[u16], ab: [u16; 2], second: u16) -> Option<u16> {
    let mut word = second;
    for _ in 1..32_768 {
        let address = word & ADDRESS;
        word = if address < 2 {
            ab[usize::from(address)]
        } else {
            memory[reach(map, guard, pages, memory.len(), address, TO_READ)?]
        };
        if word & SIGN == 0 {
            return Some(word);
        }
    }
    None
}

// ---------------------------------------------------------------------------
// The frequent instructions.

// Carries out steps until one is not frequent. Returns how many are left.
#[inline(always)]
fn quick(now: &mut Registers, lent: &mut Lent, budget: u32) -> u32 {
    let mut left = budget;
    while left > 0 && one(now, lent).is_some() {
        left -= 1;
    }
    left
}

// One step, or none with nothing changed.
#[inline(always)]
fn one(now: &mut Registers, lent: &mut Lent) -> Option<()> {
    let word = now.read(lent, now.p)?;
    let group = word >> 11 & 15;
    if group < 2 {
        if word & SIGN != 0 {
            return extended(now, lent, word);
        }
        let register = if group == 0 { now.a } else { now.b };
        let (register, skip) =
            if word & 0o2000 == 0 { shift_rotate(now, word, register) } else { alter_skip(now, word, register) };
        if group == 0 {
            now.a = register;
        } else {
            now.b = register;
        }
        now.skip_if(skip);
        return Some(());
    }
    let page = if word & 0o2000 != 0 { now.p & 0o76000 } else { 0 };
    let address = now.lead(lent, word & SIGN | page | word & 0o1777)?;
    match group {
        2 => now.a &= now.read(lent, address)?,
        3 => {
            now.store(lent, address, now.p.wrapping_add(1) & ADDRESS)?;
            now.p = address.wrapping_add(1) & ADDRESS;
            return Some(());
        }
        4 => now.a ^= now.read(lent, address)?,
        5 => {
            now.p = address;
            return Some(());
        }
        6 => now.a |= now.read(lent, address)?,
        7 => {
            let value = now.read(lent, address)?.wrapping_add(1);
            now.store(lent, address, value)?;
            now.skip_if(value == 0);
            return Some(());
        }
        8 => {
            let value = now.read(lent, address)?;
            now.a = now.sum(now.a, value);
        }
        9 => {
            let value = now.read(lent, address)?;
            now.b = now.sum(now.b, value);
        }
        10 => {
            let value = now.read(lent, address)?;
            now.skip_if(now.a != value);
            return Some(());
        }
        11 => {
            let value = now.read(lent, address)?;
            now.skip_if(now.b != value);
            return Some(());
        }
        12 => now.a = now.read(lent, address)?,
        13 => now.b = now.read(lent, address)?,
        14 => now.store(lent, address, now.a)?,
        _ => now.store(lent, address, now.b)?,
    }
    now.advance(1);
    Some(())
}

// The word after it, and whether it skips.
#[inline(always)]
fn shift_rotate(now: &mut Registers, word: u16, register: u16) -> (u16, bool) {
    let first = shift_once(now, word >> 9 & 1 != 0, word >> 6 & 7, register);
    now.e &= word & 0o40 == 0;
    let skip = word & 0o10 != 0 && first & 1 == 0;
    (shift_once(now, word >> 4 & 1 != 0, word & 7, first), skip)
}

#[inline(always)]
fn shift_once(now: &mut Registers, enabled: bool, code: u16, word: u16) -> u16 {
    let e = u16::from(now.e);
    match code {
        5 => now.e = word & 1 != 0,
        6 => now.e = word & SIGN != 0,
        _ => {}
    }
    if !enabled {
        return word;
    }
    match code {
        0 => word & SIGN | word << 1 & ADDRESS,
        1 => word & SIGN | word >> 1,
        2 => word.rotate_left(1),
        3 => word.rotate_right(1),
        4 => word << 1 & ADDRESS,
        5 => word >> 1 | e << 15,
        6 => word << 1 | e,
        _ => word.rotate_left(4),
    }
}

#[inline(always)]
fn alter_skip(now: &mut Registers, word: u16, register: u16) -> (u16, bool) {
    let cleared = if word & 0o400 != 0 { 0 } else { register };
    let altered = if word & 0o1000 != 0 { !cleared } else { cleared };
    let given = now.e;
    now.e = (now.e && word & 0o100 == 0) != (word & 0o200 != 0);
    let ended = if word & 4 != 0 { now.sum(altered, 1) } else { altered };
    if word & 0o73 == 0 {
        return (ended, false);
    }
    let reverse = word & 1 != 0;
    let (minus, odd) = (altered & SIGN != 0, altered & 1 != 0);
    let pair = if word & 0o31 == 0o31 {
        minus && odd
    } else {
        word & 0o20 != 0 && minus == reverse || word & 0o10 != 0 && odd == reverse
    };
    let skip =
        word & 0o40 != 0 && given == reverse || pair || word & 2 != 0 && (ended != 0) == reverse || word & 0o73 == 1;
    (ended, skip)
}

// Extended codes but for strings, bytes, bits and crossing accesses.
#[inline(always)]
fn extended(now: &mut Registers, lent: &mut Lent, word: u16) -> Option<()> {
    match word {
        0o101741 => now.x = now.a,
        0o101751 => now.y = now.a,
        0o105741 => now.x = now.b,
        0o105751 => now.y = now.b,
        0o101744 => now.a = now.x,
        0o101754 => now.a = now.y,
        0o105744 => now.b = now.x,
        0o105754 => now.b = now.y,
        0o101747 => std::mem::swap(&mut now.a, &mut now.x),
        0o101757 => std::mem::swap(&mut now.a, &mut now.y),
        0o105747 => std::mem::swap(&mut now.b, &mut now.x),
        0o105757 => std::mem::swap(&mut now.b, &mut now.y),
        0o105760 | 0o105761 => {
            now.x = now.x.wrapping_add(if word == 0o105760 { 1 } else { 0o177777 });
            now.skip_if(now.x == 0);
            return Some(());
        }
        0o105770 | 0o105771 => {
            now.y = now.y.wrapping_add(if word == 0o105770 { 1 } else { 0o177777 });
            now.skip_if(now.y == 0);
            return Some(());
        }
        0o100020..=0o100117 | 0o101020..=0o101117 => long_shift(now, word)?,
        _ => {
            by_address(now, lent, word)?;
            now.advance(1);
        }
    }
    now.advance(1);
    Some(())
}

#[inline(always)]
fn long_shift(now: &mut Registers, word: u16) -> Option<()> {
    let n = u32::from(word.wrapping_sub(1) & 15) + 1;
    let double = u32::from(now.b) << 16 | u32::from(now.a);
    let signed = double as i32;
    let shifted = match word & 0o177760 {
        0o100020 => {
            let top = signed >> (31 - n);
            now.o = top != 0 && top != -1;
            double & 0x8000_0000 | double << n & 0x7fff_ffff
        }
        0o101020 => {
            now.o = false;
            (signed >> n) as u32
        }
        0o100040 => double << n,
        0o101040 => double >> n,
        0o100100 => double.rotate_left(n),
        0o101100 => double.rotate_right(n),
        _ => return None,
    };
    now.b = (shifted >> 16) as u16;
    now.a = shifted as u16;
    Some(())
}

// The codes of two words.
#[inline(always)]
fn by_address(now: &mut Registers, lent: &mut Lent, word: u16) -> Option<()> {
    match word {
        0o100200 => {
            let value = now.read(lent, now.second(lent)?)?;
            let product = i32::from(now.a as i16) * i32::from(value as i16);
            now.b = (product >> 16) as u16;
            now.a = product as u16;
            now.o = false;
        }
        0o100400 => {
            let divisor = i64::from(now.read(lent, now.second(lent)?)? as i16);
            let dividend = i64::from((u32::from(now.b) << 16 | u32::from(now.a)) as i32);
            let quotient = dividend.checked_div(divisor).unwrap_or(i64::MAX);
            now.o = i64::from(quotient as i16) != quotient;
            if !now.o {
                now.a = quotient as u16;
                now.b = (dividend % divisor) as u16;
            }
        }
        0o104200 => {
            let address = now.second(lent)?;
            let first = now.read(lent, address)?;
            now.b = now.read(lent, address.wrapping_add(1) & ADDRESS)?;
            now.a = first;
        }
        0o104400 => {
            let address = now.second(lent)?;
            let next = address.wrapping_add(1) & ADDRESS;
            if address < 2 || next < 2 {
                return None;
            }
            let (first, second) = (lent.reach(address, TO_STORE)?, lent.reach(next, TO_STORE)?);
            lent.memory[first] = now.a;
            lent.memory[second] = now.b;
        }
        0o101740 => now.store(lent, now.second(lent)?.wrapping_add(now.x) & ADDRESS, now.a)?,
        0o101750 => now.store(lent, now.second(lent)?.wrapping_add(now.y) & ADDRESS, now.a)?,
        0o105740 => now.store(lent, now.second(lent)?.wrapping_add(now.x) & ADDRESS, now.b)?,
        0o105750 => now.store(lent, now.second(lent)?.wrapping_add(now.y) & ADDRESS, now.b)?,
        0o101742 => now.a = now.read(lent, now.second(lent)?.wrapping_add(now.x) & ADDRESS)?,
        0o101752 => now.a = now.read(lent, now.second(lent)?.wrapping_add(now.y) & ADDRESS)?,
        0o105742 => now.b = now.read(lent, now.second(lent)?.wrapping_add(now.x) & ADDRESS)?,
        0o105752 => now.b = now.read(lent, now.second(lent)?.wrapping_add(now.y) & ADDRESS)?,
        0o105743 => now.store(lent, now.second(lent)?, now.x)?,
        0o105753 => now.store(lent, now.second(lent)?, now.y)?,
        0o105745 => now.x = now.read(lent, now.second(lent)?)?,
        0o105755 => now.y = now.read(lent, now.second(lent)?)?,
        0o105746 => {
            let value = now.read(lent, now.second(lent)?)?;
            now.x = now.sum(now.x, value);
        }
        0o105756 => {
            let value = now.read(lent, now.second(lent)?)?;
            now.y = now.sum(now.y, value);
        }
        _ => return None,
    }
    Some(())
}

#[path = "blocks.rs"]
mod blocks;
