//! Random machines for the tests: valid ones that lean to the places where
//! rules meet, and calls that are to be refused.

use crate::access::{TO_READ, TO_STORE};
use crate::instruction::{EXTENDED, OPERATIONS};
use crate::record::*;
use crate::{ADDRESS, PAGE_REGISTERS, PAGE_WORDS, SIGN};

// A xorshift generator.
pub struct Random(u64);

impl Random {
    pub fn new(seed: u64) -> Random {
        let mut random = Random(seed.wrapping_mul(0x9e37_79b9_7f4a_7c15) | 1);
        for _ in 0..8 {
            random.draw();
        }
        random
    }

    pub fn draw(&mut self) -> u64 {
        self.0 ^= self.0 >> 12;
        self.0 ^= self.0 << 25;
        self.0 ^= self.0 >> 27;
        self.0.wrapping_mul(0x2545_f491_4f6c_dd1d)
    }

    pub fn word(&mut self) -> u16 {
        (self.draw() >> 48) as u16
    }

    pub fn below(&mut self, end: usize) -> usize {
        (((self.draw() >> 32) * end as u64) >> 32) as usize
    }

    pub fn one_in(&mut self, n: usize) -> bool {
        self.below(n) == 0
    }

    pub fn pick<T: Copy>(&mut self, from: &[T]) -> T {
        from[self.below(from.len())]
    }
}

#[derive(Clone, PartialEq, Eq)]
pub struct Scene {
    pub record: Vec<u16>,
    pub pages: Vec<u16>,
    pub memory: Vec<u16>,
}

impl Scene {
    // A fresh record, a page of zeros, every map with page n for page n.
    pub fn fresh() -> Scene {
        let mut record = vec![0; RECORD_WORDS];
        record[P] = 2;
        let pages = (0..PAGE_REGISTERS as u16).map(|register| register % 32).collect();
        Scene { record, pages, memory: vec![0; PAGE_WORDS] }
    }

    fn has_good_lengths(&self) -> bool {
        let whole = self.memory.len().is_multiple_of(PAGE_WORDS) && !self.memory.is_empty();
        self.record.len() == RECORD_WORDS && self.pages.len() == PAGE_REGISTERS && whole
    }

    // Where a word of the Execute map lies, if it is memory and there.
    fn place(&self, address: u16) -> Option<usize> {
        if address < 2 {
            return None;
        }
        let register = usize::from(self.record[WMAP] & 31) * 32 + usize::from(address >> 10);
        let index = usize::from(self.pages[register] & 0o37777) * PAGE_WORDS + usize::from(address & 0o1777);
        (index < self.memory.len()).then_some(index)
    }

    // Puts a word where the machine will read it, or nowhere.
    pub fn poke(&mut self, address: u16, word: u16) {
        let address = address & ADDRESS;
        if address < 2 {
            self.record[usize::from(address)] = word;
        } else if let Some(index) = self.place(address) {
            self.memory[index] = word;
        }
    }

    pub fn peek(&self, address: u16) -> u16 {
        let address = address & ADDRESS;
        if address < 2 {
            return self.record[usize::from(address)];
        }
        self.place(address).map_or(0, |index| self.memory[index])
    }
}

// ---------------------------------------------------------------------------
// Words.

fn address(random: &mut Random) -> u16 {
    match random.below(12) {
        0 => random.word() & 1,
        1 => ADDRESS - (random.word() & 1),
        2 | 3 => random.word() & 0o76000 | (0o1775 + random.word() % 3),
        4 => random.word() & 0o76000 | (random.word() % 4),
        5 => random.word() % 16,
        6 => random.word() & 0o1777,
        _ => random.word() & ADDRESS,
    }
}

fn value(random: &mut Random) -> u16 {
    match random.below(8) {
        0 => random.pick(&[0, 1, 2, 0o77776, 0o77777, 0o100000, 0o100001, 0o177776, 0o177777]),
        1 => random.word() % 8,
        2 => random.word() | SIGN,
        3 => 1 << random.below(16),
        4 => address(random),
        _ => random.word(),
    }
}

// An address word: direct or asking for a level.
fn address_word(random: &mut Random) -> u16 {
    let sign = if random.one_in(4) { SIGN } else { 0 };
    address(random) | sign
}

fn any_word(random: &mut Random) -> u16 {
    match random.below(8) {
        0 => instruction(random),
        1 => address(random) | SIGN,
        2..=4 => address(random),
        5 => value(random),
        6 => random.word() % 4,
        _ => random.word(),
    }
}

// Every operation and every extended code is as likely as any other.
pub fn instruction(random: &mut Random) -> u16 {
    const REST: usize = 26;
    let kind = random.below(OPERATIONS.len() + EXTENDED.len() + REST);
    if kind < OPERATIONS.len() {
        let word = (kind as u16 + 2) << 11 | random.word() & 0o102000;
        return word
            | match random.below(4) {
                0 => random.pick(&[0, 1, 2, 7, 0o1776, 0o1777]),
                _ => random.word() & 0o1777,
            };
    }
    let kind = kind - OPERATIONS.len();
    if kind < EXTENDED.len() {
        let code = EXTENDED[kind].0;
        return if kind < 6 { code | random.word() & 15 } else { code };
    }
    match kind - EXTENDED.len() {
        0..=3 => random.word() & 0o005777,
        4..=6 => 0o002000 | random.word() & 0o005777,
        7 => sparse_alter(random),
        8..=14 => 0o102001 | (kind as u16 & 7) << 6 | random.word() & 0o005000,
        15..=20 => 0o102000 | random.word() & 0o005777,
        21 => 0o105700 + random.word() % 10,
        22 => random.pick(&[0o100000, 0o100600, 0o104600, 0o105762, 0o105767, 0o105772, 0o105712, 0o101743]),
        23 => 0o100000 | random.word() & 0o005777,
        24 => random.pick(&[0, 0o000600, 0o000500, 0o002001, 0o002031]),
        _ => random.word(),
    }
}

// An alter/skip word with few bits, so that single conditions decide.
fn sparse_alter(random: &mut Random) -> u16 {
    let mut word = 0o002000 | random.word() & 0o004001;
    for _ in 0..2 {
        word |= 1 << random.below(10);
    }
    word
}

// ---------------------------------------------------------------------------
// Scenes.

pub fn generate(random: &mut Random, scene: &mut Scene) {
    if !scene.has_good_lengths() {
        *scene = Scene::fresh();
        scene.pages = (0..PAGE_REGISTERS).map(|_| random.word()).collect();
    }
    memory(random, scene);
    registers(random, scene);
    page_registers(random, scene);
    trap(random, scene);
    let word = instruction(random);
    let p = scene.record[P];
    scene.poke(p, word);
    operands(random, scene, word);
    if random.one_in(200) {
        endless(random, scene);
    }
    if random.one_in(80) {
        spoil(random, scene);
    }
}

fn memory(random: &mut Random, scene: &mut Scene) {
    if random.one_in(40) {
        let pages = random.pick(&[1, 1, 2, 2, 3, 4, 5, 6, 8]);
        scene.memory.resize(pages * PAGE_WORDS, 0);
        for word in &mut scene.memory {
            *word = any_word(random);
        }
    } else {
        for _ in 0..24 {
            let index = random.below(scene.memory.len());
            scene.memory[index] = any_word(random);
        }
    }
}

fn registers(random: &mut Random, scene: &mut Scene) {
    for register in [A, B, X, Y] {
        scene.record[register] = value(random);
    }
    scene.record[P] = match random.below(10) {
        0 => random.word() & 1,
        1 => ADDRESS - random.word() % 3,
        2 => random.word() & 0o76000 | (0o1775 + random.word() % 3),
        _ => random.word() & ADDRESS,
    };
    scene.record[E] = random.word() & 1;
    scene.record[O] = random.word() & 1;
    scene.record[WMAP] = random.word();
    if random.one_in(4) {
        scene.record[WMAP] &= !31;
    }
    if random.one_in(4) {
        let map = scene.record[WMAP] & 31;
        scene.record[WMAP] = scene.record[WMAP] & SIGN | map | map << 5 | map << 10;
    }
    scene.record[IMAP] = random.word();
    scene.record[VIOLATION] = random.word() & ADDRESS;
    scene.record[INTERRUPT] = random.pick(&[0, 7]);
    scene.record[TRAP] = 0;
    scene.record[SWITCHES] = random.word() & 0o377;
    scene.record[LIGHTS] = random.word() & 0o377;
}

// Page registers of the maps in use and of map 0.
fn page_registers(random: &mut Random, scene: &mut Scene) {
    let wmap = scene.record[WMAP];
    let there = scene.memory.len() / PAGE_WORDS;
    let manner = random.below(8);
    for map in [0, wmap & 31, wmap >> 5 & 31, wmap >> 10 & 31] {
        for page in 0..32 {
            let mut register = match manner {
                0 | 1 => page % there,
                _ => random.below(there),
            } as u16;
            let (closed, absent) = match manner {
                0 | 2 => (0, 0),
                1 | 3 => (16, 0),
                4 => (6, 24),
                5 => (3, 12),
                6 => (0, 6),
                _ => (24, 24),
            };
            if absent > 0 && random.one_in(absent) {
                let last = there as u16;
                register = random.pick(&[last, last, last + 1, 0o20000, 0o37777]);
                register |= random.pick(&[0, 0, TO_STORE, TO_READ, TO_READ | TO_STORE]);
            }
            if closed > 0 && random.one_in(closed) {
                register |= TO_STORE;
            }
            if closed > 0 && random.one_in(closed) {
                register |= TO_READ;
            }
            scene.pages[usize::from(map) * 32 + page] = register;
        }
    }
}

// Puts something into the trap cell, and at times makes a trap wait.
fn trap(random: &mut Random, scene: &mut Scene) {
    let cell = match random.below(5) {
        0 => instruction(random),
        _ => random.pick(&[0o014000, 0o024000]) | random.word() & 0o103777,
    };
    let wmap = scene.record[WMAP];
    scene.record[WMAP] = 0;
    scene.poke(7, cell);
    scene.record[WMAP] = wmap;
    if random.one_in(24) {
        scene.record[TRAP] = 7;
        if !random.one_in(40) {
            scene.record[WMAP] &= !SIGN;
        }
        if random.one_in(2) {
            scene.poke(7, cell);
        }
    }
}

// Second and third words, and registers that suit the instruction.
fn operands(random: &mut Random, scene: &mut Scene, word: u16) {
    let p = scene.record[P];
    let (second, third) = (p.wrapping_add(1) & ADDRESS, p.wrapping_add(2) & ADDRESS);
    let extended = word & 0o172000 == 0o100000;
    if !extended {
        return;
    }
    if !random.one_in(8) {
        let one = address_word(random);
        scene.poke(second, one);
        if random.one_in(2) {
            let end = value(random);
            scene.poke(one, end);
        }
    }
    match word {
        0o100400 => division(random, scene),
        0o105763 | 0o105764 => scene.record[B] = byte_address(random),
        0o105765 | 0o105766 => block(random, scene, 2, word == 0o105766),
        0o105776 | 0o105777 => block(random, scene, 1, word == 0o105776),
        0o105773..=0o105775 => {
            let two = address_word(random);
            scene.poke(third, two);
            let mask = scene.peek(scene.peek(second));
            match random.below(4) {
                0 => scene.poke(two, !mask),
                1 | 2 => scene.poke(two, mask | random.word() & random.word()),
                _ => {}
            }
        }
        _ => cross(random, scene, word),
    }
}

fn byte_address(random: &mut Random) -> u16 {
    address(random) << 1 | random.word() & 1
}

// A dividend near what the divisor can divide.
fn division(random: &mut Random, scene: &mut Scene) {
    let divisor = value(random);
    let one = scene.peek(scene.record[P].wrapping_add(1));
    if one & SIGN != 0 || one < 2 || random.one_in(6) {
        return;
    }
    scene.poke(one, divisor);
    let divisor = i64::from(divisor as i16);
    let quotient = match random.below(3) {
        0 => random.pick(&[-32_769, -32_768, -32_767, -1, 0, 1, 32_766, 32_767, 32_768]),
        _ => i64::from(random.word() as i16),
    };
    let rest = match divisor.abs() {
        0 => i64::from(random.word()),
        size => random.below(size as usize) as i64,
    };
    let product = quotient * divisor;
    let dividend = if product < 0 { product - rest } else { product + rest };
    let dividend = dividend.clamp(i64::from(i32::MIN), i64::from(i32::MAX)) as u32;
    scene.record[A] = dividend as u16;
    scene.record[B] = (dividend >> 16) as u16;
}

// A cross compare that is often equal.
fn cross(random: &mut Random, scene: &mut Scene, word: u16) {
    let map = match word & 0o173777 {
        0o101723 => scene.record[WMAP] >> 10 & 31,
        0o101726 => scene.record[WMAP] >> 5 & 31,
        _ => return,
    };
    let one = scene.peek(scene.record[P].wrapping_add(1));
    let page = scene.pages[usize::from(map) * 32 + usize::from(one >> 10 & 31)] & 0o37777;
    let index = usize::from(page) * PAGE_WORDS + usize::from(one & 0o1777);
    if random.one_in(2) && index < scene.memory.len() {
        let register = if word & 0o004000 != 0 { B } else { A };
        scene.record[register] = scene.memory[index];
    }
}

// A count and two ranges for a move or a compare, `per` elements to a word.
fn block(random: &mut Random, scene: &mut Scene, per: u16, compare: bool) {
    let count = match random.below(12) {
        0 => random.pick(&[0, SIGN, 0o100005, 0o177777]),
        1 => random.pick(&[1024, 2048, 4096, 8192, 0o77777]),
        2 => random.word() % 3000,
        3 | 4 => random.word() % 200,
        _ => 1 + random.word() % 9,
    };
    let size = 0o100000u32 * u32::from(per);
    let kept = (size - 1) as u16;
    let mut start = || {
        let word = match random.below(8) {
            0 => address(random),
            1 => ADDRESS.wrapping_sub(count / per).wrapping_add(random.word() % 4) & ADDRESS,
            2 | 3 => (random.word() & 0o76000).wrapping_sub(random.word() % 8) & ADDRESS,
            _ => 2 + random.word() % 0o77000,
        };
        let high = if per == 1 { random.word() & SIGN & random.word() } else { 0 };
        ((word.wrapping_mul(per) & kept) + random.word() % per) | high
    };
    let from = start();
    let to = match start() {
        other if other % 3 == 0 => other,
        other => from.wrapping_add(other % 9).wrapping_sub(4),
    };
    scene.record[A] = from;
    scene.record[B] = to;
    if compare && count < SIGN {
        alike(random, scene, per, from, to, count.min(3000));
    }
    let one = scene.peek(scene.record[P].wrapping_add(1));
    if one & SIGN == 0 && (one > 1 || random.one_in(4)) {
        scene.poke(one, count);
    } else if !random.one_in(4) {
        let place = 2 + random.word() % 0o77000;
        let second = scene.record[P].wrapping_add(1) & ADDRESS;
        if second > 1 {
            scene.poke(second, place);
            scene.poke(place, count);
        }
    }
}

// Makes the words under two ranges the same, and at times one not.
fn alike(random: &mut Random, scene: &mut Scene, per: u16, from: u16, to: u16, count: u16) {
    if per == 1 {
        for place in 0..count {
            let word = scene.peek(from.wrapping_add(place));
            poke_memory(scene, to.wrapping_add(place), word);
        }
    } else {
        for place in 0..count {
            let source = from.wrapping_add(place);
            let target = to.wrapping_add(place);
            let word = scene.peek(source >> 1);
            let byte = if source & 1 != 0 { word & 0o377 } else { word >> 8 };
            let held = scene.peek(target >> 1);
            let word = if target & 1 != 0 { held & 0o177400 | byte } else { held & 0o377 | byte << 8 };
            poke_memory(scene, target >> 1, word);
        }
    }
    if count > 0 && random.one_in(2) {
        let at = to.wrapping_add(random.word() % count) / per;
        let word = any_word(random);
        poke_memory(scene, at, word);
    }
}

fn poke_memory(scene: &mut Scene, address: u16, word: u16) {
    if address & ADDRESS > 1 {
        scene.poke(address, word);
    }
}

// A chain that comes back to itself, of one, two or three words.
fn endless(random: &mut Random, scene: &mut Scene) {
    let p = scene.record[P];
    let places = [address(random), address(random), address(random)];
    let used = 1 + random.below(3);
    for place in 0..used {
        scene.poke(places[place], SIGN | places[(place + 1) % used]);
    }
    match random.below(3) {
        0 => scene.poke(p, random.pick(&[0o110000, 0o160000, 0o124000, 0o114000]) | places[0] & 0o1777),
        1 => {
            scene.poke(p, random.pick(&[0o100200, 0o104400, 0o105777, 0o101724]));
            scene.poke(p.wrapping_add(1), SIGN | places[0]);
        }
        _ => {
            scene.poke(p, 0o105773);
            scene.poke(p.wrapping_add(1), places[1]);
            scene.poke(p.wrapping_add(2), SIGN | places[0]);
        }
    }
}

// Makes the call a bad one, mostly.
fn spoil(random: &mut Random, scene: &mut Scene) {
    match random.below(14) {
        0 => scene.record.truncate(random.below(RECORD_WORDS)),
        1 => scene.record.push(0),
        2 => scene.record[P] |= SIGN,
        3 => scene.record[E] = random.pick(&[2, 3, SIGN, SIGN | 1]),
        4 => scene.record[O] = random.pick(&[2, 3, SIGN, SIGN | 1]),
        5 => scene.record[VIOLATION] |= SIGN,
        6 => scene.record[INTERRUPT] = random.pick(&[1, 6, 8, SIGN, SIGN | 7]),
        7 => scene.record[TRAP] = random.pick(&[1, 6, 8, SIGN, SIGN | 7]),
        8 => scene.record[SWITCHES] |= random.pick(&[0o400, SIGN]),
        9 => scene.record[LIGHTS] |= random.pick(&[0o400, SIGN]),
        10 => {
            scene.record[TRAP] = 7;
            scene.record[WMAP] |= SIGN;
        }
        11 => scene.pages.resize(random.pick(&[0, 1, PAGE_REGISTERS - 1, PAGE_REGISTERS + 1, 2 * PAGE_REGISTERS]), 0),
        12 => {
            let length = scene.memory.len();
            scene.memory.resize(random.pick(&[0, 1, PAGE_WORDS - 1, length - 1, length + 1]), 0);
        }
        _ => {
            scene.record.clear();
            scene.memory.clear();
            scene.pages.clear();
        }
    }
}

// A scene of four pages that are all there and open, with P in the third.
pub fn open(random: &mut Random, scene: &mut Scene, protection: u16) {
    if scene.memory.len() != 4 * PAGE_WORDS {
        *scene = Scene::fresh();
        scene.memory = (0..4 * PAGE_WORDS).map(|_| any_word(random)).collect();
        scene.pages = (0..PAGE_REGISTERS as u16).map(|register| register % 4).collect();
    }
    registers(random, scene);
    scene.record[WMAP] = scene.record[WMAP] & ADDRESS | protection;
    scene.record[P] = 0o4000 | random.word() & 0o1777;
    for place in 0..3 {
        let word = any_word(random);
        scene.poke(scene.record[P].wrapping_add(place), word);
    }
}

// A scene whose words from P onward are instructions with operands that are
// mostly there, so that a run gets on.
pub fn program(random: &mut Random, scene: &mut Scene) {
    generate(random, scene);
    if !scene.has_good_lengths() {
        return;
    }
    if random.one_in(3) {
        return;
    }
    let there = scene.memory.len() / PAGE_WORDS;
    for (place, register) in scene.pages.iter_mut().enumerate() {
        *register = (place % 32 % there) as u16;
    }
    if random.one_in(2) {
        let place = random.below(PAGE_REGISTERS);
        scene.pages[place] |= random.pick(&[TO_READ, TO_STORE, 0o37777]);
    }
    let mut address = scene.record[P];
    for _ in 0..random.below(400) {
        let word = harmless(random);
        scene.poke(address, word);
        address = address.wrapping_add(1);
        if word & 0o172000 == 0o100000 {
            for _ in 0..2 {
                let operand = 2 + random.word() % 0o77770;
                scene.poke(address, operand);
                address = address.wrapping_add(1);
            }
        }
    }
    if random.one_in(3) {
        let back = 0o026000 | scene.record[P] & 0o1777;
        scene.poke(address, back);
    }
}

// An instruction that seldom stops a run.
fn harmless(random: &mut Random) -> u16 {
    loop {
        let word = instruction(random);
        let stops = word & 0o172000 == 0o102000 && word & 0o77 != 1 || word & 0o177700 == 0o105700 && word < 0o105712;
        let goes = word & 0o074000 == 0o024000 || word & 0o074000 == 0o014000;
        if !stops && (!goes || random.one_in(4)) {
            return word;
        }
    }
}
