// Random steps and runs of the library beside the rules carried out directly.
// After each, every register, page register and memory word is compared.
//
// A400_SEED is the seed, A400_STEPS the number of steps. A difference is
// printed with a start state that is as small as could be found.

use a400::record::{A, B, IMAP, NAMES, P, TRAP, WMAP, X, Y};
use a400::words::{Fields, FIELDS};
use a400::{MOST_PAGES, PAGE_WORDS};
use paper::instruction;
use paper::scenes::{self, Random, Scene};
use std::collections::{BTreeMap, HashMap};

fn setting(name: &str, default: u64) -> u64 {
    match std::env::var(name) {
        Ok(text) => text.parse().unwrap_or_else(|_| panic!("{name} is not a number: {text}")),
        Err(_) => default,
    }
}

// ---------------------------------------------------------------------------
// One call of both.

#[derive(Clone, Copy, Debug)]
enum Call {
    Step,
    Run(u32),
}

#[derive(PartialEq, Eq)]
struct Outcome {
    reply: u32,
    count: u32,
}

fn by_paper(call: Call, scene: &mut Scene) -> Outcome {
    let Scene { record, pages, memory } = scene;
    match call {
        Call::Step => Outcome { reply: paper::step(record, pages, memory), count: 0 },
        Call::Run(budget) => {
            let mut count = [77];
            let reply = paper::run(record, pages, memory, budget, &mut count);
            Outcome { reply, count: count[0] }
        }
    }
}

fn by_library(call: Call, scene: &mut Scene) -> Outcome {
    let Scene { record, pages, memory } = scene;
    match call {
        Call::Step => Outcome { reply: a400::step(record, pages, memory), count: 0 },
        Call::Run(budget) => {
            let mut count = [77];
            let reply = a400::run(record, pages, memory, budget, &mut count);
            Outcome { reply, count: count[0] }
        }
    }
}

// Two machines that have been the same so far, and the start of the call.
struct Pair {
    paper: Scene,
    library: Scene,
    start: Scene,
}

impl Pair {
    fn new() -> Pair {
        Pair { paper: Scene::fresh(), library: Scene::fresh(), start: Scene::fresh() }
    }

    fn begin(&mut self) {
        self.library.clone_from(&self.paper);
    }

    // Calls both and compares. Panics with a small start state.
    fn call(&mut self, call: Call, where_met: &str) -> Outcome {
        self.start.clone_from(&self.paper);
        let expected = by_paper(call, &mut self.paper);
        let given = by_library(call, &mut self.library);
        if expected != given || self.paper != self.library {
            let (call, start) = first_difference(call, self.start.clone());
            let start = shrink(call, start);
            panic!("{where_met}: the library and the paper differ\n{}", report(call, &start));
        }
        let keeps = !matches!(expected.reply, 0 | 1) && matches!(call, Call::Step);
        assert!(!keeps || self.paper == self.start, "{where_met}: a refusal left something changed");
        expected
    }
}

fn differs(call: Call, start: &Scene) -> bool {
    let (mut one, mut other) = (start.clone(), start.clone());
    by_paper(call, &mut one) != by_library(call, &mut other) || one != other
}

// The first step of a run that differs by itself, or the run if there is none.
fn first_difference(call: Call, start: Scene) -> (Call, Scene) {
    let Call::Run(budget) = call else {
        return (call, start);
    };
    let mut scene = start.clone();
    for _ in 0..budget {
        if differs(Call::Step, &scene) {
            return (Call::Step, scene);
        }
        if by_paper(Call::Step, &mut scene).reply != 0 {
            break;
        }
    }
    (call, start)
}

// Sets words to 0 as long as the two still differ.
fn shrink(call: Call, mut scene: Scene) -> Scene {
    for part in [PAGE_WORDS, 256, 64, 16, 4, 1] {
        shrink_part(call, &mut scene, part, |scene| &mut scene.memory);
        shrink_part(call, &mut scene, part, |scene| &mut scene.pages);
    }
    shrink_part(call, &mut scene, 1, |scene| &mut scene.record);
    scene
}

fn shrink_part(call: Call, scene: &mut Scene, part: usize, words: fn(&mut Scene) -> &mut Vec<u16>) {
    let length = words(scene).len();
    let mut tries = 0;
    for from in (0..length).step_by(part) {
        let to = length.min(from + part);
        let kept = words(scene)[from..to].to_vec();
        if kept.iter().all(|&word| word == 0) || tries > 4000 {
            continue;
        }
        tries += 1;
        words(scene)[from..to].fill(0);
        if !differs(call, scene) {
            words(scene)[from..to].copy_from_slice(&kept);
        }
    }
}

fn report(call: Call, start: &Scene) -> String {
    let (mut one, mut other) = (start.clone(), start.clone());
    let (expected, given) = (by_paper(call, &mut one), by_library(call, &mut other));
    let mut text = format!("call {call:?}, start state (octal, what is not named is 0):\n");
    text += &format!("  record of {} words:", start.record.len());
    for (place, &word) in start.record.iter().enumerate() {
        if word != 0 {
            text += &format!(" {} {word:o}", NAMES.get(place).unwrap_or(&"beyond"));
        }
    }
    text += &listed("page registers", &start.pages);
    text += &listed("memory words", &start.memory);
    text += "\nafter the call:";
    text += &format!("\n  paper   reply {} count {}", expected.reply, expected.count);
    text += &format!("\n  library reply {} count {}", given.reply, given.count);
    for (place, (&left, &right)) in one.record.iter().zip(&other.record).enumerate() {
        if left != right {
            text += &format!("\n  {}: paper {left:o}, library {right:o}", NAMES.get(place).unwrap_or(&"beyond"));
        }
    }
    text += &unlike("page register", &one.pages, &other.pages);
    text += &unlike("memory word", &one.memory, &other.memory);
    text
}

fn listed(what: &str, words: &[u16]) -> String {
    let mut text = format!("\n  {} {what}:", words.len());
    for (place, &word) in words.iter().enumerate() {
        if word != 0 {
            text += &format!(" [{place:o}] {word:o}");
        }
    }
    text
}

fn unlike(what: &str, one: &[u16], other: &[u16]) -> String {
    let mut text = String::new();
    for (place, (&left, &right)) in one.iter().zip(other).enumerate().filter(|(_, (l, r))| l != r).take(20) {
        text += &format!("\n  {what} {place:o}: paper {left:o}, library {right:o}");
    }
    text
}

// ---------------------------------------------------------------------------
// Counts.

// How often each reply was given, in all and for each mnemonic.
#[derive(Default)]
struct Tally {
    replies: [u64; 9],
    names: BTreeMap<&'static str, [u64; 9]>,
}

impl Tally {
    fn add(&mut self, reply: u32, word: Option<u16>) {
        self.replies[reply as usize] += 1;
        let names = word.map_or(vec!["no word read"], instruction::mnemonics);
        for name in names {
            self.names.entry(name).or_default()[reply as usize] += 1;
        }
    }

    fn print(&self) {
        println!("reply          0        1        2        3        4        5        6        7        8");
        let row = |name: &str, counts: &[u64; 9]| {
            let cells: Vec<String> = counts.iter().map(|count| format!("{count:8}")).collect();
            println!("{name:<12} {}", cells.join(" "));
        };
        row("all", &self.replies);
        for (name, counts) in &self.names {
            row(name, counts);
        }
    }

    fn occurred(&self, name: &str, reply: usize) -> bool {
        self.names.get(name).is_some_and(|counts| counts[reply] > 0)
    }
}

// The word that the next step carries out, if it can be read.
fn next_word(scene: &mut Scene) -> Option<u16> {
    paper::Machine::lend(&scene.record, &scene.pages, &mut scene.memory)?.next_word()
}

// ---------------------------------------------------------------------------
// Steps.

#[test]
fn steps() {
    let seed = setting("A400_SEED", 1);
    let steps = setting("A400_STEPS", 1_000_000);
    let mut random = Random::new(seed);
    let mut pair = Pair::new();
    let mut tally = Tally::default();
    let mut done = 0;
    while done < steps {
        scenes::generate(&mut random, &mut pair.paper);
        pair.begin();
        // One step mostly, at times some more from where it led.
        let more = if random.one_in(4) { random.below(6) } else { 0 };
        for _ in 0..=more {
            let word = next_word(&mut pair.paper);
            let met = pair.call(Call::Step, &format!("seed {seed}, step {done}"));
            tally.add(met.reply, word);
            done += 1;
            if met.reply > 1 {
                break;
            }
        }
    }
    println!("{done} steps, seed {seed}");
    tally.print();
    if steps >= ENOUGH {
        must_have_occurred(&tally);
    }
}

// From so many steps on, every reply and every mnemonic must have occurred.
const ENOUGH: u64 = 200_000;

// Codes that the host must do are never completed.
const NEVER_COMPLETED: [&str; 7] = ["HLT", "MIA", "MIB", "STC", "CLC", "privileged", "not built"];

// What can meet an endless chain, a closed page or an absent one.
const IN_MEMORY: [&str; 50] = [
    "AND", "JSB", "XOR", "IOR", "ISZ", "ADA", "ADB", "CPA", "CPB", "LDA", "LDB", "STA", "STB", "MPY", "DIV", "DLD",
    "DST", "XLA1", "XSA1", "XCA1", "XLA2", "XSA2", "XCA2", "XLB1", "XSB1", "XCB1", "XLB2", "XSB2", "XCB2", "SAX",
    "LAX", "SAY", "LAY", "SBX", "LBX", "SBY", "LBY", "STX", "LDX", "ADX", "STY", "LDY", "ADY", "MBT", "CBT", "CMW",
    "MVW", "SBS", "CBS", "TBS",
];

const IN_BLOCKS: [&str; 6] = ["LBT", "SBT", "MBT", "CBT", "CMW", "MVW"];

fn must_have_occurred(tally: &Tally) {
    let mut missing = Vec::new();
    for (reply, &count) in tally.replies.iter().enumerate() {
        if count == 0 {
            missing.push(format!("reply {reply}"));
        }
    }
    let mut need = |name: &str, reply: usize| {
        if !tally.occurred(name, reply) {
            missing.push(format!("{name} with reply {reply}"));
        }
    };
    for name in instruction::all_mnemonics() {
        if !NEVER_COMPLETED.contains(&name) {
            need(name, 0);
        }
    }
    for name in IN_MEMORY {
        need(name, 1);
        need(name, 4);
    }
    for name in IN_BLOCKS {
        need(name, 1);
        need(name, 4);
        need(name, 5);
    }
    for name in ["HLT", "STF", "CLF", "SFC", "SFS", "MIA", "MIB", "LIA", "LIB", "OTA", "OTB", "STC", "CLC"] {
        need(name, 1);
        need(name, 2);
    }
    for (name, reply) in [("privileged", 1), ("privileged", 6), ("not built", 6), ("JMP", 3), ("no word read", 8)] {
        need(name, reply);
    }
    for (name, reply) in
        [("no word read", 1), ("no word read", 4), ("LDA", 7), ("HLT", 7), ("MVW", 7), ("MVW", 3), ("SBS", 3)]
    {
        need(name, reply);
    }
    assert!(missing.is_empty(), "did not occur: {missing:?}");
}

// Each of the 65,536 words as an instruction, with protection on and off, and
// with registers that lean to the ends of their ranges.
#[test]
fn every_word_as_an_instruction() {
    let mut random = Random::new(setting("A400_SEED", 1) ^ 0x7777);
    let mut pair = Pair::new();
    for word in 0..=u16::MAX {
        for protection in [0, 0o100000, 0, 0o100000] {
            scenes::open(&mut random, &mut pair.paper, protection);
            let p = pair.paper.record[P];
            pair.paper.poke(p, word);
            pair.begin();
            pair.call(Call::Step, &format!("word {word:06o}"));
        }
    }
}

// ---------------------------------------------------------------------------
// Runs.

#[test]
fn runs() {
    let seed = setting("A400_SEED", 1);
    let runs = setting("A400_STEPS", 1_000_000) / 40;
    let mut random = Random::new(seed ^ 0x5555);
    let mut pair = Pair::new();
    let mut replies = [0u64; 9];
    let mut steps = 0u64;
    for number in 0..runs {
        scenes::program(&mut random, &mut pair.paper);
        pair.begin();
        let budget = match random.below(12) {
            0 => random.pick(&[0, 1, 2]),
            1 if random.one_in(400) => 1_000_000,
            1 => random.pick(&[1_000_001, u32::MAX, 0x8000_0000]),
            2 => random.below(5000) as u32,
            _ => random.below(200) as u32,
        };
        let met = pair.call(Call::Run(budget), &format!("seed {seed}, run {number}"));
        replies[met.reply as usize] += 1;
        steps += u64::from(met.count);
    }
    println!("{runs} runs, seed {seed}, {steps} steps in them; by reply 0 to 8: {replies:?}");
    for (reply, &count) in replies.iter().enumerate() {
        assert!(count > 0 || runs < ENOUGH / 40, "no run replied {reply}");
    }
}

// Each word at the first five places of a run, with budgets of 1 to 5: runs end
// before it, at it and behind it, and what stands around it is taken by the lane
// or left by it. Every word of the extended space at all 25 of them.
#[test]
fn every_word_where_a_run_ends() {
    // INA, ALS, LDA 0, ADA 1, CAX, CXA, XAX; STO and CLO, which the lane leaves.
    const AROUND: [u16; 9] =
        [0o002004, 0o001000, 0o060000, 0o040001, 0o101741, 0o101744, 0o101747, 0o102101, 0o103101];
    let mut random = Random::new(setting("A400_SEED", 1) ^ 0x1111);
    let mut pair = Pair::new();
    let mut met_at: BTreeMap<&'static str, [u64; 25]> = BTreeMap::new();
    for word in 0..=u16::MAX {
        let extended = word & 0o172000 == 0o100000;
        let ends: Vec<usize> = if extended { (0..25).collect() } else { vec![random.below(25), random.below(25)] };
        for end in ends {
            let (before, budget) = (end as u16 / 5, end as u32 % 5 + 1);
            for protection in [0, 0o100000] {
                scenes::open(&mut random, &mut pair.paper, protection);
                let p = pair.paper.record[P];
                for place in 0..before {
                    pair.paper.poke(p + place, random.pick(&AROUND));
                }
                pair.paper.poke(p + before, word);
                // What follows, or the words that belong to it.
                for place in 1..5 {
                    if random.one_in(2) {
                        pair.paper.poke(p + before + place, random.pick(&AROUND));
                    }
                }
                pair.begin();
                let met = pair.call(Call::Run(budget), &format!("word {word:06o} after {before}, budget {budget}"));
                let reached = budget.min(u32::from(before));
                assert!(met.count >= reached, "word {word:06o}: the {before} steps before it end after {}", met.count);
                for name in instruction::mnemonics(word) {
                    met_at.entry(name).or_default()[end] += 1;
                }
            }
        }
    }
    for name in instruction::all_mnemonics() {
        let missing = met_at[name].iter().position(|&count| count == 0);
        assert_eq!(missing, None, "{name} was not met at every place with every budget");
    }
}

// ---------------------------------------------------------------------------
// The reader and the writer.

// The fields of a word as the library numbers them.
fn fields_of(word: u16) -> Fields {
    use instruction::{Instruction, Long};
    let flag = u16::from;
    match instruction::read(word) {
        Instruction::Memory { operation, indirect, current, offset } => {
            [0, operation as u16 + 2, flag(indirect), flag(current), offset, 0, 0, 0, 0, 0]
        }
        Instruction::Shift(shift) => [
            1,
            shift.register as u16,
            flag(shift.first_enabled),
            shift.first,
            flag(shift.clear_e),
            flag(shift.skip_low),
            flag(shift.second_enabled),
            shift.second,
            0,
            0,
        ],
        Instruction::Alter(alter) => [
            2,
            alter.register as u16,
            alter.word,
            flag(alter.skip_e),
            alter.e,
            flag(alter.skip_sign),
            flag(alter.skip_low),
            flag(alter.increment),
            flag(alter.skip_zero),
            flag(alter.reverse),
        ],
        Instruction::InputOutput { operation, bit_11, bit_9, select } => {
            [3, operation, flag(bit_11), flag(bit_9), select, 0, 0, 0, 0, 0]
        }
        Instruction::Long { kind, places } => {
            let number = match kind {
                Long::Asl => 0,
                Long::Lsl => 1,
                Long::Rrl => 2,
                Long::Asr => 3,
                Long::Lsr => 4,
                Long::Rrr => 5,
            };
            [4, number, places, 0, 0, 0, 0, 0, 0, 0]
        }
        Instruction::Extended(_) => [5, word, 0, 0, 0, 0, 0, 0, 0, 0],
        Instruction::NotBuilt(word) => [6, word, 0, 0, 0, 0, 0, 0, 0, 0],
    }
}

#[test]
fn every_word() {
    for word in 0..=u16::MAX {
        let mut fields = [0o123456; FIELDS];
        assert_eq!(a400::read(word, &mut fields), 0, "{word:06o}");
        assert_eq!(fields, fields_of(word), "{word:06o}");
        let mut written = [!word];
        assert_eq!(a400::write(&fields, &mut written), 0, "{word:06o}");
        assert_eq!(written, [word]);
    }
}

// Fields that no word reads as: reply 9 and word 0.
#[test]
fn every_writing() {
    let words: HashMap<Fields, u16> = (0..=u16::MAX).map(|word| (fields_of(word), word)).collect();
    let mut random = Random::new(setting("A400_SEED", 1) ^ 0x3333);
    let (mut written, mut refused) = (0, 0);
    for _ in 0..setting("A400_STEPS", 1_000_000) / 4 {
        let mut fields = fields_of(scenes::instruction(&mut random));
        for _ in 0..random.below(3) {
            let place = random.below(FIELDS);
            fields[place] = match random.below(4) {
                0 => fields[place].wrapping_add(1),
                1 => fields[place].wrapping_sub(1),
                2 => random.pick(&[0, 1, 2, 3, 4, 7, 8, 15, 16, 17, 63, 64, 1023, 1024, 0o101721, 0o105762, 0o177777]),
                _ => random.word(),
            };
        }
        let mut word = [0o123456];
        let reply = a400::write(&fields, &mut word);
        match words.get(&fields) {
            Some(&expected) => {
                assert_eq!((reply, word), (0, [expected]), "{fields:?}");
                written += 1;
            }
            None => {
                assert_eq!((reply, word), (9, [0]), "{fields:?}");
                refused += 1;
            }
        }
    }
    println!("writer: {written} written, {refused} refused with 9");
    assert!(written > 0 && refused > 0);
}

#[test]
fn fields_of_a_wrong_length() {
    for length in [0, 1, FIELDS - 1, FIELDS + 1, 2 * FIELDS] {
        let mut fields = vec![0o123456; length];
        assert_eq!(a400::read(0o002004, &mut fields), 8, "{length} fields to read into");
        assert!(fields.iter().all(|&field| field == 0o123456), "{length} fields to read into");
        let mut word = [0o123456];
        assert_eq!(a400::write(&vec![0; length], &mut word), 8, "{length} fields to write");
        assert_eq!(word, [0o123456]);
    }
    for length in [0, 2, 3] {
        let mut word = vec![0o123456; length];
        assert_eq!(a400::write(&fields_of(0o002004), &mut word), 8, "{length} words");
        assert!(word.iter().all(|&word| word == 0o123456));
    }
}

// ---------------------------------------------------------------------------
// Calls that are refused, and ends of ranges.

#[test]
fn counts_of_a_wrong_length() {
    for length in [0, 2, 3] {
        for budget in [0, 1, 1_000_001] {
            let (mut one, mut other) = (Scene::fresh(), Scene::fresh());
            let (mut left, mut right) = (vec![77; length], vec![77; length]);
            let Scene { record, pages, memory } = &mut one;
            assert_eq!(paper::run(record, pages, memory, budget, &mut left), 8);
            let Scene { record, pages, memory } = &mut other;
            assert_eq!(a400::run(record, pages, memory, budget, &mut right), 8);
            assert!(one == other && left == right, "a count of {length} numbers, budget {budget}");
        }
    }
}

#[test]
fn budgets() {
    for budget in [0, 1, 999_999, 1_000_000, 1_000_001, 1_000_002, u32::MAX] {
        for trap in [0, 7, 8] {
            let mut pair = Pair::new();
            // JMP 2 at 2, and JMP 2 in the trap cell.
            pair.paper.memory[2] = 0o024002;
            pair.paper.memory[7] = 0o024002;
            pair.paper.record[TRAP] = trap;
            pair.begin();
            let met = pair.call(Call::Run(budget), &format!("budget {budget}"));
            let good = budget <= 1_000_000 && trap != 8;
            assert_eq!(met.reply, if good { 0 } else { 8 });
            assert_eq!(met.count, if good { budget } else { 0 });
        }
    }
}

#[test]
fn every_range_end_of_a_record() {
    for (place, name) in NAMES.iter().enumerate() {
        // Some values are enough for the registers that may hold any word.
        let any_word = [A, B, X, Y, WMAP, IMAP].contains(&place);
        for value in (0..=u16::MAX).step_by(if any_word { 251 } else { 1 }) {
            let mut start = Scene::fresh();
            start.record[place] = value;
            let (mut one, mut other) = (start.clone(), start);
            // Budget 0 tests the call and does nothing else.
            let (left, right) = (by_paper(Call::Run(0), &mut one), by_library(Call::Run(0), &mut other));
            assert!(left == right && one.record == other.record, "{name} {value:o}");
        }
    }
}

#[test]
fn largest_memory() {
    let mut pair = Pair::new();
    pair.paper.memory = vec![0; MOST_PAGES * PAGE_WORDS];
    // The last page of the largest memory, read and stored through map 0.
    pair.paper.pages[5] = 0o37777;
    pair.paper.memory[2] = 0o160100;
    pair.paper.memory[0o100] = 0o13777;
    *pair.paper.memory.last_mut().expect("not empty") = 0o123456;
    pair.paper.memory[3] = 0o174100;
    pair.begin();
    assert_eq!(pair.call(Call::Step, "largest memory").reply, 0);
    assert_eq!(pair.paper.record[A], 0o123456);
    assert_eq!(pair.call(Call::Step, "largest memory").reply, 0);
    assert_eq!(pair.paper.memory.last(), Some(&0));
    pair.paper.memory.resize((MOST_PAGES + 1) * PAGE_WORDS, 0);
    pair.begin();
    assert_eq!(pair.call(Call::Step, "one page too many").reply, 8);
}

// A chain through every address once, from `JMP first,I`, with the given last
// word. The instruction's own word is one of its words.
fn longest_chain(first: u16, last_word: u16) -> Scene {
    let mut scene = Scene::fresh();
    scene.memory = vec![0; 32 * PAGE_WORDS];
    let p: u16 = 0o3000;
    let instruction = 0o124000 | first;
    let after_p = instruction & 0o77777;
    let mut order: Vec<u16> = vec![first];
    order.extend((0..=0o77777).filter(|&address| address != first && address != p && address != after_p));
    order.extend([p, after_p]);
    assert_eq!(order.len(), 32_768);
    for pair in order.windows(2) {
        scene.poke(pair[0], 0o100000 | pair[1]);
    }
    assert_eq!(scene.peek(p), instruction);
    scene.poke(after_p, last_word);
    scene.record[P] = p;
    scene
}

#[test]
fn longest_chains() {
    for first in [2, 7, 0, 1, 0o1777] {
        for (last_word, reply) in [(0o4321, 0), (0o104321, 3), (0o100000, 3), (0, 0)] {
            let mut pair = Pair::new();
            pair.paper = longest_chain(first, last_word);
            pair.begin();
            let met = pair.call(Call::Step, "longest chain");
            assert_eq!(met.reply, reply);
            if reply == 0 {
                assert_eq!(pair.paper.record[P], last_word);
            }
        }
    }
}
