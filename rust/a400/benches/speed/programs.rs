// The programs that are timed. Each is a loop from address 2, of steps that all
// complete.

use a400::record::WMAP;
use a400::PAGE_WORDS;
use paper::scenes::Scene;

// How the steps of a program are asked for.
pub enum Manner {
    // Runs with this budget.
    Runs(u32),
    // A call for each step.
    Steps,
}

pub struct Program {
    pub name: &'static str,
    pub manner: Manner,
    // How many steps are timed at once.
    pub steps: u32,
    // How many words a step moves on the average, in a program that moves.
    pub words_a_step: Option<f64>,
    words: Vec<(u16, u16)>,
}

impl Program {
    // The program in memory, every page open. `protection` is WMAP.
    pub fn scene(&self, protection: u16) -> Scene {
        let mut scene = Scene::fresh();
        scene.record[WMAP] = protection;
        scene.memory = (0..32 * PAGE_WORDS).map(|place| (place * 7) as u16).collect();
        for &(address, word) in &self.words {
            scene.poke(address, word);
        }
        scene
    }
}

const JMP_2: u16 = 0o024002;
// ISZ 100, JMP 2.
const COUNTING: [u16; 3] = [0o034100, JMP_2, JMP_2];

fn program(name: &'static str, code: &[u16], data: &[(u16, u16)]) -> Program {
    let mut words: Vec<(u16, u16)> = (2..).zip(code.iter().copied()).collect();
    words.extend_from_slice(data);
    Program { name, manner: Manner::Runs(1_000_000), steps: 1_000_000, words_a_step: None, words }
}

pub fn all() -> Vec<Program> {
    let mut all = frequent();
    for (by_words, by_bytes, count) in [
        ("MVW of 32 words", "MBT of 32 words", 32),
        ("MVW of 256 words", "MBT of 256 words", 256),
        ("MVW of 1,024 words", "MBT of 1,024 words", 1024),
        ("MVW of 4,096 words", "MBT of 4,096 words", 4096),
    ] {
        all.push(mover(by_words, 0o105777, count, 0o4000, 0o30003));
        all.push(mover(by_bytes, 0o105765, 2 * count, 0o10000, 0o60006));
    }
    all.push(mover("MBT of 256 words, odd to even", 0o105765, 512, 0o10001, 0o60006));
    all.push(mover("fill: MVW of 4,096 words", 0o105777, 4096, 0o4000, 0o4001));
    let by_steps = program("counting loop, a call a step", &COUNTING, &[]);
    all.push(Program { manner: Manner::Steps, steps: 300_000, ..by_steps });
    let short = program("counting loop, runs of 5", &COUNTING, &[]);
    all.push(Program { manner: Manner::Runs(5), ..short });
    all
}

fn frequent() -> Vec<Program> {
    vec![
        program("counting loop", &COUNTING, &[]),
        // LDA 100, ADA 101, STA 102, LDB 103, ADB 104, STB 105, ISZ 106.
        program(
            "load, add, store, loop",
            &[0o060100, 0o040101, 0o070102, 0o064103, 0o044104, 0o074105, 0o034106, JMP_2, JMP_2],
            &[(0o100, 0o1234), (0o101, 0o4321), (0o103, 0o777), (0o104, 0o177770)],
        ),
        // RAL; ALF,ALF; ERA,CLE,SLA; CMA,SEZ,INA; RBR; CLB,INB; SSA,SLA,RSS.
        program(
            "shift and alter",
            &[0o001200, 0o001727, 0o001550, 0o003044, 0o005300, 0o006404, 0o002031, JMP_2, JMP_2],
            &[],
        ),
        // LDA 100,I; ADA 101,I; STA 102,I; JMP 103,I.
        program(
            "indirect, one level",
            &[0o160100, 0o140101, 0o170102, 0o124103],
            &[(0o100, 0o4000), (0o101, 0o10000), (0o102, 0o4001), (0o103, 2)],
        ),
        // JSB 100, JMP 2; 101: JMP 100,I.
        program("call and return", &[0o014100, JMP_2], &[(0o101, 0o124100)]),
        program("CAX, JMP", &[0o101741, JMP_2], &[]),
        program("MPY, JMP", &[0o100200, 0o100, JMP_2], &[(0o100, 0o12345)]),
        // RRR 7.
        program("long shift, JMP", &[0o101107, JMP_2], &[]),
        // LDA 100,I.
        program(
            "indirect chain of 8",
            &[0o160100, JMP_2],
            &[
                (0o100, 0o100101),
                (0o101, 0o100102),
                (0o102, 0o104000),
                (0o4000, 0o104001),
                (0o4001, 0o110000),
                (0o10000, 0o110001),
                (0o10001, 0o110002),
                (0o10002, 0o000200),
                (0o200, 0o52),
            ],
        ),
    ]
}

// LDA 100, LDB 101, a move with its count at 102, JMP 2.
fn mover(name: &'static str, code: u16, count: u16, from: u16, to: u16) -> Program {
    let data = [(0o100, from), (0o101, to), (0o102, count)];
    let mut made = program(name, &[0o060100, 0o064101, code, 0o102, 0, JMP_2], &data);
    let words = if code == 0o105777 { count } else { count / 2 };
    made.steps = (4_000_000 / u32::from(words)).min(200_000);
    made.manner = Manner::Runs(made.steps);
    made.words_a_step = Some(f64::from(words) / 4.0);
    made
}
