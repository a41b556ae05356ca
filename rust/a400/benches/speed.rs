// How fast the library is beside plain Rust, on the same programs in the same
// run, with protection off and on; and how much stack a step takes.
//
// Plain Rust is `speed/plain.rs`: the paper's rules written for speed. Before
// anything is timed it is compared with the rules carried out directly (package
// `paper`) on random machines. The two are timed in turn by processor
// time, and the median of several rounds is printed. There are no limits.

#[path = "speed/clock.rs"]
mod clock;
#[path = "speed/plain.rs"]
mod plain;
#[path = "speed/programs.rs"]
mod programs;
#[path = "speed/stack.rs"]
mod stack;

use clock::processor_time;
use paper::scenes::{self, Random, Scene};
use programs::{Manner, Program};
use std::time::Duration;

const ROUNDS: usize = 11;

type Run = fn(&mut [u16], &mut [u16], &mut [u16], u32, &mut [u32]) -> u32;
type Step = fn(&mut [u16], &mut [u16], &mut [u16]) -> u32;

#[derive(Clone, Copy)]
struct Side {
    run: Run,
    step: Step,
}

const PLAIN: Side = Side { run: plain::run, step: plain::step };
const LIBRARY: Side = Side { run: a400::run, step: a400::step };

fn main() {
    check_plain();
    let programs = programs::all();
    println!("steps in a second, in millions; the ratio is that of the library's time to plain Rust's");
    println!("{:<32} {:^28}   {:^28}", "", "protection off", "protection on");
    let heads = format!("{:>10} {:>9} {:>7}", "plain Rust", "library", "ratio");
    println!("{:<32} {heads}   {heads}", "program");
    let mut moves = Vec::new();
    for program in &programs {
        let speeds = [compare(program, 0), compare(program, 0o100000)];
        let cells = speeds.map(|[plain, library]| format!("{plain:>10.2} {library:>9.2} {:>7.2}", plain / library));
        println!("{:<32} {}", program.name, cells.join("   "));
        if let Some(words) = program.words_a_step {
            moves.push((program.name, speeds.map(|both| both.map(|speed| speed * words))));
        }
    }
    println!();
    println!("words moved in a second, in millions");
    for (name, speeds) in moves {
        let cells = speeds.map(|[plain, library]| format!("{plain:>10.0} {library:>9.0} {:>7}", ""));
        println!("{name:<32} {}", cells.join("   ").trim_end());
    }
    println!();
    stack_use(&programs);
}

// ---------------------------------------------------------------------------
// Times.

// Millions of steps in a second: plain Rust's and the library's.
fn compare(program: &Program, protection: u16) -> [f64; 2] {
    let mut scenes = [program.scene(protection), program.scene(protection)];
    let mut times = [Vec::new(), Vec::new()];
    for _ in 0..ROUNDS {
        for (side, (scene, times)) in [PLAIN, LIBRARY].into_iter().zip(scenes.iter_mut().zip(&mut times)) {
            times.push(timed(side, scene, program));
        }
        assert!(scenes[0] == scenes[1], "{}: the two differ", program.name);
    }
    times.map(|times| f64::from(program.steps) / median(times) / 1e6)
}

fn timed(side: Side, scene: &mut Scene, program: &Program) -> Duration {
    let Scene { record, pages, memory } = scene;
    let mut count = [0];
    let start = processor_time();
    match program.manner {
        Manner::Runs(budget) => {
            for _ in 0..program.steps / budget {
                assert_eq!(((side.run)(record, pages, memory, budget, &mut count), count[0]), (0, budget));
            }
        }
        Manner::Steps => {
            for _ in 0..program.steps {
                assert_eq!((side.step)(record, pages, memory), 0);
            }
        }
    }
    processor_time() - start
}

fn median(mut times: Vec<Duration>) -> f64 {
    times.sort();
    times[times.len() / 2].as_secs_f64()
}

// ---------------------------------------------------------------------------
// Plain Rust beside the rules carried out directly.

fn check_plain() {
    let mut random = Random::new(1);
    let mut scene = Scene::fresh();
    for number in 0..40_000 {
        if number % 4 == 0 {
            scenes::program(&mut random, &mut scene);
        } else {
            scenes::generate(&mut random, &mut scene);
        }
        let budget = if number % 4 == 0 { random.below(200) as u32 } else { 1 + random.below(6) as u32 };
        let (mut one, mut other) = (scene.clone(), scene.clone());
        let (mut expected, mut given) = ([77], [77]);
        let replies = [
            paper::run(&mut one.record, &mut one.pages, &mut one.memory, budget, &mut expected),
            plain::run(&mut other.record, &mut other.pages, &mut other.memory, budget, &mut given),
        ];
        let alike = replies[0] == replies[1] && expected == given && one == other;
        assert!(alike, "plain Rust differs from the rules, random machine {number}");
    }
}

// ---------------------------------------------------------------------------
// Stack.

// The deepest of many random steps, and of the programs above.
fn stack_use(programs: &[Program]) {
    let mut random = Random::new(1);
    let mut scene_now = Scene::fresh();
    let mut all: Vec<Scene> = programs.iter().map(|program| program.scene(0)).collect();
    for _ in 0..3_000 {
        scenes::generate(&mut random, &mut scene_now);
        all.push(scene_now.clone());
    }
    let deepest = |step: Step| {
        let mut all = all.clone();
        stack::deepest(move || {
            for scene in &mut all {
                for _ in 0..8 {
                    step(&mut scene.record, &mut scene.pages, &mut scene.memory);
                }
            }
            // Freeing it would use the stack too.
            std::mem::forget(all);
        })
    };
    let nothing: Step = |_, _, _| 0;
    let (base, plain, library) = (deepest(nothing), deepest(plain::step), deepest(a400::step));
    println!("stack below the caller at the deepest point of a step, in bytes:");
    println!("  plain Rust {}, library {}", plain - base, library - base);
}
