// The command `a400`: runs, traces and lists memory images.

use a400::record::{E, NAMES, O, P, TRAP};
use a400::{words, Machine, Registers, Reply, MOST_PAGES, MOST_STEPS, PAGE_WORDS};
use std::io::{self, BufWriter, Read, Write};
use std::process::ExitCode;

const HELP: &str = "\
a400: an HP 1000 A400 executor

  a400 run IMAGE [--start ADDRESS] [--budget STEPS]
      Runs the image and prints the registers and how the run ended.
  a400 trace IMAGE [--start ADDRESS] [--budget STEPS]
      The same, with a line for each step: P, the word there, the instruction
      and the registers that changed.
  a400 list IMAGE FROM TO
      Lists the words from address FROM to address TO as instructions. A word
      after an instruction that takes an address word is listed as one.
  a400 --help
      Prints this.

IMAGE is a file of 16-bit words, high byte first, or - for standard input. It
is the memory: 1 to 16,384 whole pages of 2,048 bytes. Every map names page n
for page n, unprotected. Registers start as 0, and P as 2 or as --start says.

Addresses are octal, 0 to 77777. STEPS is decimal, 0 to 1,000,000; without
--budget it is 1,000.

The registers are printed as
  answer steps P A B E O
with the answer's number and the steps in decimal, and P, A and B in octal.
Below stands the answer in words.

Exit status: 0 when the steps were spent or HLT was met, or the listing was
printed; 1 when the machine could not go on otherwise, or the image is not one;
2 for a command line that is not as above.
";

// What ends the command early, with its exit status.
enum Stop {
    Usage(String),
    Image(String),
    Output,
}

impl From<io::Error> for Stop {
    fn from(_: io::Error) -> Stop {
        Stop::Output
    }
}

fn main() -> ExitCode {
    let words: Vec<String> = match std::env::args_os().skip(1).map(|word| word.into_string()).collect() {
        Ok(words) => words,
        Err(_) => return stopped(Stop::Usage("an argument is not text".to_string())),
    };
    let mut out = BufWriter::new(io::stdout().lock());
    let ended = command(&words, &mut out).and_then(|good| {
        out.flush()?;
        Ok(good)
    });
    match ended {
        Ok(true) => ExitCode::SUCCESS,
        Ok(false) => ExitCode::from(1),
        Err(stop) => stopped(stop),
    }
}

fn stopped(stop: Stop) -> ExitCode {
    match stop {
        Stop::Usage(message) => {
            eprintln!("a400: {message}\nTry `a400 --help`.");
            ExitCode::from(2)
        }
        Stop::Image(message) => {
            eprintln!("a400: {message}");
            ExitCode::from(1)
        }
        Stop::Output => ExitCode::from(1),
    }
}

// Whether all went well.
fn command(words: &[String], out: &mut impl Write) -> Result<bool, Stop> {
    let words: Vec<&str> = words.iter().map(String::as_str).collect();
    if words.iter().any(|word| matches!(*word, "--help" | "-h" | "help")) {
        out.write_all(HELP.as_bytes())?;
        return Ok(true);
    }
    match words.split_first() {
        Some((&"run", rest)) => run(Job::of(rest)?, out),
        Some((&"trace", rest)) => trace(Job::of(rest)?, out),
        Some((&"list", rest)) => list(rest, out),
        Some((other, _)) => Err(Stop::Usage(format!("there is no command {other}"))),
        None => Err(Stop::Usage("a command is missing: run, trace or list".to_string())),
    }
}

// ---------------------------------------------------------------------------
// Arguments.

struct Job {
    machine: Machine,
    budget: u32,
}

impl Job {
    fn of(words: &[&str]) -> Result<Job, Stop> {
        let (mut image, mut start, mut budget) = (None, 2, 1_000);
        let mut rest = words.iter();
        while let Some(&word) = rest.next() {
            match word {
                "--start" => start = octal(value(word, rest.next())?)?,
                "--budget" => budget = steps(value(word, rest.next())?)?,
                _ if word.len() > 1 && word.starts_with('-') => {
                    return Err(Stop::Usage(format!("there is no option {word}")))
                }
                _ if image.is_none() => image = Some(word),
                _ => return Err(Stop::Usage(format!("one argument too many: {word}"))),
            }
        }
        let image = image.ok_or_else(|| Stop::Usage("the image is missing".to_string()))?;
        let mut machine = Machine::new(memory(image)?);
        machine.set_registers(Registers { p: start, ..machine.registers() });
        Ok(Job { machine, budget })
    }
}

fn value<'w>(option: &str, word: Option<&&'w str>) -> Result<&'w str, Stop> {
    word.copied().ok_or_else(|| Stop::Usage(format!("{option} needs a number")))
}

fn octal(word: &str) -> Result<u16, Stop> {
    let digits = !word.is_empty() && word.bytes().all(|byte| (b'0'..=b'7').contains(&byte));
    match u16::from_str_radix(word, 8) {
        Ok(address) if digits && address <= 0o77777 => Ok(address),
        _ => Err(Stop::Usage(format!("not an octal address from 0 to 77777: {word}"))),
    }
}

fn steps(word: &str) -> Result<u32, Stop> {
    let digits = word.bytes().all(|byte| byte.is_ascii_digit());
    match word.parse() {
        Ok(steps) if digits && steps <= MOST_STEPS => Ok(steps),
        _ => Err(Stop::Usage(format!("not a number of steps from 0 to {MOST_STEPS}: {word}"))),
    }
}

// The words of an image.
fn memory(image: &str) -> Result<Vec<u16>, Stop> {
    let mut bytes = Vec::new();
    let read = match image {
        "-" => io::stdin().lock().read_to_end(&mut bytes).map(|_| ()),
        _ => std::fs::read(image).map(|read| bytes = read),
    };
    if let Err(error) = read {
        return Err(Stop::Image(format!("cannot read {image}: {error}")));
    }
    let page = 2 * PAGE_WORDS;
    if bytes.is_empty() || !bytes.len().is_multiple_of(page) || bytes.len() > MOST_PAGES * page {
        let length = bytes.len();
        return Err(Stop::Image(format!(
            "{image} has {length} bytes: an image has 1 to {MOST_PAGES} whole pages of {page} bytes"
        )));
    }
    Ok(bytes.chunks_exact(2).map(|pair| u16::from_be_bytes([pair[0], pair[1]])).collect())
}

// ---------------------------------------------------------------------------
// Commands.

fn run(Job { mut machine, budget }: Job, out: &mut impl Write) -> Result<bool, Stop> {
    let (reply, count) = machine.run(budget);
    summary(&machine, reply, count, out)
}

fn trace(Job { mut machine, budget }: Job, out: &mut impl Write) -> Result<bool, Stop> {
    let (mut reply, mut count) = (Reply::Completed, 0);
    while count < budget {
        let before = machine.registers();
        let (word, text) = next_instruction(&machine);
        reply = machine.step();
        let told = match reply {
            Reply::Completed => changes(&before, &machine.registers()),
            _ => format!("{}: {reply}", reply.number()),
        };
        writeln!(out, "{}", format!("{:06o} {word} {text:<24} {told}", before.p).trim_end())?;
        if reply != Reply::Completed {
            break;
        }
        count += 1;
    }
    if reply == Reply::Violation {
        count += 1;
    }
    summary(&machine, reply, count, out)
}

// The word that the next step carries out, and its text.
fn next_instruction(machine: &Machine) -> (String, String) {
    let registers = machine.registers();
    let (address, mark) = if registers.trap != 0 { (registers.trap, "trap ") } else { (registers.p, "") };
    match machine.word_at(address) {
        None => ("------".to_string(), format!("{mark}no such page")),
        Some(word) => {
            let mut text = format!("{mark}{}", words::text(word, address));
            for place in 1..words::length(word) {
                let operand = machine.word_at(address.wrapping_add(place)).map(words::address_text);
                text += &operand.map_or(String::new(), |operand| operand.replacen("DEF", "", 1));
            }
            (format!("{word:06o}"), text)
        }
    }
}

// The registers that a step changed. P stands on the next line.
fn changes(before: &Registers, after: &Registers) -> String {
    let (before, after) = (before.record(), after.record());
    let mut text = Vec::new();
    for (place, name) in NAMES.iter().enumerate() {
        if before[place] == after[place] || place == P {
            continue;
        }
        text.push(match place {
            E | O | TRAP => format!("{name}={:o}", after[place]),
            _ => format!("{name}={:06o}", after[place]),
        });
    }
    text.join(" ")
}

fn summary(machine: &Machine, reply: Reply, count: u32, out: &mut impl Write) -> Result<bool, Stop> {
    let Registers { a, b, p, e, o, .. } = machine.registers();
    writeln!(out, "answer steps P A B E O")?;
    writeln!(out, "{} {count} {p:06o} {a:06o} {b:06o} {e} {o}", reply.number())?;
    let halted = reply == Reply::InputOutput && machine.word_at(p).is_some_and(is_halt);
    match reply {
        Reply::Completed => writeln!(out, "the steps were spent")?,
        _ if halted => writeln!(out, "HLT: {reply}")?,
        _ => writeln!(out, "{reply}")?,
    }
    Ok(reply == Reply::Completed || halted)
}

fn is_halt(word: u16) -> bool {
    let fields = words::fields(word);
    fields[0] == words::INPUT_OUTPUT && fields[1] == 0
}

fn list(words: &[&str], out: &mut impl Write) -> Result<bool, Stop> {
    let &[image, from, to] = words else {
        return Err(Stop::Usage("list needs an image and two addresses".to_string()));
    };
    let (from, to) = (octal(from)?, octal(to)?);
    if from > to {
        return Err(Stop::Usage(format!("the addresses {from:o} and {to:o} are not in order")));
    }
    let memory = memory(image)?;
    if usize::from(to) >= memory.len() {
        return Err(Stop::Image(format!("{image} ends at address {:o}", memory.len() - 1)));
    }
    let (mut address, mut operands) = (from, 0);
    while address <= to {
        let word = memory[usize::from(address)];
        let text = if operands > 0 {
            operands -= 1;
            words::address_text(word)
        } else {
            operands = words::length(word) - 1;
            words::text(word, address)
        };
        writeln!(out, "{address:06o} {word:06o} {text}")?;
        address += 1;
    }
    Ok(true)
}
