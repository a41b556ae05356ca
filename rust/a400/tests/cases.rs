// Cases C1 to C15 and the listing of the paper, against the rules carried
// out directly and against the library.

use a400::record::{A, B, E, IMAP, INTERRUPT, O, P, TRAP, VIOLATION, WMAP};
use a400::{PAGE_REGISTERS, PAGE_WORDS, RECORD_WORDS};

type Step = fn(&mut [u16], &mut [u16], &mut [u16]) -> u32;
type Run = fn(&mut [u16], &mut [u16], &mut [u16], u32, &mut [u32]) -> u32;
type Fresh = fn(&mut [u16]) -> u32;

const BOTH: [(&str, Step, Run); 2] = [("paper", paper::step, paper::run), ("library", a400::step, a400::run)];

// What differs from a fresh machine with 32 pages of zeros before a step, and
// what the step changes. Nothing else may change.
struct Case {
    name: &'static str,
    registers: &'static [(usize, u16)],
    words: &'static [(usize, u16)],
    reply: u32,
    registers_after: &'static [(usize, u16)],
    words_after: &'static [(usize, u16)],
}

const INA: u16 = 0o002004;

const PAGE_BYTES: usize = 2 * PAGE_WORDS;

const CASES: &[Case] = &[
    Case {
        name: "C1",
        registers: &[(A, 0o77777)],
        words: &[(2, INA)],
        reply: 0,
        registers_after: &[(A, 0o100000), (O, 1), (P, 3)],
        words_after: &[],
    },
    Case {
        name: "C1, E set before",
        registers: &[(A, 0o77777), (E, 1)],
        words: &[(2, INA)],
        reply: 0,
        registers_after: &[(A, 0o100000), (O, 1), (P, 3)],
        words_after: &[],
    },
    Case {
        name: "C2",
        registers: &[(A, 0o177777)],
        words: &[(2, INA)],
        reply: 0,
        registers_after: &[(A, 0), (E, 1), (P, 3)],
        words_after: &[],
    },
    Case {
        name: "C2, O set before",
        registers: &[(A, 0o177777), (O, 1)],
        words: &[(2, INA)],
        reply: 0,
        registers_after: &[(A, 0), (E, 1), (P, 3)],
        words_after: &[],
    },
    Case {
        name: "C3",
        registers: &[(A, 0o100000)],
        words: &[(2, 0o002031)],
        reply: 0,
        registers_after: &[(P, 3)],
        words_after: &[],
    },
    Case {
        name: "C4",
        registers: &[(A, 0o100001)],
        words: &[(2, 0o002031)],
        reply: 0,
        registers_after: &[(P, 4)],
        words_after: &[],
    },
    Case {
        name: "C5",
        registers: &[],
        words: &[(2, 0o002001)],
        reply: 0,
        registers_after: &[(P, 4)],
        words_after: &[],
    },
    Case {
        name: "C6",
        registers: &[(A, 0o100000)],
        words: &[(2, 0o000600)],
        reply: 0,
        registers_after: &[(E, 1), (P, 3)],
        words_after: &[],
    },
    Case {
        name: "C7",
        registers: &[(A, 0o100000), (B, 0o123), (O, 1)],
        words: &[(2, 0o100200), (3, 0o100), (0o100, 0o100000)],
        reply: 0,
        registers_after: &[(A, 0), (B, 0o040000), (O, 0), (P, 4)],
        words_after: &[],
    },
    Case {
        name: "C8",
        registers: &[(A, 0o177771), (B, 0o177777), (O, 1)],
        words: &[(2, 0o100400), (3, 0o100), (0o100, 2)],
        reply: 0,
        registers_after: &[(A, 0o177775), (B, 0o177777), (O, 0), (P, 4)],
        words_after: &[],
    },
    Case {
        name: "C9",
        registers: &[(A, 0o100000), (B, 0)],
        words: &[(2, 0o100400), (3, 0o100), (0o100, 1)],
        reply: 0,
        registers_after: &[(O, 1), (P, 4)],
        words_after: &[],
    },
    Case {
        name: "C10",
        registers: &[(A, 0), (B, 0o040000)],
        words: &[(2, 0o100021)],
        reply: 0,
        registers_after: &[(A, 0), (B, 0), (O, 1), (P, 3)],
        words_after: &[],
    },
    Case {
        name: "C11",
        registers: &[(A, 5), (B, 0o100000), (O, 1)],
        words: &[(2, 0o101020)],
        reply: 0,
        registers_after: &[(A, 0o100000), (B, 0o177777), (O, 0), (P, 3)],
        words_after: &[],
    },
    Case {
        name: "C12",
        registers: &[(A, 0o100), (B, 0o101)],
        words: &[(2, 0o105777), (3, 0o200), (0o200, 3), (0o100, 7), (0o101, 1), (0o102, 2), (0o103, 3)],
        reply: 0,
        registers_after: &[(A, 0o103), (B, 0o104), (P, 5)],
        words_after: &[(0o101, 7), (0o102, 7), (0o103, 7)],
    },
    Case {
        name: "C13",
        registers: &[(A, 1), (B, 0o41)],
        words: &[(2, 0o105764), (0o20, 0o123456)],
        reply: 0,
        registers_after: &[(B, 0o42), (P, 3)],
        words_after: &[(0o20, 0o123401)],
    },
    Case {
        name: "C14",
        registers: &[],
        words: &[(2, 0o160100), (0o100, 0o100100)],
        reply: 3,
        registers_after: &[],
        words_after: &[],
    },
    Case {
        name: "C15",
        registers: &[(P, 0o77777)],
        words: &[],
        reply: 0,
        registers_after: &[(P, 0)],
        words_after: &[],
    },
    Case {
        name: "SEZ comes before CLE",
        registers: &[(E, 1)],
        words: &[(2, 0o002140)],
        reply: 0,
        registers_after: &[(E, 0), (P, 3)],
        words_after: &[],
    },
    Case {
        name: "HLT under protection: the interrupt state",
        registers: &[(A, 5), (P, 0o3000), (WMAP, 0o117652), (IMAP, 0o17)],
        words: &[(0o3000, 0o102077)],
        reply: 1,
        registers_after: &[(WMAP, 0o016500), (IMAP, 0o117652), (VIOLATION, 0o3000), (INTERRUPT, 7), (TRAP, 7)],
        words_after: &[],
    },
    Case {
        name: "JSB in the trap cell stores P itself",
        registers: &[(P, 0o3000), (TRAP, 7), (INTERRUPT, 7)],
        words: &[(7, 0o016100)],
        reply: 0,
        registers_after: &[(P, 0o101), (TRAP, 0)],
        words_after: &[(0o100, 0o3000)],
    },
    Case {
        name: "a trap cell with LDA",
        registers: &[(TRAP, 7)],
        words: &[(7, 0o060100)],
        reply: 7,
        registers_after: &[],
        words_after: &[],
    },
    Case {
        name: "DST at 1 stores the values at the start",
        registers: &[(A, 0o11), (B, 0o22), (P, 0o100)],
        words: &[(0o100, 0o104400), (0o101, 1)],
        reply: 0,
        registers_after: &[(B, 0o11), (P, 0o102)],
        words_after: &[(2, 0o22)],
    },
];

fn pages() -> Vec<u16> {
    (0..PAGE_REGISTERS as u16).map(|register| register % 32).collect()
}

fn before(case: &Case) -> ([u16; RECORD_WORDS], Vec<u16>) {
    let mut record = [0; RECORD_WORDS];
    assert_eq!(paper::fresh(&mut record), 0);
    let mut memory = vec![0; 32 * PAGE_WORDS];
    for &(register, value) in case.registers {
        record[register] = value;
    }
    for &(address, word) in case.words {
        memory[address] = word;
    }
    (record, memory)
}

#[test]
fn cases() {
    for case in CASES {
        let (mut record_after, mut memory_after) = before(case);
        for &(register, value) in case.registers_after {
            record_after[register] = value;
        }
        for &(address, word) in case.words_after {
            memory_after[address] = word;
        }
        for (who, step, run) in BOTH {
            let (mut record, mut memory) = before(case);
            let mut registers = pages();
            let reply = step(&mut record, &mut registers, &mut memory);
            assert_eq!(reply, case.reply, "{} by a step of the {who}: reply", case.name);
            assert_eq!(record, record_after, "{} by a step of the {who}: registers", case.name);
            assert!(memory == memory_after, "{} by a step of the {who}: memory", case.name);
            assert!(registers == pages(), "{} by a step of the {who}: page registers", case.name);

            let (mut record, mut memory) = before(case);
            let mut count = [99];
            let reply = run(&mut record, &mut registers, &mut memory, 1, &mut count);
            assert_eq!(reply, case.reply, "{} by a run of the {who}: reply", case.name);
            assert_eq!(count[0], u32::from(reply <= 1), "{} by a run of the {who}: count", case.name);
            assert_eq!(record, record_after, "{} by a run of the {who}: registers", case.name);
            assert!(memory == memory_after, "{} by a run of the {who}: memory", case.name);
        }
    }
}

// The listing program of the paper, over one of the two.
fn listing(input: &[u8], run: Run) -> String {
    let mut record = [0; RECORD_WORDS];
    paper::fresh(&mut record);
    let mut count = [0];
    let mut reply = 8;
    let whole = input.len().is_multiple_of(PAGE_BYTES) && (1..=8).contains(&(input.len() / PAGE_BYTES));
    if whole {
        let mut memory: Vec<u16> = input.chunks(2).map(|pair| u16::from_be_bytes([pair[0], pair[1]])).collect();
        reply = run(&mut record, &mut pages(), &mut memory, 1_000, &mut count);
    }
    format!(
        "answer steps P A B E O\n{reply} {} {:06o} {:06o} {:06o} {} {}\n",
        count[0], record[P], record[A], record[B], record[E], record[O]
    )
}

#[test]
fn the_listing() {
    for (who, _, run) in BOTH {
        for pages in 1..=8 {
            let mut input = vec![0; pages * PAGE_BYTES];
            for (address, word) in [(2, 0o060005u16), (3, 0o002004), (4, 0o102077), (5, 0o000051)] {
                input[2 * address..2 * address + 2].copy_from_slice(&word.to_be_bytes());
            }
            let expected = "answer steps P A B E O\n2 2 000004 000052 000000 0 0\n";
            assert_eq!(listing(&input, run), expected, "{who}, {pages} pages");
        }
        for length in [0, 1, PAGE_BYTES - 1, PAGE_BYTES + 1, 9 * PAGE_BYTES] {
            let expected = "answer steps P A B E O\n8 0 000002 000000 000000 0 0\n";
            assert_eq!(listing(&vec![0; length], run), expected, "{who}, {length} bytes");
        }
    }
}

#[test]
fn fresh_records() {
    let freshers: [(&str, Fresh); 2] = [("paper", paper::fresh), ("library", a400::fresh)];
    for (who, fresh) in freshers {
        let mut record = [0o123456; RECORD_WORDS];
        assert_eq!(fresh(&mut record), 0, "{who}");
        let mut expected = [0; RECORD_WORDS];
        expected[P] = 2;
        assert_eq!(record, expected, "{who}");
        for length in [0, 1, RECORD_WORDS - 1, RECORD_WORDS + 1, 2 * RECORD_WORDS] {
            let mut record = vec![0o123456; length];
            assert_eq!(fresh(&mut record), 8, "{who}, {length} words");
            assert!(record.iter().all(|&word| word == 0o123456), "{who}, {length} words");
        }
    }
}
