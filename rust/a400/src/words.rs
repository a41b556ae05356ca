//! Words read as instructions, and their text. What a word is comes from the
//! library's reader alone; here are only names.

use crate::{read, Reply};

/// The number of fields that the reader sets.
pub const FIELDS: usize = 10;

/// The class and the fields of a word, as the library's header lists them.
pub type Fields = [u16; FIELDS];

/// The classes, the first of the fields.
pub const MEMORY_REFERENCE: u16 = 0;
pub const SHIFT_ROTATE: u16 = 1;
pub const ALTER_SKIP: u16 = 2;
pub const INPUT_OUTPUT: u16 = 3;
pub const LONG_SHIFT: u16 = 4;
pub const EXACT: u16 = 5;
pub const NOT_BUILT: u16 = 6;

// From operation 2.
const OPERATIONS: [&str; 14] =
    ["AND", "JSB", "XOR", "JMP", "IOR", "ISZ", "ADA", "ADB", "CPA", "CPB", "LDA", "LDB", "STA", "STB"];

const SHIFTS: [[&str; 8]; 2] = [
    ["ALS", "ARS", "RAL", "RAR", "ALR", "ERA", "ELA", "ALF"],
    ["BLS", "BRS", "RBL", "RBR", "BLR", "ERB", "ELB", "BLF"],
];

const LONG_SHIFTS: [&str; 6] = ["ASL", "LSL", "RRL", "ASR", "LSR", "RRR"];

// By rising word, each with its name and its length in words.
const EXACT_CODES: [(u16, &str, u16); 55] = [
    (0o100200, "MPY", 2),
    (0o100400, "DIV", 2),
    (0o101721, "XLA2", 2),
    (0o101722, "XSA2", 2),
    (0o101723, "XCA2", 2),
    (0o101724, "XLA1", 2),
    (0o101725, "XSA1", 2),
    (0o101726, "XCA1", 2),
    (0o101740, "SAX", 2),
    (0o101741, "CAX", 1),
    (0o101742, "LAX", 2),
    (0o101744, "CXA", 1),
    (0o101747, "XAX", 1),
    (0o101750, "SAY", 2),
    (0o101751, "CAY", 1),
    (0o101752, "LAY", 2),
    (0o101754, "CYA", 1),
    (0o101757, "XAY", 1),
    (0o104200, "DLD", 2),
    (0o104400, "DST", 2),
    (0o105721, "XLB2", 2),
    (0o105722, "XSB2", 2),
    (0o105723, "XCB2", 2),
    (0o105724, "XLB1", 2),
    (0o105725, "XSB1", 2),
    (0o105726, "XCB1", 2),
    (0o105740, "SBX", 2),
    (0o105741, "CBX", 1),
    (0o105742, "LBX", 2),
    (0o105743, "STX", 2),
    (0o105744, "CXB", 1),
    (0o105745, "LDX", 2),
    (0o105746, "ADX", 2),
    (0o105747, "XBX", 1),
    (0o105750, "SBY", 2),
    (0o105751, "CBY", 1),
    (0o105752, "LBY", 2),
    (0o105753, "STY", 2),
    (0o105754, "CYB", 1),
    (0o105755, "LDY", 2),
    (0o105756, "ADY", 2),
    (0o105757, "XBY", 1),
    (0o105760, "ISX", 1),
    (0o105761, "DSX", 1),
    (0o105763, "LBT", 1),
    (0o105764, "SBT", 1),
    (0o105765, "MBT", 3),
    (0o105766, "CBT", 3),
    (0o105770, "ISY", 1),
    (0o105771, "DSY", 1),
    (0o105773, "SBS", 3),
    (0o105774, "CBS", 3),
    (0o105775, "TBS", 3),
    (0o105776, "CMW", 3),
    (0o105777, "MVW", 3),
];

/// The fields of a word.
pub fn fields(word: u16) -> Fields {
    let mut fields = [0; FIELDS];
    let reply = read(word, &mut fields);
    assert_eq!(reply, Reply::Completed.number(), "every word reads as an instruction");
    fields
}

/// How many words the instruction has.
pub fn length(word: u16) -> u16 {
    let fields = fields(word);
    if fields[0] == EXACT {
        exact(fields[1]).1
    } else {
        1
    }
}

/// The instruction as text. `address` is where the word lies, for the page.
pub fn text(word: u16, address: u16) -> String {
    let fields = fields(word);
    match fields[0] {
        MEMORY_REFERENCE => memory_reference(&fields, address),
        SHIFT_ROTATE => shift_rotate(&fields),
        ALTER_SKIP => alter_skip(&fields),
        INPUT_OUTPUT => input_output(&fields),
        LONG_SHIFT => format!("{} {}", LONG_SHIFTS[usize::from(fields[1])], fields[2]),
        EXACT => exact(fields[1]).0.to_string(),
        _ => "not built".to_string(),
    }
}

/// An address word as text.
pub fn address_text(word: u16) -> String {
    let indirect = if word & 0o100000 != 0 { ",I" } else { "" };
    format!("DEF {:06o}{indirect}", word & 0o77777)
}

// An exact code's name and length.
fn exact(code: u16) -> (&'static str, u16) {
    let row = EXACT_CODES.iter().find(|row| row.0 == code).expect("a code of the table");
    (row.1, row.2)
}

fn memory_reference(fields: &Fields, address: u16) -> String {
    let [_, operation, indirect, current, offset, ..] = *fields;
    let page = if current != 0 { address & 0o76000 } else { 0 };
    let indirect = if indirect != 0 { ",I" } else { "" };
    format!("{} {:06o}{indirect}", OPERATIONS[usize::from(operation - 2)], page | offset)
}

// A disabled ERA or ELA still acts on E: it stands in brackets.
fn shift_rotate(fields: &Fields) -> String {
    let [_, register, first_enabled, first, clear_e, skip, second_enabled, second, ..] = *fields;
    let names = SHIFTS[usize::from(register)];
    let shift = |enabled: u16, code: u16| match (enabled, code) {
        (0, 5 | 6) => format!("({})", names[usize::from(code)]),
        (0, _) => String::new(),
        _ => names[usize::from(code)].to_string(),
    };
    joined(&[
        &shift(first_enabled, first),
        named(clear_e, "CLE"),
        named(skip, by_register(register, "SLA", "SLB")),
        &shift(second_enabled, second),
    ])
}

fn alter_skip(fields: &Fields) -> String {
    let [_, register, alter, sez, extend, sign, low, increment, zero, reverse] = *fields;
    let alters = [["", "CLA", "CMA", "CCA"], ["", "CLB", "CMB", "CCB"]];
    joined(&[
        alters[usize::from(register)][usize::from(alter)],
        named(sez, "SEZ"),
        ["", "CLE", "CME", "CCE"][usize::from(extend)],
        named(sign, by_register(register, "SSA", "SSB")),
        named(low, by_register(register, "SLA", "SLB")),
        named(increment, by_register(register, "INA", "INB")),
        named(zero, by_register(register, "SZA", "SZB")),
        named(reverse, "RSS"),
    ])
}

fn input_output(fields: &Fields) -> String {
    let [_, operation, bit_11, bit_9, select, ..] = *fields;
    let (name, clears) = match operation {
        0 => ("HLT", bit_9 != 0),
        1 => (if bit_9 != 0 { "CLF" } else { "STF" }, false),
        2 => ("SFC", bit_9 != 0),
        3 => ("SFS", bit_9 != 0),
        4 => (by_register(bit_11, "MIA", "MIB"), bit_9 != 0),
        5 => (by_register(bit_11, "LIA", "LIB"), bit_9 != 0),
        6 => (by_register(bit_11, "OTA", "OTB"), bit_9 != 0),
        _ => (by_register(bit_11, "STC", "CLC"), bit_9 != 0),
    };
    format!("{name} {select:02o}{}", if clears { ",C" } else { "" })
}

fn by_register(register: u16, a: &'static str, b: &'static str) -> &'static str {
    if register == 0 {
        a
    } else {
        b
    }
}

fn named(flag: u16, name: &'static str) -> &'static str {
    if flag != 0 {
        name
    } else {
        ""
    }
}

// The parts that are there, or NOP.
fn joined(parts: &[&str]) -> String {
    let there: Vec<&str> = parts.iter().copied().filter(|part| !part.is_empty()).collect();
    if there.is_empty() {
        "NOP".to_string()
    } else {
        there.join(",")
    }
}
