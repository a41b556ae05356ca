//! What a word reads as, by the paper's rules, and its mnemonics.

#[derive(Clone, Copy, Debug, PartialEq, Eq)]
pub enum Register {
    A,
    B,
}

#[derive(Clone, Copy, Debug, PartialEq, Eq)]
pub enum Index {
    X,
    Y,
}

#[derive(Clone, Copy, Debug, PartialEq, Eq)]
pub enum Data {
    One,
    Two,
}

#[derive(Clone, Copy, Debug, PartialEq, Eq)]
pub enum Operation {
    And,
    Jsb,
    Xor,
    Jmp,
    Ior,
    Isz,
    Ada,
    Adb,
    Cpa,
    Cpb,
    Lda,
    Ldb,
    Sta,
    Stb,
}

#[derive(Clone, Copy, Debug, PartialEq, Eq)]
pub struct Shift {
    pub register: Register,
    pub first_enabled: bool,
    pub first: u16,
    pub clear_e: bool,
    pub skip_low: bool,
    pub second_enabled: bool,
    pub second: u16,
}

#[derive(Clone, Copy, Debug, PartialEq, Eq)]
pub struct Alter {
    pub register: Register,
    pub word: u16,
    pub e: u16,
    pub skip_e: bool,
    pub skip_sign: bool,
    pub skip_low: bool,
    pub increment: bool,
    pub skip_zero: bool,
    pub reverse: bool,
}

#[derive(Clone, Copy, Debug, PartialEq, Eq)]
pub enum Long {
    Asl,
    Lsl,
    Rrl,
    Asr,
    Lsr,
    Rrr,
}

#[derive(Clone, Copy, Debug, PartialEq, Eq)]
pub enum Extended {
    Mpy,
    Div,
    Dld,
    Dst,
    CrossLoad(Register, Data),
    CrossStore(Register, Data),
    CrossCompare(Register, Data),
    StoreIndexed(Register, Index),
    LoadIndexed(Register, Index),
    CopyTo(Register, Index),
    CopyFrom(Register, Index),
    Exchange(Register, Index),
    StoreIndex(Index),
    LoadIndex(Index),
    AddIndex(Index),
    IncrementIndex(Index),
    DecrementIndex(Index),
    Lbt,
    Sbt,
    Mbt,
    Cbt,
    Sbs,
    Cbs,
    Tbs,
    Cmw,
    Mvw,
}

#[derive(Clone, Copy, Debug, PartialEq, Eq)]
pub enum Instruction {
    Memory { operation: Operation, indirect: bool, current: bool, offset: u16 },
    Shift(Shift),
    Alter(Alter),
    InputOutput { operation: u16, bit_11: bool, bit_9: bool, select: u16 },
    Long { kind: Long, places: u16 },
    Extended(Extended),
    NotBuilt(u16),
}

// The ten codes that only an unprotected program may use.
pub fn privileged(word: u16) -> bool {
    (0o105700..=0o105711).contains(&word)
}

#[inline(always)]
pub fn read(word: u16) -> Instruction {
    let bit = |n: u16| word >> n & 1 != 0;
    if word & 0o70000 != 0 {
        return Instruction::Memory {
            operation: operation(word),
            indirect: bit(15),
            current: bit(10),
            offset: word & 0o1777,
        };
    }
    let register = if bit(11) { Register::B } else { Register::A };
    match (bit(15), bit(10)) {
        (false, false) => Instruction::Shift(Shift {
            register,
            first_enabled: bit(9),
            first: word >> 6 & 7,
            clear_e: bit(5),
            skip_low: bit(3),
            second_enabled: bit(4),
            second: word & 7,
        }),
        (false, true) => Instruction::Alter(Alter {
            register,
            word: word >> 8 & 3,
            e: word >> 6 & 3,
            skip_e: bit(5),
            skip_sign: bit(4),
            skip_low: bit(3),
            increment: bit(2),
            skip_zero: bit(1),
            reverse: bit(0),
        }),
        (true, true) => {
            Instruction::InputOutput { operation: word >> 6 & 7, bit_11: bit(11), bit_9: bit(9), select: word & 0o77 }
        }
        (true, false) => extended(word),
    }
}

// Bits 14 to 11 are 2 to 15 here.
#[inline(always)]
fn operation(word: u16) -> Operation {
    match word >> 11 & 15 {
        2 => Operation::And,
        3 => Operation::Jsb,
        4 => Operation::Xor,
        5 => Operation::Jmp,
        6 => Operation::Ior,
        7 => Operation::Isz,
        8 => Operation::Ada,
        9 => Operation::Adb,
        10 => Operation::Cpa,
        11 => Operation::Cpb,
        12 => Operation::Lda,
        13 => Operation::Ldb,
        14 => Operation::Sta,
        _ => Operation::Stb,
    }
}

fn extended(word: u16) -> Instruction {
    let kind = match word & 0o177760 {
        0o100020 => Some(Long::Asl),
        0o100040 => Some(Long::Lsl),
        0o100100 => Some(Long::Rrl),
        0o101020 => Some(Long::Asr),
        0o101040 => Some(Long::Lsr),
        0o101100 => Some(Long::Rrr),
        _ => None,
    };
    if let Some(kind) = kind {
        let low = word & 15;
        return Instruction::Long { kind, places: if low == 0 { 16 } else { low } };
    }
    match exact(word) {
        Some(code) => Instruction::Extended(code),
        None => Instruction::NotBuilt(word),
    }
}

fn exact(word: u16) -> Option<Extended> {
    use Data::{One, Two};
    use Extended::*;
    use Index::{X, Y};
    use Register::{A, B};
    Some(match word {
        0o100200 => Mpy,
        0o100400 => Div,
        0o104200 => Dld,
        0o104400 => Dst,
        0o101721 => CrossLoad(A, Two),
        0o101722 => CrossStore(A, Two),
        0o101723 => CrossCompare(A, Two),
        0o101724 => CrossLoad(A, One),
        0o101725 => CrossStore(A, One),
        0o101726 => CrossCompare(A, One),
        0o105721 => CrossLoad(B, Two),
        0o105722 => CrossStore(B, Two),
        0o105723 => CrossCompare(B, Two),
        0o105724 => CrossLoad(B, One),
        0o105725 => CrossStore(B, One),
        0o105726 => CrossCompare(B, One),
        0o101740 => StoreIndexed(A, X),
        0o101741 => CopyTo(A, X),
        0o101742 => LoadIndexed(A, X),
        0o101744 => CopyFrom(A, X),
        0o101747 => Exchange(A, X),
        0o101750 => StoreIndexed(A, Y),
        0o101751 => CopyTo(A, Y),
        0o101752 => LoadIndexed(A, Y),
        0o101754 => CopyFrom(A, Y),
        0o101757 => Exchange(A, Y),
        0o105740 => StoreIndexed(B, X),
        0o105741 => CopyTo(B, X),
        0o105742 => LoadIndexed(B, X),
        0o105744 => CopyFrom(B, X),
        0o105747 => Exchange(B, X),
        0o105750 => StoreIndexed(B, Y),
        0o105751 => CopyTo(B, Y),
        0o105752 => LoadIndexed(B, Y),
        0o105754 => CopyFrom(B, Y),
        0o105757 => Exchange(B, Y),
        0o105743 => StoreIndex(X),
        0o105745 => LoadIndex(X),
        0o105746 => AddIndex(X),
        0o105753 => StoreIndex(Y),
        0o105755 => LoadIndex(Y),
        0o105756 => AddIndex(Y),
        0o105760 => IncrementIndex(X),
        0o105761 => DecrementIndex(X),
        0o105770 => IncrementIndex(Y),
        0o105771 => DecrementIndex(Y),
        0o105763 => Lbt,
        0o105764 => Sbt,
        0o105765 => Mbt,
        0o105766 => Cbt,
        0o105773 => Sbs,
        0o105774 => Cbs,
        0o105775 => Tbs,
        0o105776 => Cmw,
        0o105777 => Mvw,
        _ => return None,
    })
}

// ---------------------------------------------------------------------------
// Mnemonics.

// The extended codes by name, long shifts with their low four bits clear.
pub const EXTENDED: [(u16, &str); 61] = [
    (0o100020, "ASL"),
    (0o100040, "LSL"),
    (0o100100, "RRL"),
    (0o101020, "ASR"),
    (0o101040, "LSR"),
    (0o101100, "RRR"),
    (0o100200, "MPY"),
    (0o100400, "DIV"),
    (0o104200, "DLD"),
    (0o104400, "DST"),
    (0o101721, "XLA2"),
    (0o101722, "XSA2"),
    (0o101723, "XCA2"),
    (0o101724, "XLA1"),
    (0o101725, "XSA1"),
    (0o101726, "XCA1"),
    (0o105721, "XLB2"),
    (0o105722, "XSB2"),
    (0o105723, "XCB2"),
    (0o105724, "XLB1"),
    (0o105725, "XSB1"),
    (0o105726, "XCB1"),
    (0o101740, "SAX"),
    (0o101741, "CAX"),
    (0o101742, "LAX"),
    (0o101744, "CXA"),
    (0o101747, "XAX"),
    (0o101750, "SAY"),
    (0o101751, "CAY"),
    (0o101752, "LAY"),
    (0o101754, "CYA"),
    (0o101757, "XAY"),
    (0o105740, "SBX"),
    (0o105741, "CBX"),
    (0o105742, "LBX"),
    (0o105744, "CXB"),
    (0o105747, "XBX"),
    (0o105750, "SBY"),
    (0o105751, "CBY"),
    (0o105752, "LBY"),
    (0o105754, "CYB"),
    (0o105757, "XBY"),
    (0o105743, "STX"),
    (0o105745, "LDX"),
    (0o105746, "ADX"),
    (0o105753, "STY"),
    (0o105755, "LDY"),
    (0o105756, "ADY"),
    (0o105760, "ISX"),
    (0o105761, "DSX"),
    (0o105770, "ISY"),
    (0o105771, "DSY"),
    (0o105763, "LBT"),
    (0o105764, "SBT"),
    (0o105765, "MBT"),
    (0o105766, "CBT"),
    (0o105773, "SBS"),
    (0o105774, "CBS"),
    (0o105775, "TBS"),
    (0o105776, "CMW"),
    (0o105777, "MVW"),
];

pub const OPERATIONS: [&str; 14] =
    ["AND", "JSB", "XOR", "JMP", "IOR", "ISZ", "ADA", "ADB", "CPA", "CPB", "LDA", "LDB", "STA", "STB"];

pub const SHIFTS: [[&str; 8]; 2] = [
    ["ALS", "ARS", "RAL", "RAR", "ALR", "ERA", "ELA", "ALF"],
    ["BLS", "BRS", "RBL", "RBR", "BLR", "ERB", "ELB", "BLF"],
];

// The mnemonics that a word stands for: one, or the parts of a shift/rotate
// or alter/skip word. A disabled ERA or ELA is named in brackets.
pub fn mnemonics(word: u16) -> Vec<&'static str> {
    match read(word) {
        Instruction::Memory { operation, .. } => vec![OPERATIONS[operation as usize]],
        Instruction::Shift(shift) => shift_parts(shift),
        Instruction::Alter(alter) => alter_parts(alter),
        Instruction::InputOutput { operation, bit_11, bit_9, .. } => {
            let (a, b) = match operation {
                0 => ("HLT", "HLT"),
                1 if bit_9 => ("CLF", "CLF"),
                1 => ("STF", "STF"),
                2 => ("SFC", "SFC"),
                3 => ("SFS", "SFS"),
                4 => ("MIA", "MIB"),
                5 => ("LIA", "LIB"),
                6 => ("OTA", "OTB"),
                _ => ("STC", "CLC"),
            };
            vec![if bit_11 { b } else { a }]
        }
        Instruction::Long { .. } => vec![extended_name(word & 0o177760)],
        Instruction::Extended(_) => vec![extended_name(word)],
        Instruction::NotBuilt(word) => vec![if privileged(word) { "privileged" } else { "not built" }],
    }
}

fn extended_name(code: u16) -> &'static str {
    EXTENDED.iter().find(|row| row.0 == code).expect("a code of the table").1
}

fn shift_parts(shift: Shift) -> Vec<&'static str> {
    let names = SHIFTS[shift.register as usize];
    let disabled = [["(ERA)", "(ELA)"], ["(ERB)", "(ELB)"]][shift.register as usize];
    let mut parts = Vec::new();
    let place = |enabled: bool, code: u16, parts: &mut Vec<&'static str>| match (enabled, code) {
        (true, _) => parts.push(names[usize::from(code)]),
        (false, 5) => parts.push(disabled[0]),
        (false, 6) => parts.push(disabled[1]),
        _ => {}
    };
    place(shift.first_enabled, shift.first, &mut parts);
    if shift.clear_e {
        parts.push("CLE");
    }
    if shift.skip_low {
        parts.push(["SLA", "SLB"][shift.register as usize]);
    }
    place(shift.second_enabled, shift.second, &mut parts);
    if parts.is_empty() {
        parts.push("NOP");
    }
    parts
}

fn alter_parts(alter: Alter) -> Vec<&'static str> {
    let pick = |a, b| if alter.register == Register::A { a } else { b };
    let mut parts = Vec::new();
    match alter.word {
        0 => {}
        1 => parts.push(pick("CLA", "CLB")),
        2 => parts.push(pick("CMA", "CMB")),
        _ => parts.push(pick("CCA", "CCB")),
    }
    if alter.skip_e {
        parts.push("SEZ");
    }
    match alter.e {
        0 => {}
        1 => parts.push("CLE"),
        2 => parts.push("CME"),
        _ => parts.push("CCE"),
    }
    if alter.skip_sign {
        parts.push(pick("SSA", "SSB"));
    }
    if alter.skip_low {
        parts.push(pick("SLA", "SLB"));
    }
    if alter.increment {
        parts.push(pick("INA", "INB"));
    }
    if alter.skip_zero {
        parts.push(pick("SZA", "SZB"));
    }
    if alter.reverse {
        parts.push("RSS");
    }
    if parts.is_empty() {
        parts.push("NOP");
    }
    parts
}

// Every mnemonic that can occur, each once.
pub fn all_mnemonics() -> Vec<&'static str> {
    let mut names = Vec::new();
    for word in 0..=u16::MAX {
        for name in mnemonics(word) {
            if !names.contains(&name) {
                names.push(name);
            }
        }
    }
    names
}
