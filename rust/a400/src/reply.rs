//! The replies of the paper, by name.

use std::fmt;

/// What a call replied. The last is the instruction writer's alone.
#[derive(Clone, Copy, Debug, PartialEq, Eq)]
pub enum Reply {
    Completed = 0,
    Violation = 1,
    InputOutput = 2,
    Endless = 3,
    Absent = 4,
    InRegisters = 5,
    NotBuilt = 6,
    TrapCell = 7,
    BadCall = 8,
    NoWord = 9,
}

impl Reply {
    /// All of them, by number.
    pub const ALL: [Reply; 10] = [
        Reply::Completed,
        Reply::Violation,
        Reply::InputOutput,
        Reply::Endless,
        Reply::Absent,
        Reply::InRegisters,
        Reply::NotBuilt,
        Reply::TrapCell,
        Reply::BadCall,
        Reply::NoWord,
    ];

    /// The reply with the paper's number.
    pub fn from_number(number: u32) -> Option<Reply> {
        Reply::ALL.get(usize::try_from(number).ok()?).copied()
    }

    /// The paper's number.
    pub fn number(self) -> u32 {
        self as u32
    }

    // The library replies with no other number.
    pub(crate) fn of(number: u32) -> Reply {
        Reply::from_number(number).expect("a reply of the paper")
    }
}

/// The paper's sentence: when the reply is given.
impl fmt::Display for Reply {
    fn fmt(&self, to: &mut fmt::Formatter<'_>) -> fmt::Result {
        to.write_str(match self {
            Reply::Completed => "the instruction was completed",
            Reply::Violation => "a violation was met",
            Reply::InputOutput => "an I/O code the host must do",
            Reply::Endless => "an indirect chain never ends",
            Reply::Absent => "a physical page beyond the lent memory is accessed",
            Reply::InRegisters => {
                "a byte or word (the count aside) that LBT, SBT, MBT, CBT, MVW or CMW works on \
                 lies in word 0 or 1 of the Execute map"
            }
            Reply::NotBuilt => "the code isn't built",
            Reply::TrapCell => "the waiting trap cell holds neither JMP nor JSB",
            Reply::BadCall => "bad call",
            Reply::NoWord => "no word reads as this instruction",
        })
    }
}
