//! The faults that lines name, by number and name.

use std::fmt;

/// A fault. Its number is the discriminant, and its name in a line is that of the variant.
#[derive(Clone, Copy, Debug, PartialEq, Eq)]
#[repr(u8)]
pub enum Fault {
    NotUtf8 = 1,
    OpenComment = 2,
    OpenString = 3,
    Syntax = 4,
    UnknownKey = 10,
    TooManySteps = 11,
    EmptyKey = 12,
    UnknownScope = 20,
    BadLayout = 21,
    TooManyKeys = 22,
    BadToken = 30,
    Unexpected = 31,
    TooDeep = 32,
    BadNumber = 33,
    /// A warning only, which has no name in a line.
    UnreadPattern = 34,
    MissingMember = 40,
    WrongShape = 41,
    BadHex = 42,
    DuplicateHandler = 43,
    TooLarge = 44,
    BadLength = 50,
    BadOpcode = 51,
    BadOperand = 52,
    BadBlock = 53,
    MissingOperand = 60,
    WrongOperand = 61,
    UnknownCommand = 62,
    WrongArgument = 63,
    BadJump = 64,
    FallsOff = 65,
    ShapesDiffer = 66,
    TooHigh = 67,
    OverDepth = 68,
    OverBudget = 69,
    AlreadyExists = 70,
    Exhausted = 71,
    StaleTicket = 72,
    InUse = 73,
    CalleeNotLive = 74,
    MissingDependency = 90,
    DuplicateExtension = 91,
    UnknownExtension = 92,
    NeedsDependency = 93,
    NeededBy = 94,
    SignatureChanged = 95,
    NoEntry = 96,
    NoClosure = 98,
}

impl Fault {
    pub fn number(self) -> u8 {
        self as u8
    }
}

impl fmt::Display for Fault {
    fn fmt(&self, f: &mut fmt::Formatter<'_>) -> fmt::Result {
        write!(f, "{} {:?}", self.number(), self)
    }
}

/// A fault, and the name that a line adds to it.
#[derive(Debug)]
pub struct Refusal {
    pub fault: Fault,
    pub detail: Option<String>,
}

impl Refusal {
    pub fn naming(fault: Fault, name: &str) -> Refusal {
        Refusal { fault, detail: Some(name.to_owned()) }
    }
}

impl From<Fault> for Refusal {
    fn from(fault: Fault) -> Refusal {
        Refusal { fault, detail: None }
    }
}

impl fmt::Display for Refusal {
    fn fmt(&self, f: &mut fmt::Formatter<'_>) -> fmt::Result {
        self.fault.fmt(f)?;
        match &self.detail {
            Some(detail) => write!(f, " {detail}"),
            None => Ok(()),
        }
    }
}

/// A pattern that compiles to more than `regex` allows, which counts as refused memory.
#[derive(Debug)]
pub struct OutOfMemory;
