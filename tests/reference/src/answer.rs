//! "Each answer is either its result or a refusal with a number and a place."

/// What is turned back, by its number in document 01 or, from 18 on, 02.
#[derive(Clone, Copy, Debug, PartialEq, Eq)]
pub enum Reason {
    TableTooShort = 1,
    NotATable = 2,
    LineOutOfForm = 3,
    OutsideLimits = 4,
    NotOfTask = 5,
    NotAscending = 6,
    SchemaIncomplete = 7,
    BadPartition = 8,
    NoOrder = 9,
    SplitTooLarge = 10,
    TextTooLong = 11,
    BadStep = 12,
    ResultTooLong = 13,
    NoBlock = 14,
    BadState = 15,
    PreconditionMissing = 16,
    StateTooLarge = 17,
    PddlTooLong = 18,
    BadPair = 19,
    PairInNoPart = 20,
    TooManyPairs = 21,
    WidthOrScratch = 22,
    TooManyParts = 23,
    TooManyInstances = 24,
}

/// "Lines count from 1, the others from 0; none is 0."
#[derive(Clone, Copy, Debug, PartialEq, Eq)]
pub enum Place {
    Nowhere,
    Line(u64),
    Schema(u64),
    Step(u64),
}

impl Place {
    pub fn number(self) -> u64 {
        match self {
            Place::Nowhere => 0,
            Place::Line(number) | Place::Schema(number) | Place::Step(number) => number,
        }
    }
}

#[derive(Clone, Copy, Debug, PartialEq, Eq)]
pub struct Refusal {
    pub reason: Reason,
    pub place: Place,
    /// "Refusals 16 and 17 also carry the records left"; 0 with every other.
    pub records: u64,
}

impl Refusal {
    pub fn new(reason: Reason, place: Place) -> Self {
        Refusal {
            reason,
            place,
            records: 0,
        }
    }

    pub fn nowhere(reason: Reason) -> Self {
        Refusal::new(reason, Place::Nowhere)
    }

    pub fn at_step(reason: Reason, step: usize) -> Self {
        Refusal::new(reason, Place::Step(step as u64))
    }

    pub fn number(&self) -> u32 {
        self.reason as u32
    }
}

pub type Answer<Value> = Result<Value, Refusal>;
