//! What a call answers.

pub const LENGTH: u8 = 1;
pub const TRAILER: u8 = 2;
pub const FORM: u8 = 3;
pub const RANGE: u8 = 4;
pub const FLAT: u8 = 5;
pub const STIFF: u8 = 6;
pub const PIVOT: u8 = 7;
pub const BOUND: u8 = 8;
pub const SHORT: u8 = 9;
pub const LENT: u8 = 10;
pub const SCALE: u8 = 11;
pub const UNSETTLED: u8 = 12;
pub const REPLACEMENT: u8 = 13;
pub const THIN: u8 = 14;
pub const INFINITE: u8 = 15;
pub const GARBLED: u8 = 16;
pub const STRAY: u8 = 17;
pub const ZONE: u8 = 18;
pub const EDGE: u8 = 19;

/// A row of the paper's table of refusals, with its place.
#[derive(Clone, Copy, Debug, PartialEq, Eq)]
pub struct Refusal {
    pub number: u8,
    pub place: u32,
}

impl Refusal {
    pub fn at(number: u8, place: u32) -> Refusal {
        Refusal { number, place }
    }

    /// The place is a node, row or element, counted here from 0 and told from 1.
    pub fn at_index(number: u8, index: usize) -> Refusal {
        Refusal::at(number, index as u32 + 1)
    }

    /// The refusals whose place is 0.
    pub fn whole(number: u8) -> Refusal {
        Refusal::at(number, 0)
    }

    pub fn packed(self) -> u64 {
        u64::from(self.number) + 65_536 * u64::from(self.place)
    }
}

/// Of reading, writing, building, replacing and importing.
#[derive(Clone, Copy, Debug, PartialEq, Eq)]
pub enum Answer {
    Done,
    Refused(Refusal),
}

/// Of a step: the number of corrections, 1 to 4.
#[derive(Clone, Copy, Debug, PartialEq, Eq)]
pub enum Stepped {
    Settled(u32),
    Refused(Refusal),
}

/// Of a run: the number of steps done.
#[derive(Clone, Copy, Debug, PartialEq, Eq)]
pub enum Ran {
    Done(u32),
    Refused(Refusal),
}

impl Answer {
    /// number + 256·corrections + 65,536·place
    pub fn packed(self) -> u64 {
        match self {
            Answer::Done => 0,
            Answer::Refused(refusal) => refusal.packed(),
        }
    }
}

impl Stepped {
    /// number + 256·corrections + 65,536·place
    pub fn packed(self) -> u64 {
        match self {
            Stepped::Settled(corrections) => 256 * u64::from(corrections),
            Stepped::Refused(refusal) => refusal.packed(),
        }
    }
}

impl Ran {
    /// number + 65,536·place, or 65,536·steps: a run has no one count of corrections.
    pub fn packed(self) -> u64 {
        match self {
            Ran::Done(steps) => 65_536 * u64::from(steps),
            Ran::Refused(refusal) => refusal.packed(),
        }
    }
}

impl From<Result<(), Refusal>> for Answer {
    fn from(result: Result<(), Refusal>) -> Answer {
        match result {
            Ok(()) => Answer::Done,
            Err(refusal) => Answer::Refused(refusal),
        }
    }
}

impl From<Result<u32, Refusal>> for Stepped {
    fn from(result: Result<u32, Refusal>) -> Stepped {
        match result {
            Ok(corrections) => Stepped::Settled(corrections),
            Err(refusal) => Stepped::Refused(refusal),
        }
    }
}

impl From<Result<u32, Refusal>> for Ran {
    fn from(result: Result<u32, Refusal>) -> Ran {
        match result {
            Ok(steps) => Ran::Done(steps),
            Err(refusal) => Ran::Refused(refusal),
        }
    }
}
