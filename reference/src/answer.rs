//! Answers and their numbers.

/// An answer that ends a call with a number from 2 up.
#[derive(Clone, Copy, Debug, PartialEq, Eq)]
#[repr(u8)]
pub enum Refusal {
    NoRoom = 2,
    BadOrder = 3,
    BadFrame = 4,
    Misaligned = 5,
    NotTaken = 6,
    BadCpu = 7,
    BadBuffers = 8,
    NotAZone = 9,
    Closed = 10,
    BadRecord = 11,
    Damaged = 12,
    NotSettled = 13,
    BadSize = 14,
}

/// The answer of a call; `R` is the record of an operation under way.
#[derive(Clone, Copy, Debug, PartialEq, Eq)]
pub enum Answer<R> {
    /// Ended well, with the block's first frame.
    Done(u64),
    /// Begun, or moved on by a step.
    UnderWay(R),
    Refused(Refusal),
}

impl<R> Answer<R> {
    /// The answer's number, 0 to 14.
    pub fn number(&self) -> u8 {
        match self {
            Answer::Done(_) => 0,
            Answer::UnderWay(_) => 1,
            Answer::Refused(refusal) => *refusal as u8,
        }
    }

    /// The block's first frame; 0 unless done.
    pub fn frame(&self) -> u64 {
        match self {
            Answer::Done(frame) => *frame,
            _ => 0,
        }
    }

    /// The operation under way, if it is.
    pub fn under_way(self) -> Option<R> {
        match self {
            Answer::UnderWay(record) => Some(record),
            _ => None,
        }
    }
}
