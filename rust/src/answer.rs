//! Answers and their numbers.

use crate::calls::{Answered, Ran};
use std::error::Error;
use std::fmt;

/// What a call answers.
#[derive(Clone, Copy, Debug, PartialEq, Eq)]
#[must_use]
pub enum Answer {
    /// 0: ended well, with the block's first frame; create, open and close give frame 0.
    Done(u64),
    /// 1: begun, or moved on by a step; the record goes on.
    UnderWay,
    /// 2 to 14: ended otherwise.
    Refused(Refusal),
}

/// An answer from 2 up. It ends the operation. The refused step has stored nothing; earlier steps of the same operation may have.
#[derive(Clone, Copy, Debug, PartialEq, Eq, Hash)]
pub enum Refusal {
    /// 2: the last place of a get has been tried.
    NoRoom,
    /// 3: the order is not 0 to 6 or 9.
    BadOrder,
    /// 4: the frame is at or above 512 n.
    BadFrame,
    /// 5: the frame is not a multiple of the block's frames.
    Misaligned,
    /// 6: a frame of the run to put back is free, or the huge frame is not taken as one.
    NotTaken,
    /// 7: the CPU is at or above the CPU table's length.
    BadCpu,
    /// 8: the length of a table or of the record is wrong.
    BadBuffers,
    /// 9: the header is malformed.
    NotAZone,
    /// 10: the zone is closed.
    Closed,
    /// 11: the record is finished, of another operation, out of range, or no record at all.
    BadRecord,
    /// 12: an entry read, or the one to be stored, breaks its layout.
    Damaged,
    /// 13: close finds counts that do not add up.
    NotSettled,
    /// 14: create with n = 0 or n above 65,536.
    BadSize,
}

/// The last answer of a run, and the steps that it made.
#[derive(Clone, Copy, Debug, PartialEq, Eq)]
pub struct Run {
    /// The answer of the last step; `UnderWay` when the steps allowed were too few.
    pub answer: Answer,
    /// How many steps the run made.
    pub steps: u64,
}

impl Answer {
    /// The answer's number, 0 to 14.
    pub const fn number(self) -> u64 {
        match self {
            Answer::Done(_) => 0,
            Answer::UnderWay => 1,
            Answer::Refused(refusal) => refusal.number(),
        }
    }

    /// The block's first frame; 0 unless done.
    pub const fn frame(self) -> u64 {
        match self {
            Answer::Done(frame) => frame,
            Answer::UnderWay | Answer::Refused(_) => 0,
        }
    }
}

impl Refusal {
    /// The refusal's number, 2 to 14.
    pub const fn number(self) -> u64 {
        match self {
            Refusal::NoRoom => 2,
            Refusal::BadOrder => 3,
            Refusal::BadFrame => 4,
            Refusal::Misaligned => 5,
            Refusal::NotTaken => 6,
            Refusal::BadCpu => 7,
            Refusal::BadBuffers => 8,
            Refusal::NotAZone => 9,
            Refusal::Closed => 10,
            Refusal::BadRecord => 11,
            Refusal::Damaged => 12,
            Refusal::NotSettled => 13,
            Refusal::BadSize => 14,
        }
    }
}

/// A number above 14, which no call answers, is read as [`Refusal::Damaged`].
impl From<Answered> for Answer {
    fn from(answered: Answered) -> Self {
        Answer::Refused(match answered.number {
            0 => return Answer::Done(answered.frame),
            1 => return Answer::UnderWay,
            2 => Refusal::NoRoom,
            3 => Refusal::BadOrder,
            4 => Refusal::BadFrame,
            5 => Refusal::Misaligned,
            6 => Refusal::NotTaken,
            7 => Refusal::BadCpu,
            8 => Refusal::BadBuffers,
            9 => Refusal::NotAZone,
            10 => Refusal::Closed,
            11 => Refusal::BadRecord,
            13 => Refusal::NotSettled,
            14 => Refusal::BadSize,
            _ => Refusal::Damaged,
        })
    }
}

impl From<Ran> for Run {
    fn from(ran: Ran) -> Self {
        let Ran {
            number,
            frame,
            steps,
        } = ran;
        Run {
            answer: Answered { number, frame }.into(),
            steps,
        }
    }
}

impl fmt::Display for Refusal {
    fn fmt(&self, f: &mut fmt::Formatter<'_>) -> fmt::Result {
        f.write_str(match self {
            Refusal::NoRoom => "no room",
            Refusal::BadOrder => "bad order",
            Refusal::BadFrame => "bad frame",
            Refusal::Misaligned => "misaligned",
            Refusal::NotTaken => "not taken",
            Refusal::BadCpu => "bad CPU",
            Refusal::BadBuffers => "bad buffers",
            Refusal::NotAZone => "not a zone",
            Refusal::Closed => "closed",
            Refusal::BadRecord => "bad record",
            Refusal::Damaged => "damaged",
            Refusal::NotSettled => "not settled",
            Refusal::BadSize => "bad size",
        })
    }
}

impl Error for Refusal {}
