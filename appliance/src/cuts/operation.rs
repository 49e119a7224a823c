//! A get or put under way, and what its steps may do.

use std::fmt;

use lovarntek::Order;
use lovarntek::calls::Answered;

use super::change::Change;
use crate::block::Block;

/// An operation under way. Its record does not survive a cut.
#[derive(Clone, Debug)]
pub struct Operation {
    pub record: [u64; 2],
    pub kind: Kind,
    pub steps: u64,
}

/// What the operation is, and whether its one store that decides has been made.
#[derive(Clone, Copy, Debug, PartialEq, Eq)]
pub enum Kind {
    /// A get, with the block that its taking store took.
    Get { order: Order, taken: Option<Block> },
    /// A put, and whether its clearing store has been made.
    Put { block: Block, cleared: bool },
}

/// How an operation ended.
#[derive(Clone, Copy, Debug, PartialEq, Eq)]
pub enum End {
    /// A get was answered with a block, which is held from now on.
    Got(Block),
    /// Nothing is held by it.
    Nothing,
}

impl Kind {
    /// The block that a cut would lose now: that of a get after its taking store, or of a put before its clearing store.
    pub fn at_stake(self) -> Option<Block> {
        match self {
            Kind::Get { taken, .. } => taken,
            Kind::Put { block, cleared } => (!cleared).then_some(block),
        }
    }

    /// Notes what a step changed. A block taken or freed otherwise than by the one store that decides is a fault.
    pub fn note(&mut self, change: Change) -> Result<(), String> {
        match (&mut *self, change) {
            (_, Change::Nothing | Change::Counts) => Ok(()),
            (Kind::Get { order, taken }, Change::Taken(block))
                if taken.is_none() && block.order == *order =>
            {
                *taken = Some(block);
                Ok(())
            }
            (Kind::Put { block, cleared }, Change::Freed(freed))
                if !*cleared && freed == *block =>
            {
                *cleared = true;
                Ok(())
            }
            _ => Err(format!("{self}: a step makes {change:?}")),
        }
    }

    /// The operation's end by this answer, if it is one. An answer that the steps before do not allow is a fault.
    pub fn end(self, answer: Answered) -> Result<Option<End>, String> {
        match (self, answer.number) {
            (_, 1) => Ok(None),
            (Kind::Get { taken: None, .. }, 2) => Ok(Some(End::Nothing)),
            (
                Kind::Get {
                    taken: Some(block), ..
                },
                0,
            ) if answer.frame == block.frame => Ok(Some(End::Got(block))),
            (
                Kind::Put {
                    block,
                    cleared: true,
                },
                0,
            ) if answer.frame == block.frame => Ok(Some(End::Nothing)),
            _ => Err(format!(
                "{self}: answers {}, frame {}",
                answer.number, answer.frame
            )),
        }
    }

    /// The most steps of its own, in a zone with these trees and CPUs.
    pub fn most_steps(self, trees: u64, cpus: u64) -> u64 {
        match self {
            Kind::Get { .. } => 330 * (3 * trees + cpus + 33),
            Kind::Put { .. } => 4,
        }
    }
}

impl fmt::Display for Kind {
    fn fmt(&self, f: &mut fmt::Formatter<'_>) -> fmt::Result {
        match self {
            Kind::Get { order, taken: None } => write!(f, "get of order {}", order.number()),
            Kind::Get {
                taken: Some(block), ..
            } => write!(f, "get that took the {block}"),
            Kind::Put { block, cleared } => {
                let state = if *cleared { ", cleared" } else { "" };
                write!(f, "put of the {block}{state}")
            }
        }
    }
}
