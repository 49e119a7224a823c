//! What a kill has left, accounted for by the journal.

use lovarntek::Order;

use super::journal::{Doubt, Reading};
use crate::block::Block;
use crate::frames::Taken;

/// The blocks that a kill lost, by the operation that was cut off.
#[derive(Clone, Debug, Default, PartialEq, Eq)]
pub struct Lost {
    pub gets: Vec<Block>,
    pub puts: Vec<Block>,
}

impl Lost {
    /// All of them.
    pub fn blocks(&self) -> impl Iterator<Item = Block> {
        self.gets.iter().chain(&self.puts).copied()
    }
}

/// Accounts for the taken frames: those of the held and the lost blocks, and at most one block for each doubt. What the doubts have lost, and all blocks
/// together, or the first frame that is unaccounted for.
pub fn account(reading: &Reading, taken: &Taken) -> Result<(Lost, Taken), String> {
    let known = reading.held.iter().chain(&reading.lost).copied();
    let mut expected = Taken::of(taken.huge.len() as u64, known)?;
    if let Some(frame) = expected.frames.without(&taken.frames).first() {
        return Err(format!("frame {frame}: free, expected taken"));
    }
    let mut extra = Taken {
        frames: taken.frames.without(&expected.frames),
        huge: taken.huge.clone(),
    };
    let mut lost = Lost::default();
    if !cover(&mut extra, &mut reading.doubts.clone(), &mut lost) {
        let frame = extra.frames.first().unwrap_or(0);
        return Err(format!(
            "frame {frame}: taken, and in no block of {:?}",
            reading.doubts
        ));
    }
    for block in lost.blocks() {
        expected.add(block)?;
    }
    Ok((lost, expected))
}

/// Covers the frames by one block at most for each doubt, a child that is taken as one by a huge block. The lowest frame must be the first of its block, so
/// that there are few ways to try.
fn cover(extra: &mut Taken, doubts: &mut Vec<Doubt>, lost: &mut Lost) -> bool {
    let Some(frame) = extra.frames.first() else {
        return true;
    };
    for position in 0..doubts.len() {
        let doubt = doubts[position];
        let block = match doubt {
            Doubt::Get(order) => Block { frame, order },
            Doubt::Put(block) => block,
        };
        let tried = doubts[..position].contains(&doubt);
        if tried || block.frame != frame || !fits(extra, block) {
            continue;
        }
        doubts.swap_remove(position);
        extra.frames.remove(block);
        let list = match doubt {
            Doubt::Get(_) => &mut lost.gets,
            Doubt::Put(_) => &mut lost.puts,
        };
        list.push(block);
        if cover(extra, doubts, lost) {
            return true;
        }
        match doubt {
            Doubt::Get(_) => lost.gets.pop(),
            Doubt::Put(_) => lost.puts.pop(),
        };
        extra.frames.add(block);
        doubts.push(doubt);
        let last = doubts.len() - 1;
        doubts.swap(position, last);
    }
    false
}

/// Whether a block is all of a child that is taken as one, or part of one that is not.
fn fits(extra: &Taken, block: Block) -> bool {
    extra.frames.holds(block) && (block.order == Order::Huge) == extra.huge[block.child()]
}
