//! Sets of frames, and the frames that blocks should take.

use lovarntek::Order;
use lovarntek::calls::Tables;

use crate::block::{Block, HUGE};
use crate::layout;

/// A set of a zone's frames, one bit each.
#[derive(Clone, Debug, PartialEq, Eq)]
pub struct Frames(Vec<u64>);

impl Frames {
    /// No frame of a zone with `n` huge frames.
    pub fn none(n: u64) -> Self {
        Frames(vec![0; n as usize * 8])
    }

    /// Whether all frames of the block are in the set; false where one is outside the zone.
    pub fn holds(&self, block: Block) -> bool {
        let mut pieces = block.pieces();
        block.is_aligned()
            && pieces.all(|(word, mask)| self.0.get(word).is_some_and(|bits| bits & mask == mask))
    }

    /// Whether any frame of the block is in the set.
    pub fn meets(&self, block: Block) -> bool {
        let mut pieces = block.pieces();
        pieces.any(|(word, mask)| self.0.get(word).is_some_and(|bits| bits & mask != 0))
    }

    /// Adds the block's frames. It lies in the zone.
    pub fn add(&mut self, block: Block) {
        for (word, mask) in block.pieces() {
            self.0[word] |= mask;
        }
    }

    /// Removes the block's frames. It lies in the zone.
    pub fn remove(&mut self, block: Block) {
        for (word, mask) in block.pieces() {
            self.0[word] &= !mask;
        }
    }

    /// The frames of this set that are not in the other.
    pub fn without(&self, other: &Frames) -> Frames {
        let pairs = self.0.iter().zip(&other.0);
        Frames(pairs.map(|(mine, theirs)| mine & !theirs).collect())
    }

    /// The lowest frame of the set.
    pub fn first(&self) -> Option<u64> {
        let word = self.0.iter().position(|&bits| bits != 0)?;
        Some(word as u64 * 64 + u64::from(self.0[word].trailing_zeros()))
    }

    /// How many frames of these children are in the set.
    pub fn count(&self, children: std::ops::Range<usize>) -> u64 {
        let words = &self.0[children.start * 8..children.end * 8];
        words.iter().map(|bits| u64::from(bits.count_ones())).sum()
    }
}

/// The taken frames of a zone, and which children are taken as one.
#[derive(Clone, Debug, PartialEq, Eq)]
pub struct Taken {
    pub frames: Frames,
    pub huge: Vec<bool>,
}

impl Taken {
    /// What stands as taken in the tables: the bit is set, or the child's flag is.
    pub fn found(tables: &Tables<'_>) -> Self {
        let huge: Vec<bool> = tables
            .children
            .iter()
            .copied()
            .map(layout::flagged)
            .collect();
        let mut words = tables.words.to_vec();
        for (field, &flagged) in words.chunks_mut(8).zip(&huge) {
            if flagged {
                field.fill(u64::MAX);
            }
        }
        let frames = Frames(words);
        Taken { frames, huge }
    }

    /// What these blocks of `n` huge frames come to. A frame in two of them is a fault.
    pub fn of(n: u64, blocks: impl IntoIterator<Item = Block>) -> Result<Self, String> {
        let mut expected = Taken {
            frames: Frames::none(n),
            huge: vec![false; n as usize],
        };
        for block in blocks {
            expected.add(block)?;
        }
        Ok(expected)
    }

    /// Adds a block, which must lie in the zone and in no other block.
    pub fn add(&mut self, block: Block) -> Result<(), String> {
        if !block.is_aligned() || block.frame >= self.huge.len() as u64 * HUGE {
            return Err(format!("no such block: {block}"));
        }
        if self.frames.meets(block) {
            return Err(format!("a frame stands in two blocks: {block}"));
        }
        self.frames.add(block);
        self.huge[block.child()] |= block.order == Order::Huge;
        Ok(())
    }

    /// Removes a block that was added.
    pub fn remove(&mut self, block: Block) {
        self.frames.remove(block);
        self.huge[block.child()] &= block.order != Order::Huge;
    }
}
