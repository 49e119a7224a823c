//! Blocks of frames.

use std::fmt;

use lovarntek::Order;

/// The frames of a huge frame.
pub const HUGE: u64 = 512;

/// A block: its first frame and its size.
#[derive(Clone, Copy, Debug, PartialEq, Eq)]
pub struct Block {
    pub frame: u64,
    pub order: Order,
}

impl Block {
    /// The block of all bits that are set in a word, if they are one naturally aligned run.
    pub fn of_bits(word: usize, bits: u64) -> Option<Block> {
        let frames = u64::from(bits.count_ones());
        let order = runs().find(|order| order.frames() == frames)?;
        let block = Block {
            frame: word as u64 * 64 + u64::from(bits.trailing_zeros()),
            order,
        };
        (block.is_aligned() && block.pieces().all(|(_, mask)| mask == bits)).then_some(block)
    }

    /// The block of one child.
    pub fn of_child(child: usize) -> Block {
        Block {
            frame: child as u64 * HUGE,
            order: Order::Huge,
        }
    }

    /// Whether the first frame is a multiple of the block's frames.
    pub fn is_aligned(self) -> bool {
        self.frame.is_multiple_of(self.order.frames())
    }

    /// The child in which the block lies.
    pub fn child(self) -> usize {
        (self.frame / HUGE) as usize
    }

    /// The words that an aligned block meets, each with the block's bits in it.
    pub fn pieces(self) -> impl Iterator<Item = (usize, u64)> {
        let first = (self.frame / 64) as usize;
        let (words, mask) = match self.order {
            Order::Huge => (8, u64::MAX),
            run => (1, (u64::MAX >> (64 - run.frames())) << (self.frame % 64)),
        };
        (first..first + words).map(move |word| (word, mask))
    }
}

impl fmt::Display for Block {
    fn fmt(&self, f: &mut fmt::Formatter<'_>) -> fmt::Result {
        write!(
            f,
            "block of order {} at frame {}",
            self.order.number(),
            self.frame
        )
    }
}

/// The order of a number.
pub fn order_of(number: u64) -> Option<Order> {
    Order::ALL
        .into_iter()
        .find(|order| order.number() == number)
}

/// The orders of blocks that lie in one word.
fn runs() -> impl Iterator<Item = Order> {
    Order::ALL.into_iter().filter(|&order| order != Order::Huge)
}
