//! The sizes of a block.

/// The size of a block of frames.
///
/// A block is naturally aligned: its first frame is a multiple of its frames.
#[derive(Clone, Copy, Debug, PartialEq, Eq, Hash)]
pub enum Order {
    /// One base frame: order 0.
    Base,
    /// A run of 2 frames: order 1.
    Run2,
    /// A run of 4 frames: order 2.
    Run4,
    /// A run of 8 frames: order 3.
    Run8,
    /// A run of 16 frames: order 4.
    Run16,
    /// A run of 32 frames: order 5.
    Run32,
    /// A run of 64 frames: order 6.
    Run64,
    /// One huge frame, 512 base frames: order 9.
    Huge,
}

impl Order {
    /// Every order, the smallest first.
    pub const ALL: [Order; 8] = [
        Order::Base,
        Order::Run2,
        Order::Run4,
        Order::Run8,
        Order::Run16,
        Order::Run32,
        Order::Run64,
        Order::Huge,
    ];

    /// The order's number: 0 to 6, or 9.
    pub const fn number(self) -> u64 {
        match self {
            Order::Base => 0,
            Order::Run2 => 1,
            Order::Run4 => 2,
            Order::Run8 => 3,
            Order::Run16 => 4,
            Order::Run32 => 5,
            Order::Run64 => 6,
            Order::Huge => 9,
        }
    }

    /// The frames of a block.
    pub const fn frames(self) -> u64 {
        1 << self.number()
    }
}
