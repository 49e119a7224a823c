//! What trees and CPUs may hold after a cut.

use reference::rng::Rng;

/// A kind of junk.
#[derive(Clone, Copy, Debug, PartialEq, Eq)]
pub enum Junk {
    /// Every bit clear.
    Zeros,
    /// Every bit set.
    Ones,
    /// Any bits.
    Random,
    /// What stood there at the cut.
    Stale,
}

impl Junk {
    /// Every kind.
    pub const ALL: [Junk; 4] = [Junk::Zeros, Junk::Ones, Junk::Random, Junk::Stale];

    /// Overwrites trees and CPUs.
    pub fn fill(self, trees: &mut [u16], cpus: &mut [u64], rng: &mut Rng) {
        match self {
            Junk::Zeros => {
                trees.fill(0);
                cpus.fill(0);
            }
            Junk::Ones => {
                trees.fill(u16::MAX);
                cpus.fill(u64::MAX);
            }
            Junk::Random => {
                trees.fill_with(|| rng.any() as u16);
                cpus.fill_with(|| rng.any());
            }
            Junk::Stale => {}
        }
    }

    /// The kind's name.
    pub const fn name(self) -> &'static str {
        match self {
            Junk::Zeros => "zeros",
            Junk::Ones => "ones",
            Junk::Random => "random",
            Junk::Stale => "stale",
        }
    }
}
