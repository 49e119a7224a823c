//! The places of a get, in their order.

use super::Taking;
use super::check::Shape;

/// Trees of an aligned block.
const BLOCK: u16 = 32;
const PARTIAL_FROM: u16 = 2_048;
const PARTIAL_TO: u16 = 14_336;

/// Where a get has its tree from.
#[derive(Clone, Copy, Debug, PartialEq, Eq)]
pub enum Place {
    Own { tree: u16 },
    Near { tree: u16, base: u16 },
    Partial { tree: u16 },
    Free { tree: u16 },
    Any { tree: u16 },
    Stolen { tree: u16, from: u8 },
}

impl Place {
    #[inline(always)]
    pub fn tree(self) -> u16 {
        match self {
            Place::Own { tree }
            | Place::Near { tree, .. }
            | Place::Partial { tree }
            | Place::Free { tree }
            | Place::Any { tree }
            | Place::Stolen { tree, .. } => tree,
        }
    }

    /// Whether a record may name the place.
    #[inline(always)]
    pub fn in_range(self, shape: Shape, cpu: u8) -> bool {
        let rest = match self {
            Place::Near { tree, base } => {
                base < shape.trees && tree != base && tree / BLOCK == base / BLOCK
            }
            Place::Stolen { from, .. } => from < shape.cpus && from != cpu,
            _ => true,
        };
        rest && self.tree() < shape.trees
    }

    /// Whether a pass takes a tree of this count.
    #[inline(always)]
    pub fn fits(self, count: u16) -> bool {
        match self {
            Place::Near { .. } => count >= PARTIAL_FROM,
            Place::Partial { .. } => (PARTIAL_FROM..=PARTIAL_TO).contains(&count),
            Place::Free { .. } => count > PARTIAL_TO,
            _ => true,
        }
    }

    /// The stage at the next place.
    #[inline]
    pub fn next(self, shape: Shape, cpu: u8) -> Taking {
        let more = |tree| (tree + 1 < shape.trees).then_some(tree + 1);
        Taking::Try(match self {
            Place::Own { tree } => near(shape, tree / BLOCK * BLOCK, tree),
            Place::Near { tree, base } => near(shape, tree + 1, base),
            Place::Partial { tree } => match more(tree) {
                Some(tree) => Place::Partial { tree },
                None => Place::Free { tree: 0 },
            },
            Place::Free { tree } => match more(tree) {
                Some(tree) => Place::Free { tree },
                None => Place::Any { tree: 0 },
            },
            Place::Any { tree } => match more(tree) {
                Some(tree) => Place::Any { tree },
                None => return steal(shape, cpu, 0),
            },
            Place::Stolen { from, .. } => return steal(shape, cpu, from + 1),
        })
    }
}

/// The near pass from a tree on, and the partial pass after it.
#[inline]
fn near(shape: Shape, tree: u16, base: u16) -> Place {
    let tree = tree + u16::from(tree == base);
    if tree < shape.trees && tree / BLOCK == base / BLOCK {
        Place::Near { tree, base }
    } else {
        Place::Partial { tree: 0 }
    }
}

/// The CPUs from one on, and No room after the last.
#[inline]
pub fn steal(shape: Shape, cpu: u8, from: u8) -> Taking {
    let from = from + u8::from(from == cpu);
    if from < shape.cpus {
        Taking::Steal { from }
    } else {
        Taking::NoRoom
    }
}
