//! The library's records as the reference's, and back.
//!
//! The library names the place of a get; the reference numbers the places of the passes, and its record has the number of the next one. The library names
//! the child that a search stands at; the reference counts the children before it.

mod life;
mod operations;
mod places;

pub use life::{creating, of_creating, of_opening, opening};
pub use operations::{of_operation, operation};

/// Trees of an aligned block.
const BLOCK: usize = 32;
const TREE_CHILDREN: usize = 32;

/// The numbers of a zone that a translation needs.
#[derive(Clone, Copy, Debug, PartialEq, Eq)]
pub struct Shape {
    pub n: usize,
    pub cpus: usize,
}

impl Shape {
    pub fn trees(&self) -> usize {
        self.n.div_ceil(TREE_CHILDREN)
    }

    /// Children of a tree; 0 for one that does not exist.
    pub fn width(&self, tree: usize) -> usize {
        let first = tree.saturating_mul(TREE_CHILDREN);
        self.n.saturating_sub(first).min(TREE_CHILDREN)
    }

    /// Other trees in the aligned block of a tree.
    fn near(&self, base: usize) -> usize {
        let first = base / BLOCK * BLOCK;
        (self.trees().saturating_sub(first))
            .min(BLOCK)
            .saturating_sub(1)
    }
}
