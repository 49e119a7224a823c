//! The entries' layouts, read by plain code of this program's own.

/// The children of a tree; the last one may have fewer.
pub const CHILDREN: usize = 32;

/// The header of an open zone.
pub fn running(n: u64) -> u64 {
    (0x4C46 << 48) | (1 << 44) | (1 << 42) | (n << 25)
}

/// The header of a closed zone.
pub fn clean(n: u64) -> u64 {
    (0x4C46 << 48) | (1 << 44) | (2 << 42) | (n << 25)
}

/// Whether a child is taken as one huge frame.
pub fn flagged(child: u16) -> bool {
    child >> 15 == 1
}

/// The trees of `n` huge frames.
pub fn trees(n: u64) -> usize {
    (n as usize).div_ceil(CHILDREN)
}

/// The children of one tree in a zone with `children` of them.
pub fn of_tree(tree: usize, children: usize) -> std::ops::Range<usize> {
    tree * CHILDREN..children.min((tree + 1) * CHILDREN)
}

/// The count of a tree's entry.
pub fn tree_count(tree: u16) -> u64 {
    u64::from(tree & 0x7FFF)
}

/// The tree and the count of a CPU's entry, if it is present.
pub fn cpu(entry: u64) -> Option<(usize, u64)> {
    let present = entry >> 63 == 1;
    present.then_some(((entry >> 52 & 0x7FF) as usize, entry >> 32 & 0x7FFF))
}
