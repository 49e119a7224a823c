//! Tables and records to start from.

mod damage;
mod records;

use reference::layout::Header;
use reference::rng::Rng;

use crate::library::Packed;
use crate::translate::Shape;

pub use damage::{bad_child, bad_cpu, bad_tree, cut, damage, flip};
pub use records::record;

pub const PRESENT: u64 = 1 << 63;
/// Counts at the edges of classes and of huge frames.
const COUNTS: [usize; 14] = [
    0, 1, 2, 511, 512, 513, 1_024, 2_047, 2_048, 14_336, 14_337, 15_872, 16_383, 16_384,
];
/// Counts at the edges of runs.
const SHORT: [usize; 10] = [3, 4, 7, 8, 15, 16, 31, 32, 63, 64];

/// An order that blocks have: often 0 or 9.
pub fn order(rng: &mut Rng) -> u64 {
    rng.pick(&[0, 0, 0, 0, 9, 9, 9, 9, 9, 9, 1, 2, 3, 4, 5, 6])
}

/// The order of a run: 0 to 6.
pub fn run_order(rng: &mut Rng) -> u64 {
    rng.between(0, 6)
}

/// A random number of all 64 bits.
pub fn any(rng: &mut Rng) -> u64 {
    rng.below(1 << 32) << 32 | rng.below(1 << 32)
}

/// The steps that a get or put in one call is allowed: few, or enough.
pub fn fuel(rng: &mut Rng) -> u64 {
    rng.pick(&[0, 1, 2, 3, 5, 10, 1_000, u64::MAX])
}

/// A random word: empty, full, one zero bit, one set bit, fragments, or anything.
pub fn word(rng: &mut Rng) -> u64 {
    match rng.below(11) {
        0 | 1 => 0,
        2..=4 => u64::MAX,
        5 => !(1 << rng.below(64)),
        6 => 1 << rng.below(64),
        7..=9 => fragments(rng),
        _ => any(rng),
    }
}

/// Aligned runs of one size, each full, free, or with one bit set.
fn fragments(rng: &mut Rng) -> u64 {
    let size = 1 << rng.between(0, 5);
    let (free, full) = rng.pick(&[(10, 40), (40, 90), (3, 97), (0, 50)]);
    let mut word = 0;
    for bit in (0..64).step_by(size) {
        let share = rng.below(100);
        word |= if share < free {
            0
        } else if share < full {
            (u64::MAX >> (64 - size)) << bit
        } else {
            1 << (bit as u64 + rng.below(size as u64))
        };
    }
    word
}

/// Base frames of a tree.
pub fn capacity(shape: Shape, tree: usize) -> usize {
    512 * shape.width(tree)
}

/// A count of a tree, often at an edge.
pub fn count(rng: &mut Rng, capacity: usize) -> usize {
    match rng.below(10) {
        0..=5 => rng.pick(&COUNTS).min(capacity),
        6 => rng.pick(&SHORT),
        _ => rng.below(capacity as u64 + 1) as usize,
    }
}

pub fn cpu_entry(tree: usize, start: usize, count: usize) -> u64 {
    PRESENT | (tree as u64) << 52 | (start as u64) << 47 | (count as u64) << 32
}

/// Zero bits of a child's field.
pub fn zeros(words: &[u64], huge: usize) -> u32 {
    words[8 * huge..][..8]
        .iter()
        .map(|word| word.count_zeros())
        .sum()
}

/// A created zone, nothing taken.
pub fn fresh(shape: Shape) -> Packed {
    Packed {
        header: vec![Header::running(shape.n).join()],
        words: vec![0; 8 * shape.n],
        children: vec![512; shape.n],
        trees: (0..shape.trees())
            .map(|tree| capacity(shape, tree) as u16)
            .collect(),
        cpus: vec![0; shape.cpus],
    }
}

/// Words and children whose counts are their zero bits; `full` of a hundred children have nothing free.
fn filled(rng: &mut Rng, shape: Shape, full: u64) -> Packed {
    let mut packed = fresh(shape);
    for huge in 0..shape.n {
        if rng.percent(full) {
            if rng.percent(50) {
                packed.children[huge] = 0x8000;
                continue;
            }
            packed.words[8 * huge..][..8].fill(u64::MAX);
        } else if rng.percent(60) {
            for entry in &mut packed.words[8 * huge..][..8] {
                *entry = word(rng);
            }
        }
        packed.children[huge] = zeros(&packed.words, huge) as u16;
    }
    packed
}

/// A settled zone: all counts add up, and some CPUs hold trees.
pub fn settled(rng: &mut Rng, shape: Shape) -> Packed {
    let full = rng.pick(&[0, 30, 60, 90, 100]);
    let mut packed = filled(rng, shape, full);
    for tree in 0..shape.trees() {
        packed.trees[tree] = children_sum(&packed, tree, shape);
    }
    let holding = rng.pick(&[0, 50, 100]);
    let shared = rng.percent(20);
    for cpu in 0..shape.cpus {
        let tree = rng.below(shape.trees() as u64) as usize;
        let entry = packed.trees[tree];
        if !rng.percent(holding) || (entry >= 0x8000 && !shared) {
            continue;
        }
        let left = entry & 0x7FFF;
        let held = if rng.percent(50) {
            left
        } else {
            rng.below(u64::from(left) + 1) as u16
        };
        packed.trees[tree] = 0x8000 | (left - held);
        let start = rng.below(shape.width(tree) as u64) as usize;
        packed.cpus[cpu] = cpu_entry(tree, start, held.into());
    }
    packed
}

fn children_sum(packed: &Packed, tree: usize, shape: Shape) -> u16 {
    packed.children[32 * tree..][..shape.width(tree)]
        .iter()
        .map(|child| child & 0x03FF)
        .sum()
}

/// Entries that keep their layouts and need not fit together.
pub fn loose(rng: &mut Rng, shape: Shape) -> Packed {
    let mut packed = filled(rng, shape, 40);
    for child in &mut packed.children {
        if rng.percent(50) {
            *child = loose_child(rng);
        }
    }
    for tree in 0..shape.trees() {
        let reserved = u16::from(rng.percent(40)) << 15;
        packed.trees[tree] = reserved | count(rng, capacity(shape, tree)) as u16;
    }
    for cpu in &mut packed.cpus {
        *cpu = loose_cpu(rng, shape);
    }
    packed
}

fn loose_child(rng: &mut Rng) -> u16 {
    let size = 1 << rng.between(1, 6);
    match rng.below(10) {
        0..=2 => 0x8000,
        3 => 0x0200,
        4 => 0,
        5 => 1,
        6 => size - rng.below(2) as u16,
        7 => 512 - size + rng.below(2) as u16,
        _ => rng.below(513) as u16,
    }
}

/// Loose entries with words in fragments and counts around the sizes of runs.
pub fn short(rng: &mut Rng, shape: Shape) -> Packed {
    let mut packed = loose(rng, shape);
    for entry in &mut packed.words {
        *entry = fragments(rng);
    }
    for child in &mut packed.children {
        if rng.percent(40) {
            *child = few(rng) as u16;
        }
    }
    for tree in &mut packed.trees {
        *tree = *tree & 0x8000 | few(rng) as u16;
    }
    for cpu in 0..shape.cpus {
        let tree = rng.below(shape.trees() as u64) as usize;
        packed.cpus[cpu] = cpu_entry(tree, 0, few(rng));
    }
    packed
}

/// A count around the sizes of runs, most often small.
pub fn few(rng: &mut Rng) -> usize {
    let most = 1 << rng.between(0, 7);
    rng.below(most) as usize
}

fn loose_cpu(rng: &mut Rng, shape: Shape) -> u64 {
    if rng.percent(30) {
        return 0;
    }
    let tree = rng.below(shape.trees() as u64) as usize;
    let start = rng.below(shape.width(tree) as u64) as usize;
    cpu_entry(tree, start, count(rng, capacity(shape, tree)))
}
