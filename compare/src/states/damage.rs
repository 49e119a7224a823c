//! Tables that damage or a cut leaves.

use reference::rng::Rng;

use crate::library::Packed;
use crate::states::{PRESENT, any, capacity, cpu_entry, loose_child, loose_cpu};
use crate::translate::Shape;

/// A child, tree or CPU entry that breaks its layout, most often.
pub fn bad_child(rng: &mut Rng) -> u16 {
    match rng.below(6) {
        0 => 513 + rng.below(511) as u16,
        1 | 2 => loose_child(rng) | 1 << rng.between(10, 14),
        3 => 0x8000 | rng.between(1, 512) as u16,
        4 => 0x8201,
        _ => any(rng) as u16,
    }
}

pub fn bad_tree(rng: &mut Rng, capacity: usize) -> u16 {
    match rng.below(3) {
        0 => capacity as u16 + 1,
        1 => 0x8000 | (capacity as u16 + 1),
        _ => any(rng) as u16,
    }
}

pub fn bad_cpu(rng: &mut Rng, shape: Shape) -> u64 {
    let trees = shape.trees();
    let tree = rng.below(trees as u64) as usize;
    let (width, capacity) = (shape.width(tree), capacity(shape, tree));
    let entry = loose_cpu(rng, shape);
    match rng.below(7) {
        0 => cpu_entry((trees + rng.below(3) as usize).min(2_047), 0, 0),
        1 => cpu_entry(trees - 1, shape.width(trees - 1).min(31), 0),
        2 => cpu_entry(tree, width - 1, capacity + 1 + rng.below(100) as usize),
        3 => entry | 1 << rng.below(32),
        4 => entry & !PRESENT,
        5 => rng.between(1, u64::from(u32::MAX)),
        _ => any(rng),
    }
}

/// Damages some entries; `share` of a hundred each.
pub fn damage(rng: &mut Rng, packed: &mut Packed, shape: Shape, share: u64) {
    for child in &mut packed.children {
        if rng.percent(share) {
            *child = bad_child(rng);
        }
    }
    for tree in 0..packed.trees.len() {
        if rng.percent(share) {
            packed.trees[tree] = bad_tree(rng, capacity(shape, tree));
        }
    }
    for cpu in &mut packed.cpus {
        if rng.percent(share) {
            *cpu = bad_cpu(rng, shape);
        }
    }
}

/// Flips one bit of one entry.
pub fn flip(rng: &mut Rng, packed: &mut Packed) {
    match rng.below(4) {
        0 => flip_u64(rng, &mut packed.words),
        1 => flip_u16(rng, &mut packed.children),
        2 => flip_u16(rng, &mut packed.trees),
        _ => flip_u64(rng, &mut packed.cpus),
    }
}

fn flip_u64(rng: &mut Rng, table: &mut [u64]) {
    let index = rng.below(table.len() as u64) as usize;
    table[index] ^= 1 << rng.below(64);
}

fn flip_u16(rng: &mut Rng, table: &mut [u16]) {
    let index = rng.below(table.len() as u64) as usize;
    table[index] ^= 1 << rng.below(16);
}

/// What a cut leaves: trees and CPUs hold anything.
pub fn cut(rng: &mut Rng, packed: &mut Packed) {
    let kept = rng.percent(20);
    for tree in &mut packed.trees {
        *tree = if kept { *tree } else { any(rng) as u16 };
    }
    for cpu in &mut packed.cpus {
        *cpu = if kept { *cpu } else { any(rng) };
    }
}
