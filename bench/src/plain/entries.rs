//! Packed entries, split and joined by shifts and masks.

use super::Refusal;
use super::check::Shape;

pub const CHILD_FRAMES: u16 = 512;
pub const FLAG: u16 = 0x8000;
const COUNT: u16 = 0x7fff;
const PRESENT: u64 = 1 << 63;

/// A well-formed child: its count, or its flag.
#[derive(Clone, Copy)]
pub enum Child {
    Counts(u16),
    Flagged,
}

/// A well-formed tree entry.
#[derive(Clone, Copy)]
pub struct Tree {
    pub reserved: u16,
    pub count: u16,
}

/// A well-formed present CPU entry.
#[derive(Clone, Copy)]
pub struct Held {
    pub tree: u16,
    pub start: u8,
    pub count: u16,
}

impl Child {
    #[inline(always)]
    pub fn split(entry: u16) -> Result<Child, Refusal> {
        match entry {
            0..=CHILD_FRAMES => Ok(Child::Counts(entry)),
            FLAG => Ok(Child::Flagged),
            _ => Err(Refusal::Damaged),
        }
    }
}

/// A child with a clear, its count raised.
#[inline(always)]
pub fn raised(entry: u16, size: u16) -> Result<u16, Refusal> {
    match Child::split(entry)? {
        Child::Counts(count) if count + size <= CHILD_FRAMES => Ok(count + size),
        _ => Err(Refusal::Damaged),
    }
}

impl Tree {
    #[inline(always)]
    pub fn split(entry: u16, capacity: u16) -> Result<Tree, Refusal> {
        let (reserved, count) = (entry & FLAG, entry & COUNT);
        if count > capacity {
            return Err(Refusal::Damaged);
        }
        Ok(Tree { reserved, count })
    }
}

/// The sum of two counts of a tree.
#[inline(always)]
pub fn sum(count: u16, other: u16, capacity: u16) -> Result<u16, Refusal> {
    let sum = count + other;
    if sum > capacity {
        return Err(Refusal::Damaged);
    }
    Ok(sum)
}

impl Held {
    #[inline(always)]
    pub fn split(entry: u64, shape: Shape) -> Result<Option<Held>, Refusal> {
        if entry == 0 {
            return Ok(None);
        }
        let held = Held {
            tree: ((entry >> 52) & 0x7ff) as u16,
            start: ((entry >> 47) & 31) as u8,
            count: ((entry >> 32) & 0x7fff) as u16,
        };
        let width = shape.width(held.tree);
        let formed = entry & PRESENT != 0
            && entry as u32 == 0
            && u16::from(held.start) < width
            && held.count <= width * CHILD_FRAMES;
        if formed {
            Ok(Some(held))
        } else {
            Err(Refusal::Damaged)
        }
    }

    #[inline(always)]
    pub fn join(self) -> u64 {
        PRESENT
            | u64::from(self.tree) << 52
            | u64::from(self.start) << 47
            | u64::from(self.count) << 32
    }
}
