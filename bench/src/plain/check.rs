//! The checks that come before a step's own, and the numbers of a zone.

use super::entries::CHILD_FRAMES;
use super::{Refusal, Tables};

const TREE_CHILDREN: u32 = 32;
pub const MOST_HUGE: u64 = 65_536;
const MOST_CPUS: usize = 64;
/// Identifier and format.
const ZONE: u64 = 0x4C461;
/// The bits of n in the header.
const N: u64 = 0x1_ffff << 25;
pub const RUNNING: u64 = 1;
pub const CLEAN: u64 = 2;

/// The numbers of a checked zone.
#[derive(Clone, Copy)]
pub struct Shape {
    pub n: u32,
    pub trees: u16,
    pub cpus: u8,
}

impl Shape {
    /// Children of a tree; 0 for one that does not exist.
    #[inline(always)]
    pub fn width(self, tree: u16) -> u16 {
        let first = u32::from(tree) * TREE_CHILDREN;
        self.n.saturating_sub(first).min(TREE_CHILDREN) as u16
    }

    #[inline(always)]
    pub fn capacity(self, tree: u16) -> u16 {
        self.width(tree) * CHILD_FRAMES
    }
}

/// The header of a zone.
pub const fn header(marker: u64, n: u64) -> u64 {
    ZONE << 44 | marker << 42 | n << 25
}

pub fn trees_for(n: usize) -> usize {
    n.div_ceil(TREE_CHILDREN as usize)
}

/// The marker and n: 8 for the header's length, then 9.
fn header_says(header: &[u64]) -> Result<(u64, u64), Refusal> {
    let &[entry] = header else {
        return Err(Refusal::BadBuffers);
    };
    let (marker, n) = ((entry >> 42) & 3, (entry >> 25) & 0x1_ffff);
    let formed = entry >> 44 == ZONE
        && (marker == RUNNING || marker == CLEAN)
        && n.wrapping_sub(1) < MOST_HUGE
        && entry & 0x1ff_ffff == 0;
    if formed {
        Ok((marker, n))
    } else {
        Err(Refusal::NotAZone)
    }
}

/// Why a header is not a running zone's.
#[cold]
#[inline(never)]
fn not_running(header: &[u64]) -> Refusal {
    match header_says(header) {
        Ok(_) => Refusal::Closed,
        Err(refusal) => refusal,
    }
}

impl Tables<'_> {
    /// The marker and n: 8 for the header's length, then 9.
    #[inline(always)]
    pub fn checked_header(&self) -> Result<(u64, u64), Refusal> {
        header_says(self.header)
    }

    /// 8 unless every table has its length for `n` huge frames.
    #[inline(always)]
    pub fn check_lengths(&self, n: u64) -> Result<Shape, Refusal> {
        let entries = n as usize;
        let right = self.header.len() == 1
            && self.words.len() == entries * 8
            && self.children.len() == entries
            && self.trees.len() == trees_for(entries)
            && self.cpus.len().wrapping_sub(1) < MOST_CPUS;
        if !right {
            return Err(Refusal::BadBuffers);
        }
        Ok(Shape {
            n: n as u32,
            trees: self.trees.len() as u16,
            cpus: self.cpus.len() as u8,
        })
    }

    /// The checks of a running zone, in their order: 9, 10, 8.
    #[inline(always)]
    pub(super) fn check_running(&self) -> Result<Shape, Refusal> {
        let n = match *self.header {
            [entry] if entry & !N == header(RUNNING, 0) => (entry & N) >> 25,
            _ => return Err(not_running(self.header)),
        };
        if n.wrapping_sub(1) >= MOST_HUGE {
            return Err(Refusal::NotAZone);
        }
        self.check_lengths(n)
    }
}
