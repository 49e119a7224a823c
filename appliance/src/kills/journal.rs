//! The owners' journal: what is held, and what each CPU is about to do.
//!
//! Every change of state is the store of one aligned word, so that a kill between any two instructions leaves a readable journal:
//!
//! - A get names its order and an empty slot in the CPU's word, then steps. Its answer is written into the slot: the block is held. The CPU's word is cleared
//!   last; a get whose slot is written is answered.
//! - A put names its slot in the CPU's word: the block is held no longer. It steps; after its answer the slot is emptied, then the CPU's word is cleared. A put
//!   whose slot is empty is answered.
//!
//! In doubt is thus at most one block a CPU: that of a get whose slot is empty, or of a put whose slot is not.

use std::sync::atomic::{AtomicU64, Ordering};

use lovarntek::Order;

use crate::block::{Block, order_of};

/// The slots for each CPU; any CPU may use any slot.
pub const SLOTS: usize = 64;

/// The slots for lost blocks.
pub const LOST: usize = 4096;

/// The words before the lost blocks.
const PHASE: usize = 1;

/// What a worker does, which tells where a kill fell.
#[derive(Clone, Copy, Debug, PartialEq, Eq)]
pub enum Phase {
    /// Nothing yet.
    Starting,
    /// Opening the zone.
    Opening,
    /// Gets and puts.
    Working,
}

/// What a CPU is about to do.
#[derive(Clone, Copy, Debug, PartialEq, Eq)]
pub enum Doing {
    Nothing,
    Get { order: Order, slot: usize },
    Put { slot: usize },
}

/// An operation of which the journal cannot say whether its deciding store was made.
#[derive(Clone, Copy, Debug, PartialEq, Eq)]
pub enum Doubt {
    Get(Order),
    Put(Block),
}

/// What a journal says.
#[derive(Clone, Debug, PartialEq, Eq)]
pub struct Reading {
    pub held: Vec<Block>,
    pub lost: Vec<Block>,
    pub doubts: Vec<Doubt>,
}

/// A journal in words that are stored whole.
#[derive(Clone, Copy, Debug)]
pub struct Journal<'a> {
    phase: &'a AtomicU64,
    lost: &'a [AtomicU64],
    doing: &'a [AtomicU64],
    slots: &'a [AtomicU64],
}

impl<'a> Journal<'a> {
    /// The bytes of a journal.
    pub fn bytes(cpus: u64) -> usize {
        (PHASE + LOST + cpus as usize * (1 + SLOTS)) * 8
    }

    /// The journal in these words, as many as its bytes say.
    pub fn new(cells: &'a [AtomicU64], cpus: u64) -> Self {
        let (phase, rest) = cells.split_at(PHASE);
        let (lost, rest) = rest.split_at(LOST);
        let (doing, slots) = rest.split_at(cpus as usize);
        Journal {
            phase: &phase[0],
            lost,
            doing,
            slots,
        }
    }

    /// Says what the worker does.
    pub fn set_phase(&self, phase: Phase) {
        self.phase.store(phase as u64, Ordering::SeqCst);
    }

    /// What the worker says it does.
    pub fn phase(&self) -> Phase {
        match self.phase.load(Ordering::SeqCst) {
            0 => Phase::Starting,
            1 => Phase::Opening,
            _ => Phase::Working,
        }
    }

    /// Writes what a CPU is about to do, or that it does nothing.
    pub fn set_doing(&self, cpu: usize, doing: Doing) {
        self.doing[cpu].store(packed(doing), Ordering::SeqCst);
    }

    /// Writes a held block into a slot, or empties the slot.
    pub fn set_slot(&self, slot: usize, block: Option<Block>) {
        self.slots[slot].store(block.map_or(0, entry), Ordering::SeqCst);
    }

    /// The block in a slot.
    pub fn slot(&self, slot: usize) -> Option<Block> {
        block(self.slots[slot].load(Ordering::SeqCst))
    }

    /// How many slots there are.
    pub fn slots(&self) -> usize {
        self.slots.len()
    }

    /// Empties the journal.
    pub fn clear(&self) {
        for cell in self.lost.iter().chain(self.doing).chain(self.slots) {
            cell.store(0, Ordering::SeqCst);
        }
    }

    /// Reads the journal, as a kill has left it. A word that no journal holds is a fault.
    pub fn read(&self) -> Result<Reading, String> {
        let mut held = blocks(self.slots)?;
        let mut doubts = Vec::new();
        for (cpu, word) in self.doing.iter().enumerate() {
            let doing = unpacked(word.load(Ordering::SeqCst), self.slots());
            match doing.ok_or(format!("CPU {cpu}: its word is none of a journal"))? {
                Doing::Get { order, slot } if held[slot].is_none() => {
                    doubts.push(Doubt::Get(order));
                }
                Doing::Put { slot } => doubts.extend(held[slot].take().map(Doubt::Put)),
                Doing::Get { .. } | Doing::Nothing => {}
            }
        }
        Ok(Reading {
            held: held.into_iter().flatten().collect(),
            lost: blocks(self.lost)?.into_iter().flatten().collect(),
            doubts,
        })
    }

    /// Writes down what was found out: doubts are resolved, nothing is under way, and these blocks are lost too. False if they are too many.
    pub fn settle(&self, lost: &[Block]) -> bool {
        for (cpu, word) in self.doing.iter().enumerate() {
            if let Some(Doing::Put { slot }) = unpacked(word.load(Ordering::SeqCst), self.slots()) {
                self.set_slot(slot, None);
            }
            self.set_doing(cpu, Doing::Nothing);
        }
        let words = self.lost.iter();
        let noted = words.take_while(|cell| cell.load(Ordering::SeqCst) != 0);
        let free = &self.lost[noted.count()..];
        for (cell, &block) in free.iter().zip(lost) {
            cell.store(entry(block), Ordering::SeqCst);
        }
        lost.len() <= free.len()
    }
}

/// The blocks of slots, empty ones among them. A word that is neither is a fault.
fn blocks(slots: &[AtomicU64]) -> Result<Vec<Option<Block>>, String> {
    let words = slots.iter().map(|cell| cell.load(Ordering::SeqCst));
    words
        .map(|word| match (word, block(word)) {
            (0, _) => Ok(None),
            (_, Some(found)) if entry(found) == word => Ok(Some(found)),
            _ => Err(format!("a slot's word is none of a journal: {word:#018x}")),
        })
        .collect()
}

/// A block as a word that is not 0.
fn entry(block: Block) -> u64 {
    (1 << 63) | (block.order.number() << 56) | block.frame
}

/// The block of a word, if it is one.
fn block(word: u64) -> Option<Block> {
    let order = order_of(word >> 56 & 0x7F)?;
    let frame = word & 0xFFFF_FFFF;
    (word >> 63 == 1).then_some(Block { frame, order })
}

/// What a CPU is about to do, as a word.
fn packed(doing: Doing) -> u64 {
    match doing {
        Doing::Nothing => 0,
        Doing::Get { order, slot } => (1 << 62) | (order.number() << 56) | slot as u64,
        Doing::Put { slot } => (2 << 62) | slot as u64,
    }
}

/// What a word says that a CPU is about to do, with slots below a bound.
fn unpacked(word: u64, slots: usize) -> Option<Doing> {
    let slot = (word & 0xFFFF) as usize;
    let doing = match word >> 62 {
        0 => Doing::Nothing,
        1 => Doing::Get {
            order: order_of(word >> 56 & 0x3F)?,
            slot,
        },
        2 => Doing::Put { slot },
        _ => return None,
    };
    (packed(doing) == word && slot < slots).then_some(doing)
}
