//! The owners' own lists, kept apart from the library.

use super::operation::{Kind, Operation};
use crate::block::Block;
use crate::frames::Taken;

/// Who has what: the held blocks, those lost by earlier cuts, and what each CPU has under way.
#[derive(Clone, Debug)]
pub struct Owners {
    pub held: Vec<Block>,
    pub lost: Vec<Block>,
    pub under_way: Vec<Option<Operation>>,
}

/// How many blocks were lost, by the operation that was cut off.
#[derive(Clone, Copy, Debug, Default, PartialEq, Eq)]
pub struct Lost {
    pub gets: u64,
    pub puts: u64,
}

impl Owners {
    /// Owners of nothing, with `cpus` CPUs at rest.
    pub fn new(cpus: u64) -> Self {
        Owners {
            held: Vec::new(),
            lost: Vec::new(),
            under_way: vec![None; cpus as usize],
        }
    }

    /// The blocks that must be taken: held, lost, and at stake.
    pub fn expected(&self, n: u64) -> Result<Taken, String> {
        let at_stake = self.operations().filter_map(|kind| kind.at_stake());
        let held = self.held.iter().chain(&self.lost).copied();
        Taken::of(n, held.chain(at_stake))
    }

    /// What a cut would lose now.
    pub fn at_stake(&self) -> Lost {
        let mut lost = Lost::default();
        for kind in self.operations().filter(|kind| kind.at_stake().is_some()) {
            match kind {
                Kind::Get { .. } => lost.gets += 1,
                Kind::Put { .. } => lost.puts += 1,
            }
        }
        lost
    }

    /// Cuts everything under way off; what was at stake is lost.
    pub fn cut_off(&mut self) {
        let at_stake: Vec<Block> = self
            .operations()
            .filter_map(|kind| kind.at_stake())
            .collect();
        self.lost.extend(at_stake);
        self.under_way.fill(None);
    }

    /// Whether nothing is under way.
    pub fn at_rest(&self) -> bool {
        self.under_way.iter().all(Option::is_none)
    }

    /// The operations under way.
    fn operations(&self) -> impl Iterator<Item = Kind> {
        self.under_way
            .iter()
            .flatten()
            .map(|operation| operation.kind)
    }
}
