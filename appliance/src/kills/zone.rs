//! Header, words and children in a mapped file; trees and CPUs in ordinary memory.

use lovarntek::calls::Tables;

use super::map::Map;
use crate::junk::Junk;
use crate::layout;
use reference::rng::Rng;

/// A zone, of which three tables survive the process.
#[derive(Debug)]
pub struct Zone {
    map: Map,
    n: usize,
    trees: Vec<u16>,
    cpus: Vec<u64>,
}

impl Zone {
    /// The bytes of header, words and children.
    pub fn bytes(n: u64) -> usize {
        n as usize * (8 * 8 + 2) + 8
    }

    /// A zone in a mapping of that many bytes.
    pub fn new(map: Map, n: u64, cpus: u64) -> Self {
        Zone {
            map,
            n: n as usize,
            trees: vec![0; layout::trees(n)],
            cpus: vec![0; cpus as usize],
        }
    }

    /// Overwrites trees and CPUs, as before an open.
    pub fn junk(&mut self, rng: &mut Rng) {
        let junk = rng.pick(&Junk::ALL);
        junk.fill(&mut self.trees, &mut self.cpus, rng);
    }

    /// Lends the tables.
    pub fn lend(&mut self) -> Tables<'_> {
        let words = 8 * self.n;
        let address = self.map.address().cast::<u64>();
        // The three slices lie one behind the other in the mapping, each aligned, and are borrowed as long as the zone is.
        unsafe {
            Tables {
                header: std::slice::from_raw_parts_mut(address, 1),
                words: std::slice::from_raw_parts_mut(address.add(1), words),
                children: std::slice::from_raw_parts_mut(
                    address.add(1 + words).cast::<u16>(),
                    self.n,
                ),
                trees: &mut self.trees,
                cpus: &mut self.cpus,
            }
        }
    }
}
