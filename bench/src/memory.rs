//! A zone in tables of its own, lent to either engine.

use crate::plain;
use lovarntek::{Zone, calls};

/// The five tables.
#[derive(Clone, Debug, PartialEq, Eq)]
pub struct Memory(pub Zone);

impl Memory {
    /// Tables of the right lengths, nothing created in them.
    pub fn blank(n: u64, cpus: usize) -> Self {
        Memory(Zone::from_tables(
            vec![0],
            vec![0; calls::words(n) as usize],
            vec![0; calls::children(n) as usize],
            vec![0; calls::trees(n) as usize],
            vec![0; cpus],
        ))
    }

    /// A created zone, all free.
    pub fn created(n: u64, cpus: usize) -> Self {
        let created = Zone::create(n, cpus as u64);
        Memory(created.expect("the sizes of a benchmark are those of zones"))
    }

    pub fn library(&mut self) -> lovarntek::Tables<'_> {
        self.0.tables()
    }

    pub fn plain(&mut self) -> plain::Tables<'_> {
        let zone = self.0.tables();
        plain::Tables {
            header: zone.header,
            words: zone.words,
            children: zone.children,
            trees: zone.trees,
            cpus: zone.cpus,
        }
    }

    pub fn reference(&mut self) -> reference::zone::Zone {
        let zone = self.0.tables();
        let tables = reference::packed::Tables {
            header: zone.header,
            words: zone.words,
            children: zone.children,
            trees: zone.trees,
            cpus: zone.cpus,
        };
        reference::zone::Zone::load(&tables, None)
    }

    /// Makes these tables equal to others of the same lengths.
    pub fn copy_from(&mut self, other: &mut Memory) {
        let (mine, theirs) = (self.0.tables(), other.0.tables());
        mine.header.copy_from_slice(theirs.header);
        mine.words.copy_from_slice(theirs.words);
        mine.children.copy_from_slice(theirs.children);
        mine.trees.copy_from_slice(theirs.trees);
        mine.cpus.copy_from_slice(theirs.cpus);
    }

    /// The bytes of the slices that are lent.
    pub fn bytes(&mut self) -> u64 {
        let zone = self.0.tables();
        let bytes = size_of_val(zone.header)
            + size_of_val(zone.words)
            + size_of_val(zone.children)
            + size_of_val(zone.trees)
            + size_of_val(zone.cpus);
        bytes as u64
    }
}
