//! The calls on packed tables, as they are lent.

use crate::answer::Answer;
use crate::fault::Fault;
use crate::layout::{Child, CpuEntry, Header, Tree, Word};
use crate::lifecycle::{Creating, Opening};
use crate::operation::Operation;
use crate::zone::Zone;

/// The five tables, lent as slices of their own width.
#[derive(Debug)]
pub struct Tables<'a> {
    pub header: &'a mut [u64],
    pub words: &'a mut [u64],
    pub children: &'a mut [u16],
    pub trees: &'a mut [u16],
    pub cpus: &'a mut [u64],
}

impl Zone {
    /// Decodes lent tables.
    pub fn load(tables: &Tables, fault: Option<Fault>) -> Self {
        Zone {
            header: tables.header.iter().copied().map(Header::split).collect(),
            words: tables.words.iter().copied().map(Word).collect(),
            children: tables.children.iter().copied().map(Child::split).collect(),
            trees: tables.trees.iter().copied().map(Tree::split).collect(),
            cpus: tables.cpus.iter().copied().map(CpuEntry::split).collect(),
            fault,
        }
    }

    /// Encodes into lent tables of the same lengths.
    pub fn store(&self, tables: &mut Tables) {
        encode(&self.header, tables.header, Header::join);
        encode(&self.words, tables.words, |word| word.0);
        encode(&self.children, tables.children, Child::join);
        encode(&self.trees, tables.trees, Tree::join);
        encode(&self.cpus, tables.cpus, CpuEntry::join);
    }
}

fn encode<E: Copy, P>(entries: &[E], table: &mut [P], join: impl Fn(E) -> P) {
    for (place, &entry) in table.iter_mut().zip(entries) {
        *place = join(entry);
    }
}

impl Tables<'_> {
    /// Makes one call on the decoded tables and stores the outcome.
    fn call<R>(&mut self, call: impl FnOnce(&mut Zone) -> Answer<R>) -> Answer<R> {
        let mut zone = Zone::load(self, None);
        let answer = call(&mut zone);
        zone.store(self);
        answer
    }

    pub fn create_first(&mut self, n: u64) -> Answer<Creating> {
        self.call(|zone| zone.create_first(n))
    }

    pub fn create_next(&mut self, n: u64, record: Creating) -> Answer<Creating> {
        self.call(|zone| zone.create_next(n, record))
    }

    pub fn open_first(&mut self) -> Answer<Opening> {
        self.call(Zone::open_first)
    }

    pub fn open_next(&mut self, record: Opening) -> Answer<Opening> {
        self.call(|zone| zone.open_next(record))
    }

    pub fn close(&mut self) -> Answer<()> {
        self.call(Zone::close)
    }

    pub fn begin_get(&mut self, cpu: u64, order: u64) -> Answer<Operation> {
        self.call(|zone| zone.begin_get(cpu, order))
    }

    pub fn begin_put(&mut self, cpu: u64, frame: u64, order: u64) -> Answer<Operation> {
        self.call(|zone| zone.begin_put(cpu, frame, order))
    }

    pub fn step(&mut self, operation: Operation) -> Answer<Operation> {
        self.call(|zone| zone.step(operation))
    }
}
