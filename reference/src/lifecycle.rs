//! Create, open and close.

use crate::answer::{Answer, Refusal};
use crate::fault::Fault;
use crate::layout::{Child, CpuEntry, Header, Tree, Word, CHILD_WORDS, MAX_HUGE_FRAMES, RUNNING};
use crate::zone::{stored, Step, Store, Zone};

/// A create under way: the number of its next store.
#[derive(Clone, Copy, Debug, PartialEq, Eq)]
pub enum Creating {
    Finished,
    Next(usize),
}

/// An open under way: the number of its next store.
#[derive(Clone, Copy, Debug, PartialEq, Eq)]
pub enum Opening {
    Finished,
    /// `recover` is set when the marker was running.
    Next {
        store: usize,
        recover: bool,
    },
}

impl Zone {
    pub fn create_first(&mut self, n: u64) -> Answer<Creating> {
        let step = self.create_checks(n).and_then(|_| {
            stored(
                Store::Header(Header::split(0)),
                Answer::UnderWay(Creating::Next(1)),
            )
        });
        self.settle(step)
    }

    pub fn create_next(&mut self, n: u64, record: Creating) -> Answer<Creating> {
        let step = self
            .create_checks(n)
            .and_then(|n| self.create_step(n, record));
        self.settle(step)
    }

    fn create_checks(&self, n: u64) -> Result<usize, Refusal> {
        if n == 0 || n > MAX_HUGE_FRAMES {
            if self.has(Fault::Swap148) && self.header.len() != 1 {
                return Err(Refusal::BadBuffers);
            }
            return Err(Refusal::BadSize);
        }
        self.check_lengths(n as usize)?;
        Ok(n as usize)
    }

    fn create_step(&self, n: usize, record: Creating) -> Step<Creating> {
        let Creating::Next(number) = record else {
            return Err(Refusal::BadRecord);
        };
        let mut index = number.checked_sub(1).ok_or(Refusal::BadRecord)?;
        let next = Answer::UnderWay(Creating::Next(number.saturating_add(1)));
        if index < n * CHILD_WORDS {
            return stored(Store::Word(index, Word(0)), next);
        }
        index -= n * CHILD_WORDS;
        if index < n {
            return stored(Store::Child(index, Child::FREE), next);
        }
        index -= n;
        if index < self.trees.len() {
            return self.tree_store(index, false, self.capacity(index), next);
        }
        index -= self.trees.len();
        if index < self.cpus.len() {
            return stored(Store::Cpu(index, CpuEntry::ABSENT), next);
        }
        if index > self.cpus.len() {
            return Err(Refusal::BadRecord);
        }
        stored(Store::Header(Header::running(n)), Answer::Done(0))
    }

    pub fn open_first(&mut self) -> Answer<Opening> {
        let step = self.open_checks().map_or_else(Err, |header| {
            stored(
                Store::Header(Header::running(header.n as usize)),
                Answer::UnderWay(Opening::Next {
                    store: 1,
                    recover: header.marker == RUNNING || self.has(Fault::CleanRecovers),
                }),
            )
        });
        self.settle(step)
    }

    fn open_checks(&self) -> Result<Header, Refusal> {
        let header = self.checked_header()?;
        self.check_lengths(header.n as usize)?;
        self.check_children(header.marker == RUNNING && !self.has(Fault::OpenOverBits))?;
        Ok(header)
    }

    /// 12 for a malformed child and, if asked, for one taken over set bits.
    fn check_children(&self, fields: bool) -> Result<(), Refusal> {
        for huge in 0..self.children.len() {
            let child = self.child(huge)?;
            let over_bits = child.a && self.field(huge).iter().any(|&word| word != Word(0));
            if fields && over_bits {
                return Err(Refusal::Damaged);
            }
        }
        Ok(())
    }

    pub fn open_next(&mut self, record: Opening) -> Answer<Opening> {
        let step = self.check_running().and_then(|()| self.open_step(record));
        self.settle(step)
    }

    fn open_step(&self, record: Opening) -> Step<Opening> {
        let Opening::Next { store, recover } = record else {
            return Err(Refusal::BadRecord);
        };
        let mut index = store.checked_sub(1).ok_or(Refusal::BadRecord)?;
        let next = Answer::UnderWay(Opening::Next {
            store: store.saturating_add(1),
            recover,
        });
        if recover {
            if index < self.children.len() {
                return stored(Store::Child(index, self.recovered(index)?), next);
            }
            index -= self.children.len();
        }
        if index < self.trees.len() {
            let reserved = self.trees[index].reserved && self.has(Fault::OpenKeepsReserved);
            return self.tree_store(index, reserved, self.opened_count(index)?, next);
        }
        index -= self.trees.len();
        let next = if index + 1 == self.cpus.len() {
            Answer::Done(0)
        } else {
            next
        };
        if index >= self.cpus.len() {
            return Err(Refusal::BadRecord);
        }
        stored(Store::Cpu(index, CpuEntry::ABSENT), next)
    }

    /// A child as recovery stores it.
    fn recovered(&self, huge: usize) -> Result<Child, Refusal> {
        let child = self.child(huge)?;
        let count = self.zeros(huge) as u16;
        let count = match self.fault {
            Some(Fault::CutPutLost) => count.min(child.count),
            Some(Fault::OpenTrustsChildren) => child.count,
            _ => count,
        };
        Ok(if child.a {
            child
        } else {
            Child { count, ..child }
        })
    }

    /// A tree's count as open stores it.
    fn opened_count(&self, tree: usize) -> Result<usize, Refusal> {
        let sum = self.children_sum(tree)?;
        let found = usize::from(self.trees[tree].count);
        Ok(
            if self.has(Fault::OpenTrustsTrees) && found <= self.capacity(tree) {
                found
            } else {
                sum
            },
        )
    }

    fn children_sum(&self, tree: usize) -> Result<usize, Refusal> {
        self.children_of(tree)
            .map(|huge| self.child(huge).map(|child| usize::from(child.count)))
            .sum()
    }

    pub fn close(&mut self) -> Answer<()> {
        let step = self.close_step();
        self.settle(step)
    }

    fn close_step(&self) -> Step<()> {
        self.check_running()?;
        if self.has(Fault::Swap1213) && !self.counts_its_zeros() {
            return Err(Refusal::NotSettled);
        }
        self.check_children(true)?;
        let held = self.held_counts()?;
        let mut settled = self.counts_its_zeros();
        for (tree, held) in held.into_iter().enumerate() {
            settled &= held == self.children_sum(tree)?;
        }
        if !settled {
            return Err(Refusal::NotSettled);
        }
        stored(
            Store::Header(Header::clean(self.children.len())),
            Answer::Done(0),
        )
    }

    /// Whether every child with a clear counts its zero bits.
    fn counts_its_zeros(&self) -> bool {
        (0..self.children.len()).all(|huge| {
            let child = self.children[huge];
            child.a
                || usize::from(child.count) == self.zeros(huge)
                || self.has(Fault::CloseIgnoresBits)
        })
    }

    /// Each tree's count plus the counts of the CPUs that hold it.
    fn held_counts(&self) -> Result<Vec<usize>, Refusal> {
        let mut held = (0..self.trees.len())
            .map(|tree| self.tree(tree).map(|Tree { count, .. }| count.into()))
            .collect::<Result<Vec<usize>, Refusal>>()?;
        for cpu in 0..self.cpus.len() {
            if let Some(reservation) = self.cpu(cpu)? {
                let ignored = self.has(Fault::CloseIgnoresCpus);
                held[reservation.tree] += if ignored { 0 } else { reservation.count };
            }
        }
        Ok(held)
    }
}
