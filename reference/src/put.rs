//! Giving back, step by step.

use crate::answer::{Answer, Refusal};
use crate::fault::Fault;
use crate::layout::{Child, Reservation, Run, CHILD_FRAMES, TREE_FRAMES, WORD_FRAMES};
use crate::operation::{Operation, Order};
use crate::zone::{looked, stored, Step, Store, Zone};

/// A put under way.
#[derive(Clone, Copy, Debug, PartialEq, Eq)]
pub struct Put {
    pub cpu: usize,
    pub frame: u64,
    pub order: Order,
    pub stage: PutStage,
}

/// What a put's next step does.
#[derive(Clone, Copy, Debug, PartialEq, Eq)]
pub enum PutStage {
    /// The clearing store.
    Clear,
    /// Orders 0 to 6: the child's count rises.
    RaiseChild,
    /// The own entry's count rises, if it holds the tree.
    OwnEntry,
    /// The tree's count rises.
    Tree,
}

impl Put {
    pub fn new(cpu: usize, frame: u64, order: Order) -> Self {
        Put {
            cpu,
            frame,
            order,
            stage: PutStage::Clear,
        }
    }

    fn at(self, stage: PutStage) -> Answer<Operation> {
        Answer::UnderWay(Operation::Put(Put { stage, ..self }))
    }

    fn huge(&self) -> usize {
        self.frame as usize / CHILD_FRAMES
    }

    fn tree(&self) -> usize {
        self.frame as usize / TREE_FRAMES
    }
}

impl Zone {
    pub fn put_in_range(&self, put: &Put) -> bool {
        put.cpu < self.cpus.len()
            && put.frame < self.frames()
            && !put.order.misaligned(put.frame)
            && !(put.order.is_huge() && put.stage == PutStage::RaiseChild)
    }

    pub fn put_step(&self, put: Put) -> Step<Operation> {
        match put.stage {
            PutStage::Clear if put.order.is_huge() => self.clear_child(put),
            PutStage::Clear => self.clear_run(put),
            PutStage::RaiseChild => self.raise_child(put),
            PutStage::OwnEntry => self.raise_own_entry(put),
            PutStage::Tree => self.raise_tree(put),
        }
    }

    fn clear_run(&self, put: Put) -> Step<Operation> {
        let (frame, size) = (put.frame as usize, put.order.size());
        let (index, bit) = (frame / WORD_FRAMES, frame % WORD_FRAMES);
        let run = Run { bit, size };
        let word = self.words[index];
        let let_in = self.has(Fault::NotTakenByAll) && !word.free(run);
        if !word.full(run) && !let_in {
            return Err(Refusal::NotTaken);
        }
        let cleared = match size {
            2.. if self.has(Fault::BitLeft) => word.clear(Run {
                size: size - 1,
                ..run
            }),
            _ => word.clear(run),
        };
        stored(Store::Word(index, cleared), put.at(PutStage::RaiseChild))
    }

    fn clear_child(&self, put: Put) -> Step<Operation> {
        let huge = self.children[put.huge()];
        if self.has(Fault::Swap126) && !huge.a {
            return Err(Refusal::NotTaken);
        }
        let child = self.child(put.huge())?;
        let let_in = self.has(Fault::HugeFromBits) && child == Child::FREE;
        if !child.a && !let_in {
            return Err(Refusal::NotTaken);
        }
        stored(
            Store::Child(put.huge(), Child::FREE),
            put.at(PutStage::OwnEntry),
        )
    }

    fn raise_child(&self, put: Put) -> Step<Operation> {
        let child = self.child(put.huge())?;
        let size = if self.has(Fault::RaiseOne) {
            1
        } else {
            put.order.size()
        };
        let raised = Child {
            count: child.count + size as u16,
            ..child
        };
        stored(Store::Child(put.huge(), raised), put.at(PutStage::OwnEntry))
    }

    fn raise_own_entry(&self, put: Put) -> Step<Operation> {
        match self.cpu(put.cpu)? {
            Some(held) if held.tree == put.tree() && !self.has(Fault::PutToTree) => {
                let raised = Reservation {
                    count: held.count + self.put_size(&put),
                    ..held
                };
                stored(Store::Cpu(put.cpu, raised.into()), self.put_done(&put))
            }
            _ => looked(put.at(PutStage::Tree)),
        }
    }

    fn raise_tree(&self, put: Put) -> Step<Operation> {
        let tree = self.tree(put.tree())?;
        let reserved = tree.reserved && !self.has(Fault::PutClearsReserved);
        let count = usize::from(tree.count) + self.put_size(&put);
        self.tree_store(put.tree(), reserved, count, self.put_done(&put))
    }

    fn put_size(&self, put: &Put) -> usize {
        if self.has(Fault::PutSizeOne) {
            1
        } else {
            put.order.size()
        }
    }

    fn put_done(&self, put: &Put) -> Answer<Operation> {
        Answer::Done(if self.has(Fault::PutFrameZero) {
            0
        } else {
            put.frame
        })
    }
}
