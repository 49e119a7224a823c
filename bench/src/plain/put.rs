//! The steps of a put.

use super::check::Shape;
use super::entries::{CHILD_FRAMES, Child, FLAG, Held, Tree, raised, sum};
use super::get::{block_in, entry, run};
use super::{Answer, Giving, Order, Record, Refusal, Step, Tables};

/// What a step goes by.
#[derive(Clone, Copy)]
struct Put {
    shape: Shape,
    cpu: u8,
    order: Order,
}

impl Put {
    #[inline(always)]
    fn at(self, stage: Giving) -> Step {
        let Put { cpu, order, .. } = self;
        Ok(Answer::UnderWay(Record::Put { cpu, order, stage }))
    }
}

impl Tables<'_> {
    #[inline(always)]
    pub(super) fn put_step(&mut self, shape: Shape, cpu: u8, order: Order, stage: Giving) -> Step {
        let put = Put { shape, cpu, order };
        let (Giving::Clear { frame }
        | Giving::Raise { frame }
        | Giving::ToEntry { frame }
        | Giving::ToTree { frame }) = stage;
        if cpu >= shape.cpus || !block_in(shape, order, frame) {
            return Err(Refusal::BadRecord);
        }
        match stage {
            Giving::Clear { .. } if order.is_huge() => self.clear_whole(put, frame),
            Giving::Clear { .. } => self.clear(put, frame),
            Giving::Raise { .. } => self.raise(put, frame),
            Giving::ToEntry { .. } => self.raise_entry(put, frame),
            Giving::ToTree { .. } => self.raise_tree(put, frame),
        }
    }

    #[inline(always)]
    fn clear(&mut self, put: Put, frame: u32) -> Step {
        let stored = entry(self.words, frame as usize / 64)?;
        let bits = run(put.order) << (frame % 64);
        if *stored & bits != bits {
            return Err(Refusal::NotTaken);
        }
        *stored &= !bits;
        put.at(Giving::Raise { frame })
    }

    #[inline(always)]
    fn clear_whole(&mut self, put: Put, frame: u32) -> Step {
        let stored = entry(self.children, frame as usize / 512)?;
        match Child::split(*stored)? {
            Child::Counts(_) => Err(Refusal::NotTaken),
            Child::Flagged => {
                *stored = CHILD_FRAMES;
                put.at(Giving::ToEntry { frame })
            }
        }
    }

    #[inline(always)]
    fn raise(&mut self, put: Put, frame: u32) -> Step {
        if put.order.is_huge() {
            return Err(Refusal::BadRecord);
        }
        let stored = entry(self.children, frame as usize / 512)?;
        *stored = raised(*stored, put.order.size())?;
        put.at(Giving::ToEntry { frame })
    }

    #[inline(always)]
    fn raise_entry(&mut self, put: Put, frame: u32) -> Step {
        let tree = (frame / (32 * 512)) as u16;
        let own = entry(self.cpus, put.cpu.into())?;
        match Held::split(*own, put.shape)? {
            Some(held) if held.tree == tree => {
                let count = sum(held.count, put.order.size(), put.shape.capacity(tree))?;
                *own = Held { count, ..held }.join();
                Ok(Answer::Done(frame.into()))
            }
            _ => put.at(Giving::ToTree { frame }),
        }
    }

    #[inline(always)]
    fn raise_tree(&mut self, put: Put, frame: u32) -> Step {
        let tree = (frame / (32 * 512)) as u16;
        let capacity = put.shape.capacity(tree);
        let stored = entry(self.trees, tree.into())?;
        let Tree { reserved, count } = Tree::split(*stored, capacity)?;
        *stored = reserved & FLAG | sum(count, put.order.size(), capacity)?;
        Ok(Answer::Done(frame.into()))
    }
}
