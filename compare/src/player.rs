//! Making calls one after the other, each compared and counted by its case.

use reference::layout::Header;
use reference::rng::Rng;

use crate::call::{Call, Outcome};
use crate::cover::{Cover, Seen};
use crate::difference::Difference;
use crate::fault::Fault;
use crate::library::Packed;
use crate::pair::{Pair, Side};
use crate::record::Record;
use crate::translate::Shape;

/// A record slice, and the stage that its record came from.
#[derive(Clone, Debug, Default, PartialEq, Eq)]
pub struct Slot {
    pub words: Vec<u64>,
    pub before: u8,
}

impl Slot {
    pub fn new() -> Self {
        Slot::of(Record::FINISHED)
    }

    pub fn of(record: Record) -> Self {
        Slot::with(record.join().to_vec())
    }

    pub fn with(words: Vec<u64>) -> Self {
        Slot { words, before: 0 }
    }

    /// The record that the slice holds, if it does.
    pub fn record(&self) -> Option<Record> {
        <[u64; 2]>::try_from(&self.words[..])
            .ok()
            .and_then(Record::split)
    }

    pub fn stands_at(&self, stage: u8) -> bool {
        self.record().is_some_and(|record| record.stage == stage)
    }

    pub fn idle(&self) -> bool {
        self.words.iter().all(|&word| word == 0)
    }
}

/// Why calls end.
#[derive(Clone, Debug)]
pub enum Stop {
    /// The wanted number of calls was made.
    Enough,
    Differs(Box<Difference>),
}

pub type Played<T = ()> = Result<T, Stop>;

/// Makes calls on both sides.
#[derive(Clone, Debug)]
pub struct Player {
    pub pair: Pair,
    pub rng: Rng,
    pub cover: Cover,
    pub made: u64,
    pub limit: u64,
}

impl Player {
    pub fn new(rng: Rng, fault: Option<Fault>, limit: u64) -> Self {
        let none = Packed {
            header: vec![],
            words: vec![],
            children: vec![],
            trees: vec![],
            cpus: vec![],
        };
        Player {
            pair: Pair::new(none, fault, Side::default()),
            rng,
            cover: Cover::new(),
            made: 0,
            limit,
        }
    }

    /// Goes on with other tables.
    pub fn load(&mut self, tables: Packed) {
        let Pair { model, side, .. } = &self.pair;
        self.pair = Pair::new(tables, model.fault, *side);
    }

    /// Writes a running header on both sides, which a forged create may have changed.
    pub fn mark_running(&mut self) {
        let header = Header::running(self.shape().n);
        self.pair.library.header = vec![header.join()];
        self.pair.model.zone.header = vec![header];
    }

    pub fn shape(&self) -> Shape {
        self.pair.model.shape()
    }

    /// Makes a call, compares, and counts its case.
    pub fn call(&mut self, call: Call, slot: &mut Slot) -> Played<Outcome> {
        if self.made >= self.limit {
            return Err(Stop::Enough);
        }
        self.made += 1;
        let before = slot.words.clone();
        let record = slot.record();
        let tree = record.and_then(|record| self.tree_entry(record.tree));
        let header = self.pair.library.header.first().copied();
        let (answers, unequal) = self.pair.call(&call, &mut slot.words);
        if let Some(unequal) = unequal {
            let shape = self.shape();
            return Err(Stop::Differs(Box::new(Difference {
                number: self.made,
                call,
                n: shape.n,
                cpus: shape.cpus,
                record: before,
                library: answers.library,
                reference: answers.reference,
                unequal,
            })));
        }
        self.cover.see(&Seen {
            call,
            words: &before,
            record,
            came_from: slot.before,
            tree,
            header,
            outcome: answers.library,
            next: slot.record(),
            pair: &self.pair,
        });
        slot.before = record.map_or(0, |record| record.stage);
        Ok(answers.library)
    }

    fn tree_entry(&self, tree: u16) -> Option<u16> {
        self.pair.library.trees.get(usize::from(tree)).copied()
    }

    /// Steps a record until its answer is not 1.
    pub fn finish(&mut self, slot: &mut Slot) -> Played<Outcome> {
        loop {
            let outcome = self.call(Call::Step, slot)?;
            if outcome.number != 1 {
                return Ok(outcome);
            }
        }
    }
}
