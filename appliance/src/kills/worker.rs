//! The process that is killed: gets and puts of several CPUs, one step a call.

use std::thread;
use std::time::{Duration, Instant};

use lovarntek::Order;

use super::journal::{Doing, Journal, Phase};
use super::zone::Zone;
use crate::block::Block;
use crate::life::{self, UNDER_WAY};
use reference::rng::Rng;

/// How long a worker goes on that nobody kills.
const LONGEST: Duration = Duration::from_secs(60);

/// What a worker is there for.
#[derive(Clone, Copy, Debug, PartialEq, Eq)]
pub enum Task {
    /// Opens the zone, then gets and puts.
    Work,
    /// Opens the zone slowly, once.
    Open,
}

/// An operation under way. The record stands in ordinary memory.
#[derive(Clone, Debug)]
struct Operation {
    record: [u64; 2],
    doing: Doing,
}

/// A worker's memory.
pub struct Worker<'a> {
    zone: Zone,
    journal: Journal<'a>,
    rng: Rng,
    under_way: Vec<Option<Operation>>,
    /// How many gets there are in a hundred beginnings, at present.
    gets: u64,
}

impl<'a> Worker<'a> {
    /// A worker on a zone that is to be opened, with nothing under way.
    pub fn new(zone: Zone, journal: Journal<'a>, cpus: u64, rng: Rng) -> Self {
        Worker {
            zone,
            journal,
            rng,
            under_way: vec![None; cpus as usize],
            gets: 65,
        }
    }

    /// Works until it is killed, or until an answer is not what it must be. Without a parent it ends by itself, after a while.
    pub fn work(&mut self, task: Task) -> Result<(), String> {
        let began = Instant::now();
        self.open(task)?;
        while began.elapsed() < LONGEST {
            self.journal.set_phase(Phase::Working);
            match task {
                Task::Open => thread::sleep(Duration::from_millis(1)),
                Task::Work => {
                    self.session()?;
                    self.open(task)?;
                }
            }
        }
        Err(String::from("nobody has killed it"))
    }

    /// Opens the zone, step by step, with junk in trees and CPUs.
    fn open(&mut self, task: Task) -> Result<(), String> {
        self.zone.junk(&mut self.rng);
        self.journal.set_phase(Phase::Opening);
        life::open(&mut self.zone.lend(), |_, _| {
            if task == Task::Open {
                thread::sleep(Duration::from_micros(1));
            }
            Ok(())
        })
    }

    /// Steps of CPUs at random, and at some time the end of all operations, and a close.
    fn session(&mut self) -> Result<(), String> {
        for _ in 0..self.rng.between(1, 20_000) {
            let cpu = self.rng.index(self.under_way.len());
            self.tick(cpu)?;
        }
        for cpu in 0..self.under_way.len() {
            while self.under_way[cpu].is_some() {
                self.tick(cpu)?;
            }
        }
        life::close(&mut self.zone.lend())
    }

    /// One call of a CPU.
    fn tick(&mut self, cpu: usize) -> Result<(), String> {
        match self.under_way[cpu].take() {
            Some(operation) => self.step(cpu, operation),
            None => self.begin(cpu),
        }
    }

    /// Begins a get or a put; which of them is likelier changes from time to time.
    fn begin(&mut self, cpu: usize) -> Result<(), String> {
        if self.rng.below(300) == 0 {
            self.gets = 100 - self.gets;
        }
        let get = self.rng.percent(self.gets);
        let Some(slot) = self.slot(!get) else {
            return Ok(());
        };
        if get {
            let order = self.rng.pick(&Order::ALL);
            self.begun(cpu, Doing::Get { order, slot })
        } else {
            self.begun(cpu, Doing::Put { slot })
        }
    }

    /// Writes the beginning down, then makes it.
    fn begun(&mut self, cpu: usize, doing: Doing) -> Result<(), String> {
        let mut record = [0; 2];
        let block = self.put(doing);
        self.journal.set_doing(cpu, doing);
        let mut tables = self.zone.lend();
        let answer = match (doing, block) {
            (Doing::Get { order, .. }, _) => tables.get(&mut record, cpu as u64, order.number()),
            (_, Some(Block { frame, order })) => {
                tables.put(&mut record, cpu as u64, frame, order.number())
            }
            _ => return Err(format!("{doing:?}: there is no block")),
        };
        if answer.number != UNDER_WAY {
            return Err(format!(
                "{doing:?}: its beginning answers {}",
                answer.number
            ));
        }
        self.under_way[cpu] = Some(Operation { record, doing });
        Ok(())
    }

    /// One step. The answer is written into the slot, before the CPU's word is cleared.
    fn step(&mut self, cpu: usize, mut operation: Operation) -> Result<(), String> {
        let answer = self.zone.lend().step(&mut operation.record);
        match (operation.doing, answer.number) {
            (_, UNDER_WAY) => {
                self.under_way[cpu] = Some(operation);
                return Ok(());
            }
            (Doing::Get { order, slot }, 0) => {
                let frame = answer.frame;
                self.journal.set_slot(slot, Some(Block { frame, order }));
            }
            (Doing::Get { .. }, 2) => {}
            (Doing::Put { slot }, 0) => self.journal.set_slot(slot, None),
            (doing, number) => return Err(format!("{doing:?}: a step answers {number}")),
        }
        self.journal.set_doing(cpu, Doing::Nothing);
        Ok(())
    }

    /// The block of a put.
    fn put(&self, doing: Doing) -> Option<Block> {
        match doing {
            Doing::Put { slot } => self.journal.slot(slot),
            Doing::Get { .. } | Doing::Nothing => None,
        }
    }

    /// A slot, with a block or empty, that no operation under way has; looked for from a random one.
    fn slot(&mut self, full: bool) -> Option<usize> {
        let slots = self.journal.slots();
        let start = self.rng.index(slots);
        (start..start + slots)
            .map(|slot| slot % slots)
            .find(|&slot| self.journal.slot(slot).is_some() == full && !self.is_in_use(slot))
    }

    /// Whether an operation under way has the slot.
    fn is_in_use(&self, slot: usize) -> bool {
        let mut operations = self.under_way.iter().flatten();
        operations.any(|operation| match operation.doing {
            Doing::Get { slot: used, .. } | Doing::Put { slot: used } => used == slot,
            Doing::Nothing => false,
        })
    }
}
