//! Steps of several CPUs on one zone.

use lovarntek::Order;

use super::change::{self, Change};
use super::operation::{End, Kind, Operation};
use super::owners::Owners;
use crate::block::Block;
use crate::layout;
use crate::life::UNDER_WAY;
use crate::state::{self, State};
use reference::rng::Rng;

/// A zone, its owners, and the dice.
#[derive(Clone, Debug)]
pub struct Player {
    pub state: State,
    pub owners: Owners,
    pub rng: Rng,
    pub n: u64,
    pub cpus: u64,
    /// The stores so far that were cut after.
    pub stores: u64,
    cpu: usize,
}

impl Player {
    /// A player on a created zone.
    pub fn new(n: u64, cpus: u64, rng: Rng) -> Result<Self, String> {
        Ok(Player {
            state: state::created(n, cpus)?,
            owners: Owners::new(cpus),
            rng,
            n,
            cpus,
            stores: 0,
            cpu: 0,
        })
    }

    /// Chooses the CPU of the next call: often the same one again.
    pub fn choose(&mut self) {
        if self.rng.percent(50) {
            self.cpu = self.rng.index(self.owners.under_way.len());
        }
    }

    /// Chooses a CPU with an operation under way; false if there is none.
    pub fn choose_busy(&mut self) -> bool {
        let busy = self.owners.under_way.iter().position(Option::is_some);
        self.cpu = busy.unwrap_or(self.cpu);
        busy.is_some()
    }

    /// One call: the chosen CPU's next step, or the beginning of its next operation. True if a table changed.
    pub fn tick(&mut self) -> Result<bool, String> {
        match self.owners.under_way[self.cpu] {
            Some(_) => self.step(self.cpu),
            None => self.begin(self.cpu).map(|()| false),
        }
    }

    /// Begins a get of any order, or a put of any held block.
    fn begin(&mut self, cpu: usize) -> Result<(), String> {
        if self.owners.held.is_empty() || self.rng.percent(50) {
            let order = self.rng.pick(&Order::ALL);
            self.begin_get(cpu, order)
        } else {
            let position = self.rng.index(self.owners.held.len());
            self.begin_put(cpu, position)
        }
    }

    /// Begins a get.
    pub fn begin_get(&mut self, cpu: usize, order: Order) -> Result<(), String> {
        let kind = Kind::Get { order, taken: None };
        self.begun(cpu, kind, |state, record| {
            state
                .tables()
                .get(record, cpu as u64, order.number())
                .number
        })
    }

    /// Begins a put of one of the held blocks, which is held no longer.
    pub fn begin_put(&mut self, cpu: usize, position: usize) -> Result<(), String> {
        let block = self.owners.held.swap_remove(position);
        let kind = Kind::Put {
            block,
            cleared: false,
        };
        self.begun(cpu, kind, |state, record| {
            let Block { frame, order } = block;
            let mut tables = state.tables();
            tables.put(record, cpu as u64, frame, order.number()).number
        })
    }

    /// Makes a beginning, which must be answered 1 and store nothing.
    fn begun(
        &mut self,
        cpu: usize,
        kind: Kind,
        call: impl FnOnce(&mut State, &mut [u64]) -> u64,
    ) -> Result<(), String> {
        let mut record = [0; 2];
        let before = self.state.clone();
        let number = call(&mut self.state, &mut record);
        if number != UNDER_WAY {
            return Err(format!("{kind}: its beginning answers {number}"));
        }
        if self.state != before {
            return Err(format!("{kind}: its beginning stores"));
        }
        self.owners.under_way[cpu] = Some(Operation {
            record,
            kind,
            steps: 0,
        });
        Ok(())
    }

    /// One step of a CPU's operation. True if a table changed.
    fn step(&mut self, cpu: usize) -> Result<bool, String> {
        let Some(mut operation) = self.owners.under_way[cpu].take() else {
            return Ok(false);
        };
        let mut before = self.state.clone();
        let answer = self.state.tables().step(&mut operation.record);
        let change = change::between(&before.tables(), &self.state.tables())?;
        operation.steps += 1;
        operation.kind.note(change)?;
        self.count(&operation)?;
        match operation.kind.end(answer)? {
            None => self.owners.under_way[cpu] = Some(operation),
            Some(End::Got(block)) => self.owners.held.push(block),
            Some(End::Nothing) => {}
        }
        Ok(change != Change::Nothing)
    }

    /// Counts the steps of an operation, which must end within its bound.
    fn count(&self, operation: &Operation) -> Result<(), String> {
        let trees = layout::trees(self.n) as u64;
        let most = operation.kind.most_steps(trees, self.cpus);
        if operation.steps <= most {
            return Ok(());
        }
        Err(format!("{}: more than {most} steps", operation.kind))
    }

    /// What the chosen CPU has under way, for a fault's place.
    pub fn doing(&self) -> String {
        match &self.owners.under_way[self.cpu] {
            Some(operation) => format!("CPU {} in a {}", self.cpu, operation.kind),
            None => format!("CPU {} at rest", self.cpu),
        }
    }
}
