//! Gets and puts under way: beginnings, record ranges and the step.

use crate::answer::{Answer, Refusal};
use crate::fault::Fault;
use crate::get::Get;
use crate::layout::CLEAN;
use crate::put::Put;
use crate::zone::{Step, Zone};

/// An order that blocks have: 0 to 6, runs of one word, or 9.
#[derive(Clone, Copy, Debug, PartialEq, Eq)]
pub struct Order(u8);

impl Order {
    /// Order 0, one base frame.
    pub const BASE: Order = Order(0);
    /// Order 6, a whole word.
    pub const LONGEST_RUN: Order = Order(6);
    /// Order 9, one huge frame.
    pub const HUGE: Order = Order(9);

    pub fn from_number(number: u64) -> Option<Self> {
        matches!(number, 0..=6 | 9).then_some(Order(number as u8))
    }

    pub fn number(self) -> u64 {
        self.0.into()
    }

    /// Base frames of a block.
    pub fn size(self) -> usize {
        1 << self.0
    }

    pub fn is_huge(self) -> bool {
        self == Order::HUGE
    }

    /// Whether a block that begins at the frame would not be naturally aligned.
    pub fn misaligned(self, frame: u64) -> bool {
        !frame.is_multiple_of(self.size() as u64)
    }
}

/// The record of a get or a put.
#[derive(Clone, Copy, Debug, PartialEq, Eq)]
pub enum Operation {
    Finished,
    Get(Get),
    Put(Put),
}

impl Answer<Operation> {
    /// The record handed back: the next one, or the finished one.
    pub fn operation(self) -> Operation {
        self.under_way().unwrap_or(Operation::Finished)
    }
}

/// The first refusal whose condition holds.
fn first_refusal(checks: &[(bool, Refusal)]) -> Result<(), Refusal> {
    match checks.iter().find(|(refused, _)| *refused) {
        Some(&(_, refusal)) => Err(refusal),
        None => Ok(()),
    }
}

impl Zone {
    pub fn begin_get(&mut self, cpu: u64, order: u64) -> Answer<Operation> {
        match self.check_get(cpu, order) {
            Err(refusal) => Answer::Refused(refusal),
            Ok(order) => Answer::UnderWay(Operation::Get(Get::new(cpu as usize, order))),
        }
    }

    fn check_get(&self, cpu: u64, order: u64) -> Result<Order, Refusal> {
        self.check_running()?;
        let known = self.known_order(order);
        let mut checks = [
            (self.bad_cpu(cpu), Refusal::BadCpu),
            (known.is_none(), Refusal::BadOrder),
        ];
        if self.has(Fault::Swap73) {
            checks.swap(0, 1);
        }
        first_refusal(&checks)?;
        known.ok_or(Refusal::BadOrder)
    }

    pub fn begin_put(&mut self, cpu: u64, frame: u64, order: u64) -> Answer<Operation> {
        match self.check_put(cpu, frame, order) {
            Err(refusal) => Answer::Refused(refusal),
            Ok(order) => Answer::UnderWay(Operation::Put(Put::new(cpu as usize, frame, order))),
        }
    }

    fn check_put(&self, cpu: u64, frame: u64, order: u64) -> Result<Order, Refusal> {
        self.check_running()?;
        let known = self.known_order(order);
        let mut checks = [
            (self.bad_cpu(cpu), Refusal::BadCpu),
            (known.is_none(), Refusal::BadOrder),
            (self.bad_frame(frame), Refusal::BadFrame),
            (self.misaligned(frame, known), Refusal::Misaligned),
        ];
        match self.fault {
            Some(Fault::Swap73) => checks.swap(0, 1),
            Some(Fault::Swap74) => checks.swap(0, 2),
            Some(Fault::Swap75) => checks.swap(0, 3),
            Some(Fault::Swap34) => checks.swap(1, 2),
            Some(Fault::Swap45) => checks.swap(2, 3),
            _ => {}
        }
        first_refusal(&checks)?;
        known.ok_or(Refusal::BadOrder)
    }

    /// The order of a number, if blocks have it.
    fn known_order(&self, number: u64) -> Option<Order> {
        match number {
            7 | 8 if self.has(Fault::OrdersBetween) => Some(Order::LONGEST_RUN),
            _ => Order::from_number(number),
        }
    }

    /// Whether a put is refused for its frame's alignment.
    fn misaligned(&self, frame: u64, order: Option<Order>) -> bool {
        order.is_some_and(|order| {
            let let_in = self.has(Fault::RunMisaligned) && !order.is_huge();
            order.misaligned(frame) && !let_in
        })
    }

    fn bad_cpu(&self, cpu: u64) -> bool {
        let cpus = self.cpus.len() as u64;
        cpu > cpus || (cpu == cpus && !self.has(Fault::CpuEdge))
    }

    fn bad_frame(&self, frame: u64) -> bool {
        let frames = self.frames();
        frame > frames || (frame == frames && !self.has(Fault::FrameEdge))
    }

    /// One step of an operation under way.
    pub fn step(&mut self, operation: Operation) -> Answer<Operation> {
        let step = self.operation_step(operation);
        self.settle(step)
    }

    fn operation_step(&self, operation: Operation) -> Step<Operation> {
        self.check_step(&operation)?;
        match operation {
            Operation::Get(get) if self.get_in_range(&get) => self.get_step(get),
            Operation::Put(put) if self.put_in_range(&put) => self.put_step(put),
            _ => Err(self.bad_record(&operation)),
        }
    }

    /// The checks of a step before its record's, in their order but for a fault.
    fn check_step(&self, operation: &Operation) -> Result<(), Refusal> {
        let header = self.header.first().filter(|_| self.header.len() == 1);
        let marker = header.map(|header| header.marker);
        let well_formed = header.is_some_and(|header| header.well_formed());
        match self.fault {
            Some(Fault::Swap910) if marker == Some(CLEAN) => return Err(Refusal::Closed),
            Some(Fault::Swap108) if well_formed => {
                self.check_lengths(self.checked_header()?.n as usize)?
            }
            Some(Fault::Swap811)
                if well_formed && marker != Some(CLEAN) && *operation == Operation::Finished =>
            {
                return Err(Refusal::BadRecord)
            }
            _ => {}
        }
        self.check_running()
    }

    /// The refusal of a record out of range: 11, but for a fault.
    fn bad_record(&self, operation: &Operation) -> Refusal {
        let cpu = match operation {
            Operation::Finished => 0,
            Operation::Get(get) => get.cpu,
            Operation::Put(put) => put.cpu,
        };
        let damaged = cpu < self.cpus.len() && self.cpu(cpu).is_err();
        if self.has(Fault::Swap1112) && damaged {
            Refusal::Damaged
        } else {
            Refusal::BadRecord
        }
    }
}
