//! The library's side: packed tables, lent to the C interface.

use lovarntek::calls::{Answered, Ran, Tables};

use crate::call::{Call, Outcome};

/// Packed tables of any lengths and contents.
#[derive(Clone, Debug, PartialEq, Eq)]
pub struct Packed {
    pub header: Vec<u64>,
    pub words: Vec<u64>,
    pub children: Vec<u16>,
    pub trees: Vec<u16>,
    pub cpus: Vec<u64>,
}

impl From<Answered> for Outcome {
    fn from(answered: Answered) -> Self {
        Outcome {
            number: answered.number,
            frame: answered.frame,
            steps: None,
        }
    }
}

impl From<Ran> for Outcome {
    fn from(ran: Ran) -> Self {
        Outcome {
            number: ran.number,
            frame: ran.frame,
            steps: Some(ran.steps),
        }
    }
}

impl Packed {
    fn tables(&mut self) -> Tables<'_> {
        Tables {
            header: &mut self.header,
            words: &mut self.words,
            children: &mut self.children,
            trees: &mut self.trees,
            cpus: &mut self.cpus,
        }
    }

    /// Makes a call of the library.
    pub fn call(&mut self, call: &Call, record: &mut [u64]) -> Outcome {
        let mut tables = self.tables();
        match *call {
            Call::Create { n } => tables.create(record, n).into(),
            Call::CreateStep { n } => tables.create_step(record, n).into(),
            Call::CreateRun { n, fuel } => tables.create_run(record, n, fuel).into(),
            Call::Open => tables.open(record).into(),
            Call::OpenStep => tables.open_step(record).into(),
            Call::OpenRun { fuel } => tables.open_run(record, fuel).into(),
            Call::Close => tables.close().into(),
            Call::Settled => tables.settled().into(),
            Call::Get { cpu, order } => tables.get(record, cpu, order).into(),
            Call::Put { cpu, frame, order } => tables.put(record, cpu, frame, order).into(),
            Call::Step => tables.step(record).into(),
            Call::Run { fuel } => tables.run(record, fuel).into(),
            Call::GetRun { cpu, order, fuel } => tables.get_run(record, cpu, order, fuel).into(),
            Call::PutRun {
                cpu,
                frame,
                order,
                fuel,
            } => tables.put_run(record, cpu, frame, order, fuel).into(),
        }
    }
}
