//! A zone, its operations run to their end, and their single steps.

use crate::answer::{Answer, Refusal, Run};
use crate::calls::{self, Ran, Tables};
use crate::order::Order;
use crate::record::Record;

/// One more CPU than a zone may have: every table that long or longer is answered alike.
const TOO_MANY_CPUS: u64 = 65;

/// A zone in five tables.
///
/// The tables are vectors unless others are given to [`from_tables`](Zone::from_tables): `U64` and `U16` are anything that lends slices of these widths, such
/// as `&mut [u64]` and `&mut [u16]`.
///
/// `create`, `get`, `put` and `open` run to their end and are for memory without cuts. So are [`run`](Zone::run), [`get_run`](Zone::get_run) and
/// [`put_run`](Zone::put_run), which make up to so many steps. The other calls make one step each.
#[derive(Clone, Debug, PartialEq, Eq)]
pub struct Zone<U64 = Vec<u64>, U16 = Vec<u16>> {
    header: U64,
    words: U64,
    children: U16,
    trees: U16,
    cpus: U64,
}

impl Zone {
    /// Creates a zone of `n` huge frames, all free, in tables of its own.
    ///
    /// Refused: [`BadSize`](Refusal::BadSize), then [`BadBuffers`](Refusal::BadBuffers) for 0 CPUs or more than 64.
    pub fn create(n: u64, cpus: u64) -> Result<Self, Refusal> {
        let mut zone = Zone::from_tables(
            vec![0],
            vec![0; length(calls::words(n))],
            vec![0; length(calls::children(n))],
            vec![0; length(calls::trees(n))],
            vec![0; length(cpus.min(TOO_MANY_CPUS))],
        );
        let mut record = zone.create_first(n)?;
        to_end(|| zone.tables().create_run(record.lend(), n, u64::MAX))?;
        Ok(zone)
    }
}

impl<U64: AsMut<[u64]>, U16: AsMut<[u16]>> Zone<U64, U16> {
    /// A zone in tables kept elsewhere, of any lengths and contents: nothing is read or stored before the first call.
    ///
    /// After a cut, [`open`](Zone::open) the zone before any other call.
    pub fn from_tables(header: U64, words: U64, children: U16, trees: U16, cpus: U64) -> Self {
        Zone {
            header,
            words,
            children,
            trees,
            cpus,
        }
    }

    /// Lends the tables, for the calls of [`calls`] and to be copied.
    pub fn tables(&mut self) -> Tables<'_> {
        Tables {
            header: self.header.as_mut(),
            words: self.words.as_mut(),
            children: self.children.as_mut(),
            trees: self.trees.as_mut(),
            cpus: self.cpus.as_mut(),
        }
    }

    /// Takes a block for a CPU, and gives its first frame.
    pub fn get(&mut self, cpu: u64, order: Order) -> Result<u64, Refusal> {
        let mut record = Record::FINISHED;
        let run = self.get_run(&mut record, cpu, order, u64::MAX);
        self.end(run, record)
    }

    /// Gives the block that begins at `frame` back. Part of a run may be given back by itself, as a block of a smaller order.
    pub fn put(&mut self, cpu: u64, frame: u64, order: Order) -> Result<(), Refusal> {
        let mut record = Record::FINISHED;
        let run = self.put_run(&mut record, cpu, frame, order, u64::MAX);
        self.end(run, record).map(|_| ())
    }

    /// Opens a closed zone, or one whose power was cut. Trees and CPUs are made anew, and after a cut the children's counts as well.
    pub fn open(&mut self) -> Result<(), Refusal> {
        let mut record = self.open_first()?;
        to_end(|| self.tables().open_run(record.lend(), u64::MAX)).map(|_| ())
    }

    /// Closes the zone, in one step, if its counts add up, as they do once every get and put has come to its end.
    pub fn close(&mut self) -> Result<(), Refusal> {
        ended(self.tables().close().into())
    }

    /// What [`close`](Zone::close) would answer; nothing is stored.
    pub fn settled(&mut self) -> Result<(), Refusal> {
        ended(self.tables().settled().into())
    }

    /// Begins a get; nothing is stored.
    pub fn begin_get(&mut self, cpu: u64, order: Order) -> Result<Record, Refusal> {
        begun(|record| self.tables().get(record, cpu, order.number()).into())
    }

    /// Begins a put; nothing is stored.
    pub fn begin_put(&mut self, cpu: u64, frame: u64, order: Order) -> Result<Record, Refusal> {
        begun(|record| self.tables().put(record, cpu, frame, order.number()).into())
    }

    /// One step of a get or put.
    pub fn step(&mut self, record: &mut Record) -> Answer {
        self.tables().step(record.lend()).into()
    }

    /// Up to max(1, fuel) steps of a get or put.
    pub fn run(&mut self, record: &mut Record, fuel: u64) -> Run {
        self.tables().run(record.lend(), fuel).into()
    }

    /// Begins a get and makes up to `fuel` steps of it, in one call. The record is written, not read; a refused beginning has made no step.
    pub fn get_run(&mut self, record: &mut Record, cpu: u64, order: Order, fuel: u64) -> Run {
        let mut tables = self.tables();
        tables
            .get_run(record.lend(), cpu, order.number(), fuel)
            .into()
    }

    /// Begins a put and makes up to `fuel` steps of it, in one call. The record is written, not read; a refused beginning has made no step.
    pub fn put_run(
        &mut self,
        record: &mut Record,
        cpu: u64,
        frame: u64,
        order: Order,
        fuel: u64,
    ) -> Run {
        let mut tables = self.tables();
        tables
            .put_run(record.lend(), cpu, frame, order.number(), fuel)
            .into()
    }

    /// Create's first step, in the tables that the zone has.
    pub fn create_first(&mut self, n: u64) -> Result<Record, Refusal> {
        begun(|record| self.tables().create(record, n).into())
    }

    /// A later step of create, with the same `n`.
    pub fn create_step(&mut self, record: &mut Record, n: u64) -> Answer {
        self.tables().create_step(record.lend(), n).into()
    }

    /// Open's first step.
    pub fn open_first(&mut self) -> Result<Record, Refusal> {
        begun(|record| self.tables().open(record).into())
    }

    /// A later step of open.
    pub fn open_step(&mut self, record: &mut Record) -> Answer {
        self.tables().open_step(record.lend()).into()
    }

    /// The end of a get or put that has been run.
    fn end(&mut self, run: Run, mut record: Record) -> Result<u64, Refusal> {
        match run.answer {
            Answer::Done(frame) => Ok(frame),
            Answer::UnderWay => to_end(|| self.tables().run(record.lend(), u64::MAX)),
            Answer::Refused(refusal) => Err(refusal),
        }
    }
}

/// A table's length; 0, which the calls refuse, where it is none of this machine.
fn length(entries: u64) -> usize {
    usize::try_from(entries).unwrap_or(0)
}

/// Begins an operation, and hands its record back.
fn begun(begin: impl FnOnce(&mut [u64]) -> Answer) -> Result<Record, Refusal> {
    let mut record = Record::FINISHED;
    match begin(record.lend()) {
        Answer::Refused(refusal) => Err(refusal),
        Answer::Done(_) | Answer::UnderWay => Ok(record),
    }
}

/// Repeats a run until its operation has ended. Every operation is bounded, so one run of `u64::MAX` steps is enough.
fn to_end(mut run: impl FnMut() -> Ran) -> Result<u64, Refusal> {
    loop {
        match Run::from(run()).answer {
            Answer::Done(frame) => return Ok(frame),
            Answer::UnderWay => {}
            Answer::Refused(refusal) => return Err(refusal),
        }
    }
}

/// The answer of a call that is never under way.
fn ended(answer: Answer) -> Result<(), Refusal> {
    match answer {
        Answer::Refused(refusal) => Err(refusal),
        Answer::Done(_) | Answer::UnderWay => Ok(()),
    }
}
